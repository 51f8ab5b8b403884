"""Times how members read pushes beside the same in C, on one machine in one run.

    python3 bench/members.py        at the top of the repository

It builds `case_rooms` and `bench/members.c`. Both read lines with the pushes of a group, which `bench/reference.py` makes, and give each push to the
stores of 16 members: a store decrypts the push under its root's key, reads its payloads, checks its signature and its number, and takes the keys of its
path or the traffic key. A member that went out finds no path, and its reply makes its store anew when it comes back. For each group the script prints how
often a store read a push, the middle one of the processor times that each program takes in runs by turns, our time divided by that of C, and the most
memory that each had. The processor's AES and carry-less products are switched off for openssl. Before that it sees that both print the same, for whole
lines and for such as were changed. It needs the Python package cryptography.
"""

import collections
import fcntl
import os
import pathlib
import random
import re
import statistics
import subprocess
import tempfile
import termios
import time
import typing

import reference

TOP = pathlib.Path(__file__).resolve().parent.parent
CRATE = TOP / "crates" / "case_rooms"
PROGRAM = CRATE / "out" / "case_rooms"
# the processor's AES and carry-less products off, and nothing else
NO_HARDWARE = dict(os.environ, OPENSSL_ia32cap="~0x200000200000000:~0x0")
# the name of each group, the depth of its tree, how many go out with a batch, and how many batches there are
GROUPS = [
    ("16 members, 1 goes, 1 comes back", 4, 1, 13_320),
    ("512 members, 16 go, 16 come back", 9, 16, 1_032),
]
# how a line begins that gives a push
PUSH = "store push "
# how many members have a store, and the most who come in with a batch
STORES = 16
AT_ONCE = 16
# the group whose lines are changed, and how often
COMPARED = (4, 1, 40)
CHANGES = 300
# an odd number, so that one is in the middle
RUNS = 9


class Command(typing.NamedTuple):
    """The words that start a program, and what it is given on standard input."""

    words: list
    given: str = ""


def run(command):
    """What a program prints."""
    return subprocess.run(
        command.words, input=command.given, check=True, capture_output=True, text=True, env=NO_HARDWARE).stdout


def started(command, into):
    """A program that prints into this, and has been given all of its standard input."""
    process = subprocess.Popen(command.words, stdin=subprocess.PIPE, stdout=into, text=True, env=NO_HARDWARE)
    process.stdin.write(command.given)
    process.stdin.close()
    return process


def seconds(command):
    """The processor time of one run."""
    with started(command, subprocess.DEVNULL) as process:
        _, status, used = os.wait4(process.pid, 0)
        process.returncode = os.waitstatus_to_exitcode(status)
    assert process.returncode == 0, f"{command} ended with {process.returncode}"
    return used.ru_utime + used.ru_stime


def waits(process):
    """Whether a program has read all that it was given, and waits for more."""
    left = fcntl.ioctl(process.stdin, termios.FIONREAD, bytes(4))
    return left == bytes(4) and pathlib.Path(f"/proc/{process.pid}/syscall").read_text().split()[:2] == ["0", "0x0"]


def peak(command):
    """The most memory that a run had at once, in KiB. The system is asked once the program waits for more lines than there are."""
    with subprocess.Popen(command.words, stdin=subprocess.PIPE, stdout=subprocess.DEVNULL, text=True, env=NO_HARDWARE) as process:
        process.stdin.write(command.given)
        process.stdin.flush()
        while not waits(process):
            time.sleep(0.001)
        told_by_system = pathlib.Path(f"/proc/{process.pid}/status").read_text().splitlines()
        process.stdin.close()
    return next(int(line.split()[1]) for line in told_by_system if line.startswith("VmHWM"))


def leaver(depth, going, turn, i):
    """Who goes out in a turn at this place: members go far from each other."""
    members = 1 << depth
    return (turn * going + i) * (members // 8 * 5 - 1) % members


def changes(depth, going, number):
    """The changes of the batch of this number: members come in until the tree is full; from then on some go out, and those before them come back."""
    turn = number - (1 << depth) // AT_ONCE
    if turn < 0:
        return [(1, number * AT_ONCE + i) for i in range(AT_ONCE)]
    return [(is_in, leaver(depth, going, turn - is_in, i)) for i in range(going) for is_in in (0, 1) if turn >= is_in]


def close(group, draws, batch):
    """Closes a batch of a group; what those are told who come in."""
    named = [(is_in, b"m%d" % member) for is_in, member in batch]
    plan = group.plan(named)
    nodes = [(position, draws.draw(), draws.draw()) for position in plan["draw"]]
    group.apply(named, plan, nodes, (draws.draw(), draws.draw() + draws.draw(), reference.high(draws.draw())))
    return [(member, group.keyed(member)) for is_in, member in named if is_in]


def told(member, keyed):
    """The line that tells a member its keys."""
    paths = reference.packet(3, keyed["spi"], reference.long(1, reference.download_array(keyed["path"])))
    return f"store tell {member.decode()} {keyed['sequence']} {reference.kd_body(reference.traffic_packet(keyed['traffic']), paths).hex()}"


def lines(depth, going, count):
    """What a group sends in so many batches, a line each: the replies of a batch to those with a store, and then its pushes."""
    draws = reference.Draws(0, 0)
    group = reference.Group(depth, b"console", draws.draw(), 2**32 - 1)
    sent = []
    for number in range(count):
        replies = close(group, draws, changes(depth, going, number))
        sent += [told(member, keyed) for member, keyed in replies if int(member[1:]) < STORES]
        sent += [PUSH + push.hex() for _, push in group.pair()]
    return sent


def commands(theirs, sent):
    """What gives each program these lines."""
    given = "".join(line + "\n" for line in sent)
    return [Command([PROGRAM], given), Command([theirs], given)]


def answers(command):
    """What a program prints, without what a refusal says besides its kind."""
    text = run(command)
    while " { " in text:
        text = re.sub(r" \{ [^{}]* \}", "", text)
    return text


def changed(sent):
    """The same lines with an octet of a push changed, or with a push in the place of another one of its size."""
    dice = random.Random(1)
    places = [i for i, line in enumerate(sent) if line.startswith(PUSH)]
    for _ in range(CHANGES):
        i = dice.choice(places)
        other = list(sent)
        if dice.random() < 0.1:
            other[i] = sent[dice.choice([j for j in places if len(sent[j]) == len(sent[i])])]
        else:
            octets = bytearray.fromhex(sent[i][len(PUSH) :])
            octets[dice.choice([dice.randrange(28), dice.randrange(len(octets))])] ^= dice.choice([1, 128, 255])
            other[i] = PUSH + octets.hex()
        yield other


def check_answers(theirs):
    """Sees that both programs print the same for whole and for changed lines; how often each answer came."""
    whole = lines(*COMPARED)
    often = collections.Counter()
    for sent in [whole, *changed(whole)]:
        ours, others = map(answers, commands(theirs, sent))
        assert ours == others, f"the two programs differ:\n{ours}{others}"
        often.update(re.findall(r"/ m\d+ (\w+)", ours))
    return ", ".join(f"{count} {answer}" for answer, count in often.items())


def processor():
    """The name that the system gives it."""
    names = [line for line in pathlib.Path("/proc/cpuinfo").read_text().splitlines() if line.startswith("model name")]
    return names[0].split(":", 1)[1].strip()


def print_row(theirs, group):
    """Times the reading of a group's pushes by turns, and prints what each program took."""
    name, depth, going, count = group
    both = commands(theirs, lines(depth, going, count))
    ours, others = map(answers, both)
    assert ours == others, f"the two programs differ for {name}"
    often = sum(line.count(" / ") for line in ours.splitlines() if line.startswith("push"))
    times = [[], []]
    for _ in range(RUNS):
        for command, taken in zip(both, times):
            taken.append(seconds(command))
    ours, others = (statistics.median(taken) * 1000 for taken in times)
    most = [peak(command) for command in both]
    print(f"{name:34}{often:9}{ours:10.0f}{others:10.0f}{ours / others:8.2f}{most[0]:11}{most[1]:9}", flush=True)


def main():
    with tempfile.TemporaryDirectory(dir="/var/tmp") as name:
        folder = pathlib.Path(name)
        subprocess.run(["rt", "run"], cwd=CRATE, check=True, stdin=subprocess.DEVNULL, stdout=subprocess.DEVNULL)
        theirs = folder / "members"
        subprocess.run(["cc", "-O2", "-o", theirs, TOP / "bench" / "members.c", "-lcrypto"], check=True)
        print(f"{processor()}, openssl {run(Command(['openssl', 'version'])).split()[1]}")
        print(f"{CHANGES} runs of lines were changed, with the same answers: {check_answers(theirs)}")
        print(f"{'':34}{'readings':>9}{'ours, ms':>10}{'C, ms':>10}{'ratio':>8}{'ours, KiB':>11}{'C, KiB':>9}")
        for group in GROUPS:
            print_row(theirs, group)


main()
