"""Times the opening of a group's store beside the same in C, on one machine in one run.

    python3 bench/store.py [FOLDER]        at the top of the repository

It builds `case_rooms` and `bench/store.c`, which each read the journal of a group in a tree of 512 leaves, test the form of each record, and see
whether each batch is the one that is due. It makes journals of 1,000 and of 10,000 batches with four changes each. For each it prints the best of
the times that each program takes in runs by turns, our time divided by that of C, and the most memory that each had. The files lie in a new
folder in FOLDER, or else in /var/tmp. Before that it sees that both answer alike, for whole journals and for such as were changed.
"""

import contextlib
import os
import pathlib
import random
import subprocess
import sys
import tempfile
import time

import works

TOP = pathlib.Path(__file__).resolve().parent.parent
CRATE = TOP / "crates" / "case_rooms"
PROGRAM = CRATE / "out" / "case_rooms"
COUNTS = [1_000, 10_000]
RUNS = 31
DEPTH = 9
# how an answer begins that refuses a journal
REFUSED = "open NotAJournal "
# the batches of the journal that is changed: members come in, then go out, then come in
COMPARED = 128
# the octets before the gate of the first record, which is the head, and the place of the limit in it
BEGINNING = 9
LIMIT = BEGINNING + 5 + 19


def command(program, path):
    """The words that start a program, and what it is given on standard input, to open a store: ours reads a line, and that in C has a word."""
    return ([program], f"open {path}\n") if program == PROGRAM else ([program, path], "")


def opened(program, path):
    """What a program prints that opens a store; one without a group has its place in that."""
    words, given = command(program, path)
    done = subprocess.run(words, input=given, capture_output=True, text=True)
    refused = done.stdout.startswith(REFUSED)
    assert done.returncode == (0 if program == PROGRAM else int(refused)), f"{words} ended with {done.returncode}"
    return done.stdout


def made(folder, count):
    """A journal with so many batches."""
    path = folder / f"{count}.store"
    subprocess.run([PROGRAM], input=works.line(path, "small", DEPTH, count), check=True, capture_output=True, text=True)
    return path


def gates(octets):
    """The places of the gates of records, and that of the closed gate after them."""
    places = [BEGINNING]
    while octets[places[-1]] == 1:
        at = places[-1]
        places.append(at + 5 + int.from_bytes(octets[at + 1 : at + 5], "big"))
    return places


def changed(octets):
    """The same journal with an octet or the limit changed, a record left out or doubled, or the end cut off."""
    dice = random.Random(1)
    places = gates(octets)
    records = [(a, b) for a, b in zip(places, places[1:])]
    some = [records[i] for i in (0, 1, 2, 60, -4, -3, -2, -1)]
    fronts = [at + i for at, end in some for i in range(min(64, end - at))]
    for at in fronts + dice.sample(range(len(octets)), 200):
        other = bytearray(octets)
        other[at] = (other[at] + dice.choice([1, 128, 255])) % 256
        yield bytes(other)
    for at, end in some:
        yield octets[:at] + octets[end:]
        yield octets[:end] + octets[at:]
        yield octets[: dice.randrange(at, end)]
    for limit in (0, 1, 2, 100, 254):
        yield octets[:LIMIT] + limit.to_bytes(4, "big") + octets[LIMIT + 4 :]


def check_answers(programs, folder):
    """Sees that all programs answer alike; how many journals were changed, and how many of these were refused."""
    path = made(folder, COMPARED)
    whole = path.read_bytes()
    count = refused = 0
    for octets in [whole, *changed(whole)]:
        path.write_bytes(octets)
        answers = [opened(program, path) for program in programs]
        assert answers[0] == answers[1], f"the two programs differ at {path}: {answers}"
        count += octets != whole
        refused += answers[0].startswith(REFUSED)
    return count, refused


def seconds(program, path):
    """The time of one run, from the start of the program to its end."""
    words, given = command(program, path)
    start = time.perf_counter()
    subprocess.run(words, input=given, check=True, stdout=subprocess.DEVNULL, text=True)
    return time.perf_counter() - start


def full_pipe():
    """The two ends of a pipe into which nothing more goes."""
    out, into = os.pipe()
    os.set_blocking(into, False)
    with contextlib.suppress(BlockingIOError):
        while True:
            os.write(into, bytes(4096))
    os.set_blocking(into, True)
    return out, into


def peak(program, path):
    """The most memory that a run had at once, in KiB. The system is asked while the program waits to print its line, which is the last it does."""
    out, into = full_pipe()
    words, given = command(program, path)
    with subprocess.Popen(words, stdin=subprocess.PIPE, stdout=into, text=True) as process:
        process.stdin.write(given)
        process.stdin.close()
        told = pathlib.Path(f"/proc/{process.pid}")
        while (told / "syscall").read_text().split()[1:2] != ["0x1"]:
            time.sleep(0.001)
        lines = (told / "status").read_text().splitlines()
        os.close(out)
        os.close(into)
    return next(int(line.split()[1]) for line in lines if line.startswith("VmHWM"))


def processor():
    """The name that the system gives it."""
    names = [line for line in pathlib.Path("/proc/cpuinfo").read_text().splitlines() if line.startswith("model name")]
    return names[0].split(":", 1)[1].strip()


def main():
    with tempfile.TemporaryDirectory(dir=(sys.argv[1:] or ["/var/tmp"])[0]) as name:
        folder = pathlib.Path(name)
        subprocess.run(["rt", "run"], cwd=CRATE, check=True, stdin=subprocess.DEVNULL, stdout=subprocess.DEVNULL)
        theirs = folder / "store"
        subprocess.run(["cc", "-O2", "-o", theirs, TOP / "bench" / "store.c"], check=True)
        programs = [PROGRAM, theirs]
        print(processor())
        count, refused = check_answers(programs, folder)
        print(f"both answer alike on {count} changed journals, of which they refuse {refused}")
        print(f"{'batches':>10}{'ours, ms':>10}{'C, ms':>10}{'ratio':>8}{'ours, KiB':>12}{'C, KiB':>10}")
        for count in COUNTS:
            path = made(folder, count)
            assert opened(PROGRAM, path) == opened(theirs, path), "the two programs differ"
            times = {program: [] for program in programs}
            for _ in range(RUNS):
                for program in programs:
                    times[program].append(seconds(program, path))
            ours, others = (min(times[program]) * 1000 for program in programs)
            most = [peak(program, path) for program in programs]
            print(f"{count:10}{ours:10.1f}{others:10.1f}{ours / others:8.2f}{most[0]:12}{most[1]:10}")


main()
