"""What a loss of power may leave of the console's journal, and whether its group opens from it.

    python3 bench/power.py PROGRAM [RUNS [IMAGES]]

Each run makes a group in a folder of its own, or in one that has an older journal, lets members in by pulls and out, and closes batches; `strace` notes its system calls. At
moments between these calls, most of them with something that is not synced, the journal is made as a loss of power may leave it then: of what was written since the last sync
each piece is missing, whole, torn, filled with ones or zeros, or has octets by chance; a cut is missing, whole or in part; and as long as the folder was not synced the file
may be missing. The program opens each image. All that it had reported by that moment has to be there, members and the octets of the last pushes among it, and at most one
batch more; where no group was reported as made, there is none, or the new one without a batch, or what is left of the older one. RUNS is 200, and IMAGES, of each run, 100. It
needs `strace`.
"""
import os
import random
import re
import subprocess
import sys
import tempfile

CALLS = "openat,close,pwrite64,ftruncate,fsync,fdatasync,write"
JOURNAL = "group.journal"
BATCHES = 12
MEMBERS = 6
LINE = re.compile(r"(?:\d+ +)?(\w+)\((.*)\) += (-?\d+)")


def script(rng):
    """Changes of members, and batches of one to three of them."""
    inside, lines = set(), ["allow *"]
    for _ in range(BATCHES):
        for member in rng.sample(range(MEMBERS), rng.randint(1, 3)):
            lines.append(f"{'leave' if member in inside else 'join'} m{member}")
            inside ^= {member}
        lines.append("batch")
    return "\n".join(lines) + "\n"


def octets(text):
    """The octets of a string as strace shows it, all in hex."""
    return bytes.fromhex(text.replace("\\x", ""))


def calls(trace):
    """What a run did, call after call: what it wrote to the journal and cut of it, its syncs, and what it reported."""
    with open(trace, encoding="ascii") as file:
        lines = file.read().splitlines()
    journal = folder = None
    for line in lines:
        found = LINE.match(line)
        if not found:
            assert line.split(maxsplit=1)[1].startswith(("+++", "---")), line
            continue
        name, words, result = found.group(1), found.group(2), int(found.group(3))
        if result < 0:
            continue
        strings = re.findall(r'"((?:\\x[0-9a-f]{2})*)"', words)
        number = words.split(",")[0]
        if name == "openat":
            path = octets(strings[0]).decode()
            if path == JOURNAL:
                journal = str(result)
            elif path == ".":
                folder = str(result)
        elif name == "close":
            folder = None if number == folder else folder
        elif name == "write" and number == "1":
            yield "report", octets(strings[0])[:result], 0
        elif name == "pwrite64" and number == journal:
            yield "write", octets(strings[0])[:result], int(words.rsplit(",", 1)[1])
        elif name == "ftruncate" and number == journal:
            yield "cut", b"", int(words.rsplit(",", 1)[1])
        elif name in ("fsync", "fdatasync") and number == journal:
            yield "sync", b"", 0
        elif name in ("fsync", "fdatasync") and number == folder:
            yield "list", b"", 0


def written(image, at, new):
    """An image with octets written at a place."""
    image = image.ljust(at, b"\0")
    return image[:at] + new + image[at + len(new) :]


def left(rng, synced, pending):
    """An image that a loss of power may leave: the one that was synced, and what has come since, in part."""
    image = synced
    for kind, new, at in pending:
        way = rng.randrange(7)
        if way == 0:
            continue
        if kind == "cut":
            image = image[: at if way < 4 else rng.randint(at, max(at, len(image)))]
        elif way in (1, 2):
            image = written(image, at, new)
        elif way == 3:
            cut = rng.randint(0, len(new))
            image = written(image, at, new[:cut]) if rng.random() < 0.5 else written(image, at + cut, new[cut:])
        elif way == 4:
            image = written(image, at, b"\xff" * len(new))
        elif way == 5:
            image = written(image, at, b"\0" * len(new))
        else:
            image = written(image, at, rng.randbytes(len(new)))
    return image


def moments(events, image):
    """After each call: what was synced, what is pending, whether the folder has the file, and what was reported by then."""
    synced, pending, listed, reported = image, [], bool(image), b""
    for kind, new, at in events:
        if kind == "report":
            reported += new
        elif kind == "write":
            image = written(image, at, new)
            pending = pending + [(kind, new, at)]
        elif kind == "cut":
            image = image[:at]
            pending = pending + [(kind, new, at)]
        elif kind == "sync":
            synced, pending = image, []
        else:
            listed = True
        yield synced, pending, listed, reported


def last_epoch(reported):
    """The epoch of the last batch whose line came whole; none where the group was not reported as made."""
    lines = reported[: reported.rfind(b"\n") + 1].decode().splitlines()
    if not lines or not lines[0].startswith("new depth"):
        return None
    return max((int(found.group(1)) for line in lines if (found := re.match(r"epoch (\d+) ", line))), default=0)


def opened(program, folder, image):
    """What the program reports of an image, and its status."""
    with open(f"{folder}/{JOURNAL}", "wb") as file:
        file.write(image)
    done = subprocess.run([program, "--open", "--seed", "7"], cwd=folder, input=b"show\n", stdout=subprocess.PIPE)
    return done.stdout.decode().splitlines(), done.returncode


def state(lines):
    """The group that `show` reports, who has which leaf, and the octets of the last pushes."""
    group = next(it for it in lines if it.startswith("group "))
    return group, [it for it in lines if it.startswith("leaf ")], [it for it in lines if it.startswith("push ")]


def states_of(program, text, words):
    """The state before the first batch, and after each."""
    parts = text.split("batch\n")[:-1]
    shown = "show\n" + "".join(f"{part}batch\nshow\n" for part in parts)
    with tempfile.TemporaryDirectory() as folder:
        done = subprocess.run([program, *words], cwd=folder, input=shown.encode(), stdout=subprocess.PIPE, check=True)
    states, pushes = [], []
    for line in done.stdout.decode().splitlines():
        if line.startswith("epoch "):
            pushes = []
        elif line.startswith("push "):
            pushes.append(line)
        elif line.startswith("group "):
            states.append((line, [], pushes))
        elif line.startswith("leaf "):
            states[-1][1].append(line)
    return states


def older_journal(program, rng, folder):
    """A journal that an earlier run left in the folder, in half of all runs."""
    if rng.random() < 0.5:
        return b""
    subprocess.run([program, "--new", "2", "--seed", "9"], cwd=folder, input=b"allow *\njoin x\nbatch\njoin y\nbatch\n", stdout=subprocess.DEVNULL, check=True)
    with open(f"{folder}/{JOURNAL}", "rb") as file:
        return file.read()


def traced(program, words, text, rng):
    """The moments of a run."""
    with tempfile.TemporaryDirectory() as folder:
        image = older_journal(program, rng, folder)
        subprocess.run(
            ["strace", "-f", "-xx", "-s", "1000000", "-e", f"trace={CALLS}", "-o", f"{folder}/trace", program, *words],
            cwd=folder, input=text.encode(), stdout=subprocess.DEVNULL, check=True)
        return list(moments(calls(f"{folder}/trace"), image))


def is_well(told, lines, status, states):
    """Whether an opening reports what had been reported by then, and at most one batch more."""
    if status == 6:
        return told is None and lines[0].startswith("open refused not-a-journal ")
    if status != 0:
        return False
    if told is None and lines[0].startswith("open depth 2 "):
        return True
    epoch = int(re.search(r"epoch (\d+)", lines[0]).group(1))
    return epoch in ((0,) if told is None else (told, told + 1)) and state(lines) == states[epoch]


def main():
    program = os.path.abspath(sys.argv[1])
    runs = int(sys.argv[2]) if len(sys.argv) > 2 else 200
    images = int(sys.argv[3]) if len(sys.argv) > 3 else 100
    rng = random.Random(2731)
    tried = other = lost = unmade = more = 0
    for run in range(1, runs + 1):
        text, words = script(rng), ["--new", "3", "--seed", str(run)]
        states = states_of(program, text, words)
        every = traced(program, words, text, rng)
        unsynced = [it for it in every if it[1] or not it[2]]
        with tempfile.TemporaryDirectory() as folder:
            for _ in range(images):
                synced, pending, listed, reported = rng.choice(unsynced if rng.random() < 0.9 else every)
                image = b"" if not listed and rng.random() < 0.3 else left(rng, synced, pending)
                told = last_epoch(reported)
                lines, status = opened(program, folder, image)
                tried += 1
                other += image != synced
                unmade += told is None
                more += told is not None and status == 0 and f" epoch {told + 1} " in lines[0]
                if not is_well(told, lines, status, states):
                    lost += 1
                    print(f"run {run}: reported epoch {told}, then status {status}: {lines[0]}")
    print(f"{runs} runs, {tried} images, {other} of them other than what was synced; {lost} without what was reported, {more} with one batch more; {unmade} of a group that was not reported as made")
    sys.exit(lost > 0)


main()
