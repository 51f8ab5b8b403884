"""Times the console beside the same in C, on one machine in one run.

    python3 bench/console.py [FOLDER]        at the top of the repository

It builds `gdoi_console` and `bench/console.c`, and gives both the same scripts. But for the stored one, each makes a group in a tree of 512 leaves, in a
file, and has 512 members come in by pulls of four messages. In some 32 of them go out and 32 others come in by turns, so that every 16th leaf changes
hands; in some each member takes each push. The longest have as many lines as a script may have. Each line of the report is one call to the system, in C as
well, and goes to a file. The console also keeps the history of all that was asked, which C does not; and C has no `derive`, so that this script has figures
of ours alone. For each script it prints the least processor time that each takes in runs by turns, our time divided by that of C, our least time on the
clock, and the most memory that each had. The files lie in a new folder in FOLDER, or else in /var/tmp, which has to be on a device. The processor's AES is
switched off for openssl. It sees that both print the same and leave the same journal.
"""

import os
import pathlib
import subprocess
import sys
import tempfile
import time
import typing

TOP = pathlib.Path(__file__).resolve().parent.parent
CRATE = TOP / "crates" / "gdoi_console"
PROGRAM = CRATE / "out" / "gdoi_console"
SOURCES = ("console.c", "console_members.c", "console_pulls.c")
# the processor's AES and carry-less products off, and nothing else
NO_HARDWARE = dict(os.environ, OPENSSL_ia32cap="~0x200000200000000:~0x0")
LEAVES = 512
CHANGES = 32
PART = LEAVES // CHANGES
MOST_LINES = 16_384
# how many turns there are at least and at most, and after how many seconds there are no more than the least
TURNS, MOST_TURNS, SECONDS = 5, 25, 20


class Script(typing.NamedTuple):
    """What a script is called, the depth of its tree, its lines, and whether C runs it too."""

    name: str
    depth: int
    lines: list
    in_c: bool = True


class Took(typing.NamedTuple):
    """The processor time of a run, and its time on the clock, in seconds."""

    processor: float
    clock: float


def closed(told):
    """The lines that close a batch, after which all members may be told."""
    return ["batch", "deliver-all"] if told else ["batch"]


def join(names):
    """These come in."""
    return [f"join {name}" for name in names]


def filled(told):
    """A full tree."""
    names = [f"m{i}" for i in range(LEAVES)]
    return ["allow *"] + [line for i in range(0, LEAVES, CHANGES) for line in join(names[i : i + CHANGES]) + closed(told)]


def spread(turn, inside):
    """The names that change in a turn: of two halves of all names one is inside and goes out, and the other comes in, part by part."""
    half = turn // PART % 2 if inside else 1 - turn // PART % 2
    return [f"m{half * LEAVES + i * PART + turn % PART}" for i in range(CHANGES)]


def go(turn, told):
    """A batch of those who go out, each from another part of the tree."""
    return [f"leave {name}" for name in spread(turn, True)] + closed(told)


def come(turn, told):
    """A batch of those who come in in their place."""
    return join(spread(turn, False)) + closed(told)


def churn(told, turns):
    """A full tree, of which in each turn 32 go out and 32 others come in."""
    return filled(told) + [line for turn in range(turns) for line in go(turn, told) + come(turn, told)]


def padded(script, line):
    """As many lines as a script may have; these follow the others in turn."""
    return script + [line(i) for i in range(MOST_LINES - len(script))]


def derived(i):
    """A line that asks what eight who went out derive of the epochs so far."""
    return f"derive {i % 17 + 1} " + " ".join(f"m{(i + k) % CHANGES * PART}" for k in range(8))


def last_pushes(script):
    """The number of the last push of a script, and of each present member the one that was the last when it came in."""
    joined, since, members, last = [], {}, set(), 0
    for word, *names in (line.split() for line in script):
        if word == "join":
            joined += names
        elif word == "leave":
            members -= set(names)
        elif word == "batch":
            last += 2 * bool(members)
            members.update(joined)
            since.update((name, last) for name in joined)
            joined = []
    return last, {name: at for name, at in since.items() if name in members}


def delivered():
    """All come in, 32 change in each of seven turns, and each member takes each push that it missed, a line for each."""
    script = churn(False, 7)
    last, since = last_pushes(script)
    taken = [f"deliver {name} {number}" for name, at in since.items() for number in range(at + 1, last + 1)]
    return padded(script + taken, lambda i: f"key m{i}")


# how often 32 may go out and 32 come in, after the tree was filled, in the longest script
MOST_CHURN = (MOST_LINES - len(filled(False))) // (2 * (CHANGES + 1))
SCRIPTS = [
    Script("the stored run", 2, (CRATE / "stdin").read_text().splitlines()),
    Script("512 come", 9, filled(False)),
    Script("512 come, 32 go, all are told", 9, filled(True) + go(0, True)),
    Script("32 changes each", 9, churn(False, MOST_CHURN)),
    Script("32 changes each, all are told", 9, churn(True, 100)),
    Script("a push a line", 9, delivered()),
    Script("no changes, all are told", 9, filled(True) + closed(True) * 500),
    Script("keys are shown", 9, padded(filled(False), lambda i: f"key m{i % LEAVES}")),
    Script("the group is shown", 9, padded(filled(False), lambda i: "show")),
    Script("keys are derived", 9, padded(filled(False) + go(0, False), derived), in_c=False),
]


def run(words):
    """What a program prints."""
    return subprocess.run(words, check=True, capture_output=True, text=True).stdout


def run_in(folder, words):
    """What a run took on the script of a folder. Its report and journal are in that folder afterwards."""
    (folder / "group.journal").unlink(missing_ok=True)
    with open(folder / "script", "rb") as script, open(folder / "report", "wb") as report:
        start = time.perf_counter()
        with subprocess.Popen(words, cwd=folder, stdin=script, stdout=report, env=NO_HARDWARE) as process:
            _, status, used = os.wait4(process.pid, 0)
            process.returncode = os.waitstatus_to_exitcode(status)
        assert process.returncode == 0, f"{words} ended with {process.returncode}"
        return Took(used.ru_utime + used.ru_stime, time.perf_counter() - start)


def by_turns(folder, commands):
    """What the runs of each of these commands took, by turns."""
    turns, start = [], time.perf_counter()
    while len(turns) < TURNS or (len(turns) < MOST_TURNS and time.perf_counter() - start < SECONDS):
        turns.append([run_in(folder, command) for command in commands])
    return list(zip(*turns))


def peak(folder, words):
    """The most memory that a run had at once, in KiB."""
    told = folder / "peak"
    run_in(folder, ["time", "-f", "%M", "-o", told, *words])
    return int(told.read_text())


def left(folder):
    """The report and the journal of the last run."""
    return (folder / "report").read_bytes(), (folder / "group.journal").read_bytes()


def check_same(folder, commands):
    """Sees that all print the same and leave the same journal."""
    found = []
    for command in commands:
        run_in(folder, command)
        found.append(left(folder))
    assert found[0] == found[-1], "the two programs differ"
    assert found[0][0].endswith(b"\nend 0\n"), "the script was not run to its end"


def file_system(folder):
    """Its type, which must be one on a device."""
    kind = run(["df", "--output=fstype", folder]).split()[-1]
    assert kind not in ("tmpfs", "ramfs"), f"{folder} is in memory; name a folder on a device"
    return kind


def processor():
    """The name that the system gives it."""
    names = [line for line in pathlib.Path("/proc/cpuinfo").read_text().splitlines() if line.startswith("model name")]
    return names[0].split(":", 1)[1].strip()


def build():
    """Builds ours."""
    subprocess.run(["rt", "run", "--", "--new", "9"], cwd=CRATE, check=True, stdin=subprocess.DEVNULL, stdout=subprocess.DEVNULL)


def compiled(folder):
    """The program in C, which is in a folder afterwards."""
    program = folder / "console"
    subprocess.run(["cc", "-O2", "-o", program, *(TOP / "bench" / it for it in SOURCES), "-lcrypto"], check=True)
    return program


def print_machine(kind):
    """Prints what is measured on."""
    version = run(["openssl", "version"]).split()[1]
    print(f"{processor()}, {kind}, openssl {version}")


def write_script(folder, lines):
    """The script of a folder has these lines."""
    (folder / "script").write_text("".join(line + "\n" for line in lines))


def print_row(folder, programs, script):
    """Times a script by turns, and prints what each program took."""
    write_script(folder, script.lines)
    commands = [[program, "--new", str(script.depth)] for program in programs]
    check_same(folder, commands)
    size = (folder / "report").stat().st_size
    runs = by_turns(folder, commands)
    least = [min(took.processor for took in of) * 1000 for of in runs]
    clock = min(took.clock for took in runs[0]) * 1000
    most = [peak(folder, command) for command in commands]
    print(f"{script.name:32}{len(script.lines):8}{size:12}{least[0]:12.1f}", end="")
    if script.in_c:
        print(f"{least[1]:12.1f}{least[0] / least[1]:8.2f}{clock:12.1f}{most[0]:11}{most[1]:9}", flush=True)
    else:
        print(f"{'-':>12}{'-':>8}{clock:12.1f}{most[0]:11}{'-':>9}", flush=True)


def main():
    with tempfile.TemporaryDirectory(dir=(sys.argv[1:] or ["/var/tmp"])[0]) as name:
        folder = pathlib.Path(name)
        kind = file_system(folder)
        build()
        theirs = compiled(folder)
        print_machine(kind)
        print(f"{'':32}{'lines':>8}{'octets':>12}{'ours, ms':>12}{'C, ms':>12}{'ratio':>8}{'clock, ms':>12}{'ours, KiB':>11}{'C, KiB':>9}")
        for script in SCRIPTS:
            print_row(folder, [PROGRAM, theirs] if script.in_c else [PROGRAM], script)


if __name__ == "__main__":
    main()
