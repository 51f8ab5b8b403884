"""Times the journal on a real file beside the same calls in C, on one machine in one run.

    python3 bench/journal.py [FOLDER]        at the top of the repository

It builds `case_rooms` and `bench/journal.c`, which each make an empty journal and append 1,000 records with bodies of 300 octets to it. It
prints the middle one of the times that each takes in runs by turns, and our time divided by that of C. The files lie in a new folder in FOLDER,
or else in /var/tmp, which has to be on a device. Before that it sees that both write the same file, and counts their calls to the system with
strace: 1,000 appends are 2,000 writes and 2,000 syncs, and no other call.
"""

import collections
import pathlib
import shutil
import statistics
import subprocess
import sys
import tempfile
import time

TOP = pathlib.Path(__file__).resolve().parent.parent
CRATE = TOP / "crates" / "case_rooms"
PROGRAM = CRATE / "out" / "case_rooms"
APPENDS = 1_000
# an odd number, so that one is in the middle
RUNS = 31


def run(words, given=""):
    """What a program prints that is given this on standard input."""
    return subprocess.run(words, input=given, check=True, capture_output=True, text=True).stdout


def append(program, path, count, before=()):
    """What a program prints that appends so many records, started by the words before it: ours reads a line, and that in C has words."""
    if program == PROGRAM:
        return run([*before, program], f"append {path} {count}\n")
    return run([*before, program, path, str(count)])


def seconds(program, folder):
    """The time of one run, from the start of the program to its end, on a new file."""
    path = folder / "timed"
    start = time.perf_counter()
    append(program, path, APPENDS)
    taken = time.perf_counter() - start
    path.unlink()
    return taken


def calls(program, folder, count):
    """How often each call to the system is made in a run."""
    log, path = folder / "calls", folder / "counted"
    append(program, path, count, ["strace", "-f", "-qq", "-o", log])
    path.unlink()
    lines = [line.split(maxsplit=1)[1] for line in log.read_text().splitlines()]
    return collections.Counter(line.split("(", 1)[0] for line in lines)


def check_calls(program, folder):
    """Sees that an append makes two writes and two syncs, and nothing else."""
    whole, none = calls(program, folder, APPENDS), calls(program, folder, 0)
    whole.subtract(none)
    made = {name: often for name, often in whole.items() if often}
    assert made == {"pwrite64": 2 * APPENDS, "fsync": 2 * APPENDS}, f"{program.name}: {made}"


def check_files(programs, folder):
    """Sees that all print the same and leave the same file."""
    left = []
    for program in programs:
        path = folder / "compared"
        left.append((append(program, path, APPENDS), path.read_bytes()))
        path.unlink()
    assert left[0] == left[1], "the two programs differ"


def file_system(folder):
    """Its type, which must be one on a device."""
    kind = run(["df", "--output=fstype", folder]).split()[-1]
    assert kind not in ("tmpfs", "ramfs"), f"{folder} is in memory; name a folder on a device"
    return kind


def processor():
    """The name that the system gives it."""
    names = [line for line in pathlib.Path("/proc/cpuinfo").read_text().splitlines() if line.startswith("model name")]
    return names[0].split(":", 1)[1].strip()


def main():
    with tempfile.TemporaryDirectory(dir=(sys.argv[1:] or ["/var/tmp"])[0]) as name:
        folder = pathlib.Path(name)
        kind = file_system(folder)
        subprocess.run(["rt", "run"], cwd=CRATE, check=True, stdin=subprocess.DEVNULL, stdout=subprocess.DEVNULL)
        theirs = folder / "journal"
        subprocess.run(["cc", "-O2", "-o", theirs, TOP / "bench" / "journal.c"], check=True)
        programs = [PROGRAM, theirs]
        print(f"{processor()}, {kind}")
        check_files(programs, folder)
        if shutil.which("strace"):
            for program in programs:
                check_calls(program, folder)
            print(f"{APPENDS} appends: {2 * APPENDS} pwrite64, {2 * APPENDS} fsync, no other call")
        else:
            print("strace is missing, so calls are not counted (apt-get install strace)")
        times = {program: [] for program in programs}
        for _ in range(RUNS):
            for program in programs:
                times[program].append(seconds(program, folder))
        ours, others = (statistics.median(times[program]) for program in programs)
        print(f"{'ours, ms':>10}{'C, ms':>10}{'ratio':>8}")
        print(f"{ours * 1000:10.1f}{others * 1000:10.1f}{ours / others:8.2f}")


main()
