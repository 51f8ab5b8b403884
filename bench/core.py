"""Times the core of a key server beside the same in C, on one machine in one run.

    python3 bench/core.py [FOLDER]        at the top of the repository

It builds `case_rooms` and `bench/core.c`, which each make a group in a tree of 512 leaves and close batches: they queue the changes, find what a
batch renews, draw its keys, seal its pushes, find what its newcomers are told, and store it. For each work it prints the middle one of the times that
each takes in runs by turns, our time divided by that of C, and the most memory that each had. The works are 512 members of whom 32 then go out at
once; many batches of 32 changes; and many of four. On a file in memory they show the sealing and the planning alone. The other files lie in a new folder
in FOLDER, or else in /var/tmp, which has to be on a device. The processor's AES is switched off for openssl. Before that it sees that both print the same
and leave the same file, and counts their calls to the system with strace: a batch is two writes and two syncs, and calls for memory apart no other.
"""

import collections
import contextlib
import os
import pathlib
import shutil
import statistics
import subprocess
import sys
import tempfile
import time
import typing

import works

TOP = pathlib.Path(__file__).resolve().parent.parent
CRATE = TOP / "crates" / "case_rooms"
PROGRAM = CRATE / "out" / "case_rooms"
# the processor's AES and carry-less products off, and nothing else
NO_HARDWARE = dict(os.environ, OPENSSL_ia32cap="~0x200000200000000:~0x0")
DEPTH = 9
# a folder in memory
MEMORY = "/dev/shm"
# the name of each work, the kind of its batches, how many there are, and whether a device keeps them
WORKS = [
    ("512 come, 32 go, on a file", "large", 17, True),
    ("32 changes each, on a file", "large", 2_000, True),
    ("4 changes each, on a file", "small", 10_000, True),
    ("32 changes each, in memory", "large", 2_000, False),
    ("4 changes each, in memory", "small", 1_000, False),
    ("4 changes each, in memory", "small", 10_000, False),
]
# the works of the runs that are compared, and the batches of which calls are counted
COMPARED = [("large", 100), ("small", 1_000)]
COUNTED = 200
# an odd number, so that one is in the middle
RUNS = 3


class Command(typing.NamedTuple):
    """The words that start a program, and what it is given on standard input."""

    words: list
    given: str = ""


def run(command):
    """What a program prints."""
    return subprocess.run(
        command.words, input=command.given, check=True, capture_output=True, text=True, env=NO_HARDWARE).stdout


def work(program, disk, *pairs):
    """What has a program do works, each a kind of batches and how many there are: ours reads a line for each, and that in C has them as words."""
    if program == PROGRAM:
        return Command([program], "".join(works.line(disk, kind, DEPTH, count) for kind, count in pairs))
    return Command([program, disk, str(DEPTH), *(str(word) for pair in pairs for word in pair)])


def seconds(command):
    """The time of one run, from the start of the program to its end."""
    start = time.perf_counter()
    run(command)
    return time.perf_counter() - start


def full_pipe():
    """The two ends of a pipe into which nothing more goes."""
    out, into = os.pipe()
    os.set_blocking(into, False)
    with contextlib.suppress(BlockingIOError):
        while True:
            os.write(into, bytes(4096))
    os.set_blocking(into, True)
    return out, into


def peak(command):
    """The most memory that a run had at once, in KiB. The system is asked while the program waits to print, which is the last it does."""
    out, into = full_pipe()
    with subprocess.Popen(command.words, stdin=subprocess.PIPE, stdout=into, text=True, env=NO_HARDWARE) as process:
        process.stdin.write(command.given)
        process.stdin.close()
        told = pathlib.Path(f"/proc/{process.pid}")
        while (told / "syscall").read_text().split()[1:2] != ["0x1"]:
            time.sleep(0.001)
        lines = (told / "status").read_text().splitlines()
        os.close(out)
        os.close(into)
    return next(int(line.split()[1]) for line in lines if line.startswith("VmHWM"))


def calls(program, folder, count):
    """How often each call to the system is made in a run."""
    log, path = folder / "calls", folder / "counted"
    words, given = work(program, path, ("small", count))
    run(Command(["strace", "-f", "-qq", "-o", log, *words], given))
    path.unlink()
    lines = [line.split(maxsplit=1)[1] for line in log.read_text().splitlines()]
    return collections.Counter(line.split("(", 1)[0] for line in lines)


def check_calls(program, folder):
    """Sees that a batch makes two writes and two syncs; calls for memory apart, nothing else."""
    whole, none = calls(program, folder, COUNTED), calls(program, folder, 0)
    whole.subtract(none)
    made = {name: often for name, often in whole.items() if often and name not in ("brk", "mmap", "munmap", "mremap")}
    assert made == {"pwrite64": 2 * COUNTED, "fsync": 2 * COUNTED}, f"{program.name}: {made}"


def check_same(programs, folder):
    """Sees that all print the same and leave the same file."""
    left = []
    for program in programs:
        path = folder / "compared"
        left.append((run(work(program, path, *COMPARED)), path.read_bytes()))
        path.unlink()
    assert left[0] == left[1], "the two programs differ"


def file_system(folder):
    """Its type, which must be one on a device."""
    kind = run(Command(["df", "--output=fstype", folder])).split()[-1]
    assert kind not in ("tmpfs", "ramfs"), f"{folder} is in memory; name a folder on a device"
    return kind


def processor():
    """The name that the system gives it."""
    names = [line for line in pathlib.Path("/proc/cpuinfo").read_text().splitlines() if line.startswith("model name")]
    return names[0].split(":", 1)[1].strip()


def on_disk(call, command, disk):
    """What a call gives of a command, with no file left."""
    answer = call(command)
    disk.unlink(missing_ok=True)
    return answer


def print_row(programs, folder, row):
    """Times a work by turns, and prints what each program took."""
    name, kind, count, keeps = row
    disk = (folder if keeps else pathlib.Path(MEMORY)) / f"timed-{os.getpid()}"
    commands = {program: work(program, disk, (kind, count)) for program in programs}
    times = {program: [] for program in programs}
    for _ in range(RUNS):
        for program in programs:
            times[program].append(on_disk(seconds, commands[program], disk))
    ours, others = (statistics.median(times[program]) * 1000 for program in programs)
    most = [on_disk(peak, commands[program], disk) for program in programs]
    print(f"{name:28}{count:8}{ours:12.1f}{others:12.1f}{ours / others:8.2f}{most[0]:11}{most[1]:9}", flush=True)


def main():
    with tempfile.TemporaryDirectory(dir=(sys.argv[1:] or ["/var/tmp"])[0]) as name:
        folder = pathlib.Path(name)
        kind = file_system(folder)
        subprocess.run(["rt", "run"], cwd=CRATE, check=True, stdin=subprocess.DEVNULL, stdout=subprocess.DEVNULL)
        theirs = folder / "core"
        subprocess.run(["cc", "-O2", "-o", theirs, TOP / "bench" / "core.c", "-lcrypto"], check=True)
        programs = [PROGRAM, theirs]
        version = run(Command(["openssl", "version"])).split()[1]
        print(f"{processor()}, {kind}, openssl {version}")
        check_same(programs, folder)
        if shutil.which("strace"):
            for program in programs:
                check_calls(program, folder)
            print(f"{COUNTED} batches: {2 * COUNTED} pwrite64, {2 * COUNTED} fsync, no other call but for memory")
        else:
            print("strace is missing, so calls are not counted (apt-get install strace)")
        print(f"{'':28}{'batches':>8}{'ours, ms':>12}{'C, ms':>12}{'ratio':>8}{'ours, KiB':>11}{'C, KiB':>9}")
        for row in WORKS:
            print_row(programs, folder, row)


main()
