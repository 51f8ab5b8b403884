"""Times the ciphers beside openssl with its hardware AES switched off, on one machine in one run.

    python3 bench/ciphers.py        at the top of the repository

It builds `case_rooms`, and prints for each row what that does in a second, what openssl does, and openssl's figure divided by ours.
Rows: a key of 128 bits expanded and a text sealed or opened under it by cipher block chaining, of 18 KiB, in MiB/s, and of 64 octets, in
thousands a second; a key expanded and two blocks encrypted, the work of one wrap, in thousands a second; the 286 update arrays that a batch
may send in a tree of 512 leaves, in batches a second; the membership push with them, written, and opened again in a room that keeps it,
in pushes a second; and HMAC with SHA-256 over pieces of 4,096 octets, in MiB/s.
"""

import os
import pathlib
import platform
import subprocess
import tempfile
import time

TOP = pathlib.Path(__file__).resolve().parent.parent
CRATE = TOP / "crates" / "case_rooms"
PROGRAM = CRATE / "out" / "case_rooms"
# the processor's AES and carry-less products off, and nothing else
NO_HARDWARE = dict(os.environ, OPENSSL_ia32cap="~0x200000200000000:~0x0")
MIB = 1 << 20
# the octets of a large datagram
LONG = 18 * 1024


def run(program, count):
    """What a program prints that does its work so often: ours reads a line with the work, and those in C have words."""
    ours = program[0] == PROGRAM
    words = program[:1] if ours else [*program, str(count)]
    given = f"repeat {program[1]} {count}\n" if ours else ""
    return subprocess.run(words, input=given, check=True, capture_output=True, text=True, env=NO_HARDWARE).stdout


def seconds(program, count):
    """The time of one run."""
    start = time.perf_counter()
    run(program, count)
    return time.perf_counter() - start


def a_second(programs, count):
    """How often each program does its work in a second, by the least times of runs in turn; what it takes to start is left out."""
    whole, none = ({program: [] for program in programs} for _ in range(2))
    for _ in range(5):
        for program in programs:
            whole[program].append(seconds(program, count))
            none[program].append(seconds(program, 0))
    return [count / (min(whole[program]) - min(none[program])) for program in programs]


def openssl_speed(*words):
    """Octets a second, of pieces of 4,096."""
    done = subprocess.run(
        ["openssl", "speed", "-mr", "-elapsed", "-seconds", "3", "-bytes", "4096", *words],
        check=True, capture_output=True, text=True, env=NO_HARDWARE)
    rows = [line for line in done.stdout.splitlines() if line.startswith("+F:")]
    return float(rows[-1].rsplit(":", 1)[1])


def built(folder, source):
    """A program in C with openssl's functions."""
    program = pathlib.Path(folder) / source.removesuffix(".c")
    subprocess.run(["cc", "-O2", "-o", program, TOP / "bench" / source, "-lcrypto"], check=True)
    return program


def compared(work, theirs, count, unit):
    """What `repeat WORK` of `case_rooms` and a program of the same work do in a second, in such units, once both have been seen to do the same."""
    programs = [(PROGRAM, work), theirs]
    ours, others = (run(program, 3) for program in programs)
    assert ours == others, "the two programs differ"
    return [often * unit for often in a_second(programs, count)]


def processor():
    """The name that the system gives it."""
    names = [line for line in pathlib.Path("/proc/cpuinfo").read_text().splitlines() if line.startswith("model name")]
    return names[0].split(":", 1)[1].strip()


def main():
    assert platform.machine() == "x86_64", "the switches for openssl are those of x86-64"
    subprocess.run(["rt", "run"], cwd=CRATE, check=True, stdin=subprocess.DEVNULL, stdout=subprocess.DEVNULL)
    with tempfile.TemporaryDirectory() as folder:
        chain, wrap, updates, pushes = (built(folder, source) for source in ("chain.c", "wrap.c", "updates.c", "pushes.c"))
        rows = [
            ("18 KiB sealed, MiB/s", compared("seal", (chain, "seal", str(LONG)), 5_000, LONG / MIB)),
            ("18 KiB opened, MiB/s", compared("open", (chain, "open", str(LONG)), 5_000, LONG / MIB)),
            ("64 octets sealed, thousands/s", compared("seal-short", (chain, "seal", "64"), 500_000, 1 / 1000)),
            ("64 octets opened, thousands/s", compared("open-short", (chain, "open", "64"), 500_000, 1 / 1000)),
            ("wraps, thousands/s", compared("wrap", (wrap,), 1_000_000, 1 / 1000)),
            ("286 arrays, batches/s", compared("updates", (updates,), 5_000, 1)),
            ("push of 286 arrays written, /s", compared("push-write", (pushes, "write"), 3_000, 1)),
            ("push of 286 arrays opened, /s", compared("push-open", (pushes, "open"), 3_000, 1)),
            ("HMAC, MiB/s", [a_second([(PROGRAM, "mac")], 50_000)[0] * 4096 / MIB, openssl_speed("-hmac", "sha256") / MIB]),
        ]
    version = subprocess.run(["openssl", "version"], check=True, capture_output=True, text=True).stdout.split()[1]
    print(f"{processor()}, openssl {version}")
    print(f"{'':32}{'ours':>10}{'openssl':>10}{'ratio':>8}")
    for name, (ours, theirs) in rows:
        print(f"{name:32}{ours:10.0f}{theirs:10.0f}{theirs / ours:8.2f}")


main()
