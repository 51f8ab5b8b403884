"""Counts how often several threads look at an epoch board in a second, while another thread publishes on it all the time.

    python3 bench/board.py        at the top of the repository

It builds `case_rooms`, and prints a row for each number of threads: the looks of all of them in a second, in millions.
"""

import os
import pathlib
import subprocess
import time

TOP = pathlib.Path(__file__).resolve().parent.parent
CRATE = TOP / "crates" / "case_rooms"
PROGRAM = CRATE / "out" / "case_rooms"
LOOKS = 200_000_000


def seconds(threads, looks):
    """The least time of three runs."""
    times = []
    for _ in range(3):
        start = time.perf_counter()
        run = subprocess.run([PROGRAM], input=f"looks {threads} {looks}\n", check=True, capture_output=True, text=True)
        times.append(time.perf_counter() - start)
        assert run.stdout == "rises\n", run.stdout
    return min(times)


def a_second(threads):
    """How many looks all threads make in a second; what the program takes to start is left out."""
    looks = LOOKS // threads
    return threads * looks / (seconds(threads, looks) - seconds(threads, 0))


def processor():
    """The name that the system gives it."""
    names = [line for line in pathlib.Path("/proc/cpuinfo").read_text().splitlines() if line.startswith("model name")]
    return names[0].split(":", 1)[1].strip()


def main():
    subprocess.run(["rt", "run"], cwd=CRATE, check=True, stdin=subprocess.DEVNULL, stdout=subprocess.DEVNULL)
    print(f"{processor()}, {os.cpu_count()} processors")
    print(f"{'threads':>8}{'looks, millions/s':>20}")
    for threads in (1, 2, 3, 4, 8, 16):
        print(f"{threads:8}{a_second(threads) / 1e6:20.1f}")


main()
