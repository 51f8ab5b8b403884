"""Times blocks of 512 joins by 1, 2, 4 and 16 workers, on one machine in one run.

    python3 bench/blocks.py        at the top of the repository

It builds `case_blocks`, and prints how many joins of two turns all workers together make in a second, and how much processor time a join takes. Half of a
block's joins and more are refused, as a batch takes 32. What it takes to make the groups is left out.
"""
import pathlib
import resource
import subprocess
import time

TOP = pathlib.Path(__file__).resolve().parent.parent
CRATE = TOP / "crates" / "case_blocks"
PROGRAM = CRATE / "out" / "case_blocks"
JOINS, ROUNDS, RUNS = 512, 20, 5


def times(workers):
    """The least time on the clock and of processors of some runs; with no workers, of groups alone."""
    lines = "".join(f"group 9 {round} {JOINS}\n" + (f"block {workers} join1-{JOINS}\n" if workers else "") for round in range(ROUNDS))
    found = []
    for _ in range(RUNS):
        start, used = time.perf_counter(), resource.getrusage(resource.RUSAGE_CHILDREN)
        subprocess.run([PROGRAM], input=lines, check=True, capture_output=True, text=True)
        now = resource.getrusage(resource.RUSAGE_CHILDREN)
        found.append((time.perf_counter() - start, now.ru_utime + now.ru_stime - used.ru_utime - used.ru_stime))
    return [min(it) for it in zip(*found)]


def main():
    subprocess.run(["rt", "run"], cwd=CRATE, check=True, stdin=subprocess.DEVNULL, stdout=subprocess.DEVNULL)
    base = times(0)
    print("workers  joins/s  processor time of a join, microseconds")
    for workers in (1, 2, 4, 16):
        clock, used = (mine - its for mine, its in zip(times(workers), base))
        print(f"{workers:7}  {JOINS * ROUNDS / clock:7.0f}  {used / JOINS / ROUNDS * 1e6:6.1f}")


if __name__ == "__main__":
    main()
