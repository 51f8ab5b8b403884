"""Times turns at a desk beside a mutex of Rust's std with a queue, on one machine in one run.

    python3 bench/desk.py        at the top of the repository

It builds `case_rooms` and `bench/desk.rs`, and prints for 1, 2, 4 and 16 threads how many thousand turns all threads together make at each in
a second, and the second figure divided by the first. A turn adds a number to a sum and to the list of all numbers.
"""

import pathlib
import subprocess
import tempfile
import time

TOP = pathlib.Path(__file__).resolve().parent.parent
CRATE = TOP / "crates" / "case_rooms"
PROGRAM = CRATE / "out" / "case_rooms"
TURNS_OF_A_ROUND = 64 * 4096
ROUNDS = {1: 40, 2: 20, 4: 10, 16: 10}


def run(program, threads, rounds):
    """The sum of all turns that a program prints: ours reads a line for each round and prints the sum of that, and that in Rust has words."""
    words, given = ([program], f"turns {threads}\n" * rounds) if program == PROGRAM else ([program, str(threads), str(rounds)], "")
    printed = subprocess.run(words, input=given, check=True, capture_output=True, text=True).stdout
    return sum(map(int, printed.split()))


def seconds(program, threads, rounds):
    """The least time of three runs."""
    times = []
    for _ in range(3):
        start = time.perf_counter()
        run(program, threads, rounds)
        times.append(time.perf_counter() - start)
    return min(times)


def a_second(program, threads):
    """Turns in a second; what it takes to start is left out."""
    rounds = ROUNDS[threads]
    return rounds * TURNS_OF_A_ROUND / (seconds(program, threads, rounds) - seconds(program, threads, 0))


def built(folder):
    """The same work in Rust."""
    program = pathlib.Path(folder) / "desk"
    subprocess.run(["rustc", "--edition", "2021", "-O", "-o", program, TOP / "bench" / "desk.rs"], check=True)
    assert run(PROGRAM, 3, 2) == run(program, 3, 2), "the two programs differ"
    return program


def main():
    subprocess.run(["rt", "run"], cwd=CRATE, check=True, stdin=subprocess.DEVNULL, stdout=subprocess.DEVNULL)
    with tempfile.TemporaryDirectory() as folder:
        theirs = built(folder)
        print("threads  desk, thousands/s  mutex, thousands/s  ratio")
        for threads in ROUNDS:
            desk, mutex = a_second(PROGRAM, threads), a_second(theirs, threads)
            print(f"{threads:7}  {desk / 1000:17.0f}  {mutex / 1000:18.0f}  {mutex / desk:5.2f}")


if __name__ == "__main__":
    main()
