"""Kills the console at random moments, and opens its group again.

    python3 bench/kills.py PROGRAM [KILLS [WORKERS]]

Each run makes a group in a folder of its own, lets members in by pulls and out, and closes a batch after each change. It is killed by a signal at a random moment.
With WORKERS, each eight changes are a block with two batches, and so many workers run its lines.
Then the group is opened from the journal that is left: each batch whose report line came whole before the kill has to be there. A kill before the group was made may
leave a file that is no journal.
"""
import os
import random
import re
import signal
import subprocess
import sys
import tempfile
import threading
import time

MEMBERS = 12
ROUNDS = 400
IN_BLOCK = 8


def change(member, inside):
    """Lets a member in or out."""
    line = f"{'leave' if member in inside else 'join'} {member}"
    inside ^= {member}
    return line


def script(seed, workers):
    """Changes of members, each with a batch after it, or in blocks with two batches."""
    rng = random.Random(seed)
    inside = set()
    lines = ["allow *"]
    for _ in range(ROUNDS // IN_BLOCK if workers else ROUNDS):
        if workers:
            changes = [change(f"m{member}", inside) for member in rng.sample(range(MEMBERS), IN_BLOCK)]
            lines += ["together", *changes, "batch", "batch", "end"]
        else:
            lines += [change(f"m{rng.randrange(MEMBERS)}", inside), "batch"]
    return "\n".join(lines) + "\n"


def words(seed, workers):
    """The words of a run that makes a group."""
    return ["--new", "4", "--seed", str(seed), *(["--workers", str(workers)] if workers else [])]


def killed(program, folder, seed, workers, after):
    """The octets that were reported before the program was killed, and whether it was."""
    process = subprocess.Popen([program, *words(seed, workers)], cwd=folder, stdin=subprocess.PIPE, stdout=subprocess.PIPE)

    def feed():
        try:
            process.stdin.write(script(seed, workers).encode())
            process.stdin.close()
        except OSError:
            pass

    feeder = threading.Thread(target=feed)
    feeder.start()
    timer = threading.Timer(after, lambda: process.send_signal(signal.SIGKILL))
    timer.start()
    reported = process.stdout.read()
    process.wait()
    timer.cancel()
    feeder.join()
    return reported, process.returncode == -signal.SIGKILL


def last_epoch(reported):
    """The epoch of the last batch whose line came whole; none where the group was not reported as made."""
    lines = reported[: reported.rfind(b"\n") + 1].decode().splitlines()
    if not lines or not lines[0].startswith("new depth"):
        return None
    epochs = [int(found.group(1)) for line in lines if (found := re.match(r"epoch (\d+) ", line))]
    return max(epochs, default=0)


def opened(program, folder, seed):
    """The first line of the report of an opening, and its status."""
    done = subprocess.run([program, "--open", "--seed", str(seed + 1_000_000)], cwd=folder, input=b"show\n", stdout=subprocess.PIPE)
    lines = done.stdout.decode().splitlines()
    return lines[0] if lines else "", done.returncode


def main():
    program = os.path.abspath(sys.argv[1])
    kills = int(sys.argv[2]) if len(sys.argv) > 2 else 200
    workers = int(sys.argv[3]) if len(sys.argv) > 3 else 0
    with tempfile.TemporaryDirectory() as folder:
        begun = time.monotonic()
        subprocess.run([program, *words(0, workers)], cwd=folder, input=script(0, workers).encode(), stdout=subprocess.PIPE)
        whole = time.monotonic() - begun
    rng = random.Random(2627)
    seed = killed_runs = more = unmade = lost = 0
    while killed_runs < kills:
        seed += 1
        with tempfile.TemporaryDirectory() as folder:
            reported, was_killed = killed(program, folder, seed, workers, rng.uniform(0, whole))
            killed_runs += was_killed
            told = last_epoch(reported)
            line, status = opened(program, folder, seed)
            found = re.search(r"epoch (\d+)", line)
            if told is None:
                unmade += status == 6
            elif status != 0 or found is None or int(found.group(1)) < told:
                lost += 1
                print(f"run {seed}: reported epoch {told}, then: {line}")
            else:
                more += int(found.group(1)) > told
    print(f"{seed} runs, {killed_runs} killed, {lost} lost a batch that was reported; {more} had one more than was reported, {unmade} were killed before the group was made")
    sys.exit(lost > 0)


main()
