#!/usr/bin/env python3
"""Whether two builds of the console answer alike on drawn scripts.

    bench/same.py ONE OTHER [--runs N] [--seed N]

ONE and OTHER are programs as `rt run` leaves them in `crates/gdoi_console/out/gdoi_console`. Each drawn run has its words, a script, and for one in three a second run that opens
the group again. It compares standard output, status and the octets of the journal. Its status is 1 where something differs, and it then prints the run.
"""
import argparse
import concurrent.futures
import os
import random
import subprocess
import sys
import tempfile

NAMES = [*"abcdefgh", "m_1", "x_2", "abcdefghijklmnop"]
# A request, and how often it is drawn.
LINES = [("join", 30), ("leave", 14), ("batch", 22), ("deliver", 12), ("deliver-all", 6), ("key", 5), ("derive", 6), ("halt", 2), ("reopen", 3), ("show", 4),
         ("allow", 3), ("deny", 2), ("again", 8), ("lose", 5), ("faulty", 1)]
PATTERNS = ["*", "a*", "x_*", "m_1*", *NAMES]
FAULTY = ["join", "join A", "join x-2", "batch now", "deliver a", "deliver a x", "derive 1", "", "leave a b", "join " + "a" * 300, "allow", "allow a*b", "deny **",
          "deny A", "again", "again a*", "lose a b"]


def line(draw):
    word = draw.choices([it for it, _ in LINES], [n for _, n in LINES])[0]
    name = draw.choice(NAMES)
    if word in ("join", "leave", "key", "again", "lose"):
        return f"{word} {name}"
    if word in ("allow", "deny"):
        return f"{word} {draw.choice(PATTERNS)}"
    if word == "deliver":
        return f"deliver {name} {draw.randrange(0, 12)}"
    if word == "derive":
        return " ".join(["derive", str(draw.randrange(0, 8)), *draw.sample(NAMES, draw.randrange(1, 4))])
    return draw.choice(FAULTY) if word == "faulty" else word


def script(draw):
    lines = ["allow *"] * (draw.random() < 0.85) + [line(draw) for _ in range(draw.randrange(0, 50))]
    return "".join(f"{it}\n" for it in lines) + draw.choice(["", "", "", "batch"])


def runs(draw):
    words = ["--new", str(draw.choice([1, 2, 2, 3, 4, 9])), "--seed", str(draw.randrange(1000))]
    if draw.random() < 0.15:
        words += ["--limit", str(draw.randrange(1, 12))]
    if draw.random() < 0.03:
        words = draw.choice([[], ["--new", "0"], ["--open"], ["--new", "2", "--open"]])
    both = [(words, script(draw))]
    if draw.random() < 0.33:
        both.append((["--open", "--seed", str(draw.randrange(1000))], script(draw)))
    return both


def answers(program, both):
    with tempfile.TemporaryDirectory() as folder:
        told = []
        for words, text in both:
            ended = subprocess.run([program, *words], input=text.encode(), cwd=folder, stdout=subprocess.PIPE, stderr=subprocess.PIPE, check=False)
            journal = os.path.join(folder, "group.journal")
            octets = open(journal, "rb").read() if os.path.exists(journal) else None
            told.append((ended.returncode, ended.stdout, ended.stderr, octets))
        return told


def main():
    parser = argparse.ArgumentParser(description=__doc__.splitlines()[0])
    parser.add_argument("one")
    parser.add_argument("other")
    parser.add_argument("--runs", type=int, default=5000)
    parser.add_argument("--seed", type=int, default=1)
    asked = parser.parse_args()
    draw = random.Random(asked.seed)
    drawn = [runs(draw) for _ in range(asked.runs)]
    one, other = os.path.abspath(asked.one), os.path.abspath(asked.other)

    def is_same(both):
        first = answers(one, both)
        return first == answers(other, both), first

    statuses = {}
    with concurrent.futures.ThreadPoolExecutor(os.cpu_count()) as pool:
        for both, (same, told) in zip(drawn, pool.map(is_same, drawn)):
            if not same:
                print(f"differs: {both}")
                sys.exit(1)
            for status, *_ in told:
                statuses[status] = statuses.get(status, 0) + 1
    print(f"{asked.runs} drawn runs alike; calls by status: {dict(sorted(statuses.items()))}")


main()
