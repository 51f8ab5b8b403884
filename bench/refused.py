"""Refuses the console, or blocks of lines, each allocation in turn.

    python3 bench/refused.py PROGRAM [WORD ..] < SCRIPT
    python3 bench/refused.py --blocks PROGRAM [WORKERS ..]

A first run counts the allocations; then one of them is refused in each run, on a new folder. A run has to end with status 5, or with 0, where the program can do without what
was refused. What it reports is the report of the first run from its start, up to a line that says that memory ran out, or to the end; and the group that it left, if it
reported one, opens with each batch that it reported. It prints how many runs ended with each status. It needs cc. Where the script has a block of lines, the report of a run
with status 5 is the same up to the block; from there on what it tells of each member, of the batches and of the looks is what the first run does, up to some line of these.

With `--blocks` the program is `case_blocks`, and what is refused is an allocation of a run with a block of eight joins by so many workers, 1, 2 and 4 if none are
named. After it comes a batch, and then the eight join once more. The block tells that memory was short, or it did all; and whoever is a member then, which the second
joins tell, is just who waited by a turn of the block that is in the history. Where the program itself had no memory, be it for a line or its answer, it ends there.
"""
import collections
import os
import pathlib
import re
import subprocess
import sys
import tempfile

HERE = pathlib.Path(__file__).resolve().parent
LINES = 8
SHORT = re.compile(rb"(.* refused no-memory\n)?(end 5\n)?")


def run(command, script, folder, **extra):
    """A run in a folder, with more in its environment."""
    return subprocess.run(command, cwd=folder, input=script, stdout=subprocess.PIPE, stderr=subprocess.PIPE, env=dict(os.environ, **extra))


def is_front(report, whole):
    """Whether a report is the start of the whole one, in lines, and then perhaps what says that memory ran out."""
    lines, due = report.splitlines(keepends=True), whole.splitlines(keepends=True)
    same = next((i for i, (one, other) in enumerate(zip(lines, due)) if one != other), min(len(lines), len(due)))
    return SHORT.fullmatch(b"".join(lines[same:])) is not None


def told_of(lines):
    """What lines tell of each member, and of all else by its first word, without octets and leaves: these depend on the order of turns."""
    told = collections.defaultdict(list)
    for line in lines:
        words = line.decode().split()
        if words[0] in ("second", "fourth", "leaf"):
            member = words[1] if words[0] != "leaf" else words[2]
            told[member].append(words[0])
        elif words[0] in ("epoch", "wrap", "push", "batch", "now", "together", "group", "end"):
            told[words[0]].append(" ".join(words[:3]))
        else:
            told[words[0]].append(" ".join(words[1:]))
    return told


def is_cut(report, whole, status):
    """Whether a report is the whole one up to the first block, and tells from there on what that one does, up to some line of each member; all of it where the status is 0."""
    lines, due = report.splitlines(keepends=True), whole.splitlines(keepends=True)
    begun = next(i for i, line in enumerate(due) if line.startswith(b"together "))
    if len(lines) <= begun or lines[:begun] != due[:begun] or not (report.endswith(b"\n") and lines[begun] == due[begun]):
        return is_front(report, whole)
    told, all_told = told_of(lines[begun:]), told_of(due[begun:])
    if status == 0:
        return told == all_told
    ends = told.pop("end", ["end 5"])
    cut = [own[:-1] if own and own[-1].endswith("refused no-memory") else own for own in told.values()]
    return ends == ["end 5"] and all(own == all_told[name][: len(own)] for name, own in zip(told, cut))


def last_epoch(report):
    """The epoch of the last batch that was reported; none where no group was."""
    if not report.startswith(b"new depth "):
        return None
    return max((int(found[1]) for found in re.finditer(rb"^epoch (\d+) ", report, re.M)), default=0)


def is_kept(program, folder, told):
    """Whether the group that was left opens with each batch that was reported, and one more at most."""
    opened = run([program, "--open", "--seed", "7"], b"", folder)
    found = re.match(rb"open depth \d+ epoch (\d+) ", opened.stdout)
    return opened.returncode == 0 and found is not None and int(found[1]) in (told, told + 1)


def allocator(room):
    """The allocator that refuses, made in a folder."""
    shim = f"{room}/refused.so"
    subprocess.run(["cc", "-O2", "-shared", "-fPIC", "-o", shim, HERE / "refused.c", "-ldl"], check=True)
    return shim


def counts(line):
    """The numbers that an answer to a block has by name, and its last word."""
    words = line.decode().split()
    return {name: int(count) for name, count in zip(words[:-1:2], words[1:-1:2])}, words[-1]


def fits(answers, whole):
    """Whether the answers to a block, a batch and a second block tell of memory that was short, and of no step that is missing."""
    (first, end), (batch, _), (again, last) = (counts(line) for line in answers)
    kinds = ("second", "fourth", "queued", "leaving", "batched", "refused")
    summed = first["turns"] == sum(first[kind] for kind in kinds)
    told = end == "short" or (first, end) == whole
    members = again["fourth"] == first["queued"] and again["queued"] == LINES - first["queued"]
    return summed and told and members and batch["batched"] == 1 and again["second"] == LINES and last == "whole"


def blocks(program, workers):
    """Refuses a block by so many workers each allocation in turn."""
    made = f"group 5 7 {LINES}\n".encode()
    script = made + f"block {workers} join1-{LINES}\nblock 1 batch\nblock 1 join1-{LINES}\n".encode()
    ends, wrong = collections.Counter(), 0
    with tempfile.TemporaryDirectory() as room:
        shim, calls = allocator(room), f"{room}/calls"
        run([program], made, room, LD_PRELOAD=shim, CALLS=calls)
        begun = int(pathlib.Path(calls).read_text())
        first = run([program], script, room, LD_PRELOAD=shim, CALLS=calls)
        whole, count = counts(first.stdout.splitlines()[1]), int(pathlib.Path(calls).read_text())
        for number in range(1, count + 1):
            done = run([program], script, room, LD_PRELOAD=shim, REFUSED=str(number))
            answers = done.stdout.splitlines()
            if done.returncode != 0:
                ends["the program ended"] += 1
            elif len(answers) == 4 and fits(answers[1:], whole):
                ends[answers[1].decode().split()[-1]] += 1
            elif len(answers) == 4 and counts(answers[1]) == whole:
                ends["later"] += 1
            else:
                wrong += 1
                print(f"allocation {number}: status {done.returncode}, {done.stdout!r} {done.stderr!r}")
    print(f"{workers} workers: {count} allocations, {begun} before the block; runs by how they ended: {dict(sorted(ends.items()))}, wrong {wrong}")
    return wrong


def console():
    program, words, script = os.path.abspath(sys.argv[1]), sys.argv[2:], sys.stdin.buffer.read()
    statuses, wrong = collections.Counter(), 0
    with tempfile.TemporaryDirectory() as room:
        shim, calls = allocator(room), f"{room}/calls"
        with tempfile.TemporaryDirectory(dir=room) as folder:
            first = run([program, *words], script, folder, LD_PRELOAD=shim, CALLS=calls)
        count = int(pathlib.Path(calls).read_text())
        for number in range(1, count + 1):
            with tempfile.TemporaryDirectory(dir=room) as folder:
                done = run([program, *words], script, folder, LD_PRELOAD=shim, REFUSED=str(number))
                statuses[done.returncode] += 1
                told = last_epoch(done.stdout)
                fits = is_cut(done.stdout, first.stdout, done.returncode) if b"\ntogether " in first.stdout else is_front(done.stdout, first.stdout)
                if done.returncode not in (0, 5) or done.stderr or not fits or (told is not None and not is_kept(program, folder, told)):
                    wrong += 1
                    print(f"allocation {number}: status {done.returncode}, {done.stdout[-200:]!r} {done.stderr!r}")
    print(f"{count} allocations, each refused in a run; runs by status: {dict(sorted(statuses.items()))}")
    return wrong > 0 or first.returncode != 0


def main():
    if sys.argv[1] != "--blocks":
        sys.exit(console())
    program, workers = os.path.abspath(sys.argv[2]), sys.argv[3:] or ["1", "2", "4"]
    sys.exit(sum(blocks(program, it) for it in workers) > 0)


main()
