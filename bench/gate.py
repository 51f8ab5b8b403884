#!/usr/bin/env python3
"""What the gate costs from nothing: processor seconds by crate, of proofs, tests, edits and programs.

    bench/gate.py [--room FOLDER] [CRATE ..]
    bench/gate.py --read FOLDER

It clones the commit that is checked out, and runs `rt ci` there with a copy of the kit; with names of crates the clone has these alone, and
those below them. Each call of the prover and compiler is timed on its way. It prints the table for
docs/PROOFS.md, and then whoever is above the budget. Its status is that of the gate.

It takes what the gate takes from nothing, in one lane for each processor that it may use: `taskset -c 0,1` before it measures two. With
`--room` the copy of the kit and the times stay in that folder, the times of a later run are added to them, and `--read` prints the table again.
"""
import argparse
import collections
import json
import os
import re
import resource
import shutil
import subprocess
import sys
import tempfile
import time

HERE = os.path.dirname(os.path.dirname(os.path.abspath(__file__)))
# What the gate calls of the kit to prove and to build, and what stands in the place of each: it runs the call and notes what it took.
CALLS = ("rattle", "rattle-link")
WRAPPER = """#!{python} -IS
import json, os, sys, time
begun, words = time.time(), sys.argv[1:]
child = os.spawnv(os.P_NOWAIT, {call!r}, [{call!r}, *words])
_, status, used = os.wait4(child, 0)
line = json.dumps([{name!r}, os.getcwd(), [it for it in words if "=" not in it], used.ru_utime + used.ru_stime, begun, time.time()])
# (one write, since several calls end at once)
os.write(os.open({log!r}, os.O_WRONLY | os.O_APPEND | os.O_CREAT), (line + "\\n").encode())
if os.WIFSIGNALED(status):
    os.kill(os.getpid(), os.WTERMSIG(status))
sys.exit(os.waitstatus_to_exitcode(status))
"""
# The budget, in processor seconds.
PROOF, TESTS, PROGRAM, ALL = 120, 60, 100, 130 * 60
EDITS, EDIT, LARGE_EDIT, LARGE, WITHOUT_EDITS = 4, 8, 12, 60, 100


def timed_kit(room, log):
    """Makes a kit in which each call is timed, and returns where its `rt` is."""
    real = os.path.dirname(os.path.dirname(os.path.realpath(shutil.which("rt"))))
    kit = f"{room}/kit"
    if os.path.isdir(kit):
        return f"{kit}/bin/rt"
    os.makedirs(f"{kit}/bin")
    for name in os.listdir(real):
        if name != "bin":
            os.symlink(f"{real}/{name}", f"{kit}/{name}")
    for name in os.listdir(f"{real}/bin"):
        to = f"{kit}/bin/{name}"
        if name in CALLS:
            with open(to, "w") as file:
                file.write(WRAPPER.format(python=sys.executable, call=f"{real}/bin/{name}", name=name, log=log))
            os.chmod(to, 0o755)
        elif not os.path.isdir(f"{real}/bin/{name}"):
            # (rt finds its kit by its own real path)
            (shutil.copy2 if name.startswith("rt") else os.symlink)(f"{real}/bin/{name}", to)
    return f"{kit}/bin/rt"


def keep_alone(names, clone):
    """Takes all crates out of a clone but these and those below them."""
    with open(f"{clone}/crates.txt") as file:
        lines = {it.split(":")[0].split()[0]: it for it in file if ":" in it and not it.startswith("#")}
    left, kept = [*names], set()
    while left:
        name = left.pop()
        if name in lines and name not in kept:
            kept.add(name)
            left += lines[name].split(":")[1].split()
    with open(f"{clone}/crates.txt", "w") as file:
        file.writelines(lines[it] for it in lines if it in kept)
    for name in os.listdir(f"{clone}/crates"):
        if name not in kept:
            shutil.rmtree(f"{clone}/crates/{name}")


def run_gate(names, room):
    """Runs the gate in a clone and adds a last line to the log: the whole time, and the status."""
    log = f"{room}/calls.log"
    shutil.rmtree(f"{room}/clone", ignore_errors=True)
    subprocess.run(["git", "clone", "--quiet", HERE, f"{room}/clone"], check=True)
    if names:
        keep_alone(names, f"{room}/clone")
    rt, begun = timed_kit(room, log), time.time()
    ran = subprocess.run([rt, "ci"], cwd=f"{room}/clone", stdin=subprocess.DEVNULL)
    used = resource.getrusage(resource.RUSAGE_CHILDREN)
    with open(log, "a") as file:
        file.write(json.dumps(["all", used.ru_utime + used.ru_stime, begun, time.time(), ran.returncode]) + "\n")
    shutil.rmtree(f"{room}/clone")


def kind_of(call, folder, words):
    """Says what a call is part of: the crate's proof, its tests, its edits or its program."""
    if "rt-edit-" in folder:
        return "edits"
    if "--test" in words or any(it.endswith("_tests.o") for it in words):
        return "tests"
    return "program" if call == "rattle-link" or "src/main.rt" in words else "proof"


def crate_of(folder, words):
    """Names the crate that a call is for."""
    if "--crate-name" in words:
        return words[words.index("--crate-name") + 1]
    named = re.search(r"/crates/(\w+)", folder) or next((it for it in (re.search(r"out/(\w+?)(_tests)?(\.o)?$", it) for it in words) if it), None)
    return named[1] if named else "?"


def read_log(log):
    """Returns the seconds by crate and kind, and the runs as one: their seconds, their wall time, and the status of the last."""
    seconds, whole = collections.defaultdict(collections.Counter), None
    with open(log) as lines:
        for line in map(json.loads, lines):
            if line[0] == "all":
                used, wall, _ = whole or (0, 0, 0)
                whole = used + line[1], wall + line[3] - line[2], line[4]
            else:
                call, folder, words, used, *_ = line
                seconds[crate_of(folder, words)][kind_of(call, folder, words)] += used
    return seconds, whole


def edits_of(crate):
    folder = f"{HERE}/crates/{crate}/must-fail"
    return len([it for it in os.listdir(folder) if it.endswith(".edit")]) if os.path.isdir(folder) else 0


def above_budget(crate, of):
    """Says in which way a crate is above the budget."""
    proof, tests, edits, program = (of[it] for it in ("proof", "tests", "edits", "program"))
    count = edits_of(crate)
    # A crate with edits is checked twice more, before and after them.
    each = max(0, edits - 1.3 * proof) / count if count else 0
    most = LARGE_EDIT if proof > LARGE else EDIT
    return [
        *[f"{crate}: its proof takes {proof:.0f} s, and {PROOF} are due"] * (proof > PROOF),
        *[f"{crate}: its tests take {tests:.0f} s, and {TESTS} are due"] * (tests > TESTS),
        *[f"{crate}: its program takes {program:.0f} s, and {PROGRAM} are due"] * (program > PROGRAM),
        *[f"{crate}: it has {count} edits, and {EDITS} are due"] * (count > EDITS),
        *[f"{crate}: its edits take {each:.0f} s each, and {most} are due"] * (each > most),
        *[f"{crate}: it has edits, and its proof is above {WITHOUT_EDITS} s"] * (bool(count) and proof > WITHOUT_EDITS),
    ]


def tell(room):
    seconds, whole = read_log(f"{room}/calls.log")
    kinds = ("proof", "tests", "edits", "program")
    print("| Crate | Proof | Tests | Edits | Program |\n|---|---|---|---|---|")
    for crate in sorted(seconds, key=lambda it: -sum(seconds[it].values())):
        print(f"| `{crate}` |", " | ".join(f"{seconds[crate][it]:.0f}" if seconds[crate][it] else "" for it in kinds), "|")
    sums = [sum(of[it] for of in seconds.values()) for it in kinds]
    print("| All, minutes |", " | ".join(f"{it / 60:.1f}" for it in sums), "|")
    if whole:
        used, wall, status = whole
        print(f"\n{used / 60:.1f} processor minutes in all, {(used - sum(sums)) / 60:.1f} of them the gate's own and runs of tests and programs; {wall / 60:.1f} minutes on the clock; status {status}.")
        sums = [used]
    over = [it for crate in sorted(seconds) for it in above_budget(crate, seconds[crate])]
    over += [f"all: {sum(sums) / 60:.0f} minutes, and {ALL // 60} are due"] * (sum(sums) > ALL)
    print("\nAbove the budget:" if over else "\nNothing is above the budget.")
    for line in over:
        print(f"- {line}")
    return whole[2] if whole else 0


def main():
    words = argparse.ArgumentParser(description=__doc__.split("\n")[0])
    words.add_argument("--room", help="a folder outside the repository in which all stays")
    words.add_argument("--read", help="prints the table of such a folder, and runs nothing")
    words.add_argument("crates", nargs="*", help="the crates to measure, with those below them")
    given = words.parse_args()
    if given.read:
        return tell(given.read)
    if given.room:
        os.makedirs(given.room, exist_ok=True)
        run_gate(given.crates, os.path.abspath(given.room))
        return tell(given.room)
    with tempfile.TemporaryDirectory(prefix="gate-") as room:
        run_gate(given.crates, room)
        return tell(room)


if __name__ == "__main__":
    sys.exit(main())
