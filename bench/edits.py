#!/usr/bin/env python3
"""Tries the edits that the gate leaves out: each is a wrong body that the prover must refuse.

    bench/edits.py [CRATE ..]

`edits/CRATE/` has them in the form of those under `crates/CRATE/must-fail/`. This copies the tree as it stands, puts the edits of these crates,
or of all, in the place of those that the gate tries, and has `rt must-fail` try them. A crate takes one check from nothing, or what is left of
one that `rt check` has kept, and 10 to 60 seconds for each edit. Its status is that of `rt must-fail`.
"""
import os
import shutil
import subprocess
import sys
import tempfile

HERE = os.path.dirname(os.path.dirname(os.path.abspath(__file__)))


def copy_tree(room):
    """Copies the files that git knows, as they stand, and no edit that the gate tries."""
    names = subprocess.run(["git", "ls-files", "-z"], cwd=HERE, stdout=subprocess.PIPE, check=True).stdout.decode().split("\0")
    for name in names:
        if os.path.isfile(f"{HERE}/{name}") and "/must-fail/" not in name:
            os.makedirs(os.path.dirname(f"{room}/{name}"), exist_ok=True)
            shutil.copy2(f"{HERE}/{name}", f"{room}/{name}")


def main():
    with_edits = sorted(it for it in os.listdir(f"{HERE}/edits") if os.path.isdir(f"{HERE}/edits/{it}"))
    crates = sys.argv[1:] or with_edits
    lacking = [it for it in crates if it not in with_edits]
    if lacking:
        print(f"edits/ has none of {' '.join(lacking)}; it has {' '.join(with_edits)}")
        return 2
    with tempfile.TemporaryDirectory(prefix="edits-") as room:
        copy_tree(room)
        for crate in crates:
            shutil.copytree(f"{HERE}/edits/{crate}", f"{room}/crates/{crate}/must-fail")
        return subprocess.run(["rt", "must-fail", *crates], cwd=room, stdin=subprocess.DEVNULL).returncode


if __name__ == "__main__":
    sys.exit(main())
