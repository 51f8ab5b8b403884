"""Starts a second console in the folder of a running one.

    python3 bench/two.py PROGRAM

The second has to end with status 6 and leave the journal as it is; the first goes on, and then its group opens.
"""
import os
import subprocess
import sys
import tempfile


def asked(first, lines, until):
    """Gives the first console lines, and reads its report up to a line that begins so."""
    first.stdin.write(lines)
    first.stdin.flush()
    line = first.stdout.readline()
    while not line.startswith(until):
        assert line, "the first console ended"
        line = first.stdout.readline()


def main():
    program = os.path.abspath(sys.argv[1])
    with tempfile.TemporaryDirectory() as folder:
        journal = f"{folder}/group.journal"
        first = subprocess.Popen([program, "--new", "3"], cwd=folder, stdin=subprocess.PIPE, stdout=subprocess.PIPE, text=True)
        asked(first, "allow *\njoin a\nbatch\n", "epoch 1 ")
        with open(journal, "rb") as file:
            before = file.read()
        rights = os.stat(journal).st_mode & 0o777
        for words, line in (["--open"], "open refused disk-fault"), (["--new", "2"], "new refused disk-fault"):
            second = subprocess.run([program, *words], cwd=folder, input="show\n", stdout=subprocess.PIPE, text=True)
            with open(journal, "rb") as file:
                after = file.read()
            assert second.returncode == 6 and second.stdout.splitlines()[0] == line and after == before, (second, len(after))
        asked(first, "join b\nbatch\n", "epoch 2 ")
        first.stdin.close()
        first.stdout.read()
        assert first.wait() == 0
        third = subprocess.run([program, "--open"], cwd=folder, input="show\n", stdout=subprocess.PIPE, text=True)
        assert third.returncode == 0 and " epoch 2 " in third.stdout.splitlines()[0], third
        assert rights == 0o600, oct(rights)
    print("the second console ended with status 6, the first went on")


main()
