"""Times what a key server does for a pull beside the same ciphers and hashes in C, on one machine in one run.

    python3 bench/pulls_server.py [PROGRAM]        at the top of the repository

It builds `case_servers`, or takes it from PROGRAM, and `bench/server.c`. It prints for 16 and for 1,024 SAs how many pulls of present members are served
in a second in a tree of 512 leaves, and what part of that time openssl takes for the ciphers and hashes of their four messages on the server's side, with its
hardware AES switched off. The least processor times of runs in turn count. What it takes to read and write lines is left out: it is the time of a run in which
as many datagrams as those of a pull are the last one again, and are answered by what was answered. Then it prints the most memory that 1,000 and 20,000 pulls
take, and so many drawn datagrams, which make a batch each ninth time, and the disk in memory keeps it. The lines and the answers that are due come from
`bench/server_lines.py`.
"""

import os
import pathlib
import platform
import resource
import subprocess
import sys
import tempfile
import threading

import server_lines

TOP = pathlib.Path(__file__).resolve().parent.parent
CRATE = TOP / "crates" / "case_servers"
PROGRAM = CRATE / "out" / "case_servers"
# the processor's AES and carry-less products off, and nothing else
NO_HARDWARE = dict(os.environ, OPENSSL_ia32cap="~0x200000200000000:~0x0")
SAS = (16, 1_024)
PULLS = 5_000
RUNS = 9
COUNTS = (1_000, 20_000)


def lines(word, *numbers):
    """The lines of a script of one line, and their answer."""
    made = server_lines.Lines()
    getattr(made, word)(*numbers)
    return text_of(made.given), text_of(made.due)


def text_of(texts):
    return "".join(text + "\n" for text in texts)


def repeats(sas):
    """The lines before the pulls, and as many datagrams as the pulls have, each the one before again."""
    made = server_lines.Lines()
    made.pulls(sas, 0)
    begun = len(made.given), len(made.due)
    made.join(server_lines.numbered(0))
    (first, third), (second, *fourth) = made.given[begun[0] :], made.due[begun[1] :]
    return (
        text_of(made.given[: begun[0]] + PULLS * [first] + PULLS * [third]),
        text_of(made.due[: begun[1]] + PULLS * [second] + PULLS * fourth),
    )


def spent():
    """The processor time of all runs that have ended."""
    used = resource.getrusage(resource.RUSAGE_CHILDREN)
    return used.ru_utime + used.ru_stime


def seconds(words, given, due):
    """The processor time of one run, which has to print this."""
    start = spent()
    said = subprocess.run(words, input=given, check=True, capture_output=True, text=True, env=NO_HARDWARE).stdout
    took = spent() - start
    assert said == due
    return took


def a_second(runs):
    """How many pulls each way of running makes in a second, beside the run that makes none."""
    whole, none = ({name: [] for name in runs} for _ in range(2))
    for _ in range(RUNS):
        for name, (with_pulls, without) in runs.items():
            whole[name].append(seconds(*with_pulls))
            none[name].append(seconds(*without))
    return {name: PULLS / (min(whole[name]) - min(none[name])) for name in runs}


def most_memory(program, given, due):
    """The most memory that a run had at once after it answered these lines, in KiB. The system is asked while the program waits for another line."""
    with subprocess.Popen([program], stdin=subprocess.PIPE, stdout=subprocess.PIPE, text=True) as run:
        writer = threading.Thread(target=lambda: (run.stdin.write(given), run.stdin.flush()))
        writer.start()
        for line in due.splitlines(keepends=True):
            assert run.stdout.readline() == line
        writer.join()
        status = pathlib.Path(f"/proc/{run.pid}/status").read_text().splitlines()
        run.stdin.close()
    assert run.returncode == 0
    return next(int(line.split()[1]) for line in status if line.startswith("VmHWM"))


def main():
    assert platform.machine() == "x86_64", "the switches for openssl are those of x86-64"
    if len(sys.argv) == 1:
        with open(CRATE / "stdin", encoding="ascii") as given:
            subprocess.run(["rt", "run"], cwd=CRATE, check=True, stdin=given, stdout=subprocess.DEVNULL)
    program = pathlib.Path(sys.argv[1]).resolve() if len(sys.argv) > 1 else PROGRAM
    with tempfile.TemporaryDirectory() as folder:
        theirs = pathlib.Path(folder) / "server"
        subprocess.run(["cc", "-O2", "-o", theirs, TOP / "bench" / "server.c", "-lcrypto"], check=True)
        runs = {sas: (([program], *lines("pulls", sas, PULLS)), ([program], *repeats(sas))) for sas in SAS}
        runs["openssl"] = tuple(([theirs, str(count)], "", f"{count} pulls\n") for count in (PULLS, 0))
        pulls = a_second(runs)
    for sas in SAS:
        print(f"{sas:>6,} SAs: {pulls[sas]:>9,.0f} pulls a second; openssl's ciphers and hashes take {pulls[sas] / pulls['openssl']:.2f} of that time")
    for count in COUNTS:
        for words in (("pulls", 40, count), ("drawn", count, 1)):
            print(f"{words[0]:>8} {count:>7,}: {most_memory(program, *lines(*words)):>7,} KiB")


if __name__ == "__main__":
    main()
