"""Times looks at first messages where few and many SAs are introduced, on one machine in one run.

    python3 bench/sessions.py [PROGRAM]        at the top of the repository

It builds `case_servers`, or takes it from PROGRAM, and prints for 16, 1,024 and 65,536 SAs how many first messages are looked at in a second, and that number
divided by the one for 16 SAs. A rule refuses each message once it is read, so that no session begins. The least processor times of runs in turn count. What it
takes to start, to introduce the SAs, and to read and write lines is left out: it is the time of a run in which the messages have another version, and are not
looked at.
"""

import pathlib
import resource
import subprocess
import sys

import reference
import server_lines

TOP = pathlib.Path(__file__).resolve().parent.parent
CRATE = TOP / "crates" / "case_servers"
PROGRAM = CRATE / "out" / "case_servers"
SAS = (16, 1_024, 65_536)
MESSAGES = 16
LOOKS = 48_000
RUNS = 5


def lines(sas, version):
    """What is asked, and what is due."""
    messages = []
    for i in range(MESSAGES):
        phase = server_lines.numbered_phase(i * (sas // MESSAGES))
        message = reference.write_first(phase, b"\x80\0\0\1", bytes(MESSAGES * [7]), server_lines.GROUP)
        messages.append(f"serve {(message[:17] + version + message[18:]).hex()}\n")
    given = [f"group 2 {server_lines.MOST_LIMIT} {sas} 0\n", "deny *\n", f"fill {sas}\n"] + LOOKS // MESSAGES * messages
    looked = version == b"\x10"
    return "".join(given), "made\nrule 1\nintroduced\n" + LOOKS * ("refused denied 1\n" if looked else "refused malformed 0 17\n")


def spent():
    """The processor time of all runs that have ended."""
    used = resource.getrusage(resource.RUSAGE_CHILDREN)
    return used.ru_utime + used.ru_stime


def seconds(program, given, due):
    """The processor time of one run, which has to print this."""
    start = spent()
    said = subprocess.run([program], input=given, check=True, capture_output=True, text=True).stdout
    took = spent() - start
    assert said == due
    return took


def looks_a_second(program):
    """How many looks there are in a second, for each number of SAs."""
    whole, none = ({sas: [] for sas in SAS} for _ in range(2))
    for _ in range(RUNS):
        for sas in SAS:
            whole[sas].append(seconds(program, *lines(sas, b"\x10")))
            none[sas].append(seconds(program, *lines(sas, b"\x11")))
    return {sas: LOOKS / (min(whole[sas]) - min(none[sas])) for sas in SAS}


def main():
    if len(sys.argv) == 1:
        with open(CRATE / "stdin", encoding="ascii") as given:
            subprocess.run(["rt", "run"], cwd=CRATE, check=True, stdin=given, stdout=subprocess.DEVNULL)
    looks = looks_a_second(sys.argv[1] if len(sys.argv) > 1 else PROGRAM)
    for sas, count in looks.items():
        print(f"{sas:>6} SAs: {count:>9,.0f} looks a second, {count / looks[SAS[0]]:.2f} of the first")


if __name__ == "__main__":
    main()
