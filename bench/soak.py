"""Times the soak beside the same in C, and long scripts of such rounds, on one machine in one run.

    python3 bench/soak.py [FOLDER]        at the top of the repository

It builds `gdoi_console` and `bench/console.c`. Both run one soak: ours with one worker and with four, C with the pulls of a round one after the other. C
neither makes a report nor keeps a history. For each it prints the least processor time and the least time on the clock of runs by turns, both also divided by
those of C, and the most memory. It sees that all print the summary that is due, which is also counted from the report of the same script, generated here, and
that ours with one worker leaves the journal that C leaves.

Then ours runs scripts with more and more rounds, the report in a file. As many lines as a script may have are 780 rounds of a soak, 19.5 times as many as a
soak has; 4,000 rounds, a hundred times as many, are in one script only if they are small: of 65 members one goes out, another comes in, and all take both
pushes. The scripts of small rounds C runs as well, and both print the same and leave the same journal. For each script it prints the least processor time of
runs by turns, the most memory, and both divided by the number of rounds. For each kind of rounds it prints the straight line that is nearest to what was
measured: how much it has for no round and for each one, and how much of a measured value the line is off at most.

The files lie in a new folder in FOLDER, or else in /var/tmp, which has to be on a device. The processor's AES is switched off for openssl.
"""

import pathlib
import sys
import tempfile

import console

# the soak that is timed, and what it prints
NUMBER, WORKERS = 7, (1, 4)
SUMMARY = "soak 7 epochs 40 sequence 78 members 65 refused 79 agreed 65\nend 0\n"
# of all soaks the depth of the tree, how many names there are, how many of them join and leave in a round, and how the numbers of names are drawn
DEPTH, NAMES, JOINS, LEAVES = 7, 80, 12, 5
MULTIPLIER, INCREMENT = 6_364_136_223_846_793_005, 1_442_695_040_888_963_407
# so many rounds has a soak, and so many have longer ones
ROUNDS = (40, 100, 200, 400, 780)
# how many members there are in small rounds
MEMBERS, SMALL_ROUNDS = 65, (40, 400, 1_000, 2_000, 4_000)
NEW = [console.PROGRAM, "--new", str(DEPTH)]


def drawn(state):
    """The numbers of the names that are drawn, one after the other."""
    while True:
        state = (state * MULTIPLIER + INCREMENT) % 2**64
        yield (state >> 33) % NAMES


def soak(number, rounds):
    """The script of a soak with so many rounds."""
    draws = drawn(number)
    lines = ["allow *"]
    for _ in range(rounds):
        first = next(draws)
        lines += ["together", *(f"join m{(first + i) % NAMES}" for i in range(JOINS)), "end"]
        lines += [f"leave m{next(draws)}" for _ in range(LEAVES)]
        lines += ["batch", "deliver-all"]
    return lines


def small(rounds):
    """The script of so many small rounds: first all members come in, then they change one by one."""
    lines = ["allow *"]
    for first in range(0, MEMBERS, console.CHANGES):
        lines += [f"join m{i}" for i in range(first, min(first + console.CHANGES, MEMBERS))] + ["batch"]
    lines.append("deliver-all")
    for i in range(rounds):
        lines += [f"leave m{i % NAMES}", f"join m{(i + MEMBERS) % NAMES}", "batch", "deliver-all"]
    return lines


def summary(number, report):
    """What a soak sums up, counted from the report of its script: its end is that of the report."""
    epoch = sequence = refused = 0
    members, coming, going, keys = set(), set(), set(), {}
    for line in report.splitlines():
        match line.split():
            case [name, "queued"]:
                coming.add(name)
            case [name, "leaving"]:
                going.add(name)
            case ["epoch", new_epoch, "sequence", new_sequence, "members", count]:
                epoch, sequence, members = int(new_epoch), int(new_sequence), members - going | coming
                coming, going = set(), set()
                assert len(members) == int(count), f"epoch {epoch} has other members"
            case [name, "keyed", of] | [name, "push", _, "taken", "traffic", of]:
                keys[name] = int(of)
            case [_, "refused", *_] | [_, "push", _, "refused", *_]:
                refused += 1
    agreed = sum(keys.get(name) == epoch for name in members)
    return f"soak {number} epochs {epoch} sequence {sequence} members {len(members)} refused {refused} agreed {agreed}\n{report.splitlines()[-1]}\n"


def report_of(folder, command):
    """The report of a run, and its journal."""
    console.run_in(folder, command)
    report, journal = console.left(folder)
    return report.decode(), journal


def least(folder, commands):
    """The least processor time and the least time on the clock of each, in milliseconds."""
    return [(min(it.processor for it in runs) * 1000, min(it.clock for it in runs) * 1000) for runs in console.by_turns(folder, commands)]


def check_soak(folder, commands):
    """Sees that all print the summary that is due, as does the script of the soak, and that the first and the last leave the same journal."""
    console.write_script(folder, soak(NUMBER, ROUNDS[0]))
    report, _ = report_of(folder, NEW)
    assert summary(NUMBER, report) == SUMMARY, "the script has another summary"
    ends = [report_of(folder, command) for command in commands]
    assert all(report == SUMMARY for report, _ in ends), "a summary is another one"
    assert ends[0][1] == ends[-1][1], "the journals differ"


def print_soak(folder, theirs):
    """Times one soak, and prints what ours takes with some workers, and C."""
    asked = ["--soak", str(NUMBER)]
    commands = [[console.PROGRAM, *asked, "--workers", str(workers)] for workers in WORKERS] + [[theirs, *asked]]
    check_soak(folder, commands)
    took = least(folder, commands)
    print(f"{'one soak':24}{'processor, ms':>16}{'ratio':>8}{'clock, ms':>12}{'ratio':>8}{'KiB':>9}")
    for name, command, (processor, clock) in zip([*(f"ours, workers: {workers}" for workers in WORKERS), "C"], commands, took):
        print(f"{name:24}{processor:16.1f}{processor / took[-1][0]:8.2f}{clock:12.1f}{clock / took[-1][1]:8.2f}", end="")
        print(f"{console.peak(folder, command):9}", flush=True)


def check_long(folder, rounds):
    """Sees that a long soak has a batch for each round, and that all members are told."""
    console.write_script(folder, soak(NUMBER, rounds))
    report, _ = report_of(folder, NEW)
    words = summary(NUMBER, report).split()
    told = dict(zip(words[0::2], words[1::2]))
    assert (told["epochs"], told["agreed"], told["end"]) == (str(rounds), told["members"], "0"), "not all rounds were run"


def nearest(numbers, values):
    """The start and the rise of the straight line that is nearest to these values, and how much of a value it is off at most; the squares of that are least."""
    weights = [1 / value**2 for value in values]

    def mean(of):
        return sum(weight * it for weight, it in zip(weights, of)) / sum(weights)

    middle, level = mean(numbers), mean(values)
    rise = mean([(number - middle) * (value - level) for number, value in zip(numbers, values)]) / mean([(number - middle) ** 2 for number in numbers])
    start = level - rise * middle
    return start, rise, max(abs(start + rise * number - value) / value for number, value in zip(numbers, values))


def print_line(what, unit, rounds, values):
    """Prints how straight these grow."""
    start, rise, off = nearest(rounds, values)
    print(f"{what}: {start:.1f} {unit} and {rise:.3f} {unit} a round, at most {off:.1%} off", flush=True)


def print_long(folder, kind, scripts, programs):
    """Times scripts of one kind by their rounds, and prints how time and memory grow."""
    commands = [[program, "--new", str(DEPTH)] for program in programs]
    found = []
    print(f"{kind:24}{'lines':>8}{'ours, ms':>12}{'a round':>10}{'ours, KiB':>11}{'a round':>10}{'C, ms':>12}{'ratio':>8}{'C, KiB':>9}")
    for rounds, script in scripts.items():
        assert len(script) <= console.MOST_LINES, "a script may not have so many lines"
        console.write_script(folder, script)
        console.check_same(folder, commands)
        times = [processor for processor, _ in least(folder, commands)]
        peaks = [console.peak(folder, command) for command in commands]
        found.append((times[0], peaks[0]))
        print(f"{rounds:24}{len(script):8}{times[0]:12.1f}{times[0] / rounds:10.3f}{peaks[0]:11}{peaks[0] / rounds:10.1f}", end="")
        print(f"{times[1]:12.1f}{times[0] / times[1]:8.2f}{peaks[1]:9}" if len(programs) > 1 else f"{'-':>12}{'-':>8}{'-':>9}", flush=True)
    print_line("processor time", "ms", list(scripts), [time for time, _ in found])
    print_line("memory", "KiB", list(scripts), [peak for _, peak in found])


def main():
    with tempfile.TemporaryDirectory(dir=(sys.argv[1:] or ["/var/tmp"])[0]) as name:
        folder = pathlib.Path(name)
        kind = console.file_system(folder)
        console.build()
        theirs = console.compiled(folder)
        console.print_machine(kind)
        print_soak(folder, theirs)
        for rounds in ROUNDS:
            check_long(folder, rounds)
        print_long(folder, "rounds of a soak", {rounds: soak(NUMBER, rounds) for rounds in ROUNDS}, [console.PROGRAM])
        print_long(folder, "small rounds", {rounds: small(rounds) for rounds in SMALL_ROUNDS}, [console.PROGRAM, theirs])


if __name__ == "__main__":
    main()
