"""Makes the lines that `case_blocks` answers, and the answers that are due, by counting.

    python3 bench/block_lines.py CRATE        writes CRATE/stdin and CRATE/stdout

A join has a turn for its first message, and one for its third where the first was answered and the answer did not go missing. It waits where the tree has a leaf
for it and fewer than 32 changes wait, and a leave of a member where fewer than 32 do. A disk that fails at a call of a batch has that batch refused, and all after it. Making a group takes 11 calls of the disk, a
batch four.
"""
import pathlib
import sys

MOST_CHANGES, CREATION, A_BATCH = 32, 11, 4


class Group:
    """What is known of a group, whatever the order of the turns was."""

    def __init__(self, out, depth, seed, count, fails=()):
        self.out, self.leaves, self.fails = out, 2**depth, set(fails)
        self.calls, self.members, self.joining, self.leaving, self.stopped = CREATION, set(), set(), set(), False
        self.made = not any(it <= CREATION for it in self.fails)
        out.say(" ".join(["group", str(depth), str(seed), str(count), *map(str, fails)]), "made" if self.made else "refused")

    def joins(self, numbers, lose=False):
        """The answers to lines by which these join: turns, second, fourth, queued, refused."""
        if self.stopped:
            return [len(numbers), 0, 0, 0, len(numbers)]
        if lose:
            return [len(numbers), len(numbers), 0, 0, 0]
        again = [it for it in numbers if it in self.members]
        new = [it for it in numbers if it not in self.members]
        room = min(self.leaves - len(self.members - self.leaving) - len(self.joining), MOST_CHANGES - len(self.joining) - len(self.leaving))
        queued = new[: max(room, 0)]
        self.joining |= set(queued)
        return [2 * len(numbers), len(numbers), len(again), len(queued), len(new) - len(queued)]

    def leave(self, numbers):
        """Turns, leaving, refused. Where not all may wait, it is not known who does."""
        due = [it for it in numbers if it in self.members - self.leaving and not self.stopped]
        due = due[: MOST_CHANGES - len(self.joining) - len(self.leaving)]
        self.leaving |= set(due)
        return [len(numbers), len(due), len(numbers) - len(due)]

    def batch(self):
        """Whether a batch is made."""
        if self.stopped:
            return False
        self.stopped = any(self.calls < it <= self.calls + A_BATCH for it in self.fails)
        self.calls += A_BATCH
        if self.stopped:
            return False
        self.members = (self.members - self.leaving) | self.joining
        self.joining, self.leaving = set(), set()
        return True

    def tell(self, words, turns=0, second=0, fourth=0, queued=0, leaving=0, batched=0, refused=0, looked=0):
        named = dict(turns=turns, second=second, fourth=fourth, queued=queued, leaving=leaving, batched=batched, refused=refused, looked=looked)
        self.out.say(words, " ".join(f"{name} {count}" for name, count in named.items()) + " whole")

    def block_of_joins(self, workers, first, last, word="join", looks=0):
        numbers = list(range(first, last + 1))
        turns, second, fourth, queued, refused = self.joins(numbers, word == "lose")
        words = [f"{word}{first}-{last}"] + ["now"] * looks
        self.tell(f"block {workers} {' '.join(words)}", turns, second, fourth, queued, refused=refused, looked=looks)

    def block_of_leaves(self, workers, first, last):
        turns, leaving, refused = self.leave(range(first, last + 1))
        self.tell(f"block {workers} leave{first}-{last}", turns, leaving=leaving, refused=refused)

    def block_of_batch(self, workers, looks=0):
        made = self.batch()
        words = ["batch"] + ["now"] * looks
        self.tell(f"block {workers} {' '.join(words)}", 1, batched=int(made), refused=int(not made), looked=looks)

    def mixed(self, workers, joins, looks=0):
        """Joins around one batch, in any order: who is a member then is not known."""
        made = self.batch()
        words = [f"join{first}-{last}" for first, last in joins[:1]] + ["batch"] + [f"join{first}-{last}" for first, last in joins[1:]] + ["now"] * looks
        self.out.say(f"mixed {workers} {' '.join(words)}", f"batched {int(made)} refused {int(not made)} looked {looks} whole")

    def crash(self, choice):
        self.out.say(f"crash {choice}", "kept")


class Out:
    def __init__(self):
        self.asked, self.due = [], []

    def say(self, asked, due):
        self.asked.append(asked)
        self.due.append(due)


def lives(out):
    """A group's life by so many workers: some come, are told again, go, and some come whose messages go missing."""
    for workers in range(1, 17):
        for seed, lines in enumerate((1, 2, 3, 16), 100 * workers):
            group = Group(out, 5, seed, 40)
            group.block_of_joins(workers, 1, lines, looks=min(2, lines))
            group.block_of_batch(workers, looks=1)
            group.block_of_joins(workers, 1, lines)
            group.block_of_joins(workers, 21, 20 + lines, word="lose")
            group.block_of_leaves(workers, 1, lines)
            group.block_of_batch(workers)
            group.crash(1)


def many(out):
    """512 lines: 32 can wait, and all leaves are given in 16 batches."""
    for workers in (1, 2, 4, 16):
        group = Group(out, 9, workers, 512)
        group.block_of_joins(workers, 1, 512)
        group.block_of_batch(workers)
        group.crash(0)
    group = Group(out, 9, 5, 512)
    for first in range(1, 513, 32):
        group.block_of_joins(16, first, first + 31)
        group.block_of_batch(16)
    group.block_of_joins(16, 1, 512)
    group.block_of_leaves(16, 1, 512)
    group.crash(1)


def faults(out):
    """Each call of the disk fails, and after each end a crash leaves what was answered."""
    for lines in (1, 2, 3, 16):
        for workers in (1, 3, 16):
            for call in range(1, CREATION + 2 * A_BATCH + 2):
                for choice in range(8):
                    group = Group(out, 5, 1000 + call, 40, [call])
                    if not group.made:
                        break
                    group.mixed(workers, [(1, max(1, lines // 2)), (10, 9 + max(1, lines - lines // 2))], looks=1)
                    group.block_of_batch(workers)
                    group.crash(choice)


def many_faults(out):
    for workers in (1, 16):
        for call in range(CREATION + 1, CREATION + 2 * A_BATCH + 2):
            group = Group(out, 9, 2000 + call, 512, [call])
            group.mixed(workers, [(1, 255), (256, 511)])
            group.block_of_batch(workers)
            group.crash(call)


def gates(out):
    """Two lines are under way at once where two workers run them, and not where one does."""
    for lines, workers, met in ((3, 3, True), (3, 2, True), (3, 1, False), (2, 16, True)):
        Group(out, 2, 7, 3)
        looks = 1_000_000_000 if met else 100
        out.say(f"meet {workers} {looks} join1-{lines}", f"{'met' if met else 'apart'} looked 0 whole")


def main():
    out = Out()
    for part in (lives, many, faults, many_faults, gates):
        part(out)
    crate = pathlib.Path(sys.argv[1])
    (crate / "stdin").write_text("".join(f"{it}\n" for it in out.asked))
    (crate / "stdout").write_text("".join(f"{it}\n" for it in out.due))


if __name__ == "__main__":
    main()
