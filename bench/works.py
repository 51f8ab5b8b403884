"""The changes of the batches of a work: what `core.py` and `store.py` have `case_rooms` do, and `core.c` does by itself.

Batches of the kind `large` have 32 changes each, and those of `small` four. Members come in until the tree is full, or nearly full. From then on as many go
out as a batch has changes, and others come in, in turn: first those go who filled the tree, far from each other, and then the others as they came.
"""

CHANGES = {"large": 32, "small": 4}


def filling(kind, leaves):
    """How many batches fill a tree of so many leaves."""
    return leaves // 32 if kind == "large" else leaves // 4 - 3


def change(kind, full, number, i):
    """A change of the batch of this number, where so many batches fill the tree."""
    changes = CHANGES[kind]
    members = changes * full
    if number < full:
        return f"+m{number * changes + i}"
    turns = number - full
    place = turns // 2 * changes + i
    if turns % 2 == 1:
        return f"+m{place + members}"
    return f"-m{place % changes * full + place // changes if place < members else place}"


def words(kind, depth, count):
    """The words of so many batches in a tree of this depth: each change, and `.` after those of a batch."""
    full = filling(kind, 1 << depth)
    return " ".join(f"{change(kind, full, number, i)}" + " ." * (i == CHANGES[kind] - 1) for number in range(count) for i in range(CHANGES[kind]))


def line(path, kind, depth, count):
    """The line that asks for them, in a group on the file at a path."""
    return f"core work {path} {depth} {words(kind, depth, count)}\n"
