"""The figures of `speed time` and `speed count`, and how the tables made of them are laid out. Used by table.py and before_after.py."""

import re

BLOCK = 136  # bytes that are absorbed, or squeezed, with one permutation
MEBIBYTE = 1_048_576
TWENTIETH, MEDIAN = range(2)  # of the times of turns: what one in twenty does not exceed, and what every other does not


def counts(paths):
    """{(name, size, worker): instructions} of the dumps; one without a trigger is the rest of the program's. Of a dump's two sums the `summary` is what was
    run; `totals` may be higher where counting began inside a call."""
    found = {}
    for path in paths:
        with open(path, encoding="ascii") as dump:
            head = dump.read(4_000)
        trigger = re.search(r"^desc: Trigger: Client Request: (.*);(\d+);(\d)$", head, re.MULTILINE)
        if trigger:
            found[trigger[1], int(trigger[2]), int(trigger[3])] = int(re.search(r"^summary: (\d+)$", head, re.MULTILINE)[1])
    return found


def times(path):
    """{(name, size): nanoseconds of each worker (TWENTIETH, MEDIAN), 0 where it has none}, in the order measured."""
    with open(path, encoding="ascii") as lines:
        fields = [line.rstrip("\n").split(";") for line in lines]
    return {(name, int(size)): [[float(ns) for ns in turns.split(" ")] for turns in measured] for name, size, *measured in fields}


def blocks(size):
    """The blocks that SHAKE256 absorbs of a message of so many bytes, the padded one included; and those of an output of so many, if it ends inside one."""
    return size // BLOCK + 1


def ratio(theirs, ours):
    return f"{theirs / ours:.3f}" if theirs else "-"


def line(widths, fields):
    """A line of a table: the first field at the left, the others each at the right of its column."""
    first, *others = fields
    return (first.ljust(widths[0]) + "".join(field.rjust(width) for field, width in zip(others, widths[1:]))).rstrip()
