"""Prints the table of bench/before_after from the times of `speed time` and the counts that callgrind dumped.

    python3 bench/before_after.py TIMES COUNT-FILE ...
"""

import sys

from figures import BLOCK, MEBIBYTE, blocks, counts, line, ratio, times

BEFORE, AFTER = range(2)
A_BLOCK = {"SHAKE256": "an absorbed", "KMACXOF256, output of": "a squeezed"}  # what the blocks of these rows are
HEADINGS = [
    ("", "", "before: ns", "", "after: ns", "", "before to after", "", "instructions", "", ""),
    ("what", "size", *["1 in 20", "median"] * 3, "before", "after", "ratio"),
]
WIDTHS = [28, 10, 13, 12, 13, 12, 17, 9, 15, 12, 7]


def row(name, size, ns, instructions, parts=1):
    """The fields of one line, of one of so many equal parts of the work; a ratio above 1 means that the later archive takes less."""
    taken = [f"{turns / parts:,.0f}" for worker in (BEFORE, AFTER) for turns in ns[worker]]
    compared = [ratio(before, after) for before, after in zip(ns[BEFORE], ns[AFTER])]
    return [name, f"{size:,}", *taken, *compared, *(f"{count / parts:,.0f}" for count in instructions), ratio(*instructions)]


def main(times_path, count_paths):
    measured, counted = times(times_path), counts(count_paths)
    for heading in HEADINGS:
        print(line(WIDTHS, heading))
    for (name, size), ns in measured.items():
        instructions = [counted[name, size, worker] for worker in (BEFORE, AFTER)]
        print(line(WIDTHS, row(name, size, ns, instructions)))
        if name in A_BLOCK and size == MEBIBYTE:
            print(line(WIDTHS, row(f"  of that, {A_BLOCK[name]} block", BLOCK, ns, instructions, blocks(size))))


if __name__ == "__main__":
    main(sys.argv[1], sys.argv[2:])
