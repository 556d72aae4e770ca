"""Prints the table of bench/run from the times of `speed time` and the counts that callgrind dumped, and what they say of small sizes.

    python3 bench/table.py TIMES COUNT-FILE ...
"""

import sys

from figures import MEBIBYTE, TWENTIETH, blocks, counts, line, ratio, times

OURS, OPENSSL, PORTABLE, ONE_CALL = range(4)
HEADINGS = [
    ("what", "size", "ours:", "ours:", "to OpenSSL's", "", "to portable C's", "", "to one call of"),
    ("", "", "ns", "instructions", "speed", "instr.", "speed", "instr.", "KMACXOF256"),
]
WIDTHS = [29, 9, 12, 14, 14, 9, 17, 9, 16]
RUNS = 64  # of the permutation, in the first row
KMAC_RUNS = 3  # of the permutation in KMACXOF256 of 64 bytes: customisation, key, message


def row(key, measured, counted):
    """The fields of one line; a ratio above 1 means that ours takes less."""
    name, size = key
    ns = [turns[TWENTIETH] for turns in measured[key]]
    instructions = [counted.get((*key, worker), 0) for worker in (OURS, OPENSSL, PORTABLE)]
    compared = [
        field
        for worker in (OPENSSL, PORTABLE)
        for field in (ratio(ns[worker], ns[OURS]), ratio(instructions[worker], instructions[OURS]))
    ]
    return [name, f"{size:,}", f"{ns[OURS]:,.0f}", f"{instructions[OURS]:,}", *compared, ratio(ns[ONE_CALL], ns[OURS])]


def a_block(counted, name):
    """What each block more costs in a row, from our counts of its longest size and of a shorter one."""
    long, short = (counted[name, size, OURS] for size in (MEBIBYTE, 4_096))
    return (long - short) / (blocks(MEBIBYTE) - blocks(4_096))


def small_sizes(counted):
    """What a block and a short call cost, from our counts: their permutations, and what is around these."""
    absorbed, squeezed = (a_block(counted, name) for name in ("SHAKE256", "KMACXOF256, output of"))
    permutation = counted["Keccak-p[1600, 24], runs", RUNS, OURS] / RUNS
    beyond = counted["KMACXOF256", 64, OURS] - KMAC_RUNS * permutation
    return [
        f"An absorbed block takes {absorbed:,.0f} instructions, a squeezed one {squeezed:,.0f}, a permutation {permutation:,.0f}.",
        f"KMACXOF256 of 64 bytes takes {beyond:,.0f} beyond its {KMAC_RUNS} permutations, {beyond / permutation / KMAC_RUNS:.1%} of them.",
    ]


def main(times_path, count_paths):
    measured, counted = times(times_path), counts(count_paths)
    for heading in HEADINGS:
        print(line(WIDTHS, heading))
    for key in measured:
        print(line(WIDTHS, row(key, measured, counted)))
    print("", *small_sizes(counted), sep="\n")


if __name__ == "__main__":
    main(sys.argv[1], sys.argv[2:])
