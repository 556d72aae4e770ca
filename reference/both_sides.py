"""docs/RULES.md, "Facts": every row and every count, asked of the reference.

plan_sides.py has those of plans, and asks what has no cases in vectors/ too: the walker, writing, the report, hall plans, migration and the places of malformed
plans.

    python3 reference/both_sides.py

Prints `N rows agree`, or each difference and exit status 1.
"""

import sys

import generator
import plan_sides
from sealing import seal
from sp800_185 import cshake256, encode_string, kmacxof256, left_encode, right_encode

KEY = bytes(32)


def encodings():
    """P1 to P7."""
    return [
        ("P1", left_encode(0), bytes.fromhex("0100")),
        ("P2", right_encode(0), bytes.fromhex("0001")),
        ("P3", left_encode(255), bytes.fromhex("01FF")),
        ("P4", left_encode(256), bytes.fromhex("020100")),
        ("P5", right_encode(256), bytes.fromhex("010002")),
        ("P6", encode_string(b"KMAC"), bytes.fromhex("01204B4D4143")),
        ("P7", left_encode(136), bytes.fromhex("0188")),
    ]


def counts():
    """The counts of the one-shot calls."""
    none = b""
    return [
        ("32 out", kmacxof256(KEY, none, 32, none)[1], 3),
        ("none out", kmacxof256(KEY, none, 0, none)[1], 3),
        ("136 out", kmacxof256(KEY, none, 136, none)[1], 3),
        ("137 out", kmacxof256(KEY, none, 137, none)[1], 4),
        ("message of 133", kmacxof256(KEY, bytes(133), 32, none)[1], 3),
        ("message of 134", kmacxof256(KEY, bytes(134), 32, none)[1], 4),
        ("customisation of 125", kmacxof256(KEY, none, 32, bytes(125))[1], 3),
        ("customisation of 126", kmacxof256(KEY, none, 32, bytes(126))[1], 4),
        ("SHAKE256 of nothing", cshake256(none, 32, none, none)[1], 1),
        ("sealing nothing", seal(KEY, none, none, none, 0, 32)[1], 6),
        ("sealing 104", seal(KEY, none, bytes(104), none, 104, 32)[1], 6),
        ("sealing 105", seal(KEY, none, bytes(105), none, 105, 32)[1], 7),
    ]


def draws(title, kind, most_seed, seeding, piece):
    """Of one generator the counts of seedings, on both sides of the longest seed that leaves a block unfilled, and of draws; a draw of 20 is not two of 10."""
    fresh = generator.Generator(kind)
    _, runs, seeded = generator.seed(fresh, b"", b"")
    first = generator.draw(seeded, b"", 10)
    second = generator.draw(first[3], b"", 10)
    whole = generator.draw(seeded, b"", 20)
    rows = [
        ("empty seed", runs, seeding),
        (f"seed of {most_seed}", generator.seed(fresh, bytes(most_seed), b"")[1], seeding),
        (f"seed of {most_seed + 1}", generator.seed(fresh, bytes(most_seed + 1), b"")[1], seeding + 1),
        ("draw of 208", generator.draw(seeded, b"", 208)[1], piece),
        ("draw of 209", generator.draw(seeded, b"", 209)[1], 2 * piece),
        ("draw of 0", generator.draw(seeded, b"", 0), (0, 0, b"", seeded)),
        ("additional input of 84", generator.draw(seeded, bytes(84), 208)[:2], (0, piece)),
        ("additional input of 85", generator.draw(seeded, bytes(85), 208), (3, 0, None, seeded)),
        ("two draws of 10 are one of 20", first[2] + second[2] == whole[2], False),
    ]
    return [(f"{title}, {row}", found, expected) for row, found, expected in rows]


def generators():
    """The two generators."""
    return draws("cSHAKE generator", generator.CSHAKE, 134, 2, 3) + draws("KMAC generator", generator.KMAC, 132, 3, 4)


def main():
    rows = encodings() + plan_sides.rows() + counts() + generators()
    wrong = [(title, found, expected) for title, found, expected in rows if found != expected]
    for title, found, expected in wrong:
        print(f"{title}: expected {expected}, the reference gives {found}")
    if not wrong:
        print(f"{len(rows)} rows agree")
    return 1 if wrong else 0


if __name__ == "__main__":
    sys.exit(main())
