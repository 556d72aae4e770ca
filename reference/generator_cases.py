"""Cases of the cSHAKE generator, and the same of the KMAC generator after them: docs/RULES.md's counts and limits, and a long draw.

A heading names the KMAC generator where it is the one. A line has number, count and the key after the call; after a draw stands the output, of which a refused
draw leaves the bytes AA that stood there before, and after the long one the checksum of the lent buffer.
"""

from typing import NamedTuple

from generator import CSHAKE, KMAC, Generator, Kind, draw, seed
from hash_cases import pattern

BUFFER = 524_288
SHORT = b"\x77" * 85
LONG = pattern(3, 7, 65_537)


class Family(NamedTuple):
    """The cases of one generator: what their headings begin with, and the letters of a seeding, a draw and a long draw."""

    kind: Kind
    heading: str
    seed: str
    draw: str
    long_draw: str


FAMILIES = (Family(CSHAKE, "", "s", "d", "D"), Family(KMAC, "KMAC generator, ", "k", "m", "M"))


class Run:
    """A generator and its calls, each put among the cases."""

    def __init__(self, cases, family):
        self.cases, self.family, self.generator = cases, family, Generator(family.kind)
        cases.put("generator", "f")

    def seed(self, title, seed_bytes, personalisation):
        self.cases.heading("generator", self.family.heading + title)
        self.cases.put("generator", self.family.seed, strings=(seed_bytes, personalisation))
        number, runs, self.generator = seed(self.generator, seed_bytes, personalisation)
        self.cases.answer("generator", number, runs, self.generator.key)

    def draw(self, title, additional, length, long=False):
        self.cases.heading("generator", self.family.heading + title)
        self.cases.put("generator", self.family.long_draw if long else self.family.draw, length, strings=(additional,))
        number, runs, output, self.generator = draw(self.generator, additional, length)
        self.cases.answer("generator", number, runs, self.generator.key)
        lent = b"\xaa" * length if output is None else output
        if long:
            self.cases.total = 0
            self.cases.add(lent + b"\xaa" * (BUFFER - length))
            self.cases.write("generator", str(self.cases.total))
        else:
            self.cases.write("generator", lent.hex())


def first_draws(cases, family):
    """Draws before the first seeding; a seeding of nothing, and a draw of 20 beside two of 10."""
    run = Run(cases, family)
    run.draw("never seeded, 0 bytes", b"", 0)
    run.draw("never seeded, 10 bytes", b"", 10)
    run.seed("empty seed", b"", b"")
    run.draw("0 bytes", b"", 0)
    run.draw("20 bytes", b"", 20)
    run = Run(cases, family)
    run.seed("empty seed", b"", b"")
    run.draw("10 bytes", b"", 10)
    run.draw("10 bytes more", b"", 10)
    return run


def edges(run):
    """Both sides of the end of a piece's first output block, of a piece, of a seeding's first block and of every limit; and a long draw."""
    run.seed("seeded again", b"parcels", b"depot 7")
    for additional, length in ((b"", 1), (b"hall", 72), (b"hall", 73), (b"", 207), (b"", 208), (b"", 209), (b"line", 416), (b"line", 417)):
        run.draw(f"{length} bytes", additional, length)
    run.draw("additional input of 84", SHORT[:84], 32)
    run.draw("additional input of 85", SHORT, 32)
    for length in (132, 133, 134, 135):
        run.seed(f"seed of {length}", LONG[:length], b"")
    run.seed("personalisation of 84", b"seed", SHORT[:84])
    run.seed("personalisation of 85", b"seed", SHORT)
    run.seed("seed of 65,536", LONG[:-1], b"")
    run.seed("seed of 65,537", LONG, b"")
    run.seed("seed of 65,537, personalisation of 85", LONG, SHORT)
    run.draw("after the refusals", b"", 32)
    run.draw("500,000 bytes", b"night shift", 500_000, long=True)


def add(cases):
    for family in FAMILIES:
        edges(first_draws(cases, family))
