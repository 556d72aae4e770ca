"""Cases of running sessions: one message cut in many ways, refusals in every phase, and the totals of 16,777,216 bytes.

Each call's number, and each ask's bytes as they then stand in the lent buffer, go into the checksum; the answer in one piece and one portion is written out.
The totals are SHAKE256's, whose bytes are taken from hashlib: this reference would run the permutation 123,362 times for each.
"""

import hashlib

from fips202 import RATE
from hash_cases import pattern
from refusals import MESSAGE_LIMIT, OUTPUT_LIMIT
from sessions import give, start_cshake256, start_kmacxof256, take

MESSAGE = pattern(3, 7, 409)
OUTPUT = 300
SIZES = (1, 2, 3, 7, 67, 135, 136, 137, 271, 272, 273, 408, 409)
FIRSTS = (1, 8, 67, 128, 135, 136)
LONG = bytes(4097)
PART = b"\x5a" * 65536


class Run:
    """A session and its calls, each put among the cases."""

    def __init__(self, cases):
        self.cases, self.session = cases, None

    def start(self, letter, named, custom):
        self.cases.put("session", letter, strings=(named, custom))
        number, self.session = (start_cshake256 if letter == "n" else start_kmacxof256)(named, custom)
        self.cases.add((number,))
        return self

    def take(self, piece):
        self.cases.put("session", "t", strings=(piece,))
        number, self.session = take(self.session, piece)
        self.cases.add((number,))
        return self

    def give(self, length, shown=False):
        self.cases.put("session", "G" if shown else "g", length)
        number, given, self.session = give(self.session, length)
        return self.gave(number, b"\xa5" * length if given is None else given, shown)

    def gave(self, number, lent, shown=False):
        """What the lent bytes then hold, and the number."""
        if shown:
            self.cases.answer("session", number, 0, lent)
        self.cases.add(lent)
        self.cases.add((number,))
        return self


def whole(cases, start):
    """In one piece and one portion."""
    Run(cases).start(*start).take(MESSAGE).give(OUTPUT, shown=True)
    cases.end("session")


def in_two(cases, start):
    for cut in range(len(MESSAGE) + 1):
        Run(cases).start(*start).take(MESSAGE[:cut]).take(MESSAGE[cut:]).give(OUTPUT)
    cases.end("session")


def in_parts(cases, start, size):
    """In pieces and portions of this size, each after an empty one."""
    run = Run(cases).start(*start)
    for at in range(0, len(MESSAGE), size):
        run.take(b"").take(MESSAGE[at : at + size])
    for at in range(0, OUTPUT, size):
        run.give(0).give(min(size, OUTPUT - at))
    cases.end("session")


def over_blocks(cases, start):
    """In three portions, of which the second begins inside a block, or after one, and goes to the next one's end, to a byte before it and to a byte after it."""
    for first in FIRSTS:
        for end in (2 * RATE - 1, 2 * RATE, 2 * RATE + 1):
            Run(cases).start(*start).take(MESSAGE).give(first).give(end - first).give(OUTPUT - end)
    cases.end("session")


def cuts(cases):
    starts = {"SHAKE256": ("n", b"", b""), "cSHAKE256": ("n", b"sorter", b"line 12, chute 3")}
    starts["KMACXOF256"] = ("k", b"a key of the night shift", b"line 1, chute 23")
    for name, start in starts.items():
        cases.heading("session", f"{name}: whole, cut in two, in parts of {', '.join(map(str, SIZES))} bytes, over blocks")
        whole(cases, start)
        in_two(cases, start)
        for size in SIZES:
            in_parts(cases, start, size)
        over_blocks(cases, start)


def refused(cases):
    """A start that is refused, and five calls: an empty piece, a byte, no byte asked for, an empty piece again, a byte asked for."""
    cases.heading("session", "refused starts")
    for start in (
        ("k", LONG, b""), ("k", LONG, LONG), ("k", b"", LONG), ("n", LONG, b""), ("n", b"", LONG), ("n", b"KMAC", LONG), ("n", b"KMAC", b""),
    ):
        Run(cases).start(*start).take(b"").take(b"x").give(0).take(b"").give(1, shown=True)
        cases.end("session")
    cases.heading("session", "accepted starts")
    for start in (("n", LONG[:4096], LONG[:4096]), ("k", LONG[:4096], LONG[:4096]), ("n", b"kmac", b""), ("n", b"KMAC ", b"")):
        Run(cases).start(*start).give(32, shown=True)
        cases.end("session")
    cases.heading("session", "turned by an ask for no bytes")
    for start in (("n", b"sorter", b""), ("k", b"key", b"")):
        Run(cases).start(*start).take(b"abc").give(0).take(b"").take(b"d").give(5, shown=True).take(b"d").give(200, shown=True)
        cases.end("session")


def limits(cases):
    """The totals in 256 parts, and one byte more."""
    cases.heading("session", "16777216 bytes taken, and given")
    run = Run(cases).start("n", b"", b"")
    parts = MESSAGE_LIMIT // len(PART)
    for _ in range(parts):
        run.take(PART)
    run.take(b"x").take(b"")
    cases.put("session", "G", 32)
    run.gave(0, hashlib.shake_256(PART * parts).digest(32), shown=True)
    cases.end("session")
    run, given = Run(cases).start("n", b"", b""), hashlib.shake_256(b"").digest(OUTPUT_LIMIT)
    for at in range(0, OUTPUT_LIMIT, len(PART)):
        cases.put("session", "g", len(PART))
        run.gave(0, given[at : at + len(PART)])
    run.session = run.session._replace(giving=True, given=OUTPUT_LIMIT)
    run.give(1, shown=True).give(0).take(b"")
    cases.end("session")


def add(cases):
    for section in (cuts, refused, limits):
        section(cases)
