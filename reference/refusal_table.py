"""docs/RULES.md, "Numbers": every mix of good and bad arguments, asked of the reference.

    python3 reference/refusal_table.py

Each entry's arguments are given with the number that each value calls for, 0 for a good one; the
answer must be the smallest of them, and a refusal must be blank but for the place of a malformed
plan, which is the first malformed one's where two are lent. Prints `N calls agree`, or each
difference and exit status 1.
"""

import sys
from functools import partial
from itertools import product

import generator
import hall
import migration
import plan
import sealing
import sessions
from sp800_185 import cshake256, kmac256, kmacxof256

LIMIT = 16_777_216
OVER = bytes(LIMIT + 1)
STRING = [(b"", 0), (bytes(4_096), 0), (bytes(4_097), 3)]
NAME = [(b"", 0), (b"kmac", 0), (b"KMAC ", 0), (b"KMA", 0), (bytes(4_096), 0), (bytes(4_097), 3), (b"KMAC", 4)]
KMAC_KEY = [(b"", 0), (bytes(4_096), 0), (bytes(4_097), 2)]
SEALING_KEY = [(bytes(32), 0), (b"", 2), (bytes(31), 2), (bytes(33), 2)]
MESSAGE = [(b"", 0), (b"x", 0), (OVER, 5)]
OUTPUT = [(0, 0), (1, 0), (LIMIT + 1, 6)]
SEED = [(b"", 0), (bytes(65_536), 0), (bytes(65_537), 5)]
SHORT = [(b"", 0), (bytes(84), 0), (bytes(85), 3)]
LABEL = [(b"", 0), (b"x", 0), (bytes(LIMIT - 3), 5)]  # beside a text of 4 bytes
TEXT_OUTPUT = [(4, 0), (3, 6), (5, 6)]
TAG_LENGTH = [(16, 0), (64, 0), (0, 7), (15, 7), (65, 7)]
SEALED, SEALED_TAG = sealing.seal(bytes(32), b"", b"text", b"label", 4, 64)[2:]
TAG = [(SEALED_TAG, 0), (SEALED_TAG[:16], 0), (SEALED_TAG[:15], 7), (b"", 7), (bytes(65), 7), (bytes(16), 8)]
OPEN_LABEL = [(b"label", 0), (b"other", 8), (OVER, 5)]
GENERATORS = {"cSHAKE generator": generator.CSHAKE, "KMAC generator": generator.KMAC}
GOOD_PLAN, LONG_PLAN = bytes.fromhex("0307AC0200"), bytes(65_537)
OLD_PLANS = [bytes.fromhex(lent) for lent in ("8300" "8700" "AC02" "8000", "03" "07" "AC8200" "00")]  # the good one by the old rule
BAD_BY_BOTH = {b"": 0, b"\x01": 1, b"\x00\x00": 1, b"\x01\x80\x80\x80": 3, b"\x81\x20\x07": 0}  # with their places, as those below
BAD_PLANS = BAD_BY_BOTH | {OLD_PLANS[0]: 1, OLD_PLANS[1]: 4, b"\x81\xa0\x00": 2}
LENT_PLAN = [(GOOD_PLAN, 0), *((lent, 9) for lent in BAD_PLANS), (LONG_PLAN, 5)]
OLD_PLAN = [*((lent, 0) for lent in (GOOD_PLAN, *OLD_PLANS)), *((lent, 9) for lent in BAD_BY_BOTH), (LONG_PLAN, 5)]
CHUTE = [(1, 0), (3, 0), (0, 10), (4, 10), (2**32 - 1, 10)]
GOOD_HALLS = bytes.fromhex("02010200" "0700AC02" "0000")  # a hall of two chutes, and a chute: four entries, 10 bytes
BAD_HALLS = {b"": 0, b"\x01": 1, b"\x00\x00": 1, b"\x01\x02\x00": 1, b"\x01" * 16 + b"\x00": 15, b"\x81\x20" + bytes(2 * 4_097): 8_194, b"\x01\x82\x00": 2}
LENT_HALLS = [(GOOD_HALLS, 0), *((lent, 9) for lent in BAD_HALLS), (LONG_PLAN, 5)]
FOUR = [(4, 0), (0, 9), (3, 9), (5, 9)]
OUTER = [(2, 0), (1, 9), (3, 9), (2_097_152, 9), (2**32 + 2, 9)]
KINDS = [([1, 0, 0, 0], 0), ([1, 0, 2, 0], 9), ([1, 0, 0], 9), ([1, 0, 0, 0, 0], 9)]
VALUES = [([2, 7, 300, 0], 0), ([2, 7, 2_097_152, 0], 9), ([2**32 - 1, 7, 300, 0], 9), ([2, 7], 9)]
EMPTY_HALLS = [(32_766, 0), (32_767, 5), (40_000, 5)]  # plans of 65,535 bytes, 65,537 and more
NOT_STARTED = sessions.start_cshake256(b"KMAC", b"")[1]
STARTED = sessions.start_cshake256(b"", b"")[1]
GIVING = sessions.give(STARTED, 0)[2]
GAVE_ONE = sessions.give(STARTED, 1)[2]
FULL = sessions.take(STARTED, bytes(LIMIT))[1]


def written(destination, length):
    """Rows of 3 bytes and 1 byte after the number of rows."""
    return plan.write([destination, 7], length)


def opened(key, label, tag, out_length):
    """Opening what stands in SEALED."""
    return sealing.open_sealed(key, b"", SEALED, label, tag, out_length)


def sealed(key, iv, label, out_length, tag_length):
    """Sealing a text of 4 bytes."""
    return sealing.seal(key, iv, b"text", label, out_length, tag_length)


def empty_halls_length(count, more):
    """The length of a plan of so many empty halls, of which it promises some more."""
    return hall.length(count + more, [1] * count, [0] * count)


def placed(*blank, places=None):
    """What follows the number of a refusal by the arguments' values: this, and last the place of the plan if that is malformed."""
    known = places or BAD_PLANS | BAD_HALLS
    return lambda number, values: (*blank, known.get(values[0], 0) if number == 9 else 0)


def row_refusal(number, values):
    """The same where two plans are lent, which names the malformed one before its place."""
    site, house, _ = values
    if number != 9:
        return None, 0, 0, None, 0
    return None, 0, 0, *(("site", BAD_PLANS[site]) if site in BAD_PLANS else ("house", BAD_PLANS[house]))


def generator_entries(title, kind):
    """The entries of one generator, as below."""
    fresh = generator.Generator(kind)
    seeded = generator.seed(fresh, b"", b"")[2]
    return {
        f"{title}, seed": (partial(generator.seed, seeded), (0, seeded), [SEED, SHORT]),
        f"{title}, draw": (partial(generator.draw, seeded), (0, None, seeded), [SHORT, OUTPUT]),
        f"{title}, draw, not seeded": (partial(generator.draw, fresh), (0, None, fresh), [[(b"", 1), (bytes(85), 1)], [(0, 1)]]),
    }


# Entry: (call, the answer after the number of a refusal or what works that out, the values of its arguments).
ONE_SHOT = {
    "cSHAKE256": (cshake256, (0, None), [MESSAGE, OUTPUT, NAME, STRING]),
    "KMAC256": (kmac256, (0, None), [KMAC_KEY, MESSAGE, [(1, 0), (0, 6), (LIMIT + 1, 6)], STRING]),
    "KMACXOF256": (kmacxof256, (0, None), [KMAC_KEY, MESSAGE, OUTPUT, STRING]),
    "seal": (sealed, (0, None, None), [SEALING_KEY, STRING, LABEL, TEXT_OUTPUT, TAG_LENGTH]),
    "open": (opened, (0, None), [SEALING_KEY, OPEN_LABEL, TAG, TEXT_OUTPUT]),
}
STATES = {
    **{name: entry for title, kind in GENERATORS.items() for name, entry in generator_entries(title, kind).items()},
    "start of cSHAKE256": (sessions.start_cshake256, (NOT_STARTED,), [NAME, STRING]),
    "start of KMACXOF256": (sessions.start_kmacxof256, (NOT_STARTED,), [KMAC_KEY, STRING]),
    "take": (partial(sessions.take, STARTED), (STARTED,), [[*MESSAGE, (bytes(LIMIT), 0)]]),
    "take, full": (partial(sessions.take, FULL), (FULL,), [[(b"", 0), (b"x", 5)]]),
    "take, giving": (partial(sessions.take, GIVING), (GIVING,), [[(b"", 1), (b"x", 1), (OVER, 1)]]),
    "take, not started": (partial(sessions.take, NOT_STARTED), (NOT_STARTED,), [[(b"", 1), (OVER, 1)]]),
    "give": (partial(sessions.give, STARTED), (None, STARTED), [OUTPUT]),
    "give, after one": (partial(sessions.give, GAVE_ONE), (None, GAVE_ONE), [[(0, 0), (1, 0), (LIMIT, 6)]]),
    "give, not started": (partial(sessions.give, NOT_STARTED), (None, NOT_STARTED), [[(0, 0), (1, 6)]]),
}
PLANS = {
    "read": (plan.read, placed(0), [LENT_PLAN]),
    "destination": (plan.destination, placed(0), [LENT_PLAN, CHUTE]),
    "row": (plan.row, row_refusal, [LENT_PLAN, LENT_PLAN, CHUTE]),
    "write": (written, (None, 0), [[(2_097_151, 0), (2_097_152, 9)], [(5, 0), (4, 9), (6, 9)]]),
    "migrated length": (migration.migrated_length, placed(0, places=BAD_BY_BOTH), [OLD_PLAN]),
    "migrate": (migration.migrate, placed(None, places=BAD_BY_BOTH), [OLD_PLAN, [(5, 0), (0, 9), (4, 9), (6, 9)]]),
    "write, too many": (plan.write, (None, 0), [[([0] * 4_097, 9)], [(4_099, 9)]]),
}
HALLS = {
    "hall read": (hall.read, placed(0, 0, 0), [LENT_HALLS]),
    "hall destination": (hall.destination, placed(0), [LENT_HALLS, CHUTE]),
    "hall read into": (hall.read_into, placed(0, 0, 0, None, None), [LENT_HALLS, FOUR, FOUR]),
    "hall length": (hall.length, (0, 0), [OUTER, KINDS, VALUES]),
    "hall length, long": (empty_halls_length, (0, 0), [EMPTY_HALLS, [(0, 0)]]),
    "hall length, long and broken": (empty_halls_length, (0, 0), [[(32_766, 9), (32_767, 9)], [(1, 9), (-1, 9)]]),
    "hall write": (hall.write, (None, 0), [OUTER, KINDS, VALUES, [(10, 0), (9, 9), (11, 9), (65_536, 9), (65_537, 5)]]),
}


def complaint(expected, answer, blank):
    """What is wrong with an answer, None if nothing is."""
    if answer[0] != expected:
        return f"expected {expected}, answered {answer[0]}"
    return f"refusal {expected} is {answer[1:]}, not {blank}" if expected and answer[1:] != blank else None


def wrong_calls(title, call, blank, arguments):
    """(number of calls, a line for each wrong one) over all mixes of the arguments' values."""
    mixes, wrong = list(product(*arguments)), []
    for mix in mixes:
        numbers = [number for _, number in mix]
        expected, values = min(filter(None, numbers), default=0), [value for value, _ in mix]
        found = complaint(expected, call(*values), blank(expected, values) if callable(blank) else blank)
        if found:
            wrong.append(f"{title}, arguments that call for {numbers}: {found}")
    return len(mixes), wrong


def main():
    results = [wrong_calls(title, *entry) for title, entry in (ONE_SHOT | STATES | PLANS | HALLS).items()]
    wrong = [text for _, texts in results for text in texts]
    for text in wrong:
        print(text)
    if not wrong:
        print(f"{sum(calls for calls, _ in results)} calls agree")
    return 1 if wrong else 0


if __name__ == "__main__":
    sys.exit(main())
