"""Random calls of the plan's entries: good plans, damaged ones, and plans around every limit."""

import plan
from callfile import pattern, written
from choose import SEED

ROWS, LARGEST = 4_096, 2_097_151
VALUES = [0, 1, 127, 128, 300, 16_383, 16_384, 2_097_150, LARGEST]
FAR = [0, ROWS, ROWS + 1, 2**31, 2**32 - 1, 2**32, 2**32 + 1, 2**63, 2**64 - 1]  # chutes of other plans, or of none
SOURCES = [None, "site", "house"]


def destination(rng):
    """A destination around a change of width, or any."""
    return rng.choice(VALUES) if rng.random() < 0.6 else rng.randint(0, LARGEST)


def destinations(rng):
    choice = rng.random()
    if choice < 0.01:
        count = rng.choice([127, 128, 129, ROWS - 1, ROWS])
    else:
        count = rng.randint(0, 3 if choice < 0.3 else 40)
    return [destination(rng) for _ in range(count)]


def in_three_groups(value):
    """A number in more groups than it may need, which the migration alone accepts."""
    return bytes([value & 127 | 128, value >> 7 & 127 | 128, value >> 14])


def padded(rng, number):
    """A number of a plan in one group more, or two if there is room for them."""
    groups = min(3, len(number) + rng.choice([1, 1, 2]))
    return bytes([*(byte | 128 for byte in number), *[128] * (groups - len(number))])[:-1] + b"\x00" if groups > len(number) else number


def padded_sometimes(rng, share):
    """A writer of numbers, such a share of them in more groups than they need, if they can have more."""
    return lambda value: padded(rng, plan.written_number(value)) if rng.random() < share else plan.written_number(value)


def plan_of(rows, number):
    """The plan with these rows, each number as `number` writes it."""
    return b"".join(map(number, [len(rows), *rows]))


def damaged(rng, good):
    """A plan with a bit flipped, bytes cut, added or put in, or a number of too many groups: more than three, or more than it needs."""
    if not good:
        return rng.randbytes(1)
    at = rng.randrange(len(good))
    return rng.choice(
        [
            good[:at] + bytes([good[at] ^ 1 << rng.randrange(8)]) + good[at + 1 :],
            good[:-1],
            good[:at],
            good[:at] + good[at + 1 :],
            good + rng.randbytes(rng.randint(1, 3)),
            good[:at] + rng.randbytes(1) + good[at:],
            good[:-1] + rng.choice([b"\x80\x80\x80\x00", b"\x80\x80\x80", b"\x80\x80"]),
            good[:at] + b"\xff\xff\xff" + good[at:],
            good[:at] + bytes([good[at] | 128]) + rng.choice([b"\x00", b"\x80\x00"]) + good[at + 1 :],
        ]
    )


def too_many_rows(rng):
    """A number of rows above the limit, and rows, seldom as many as it says, which may be bad too."""
    number = rng.choice([in_three_groups, plan.written_number])(rng.choice([ROWS + 1, ROWS + 2, 2 * ROWS, LARGEST]))
    return number + rng.choice([b"", b"\x07", b"\x80", b"\x80\x80\x80\x00", rng.randbytes(5)])


def some_plan(rng):
    """A plan to be read. Of those that are damaged some are so twice, so that which breach comes first matters."""
    choice = rng.random()
    if choice < 0.01:
        return pattern(rng.choice([SEED - 1, SEED, SEED + 1]), 0)
    if choice < 0.015:
        return plan.written_number(ROWS + 1) + bytes(rng.choice([ROWS, ROWS + 1]))
    if choice < 0.05:
        return too_many_rows(rng)
    if choice < 0.08:
        return rng.randbytes(rng.randint(0, 6))
    good = plan_of(destinations(rng), padded_sometimes(rng, rng.choice([0.03, 0.3])) if choice < 0.14 else plan.written_number)
    for _ in range(rng.choices([0, 1, 2], [62, 26, 12])[0]):
        good = damaged(rng, good)
    return good


def some_chute(rng, asked):
    """A chute around the plan's last row, or a far one."""
    last = plan.read(asked)[1]
    return rng.choice(FAR) if rng.random() < 0.1 else max(0, rng.choice([1, 2, last - 1, last, last + 1, rng.randint(0, last + 2)]))


def read_of(lent):
    yield written("plan_read", [lent], plan.read(lent))


def look_of(lent, chute):
    yield written("plan_destination", [lent, chute], plan.destination(lent, chute))


def row_of(site, house, chute):
    number, source, start, length, malformed, place = plan.row(site, house, chute)
    yield written("plan_row", [site, house, chute], [number, SOURCES.index(source), start, length, SOURCES.index(malformed), place])


def walk_of(lent):
    """A walk over some rows, and past the last where there are few; of a refused plan too."""
    state = plan.walker(lent)
    yield written("plan_start", [lent], [state.number, state.at, state.place])
    for _ in range(min(12, plan.read(lent)[1]) + 2):
        number, found, state, place = plan.next_row(state)
        yield written("plan_step", [], [number, found, state.at, place])


def read(rng):
    return read_of(some_plan(rng))


def look(rng):
    lent = some_plan(rng)
    return look_of(lent, some_chute(rng, lent))


def row(rng):
    site, house = some_plan(rng), some_plan(rng)
    return row_of(site, house, some_chute(rng, rng.choice([site, house])))


def walk(rng):
    return walk_of(some_plan(rng))


def limits(rng):
    """Every entry that reads a plan, on both sides of the limits of its bytes and of its rows."""
    short = plan_of([7, 300, 0], plan.written_number)
    widest = plan_of([LARGEST] * ROWS, plan.written_number)
    for lent in (widest, in_three_groups(ROWS) + bytes(ROWS), plan.written_number(ROWS + 1) + bytes(ROWS + 1), bytes(SEED), bytes(SEED + 1)):
        yield from read_of(lent)
        yield from walk_of(lent)
        for chute in (1, ROWS, ROWS + 1):
            yield from look_of(lent, chute)
            yield from row_of(lent, short, chute)
            yield from row_of(short, lent, chute)


def write(rng):
    """How long the rows' plan is, and writing it into a buffer of that length or another."""
    rows = destinations(rng) if rng.random() < 0.99 else [0] * (ROWS + 1)
    if rows and rng.random() < 0.1:
        rows[rng.randrange(len(rows))] = rng.choice([LARGEST + 1, 2**31, 2**32 - 1])
    length = len(plan_of(rows, plan.written_number))
    number, _, place = plan.write(rows, length)
    yield written("plan_length", [rows], [number, 0 if number else length, place])
    lent_length = length if rng.random() < 0.8 else max(0, length + rng.choice([-1, 1, -length]))
    yield written("plan_write", [rows, lent_length], plan.write(rows, lent_length))
