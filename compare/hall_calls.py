"""Random calls of the hall plan's entries: plans of every sort (hall_plans.py), and plans and lists around every limit."""

import hall
import plan
from callfile import written
from choose import SEED
from hall_plans import CHUTES, LONGEST, OTHER_KINDS, limit_plans, some_halls, some_plan
from plan_calls import FAR, LARGEST, in_three_groups

OTHER_BUFFERS = [0, SEED, SEED + 1, SEED + 2, 2 * SEED]


def read_of(lent):
    yield written("hall_read", [lent], hall.read(lent))


def look_of(lent, chute):
    yield written("hall_destination", [lent, chute], hall.destination(lent, chute))


def into_of(lent, kinds_length, values_length):
    yield written("hall_read_into", [lent, kinds_length, values_length], hall.read_into(lent, kinds_length, values_length))


def write_of(lists, length):
    """How long the lists' plan is, and writing it into a buffer of this length."""
    yield written("hall_length", lists, hall.length(*lists))
    yield written("hall_write", [*lists, length], hall.write(*lists, length))


def read(rng):
    return read_of(some_plan(rng)[0])


def look(rng):
    lent, _ = some_plan(rng)
    last = hall.read(lent)[3]
    return look_of(lent, rng.choice(FAR) if rng.random() < 0.1 else max(0, rng.choice([1, 2, last - 1, last, last + 1, rng.randint(0, last + 2)])))


def read_into(rng):
    """Into lists of the needed length, or of others, equal or not."""
    lent, entries = some_plan(rng)
    entries = hall.read(lent)[1] or entries
    lengths = [entries, entries]
    if rng.random() < 0.3:
        lengths = [max(0, entries + rng.choice([0, -1, 1, -entries])) for _ in lengths]
    return into_of(lent, *lengths)


def lists_of(halls):
    """The outermost number of entries, the kinds and the values."""
    entries = list(hall.entries_in(halls))
    return len(halls), [kind for kind, _ in entries], [value for _, value in entries]


def changed(rng, numbers, others):
    """A list with an element changed, left out or one more."""
    if not numbers:
        return [rng.choice(others)]
    at = rng.randrange(len(numbers))
    return rng.choice([[*numbers[:at], rng.choice([*others, max(0, numbers[at] - 1), numbers[at] + 1]), *numbers[at + 1 :]], numbers[:-1], [*numbers, 0]])


def broken(rng, outer, kinds, values):
    """The lists with one of the three changed."""
    others = [outer + 1, max(0, outer - 1), LARGEST, LARGEST + 1, 2**32 + outer, 2**63 + outer, 2**64 - 1]
    return rng.choice(
        [
            (rng.choice(others), kinds, values),
            (outer, changed(rng, kinds, [2, 3, 128, 255]), values),
            (outer, kinds, changed(rng, values, [LARGEST, LARGEST + 1, 2**31, 2**32 - 1])),
            (outer, kinds[:-1], values[:-1]),
        ]
    )


def write(rng):
    """Lists that keep the rules or do not, into a buffer of the needed length or another."""
    lists = lists_of(some_halls(rng))
    length = len(hall.written(*lists) or b"") or 1 + 2 * len(lists[1])
    lent = length if rng.random() < 0.8 else rng.choice([*OTHER_BUFFERS, length - 1, length + 1])
    return write_of(broken(rng, *lists) if rng.random() < 0.3 else lists, lent)


def limits(rng):
    """Every entry on both sides of the limits."""
    for lent in limit_plans(rng):
        yield from read_of(lent)
        entries = hall.read(lent)[1]
        for lengths in ((entries, entries), (entries + 1, entries), (entries, entries + 1)):
            yield from into_of(lent, *lengths)
        for chute in (0, 1, CHUTES, CHUTES + 1, 2**32 + 1):
            yield from look_of(lent, chute)
    for kind in (0, 1, *OTHER_KINDS):
        for number in (plan.written_number(kind), in_three_groups(kind)):
            yield from read_of(bytes([1]) + number + bytes([0]))
            yield from into_of(bytes([1]) + number + bytes([0]), 1, 1)
        yield from write_of((1, [kind % 256], [0]), 3)
    for outer, value in ((1, LARGEST), (1, LARGEST + 1), (2**32 + 1, 7), (LARGEST, 7), (LARGEST + 1, 7)):
        yield from write_of((outer, [0], [value]), 5 if outer == 1 else 3)
    yield from long_writes()


def long_writes():
    """Lists whose plan is around the limit of bytes or has chutes around theirs, and long ones that promise an entry more or less than follow."""
    for halls in (LONGEST, [[]] * 32_767, [0] * CHUTES, [0] * (CHUTES + 1)):
        length = len(hall.bytes_of(halls))
        for lent in (length - 1, length, length + 1, SEED, SEED + 1):
            yield from write_of(lists_of(halls), lent)
    for count in (32_766, 32_768):
        yield from write_of((count, [1] * 32_767, [0] * 32_767), SEED + 1)


def too_many_entries(rng):
    """Lists of one entry more than a number can say, in the outermost hall and in one within it: they break the rules, so they are not just too long."""
    count = LARGEST + 1
    for lists in ((count, [1] * count, [0] * count), (1, [1] * (count + 1), [count] + [0] * count)):
        yield written("hall_length", lists, hall.length(*lists))
