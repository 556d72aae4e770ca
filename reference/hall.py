"""docs/RULES.md, "Hall plan" and "Places": reading, looking up and writing.

A hall is kept as a list of its entries, each a destination or again a hall. Every answer has its place last, which is that of the breach where the number
is 9 for a malformed plan, and else 0.
"""

from plan import BYTES_AFTER, CUT, EMPTY_GROUP, GOES_ON, LARGEST, Breach, judged, read_number, written_number
from refusals import PLAN_LIMIT, smallest

LEVELS = 8  # of halls, at most, the outermost included
CHUTES = 4_096  # in a hall plan, at most
CHUTE, HALL = 0, 1  # the kinds

# The rows of the table of places that a hall plan can meet, in the table's words.
OTHER_KIND = "a kind is neither 0 nor 1"
LEVEL_BEYOND = "a hall stands on a level beyond the eighth"
CHUTE_BEYOND = "a chute of a hall plan is beyond the 4,096th"
BREACHES = (CUT, GOES_ON, EMPTY_GROUP, BYTES_AFTER, OTHER_KIND, LEVEL_BEYOND, CHUTE_BEYOND)


class Reader:
    """Reads the plan's bytes in their order: `at` is the next byte, `chutes` how many there were."""

    def __init__(self, plan):
        self.plan, self.at, self.chutes = plan, 0, 0

    def number(self):
        value, self.at = read_number(self.plan, self.at)
        return value

    def hall(self, level):
        """A hall on this level: its number of entries, then the entries."""
        return [self.entry(level) for _ in range(self.number())]

    def entry(self, level):
        """An entry of a hall on this level. The kind alone tells a hall too deep or a chute too many, so these are judged before the rest is read."""
        start = self.at
        kind = self.number()
        if kind not in (CHUTE, HALL):
            raise Breach(OTHER_KIND, start)
        if kind == HALL:
            if level == LEVELS:
                raise Breach(LEVEL_BEYOND, start)
            return self.hall(level + 1)
        if self.chutes == CHUTES:
            raise Breach(CHUTE_BEYOND, start)
        self.chutes += 1
        return self.number()


def outermost_of(plan):
    """The outermost hall of a plan; the first breach ends the reading."""
    reader = Reader(plan)
    hall = reader.hall(1)
    if reader.at < len(plan):
        raise Breach(BYTES_AFTER, reader.at)
    return hall


def reading(plan):
    """What reading a hall plan comes to; it holds the entries of the outermost hall."""
    return judged(plan, outermost_of)


def destinations(hall):
    """Of its chutes, in reading order."""
    return [value for kind, value in entries_in(hall) if kind == CHUTE]


def entries_in(hall):
    """Each entry's kind and value, in reading order."""
    for entry in hall:
        if isinstance(entry, list):
            yield HALL, len(entry)
            yield from entries_in(entry)
        else:
            yield CHUTE, entry


def read(plan):
    """(number, number of entries in all, outermost number of entries, number of chutes, place)."""
    number, entries, outer, chutes, _, _, place = read_into(plan, None, None)
    return number, entries, outer, chutes, place


def read_into(plan, kinds_length, values_length):
    """(number, entries, outer, chutes, kinds, values, place): the lists, both None on a refusal, fill what is lent exactly. None fits every list."""
    found = reading(plan)
    entries = list(entries_in(found.content))
    fits = {kinds_length, values_length} <= {len(entries), None}
    number = found.number or (0 if fits else 9)
    if number:
        return number, 0, 0, 0, None, None, found.place
    kinds, values = [kind for kind, _ in entries], [value for _, value in entries]
    return 0, len(entries), len(found.content), kinds.count(CHUTE), kinds, values, 0


def destination(plan, chute):
    """(number, destination of the chute, place); chutes count from 1 in reading order."""
    found = reading(plan)
    if found.number:
        return found.number, 0, found.place
    flat = destinations(found.content)
    return (0, flat[chute - 1], 0) if 1 <= chute <= len(flat) else (10, 0, 0)


class Unwritable(Exception):
    """Lists that are not those of any halls. They have no bytes yet, so no place."""


def hall_of(count, entries, level):
    """A hall on this level that takes the next `count` of the entries."""
    if count > LARGEST:
        raise Unwritable("a number of entries that no three groups hold")
    if level > LEVELS:
        raise Unwritable("a level too many")
    hall = []
    for _ in range(count):
        kind, value = next(entries, (None, None))
        if kind == HALL:
            hall.append(hall_of(value, entries, level + 1))
        elif kind == CHUTE and value <= LARGEST:
            hall.append(value)
        else:
            raise Unwritable("an entry is missing, of no kind, or has too great a destination")
    return hall


def outermost(outer, kinds, values):
    """The outermost hall that the lists have the entries of, all of them and no more."""
    if len(kinds) != len(values):
        raise Unwritable("lists of unequal length")
    entries = iter(zip(kinds, values))
    hall = hall_of(outer, entries, 1)
    if next(entries, None) is not None:
        raise Unwritable("entries after the last")
    if len(destinations(hall)) > CHUTES:
        raise Unwritable("too many chutes")
    return hall


def bytes_of(hall):
    """A hall's bytes: its number of entries, then each entry's, all in the fewest groups."""
    entries = [[HALL, bytes_of(entry)] if isinstance(entry, list) else [CHUTE, written_number(entry)] for entry in hall]
    return written_number(len(hall)) + b"".join(written_number(kind) + rest for kind, rest in entries)


def written(outer, kinds, values):
    """The plan of these lists, however long it is; None if they break a rule."""
    try:
        return bytes_of(outermost(outer, kinds, values))
    except Unwritable:
        return None


def length(outer, kinds, values):
    """(number, bytes that the plan takes, place): 5 for one that could not be read again."""
    plan = written(outer, kinds, values)
    number = 9 if plan is None else smallest((5, len(plan) > PLAN_LIMIT))
    return number, 0 if number else len(plan), 0


def write(outer, kinds, values, lent):
    """(number, plan or None, place): 5 for a lent buffer of too many bytes, 9 if a rule is broken or the plan does not fill it exactly."""
    plan = written(outer, kinds, values)
    number = smallest((5, lent > PLAN_LIMIT), (9, plan is None or len(plan) != lent))
    return number, None if number else plan, 0
