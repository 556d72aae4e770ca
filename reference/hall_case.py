"""A case of the program hall_cases: how it is written down, and what it must be answered with."""
import functools
from itertools import product

import hall
import plan
from plan_case import ANSWER, summed, write_plan

hall.reading = functools.lru_cache(maxsize=16)(hall.reading)  # the same plan is asked for many chutes
ZEROS = 2**24  # from here on a number of bytes means zeros
ROOM, BUFFER = 33_000, 65_539  # elements of a list and bytes of a buffer, of which a part is lent
UNTOUCHED, UNTOUCHED_VALUE = 0xEE, 0xEEEEEEEE  # what lists and buffers hold first


@functools.lru_cache(maxsize=64)
def untouched(length):
    """The checksum of a buffer that is as it was."""
    return summed([UNTOUCHED] * min(length, BUFFER))


class Cases:
    """The cases one after another, each with what it writes."""

    def __init__(self):
        self.input, self.output, self.count, self.total = bytearray(), [], 0, 0

    def put(self, letter, first=b"", second=b"", number=0, length=0):
        sizes = [size_of(part) for part in (first, second)]
        self.input += letter + b"".join(n.to_bytes(4, "little") for n in [*sizes, number % 2**32, number >> 32, length])
        self.input += b"".join(part for part, size in zip((first, second), sizes) if size < ZEROS)
        self.count += 1

    def out(self, text):
        self.output.append(text + "\n")

    def heading(self, text):
        self.put(b"h", text.encode())
        self.out(text)

    def line(self, data, entries=None):
        """What a plan has, and the plan read into lists around so many entries (those that it has) and written again; of a short one lookups too."""
        number, found, outer, chutes, place = hall.read(data)
        n = found if entries is None else entries
        self.put(b"l", data, length=n)
        text = ANSWER % (number, found, place) + "%d %d " % (outer, chutes)
        text += "".join("%d " % read_into(data, *lengths) for lengths in product(around(n), around(n)))
        number, _, outer, _, kinds, values, _ = hall.read_into(data, n, n)
        self.out(text if number else text + write_each(outer, kinds, values, 0))
        if len(data) < 100:
            self.summed(data, chutes + 3, n)
            self.summed(data, chutes + 3, n, first=2**32)
            self.end()

    def summed(self, data, chutes, length, first=0, flat=None):
        """All answers for a plan, with so many chutes, and lists of this length, taken into the checksum; lookups as in the flat plan where one is given."""
        self.put(b"s", data, number=first + chutes, length=length)
        total = read_into(data, length, length, summed(hall.read(data), self.total))
        for chute in range(first, first + chutes):
            total = summed(hall.destination(data, chute) if flat is None else plan.destination(flat, chute), total)
        self.total = total

    def end(self):
        """The checksum."""
        self.put(b"e")
        self.out("%d " % self.total)
        self.total = 0

    def flat(self, halls):
        """All lookups of a hall plan, which are those of the flat plan with its destinations."""
        rows = hall.destinations(halls)
        self.summed(hall.bytes_of(halls), len(rows) + 3, len(list(hall.entries_in(halls))), flat=write_plan(rows))
        self.end()

    def written(self, outer, kinds, values, length=0):
        """What writing these lists answers for buffers around the needed length, or around this one where they have no plan."""
        self.put(b"w", bytes(kinds), b"".join(value.to_bytes(4, "little") for value in values), outer, length)
        self.out(write_each(outer, kinds, values, length))


def size_of(part):
    """How many bytes the part has, as a case tells it."""
    return len(part) if any(part) or len(part) < 1_000 else ZEROS + len(part)


def around(length):
    """One less, this length, and one more."""
    return max(length - 1, 0), length, length + 1


def filled(found, otherwise, length):
    """A list of this length that begins with what was read into it, if anything was."""
    found = found or []
    return found + [otherwise] * (length - len(found))


def read_into(data, kinds_length, values_length, total=0):
    """The checksum taken on by what reading into such lists answers, and by both lists with two elements past their end."""
    *answer, kinds, values, place = hall.read_into(data, kinds_length, values_length)
    lists = [*filled(kinds, UNTOUCHED, min(kinds_length + 2, ROOM)), *filled(values, UNTOUCHED_VALUE, values_length + 2)]
    return summed([*answer, place, *lists], total)


def write(outer, kinds, values, lent):
    """What writing into so many bytes answers; a plan that was written is read again."""
    number, data, place = hall.write(outer, kinds, values, lent)
    if number:
        return ANSWER % (number, untouched(lent + 2), place)
    return ANSWER % (0, summed([*data, UNTOUCHED, UNTOUCHED]), place) + "%d " % read_into(data, len(kinds), len(values))


def write_each(outer, kinds, values, otherwise):
    """How long the lists' plan is, and what writing answers for buffers around that length, or around another where they have no plan."""
    number, needed, place = hall.length(outer, kinds, values)
    lengths = (*around(otherwise if number else needed), 0, 65_536, 65_537)
    return ANSWER % (number, needed, place) + "".join(write(outer, kinds, values, lent) for lent in lengths)
