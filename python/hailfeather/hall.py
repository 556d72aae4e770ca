"""Hall plans: halls that hold chutes and halls, read, asked and written, as lists of kinds and values or as Python lists in one another.

>>> written = write_nested([[7, 300], 0])
>>> written.hex(" "), summary(written), nested(written)
('02 01 02 00 07 00 ac 02 00 00', Summary(outer=2, entries=4, chutes=3), [[7, 300], 0])

The Refusal of a malformed plan tells the place of the first breach in reading order: as in a chute plan, and that of the first byte of a kind which is
neither 0 nor 1, or of a hall beyond the eighth level, or of a chute beyond the 4,096th.
"""

from ctypes import c_uint8, c_uint32
from itertools import islice
from typing import Any, Iterator, List, NamedTuple, Sequence, Tuple

from .lending import LARGEST_DESTINATION, LARGEST_SIZE, BytesLike, lent, number_of, room_for
from .library import functions
from .refusal import accept, accept_plan

CHUTE = 0  # the kind of an entry with a destination
HALL = 1  # the kind of an entry with a hall
LEVELS_LIMIT = 8  # levels: a plan with more is refused
CHUTES_LIMIT = 4_096  # chutes: a plan with more is refused
LARGEST_KIND = 2**8 - 1


class Summary(NamedTuple):
    """The outermost number of entries, and how many entries and chutes there are in all halls."""

    outer: int
    entries: int
    chutes: int


class Halls(NamedTuple):
    """The outermost number of entries, and for each entry in reading order its kind, and its destination or its hall's number of entries."""

    outer: int
    kinds: List[int]
    values: List[int]


def summary(plan: BytesLike) -> Summary:
    """How many entries and chutes a hall plan has. Refuses with 5, 9.

    >>> summary(bytes([1, 2, 0]))
    Traceback (most recent call last):
    ...
    hailfeather.refusal.Refusal: refused 9 at byte 1: the plan is malformed
    >>> summary(bytes([1, 129, 0, 0]))  # 1 is 01, not 81 00
    Traceback (most recent call last):
    ...
    hailfeather.refusal.Refusal: refused 9 at byte 2: the plan is malformed
    """
    answer = functions.hf_hall_read(*lent("plan", plan))
    accept_plan("hall_read", answer)
    return Summary(answer.outer, answer.entries, answer.chutes)


def destination(plan: BytesLike, chute: int) -> int:
    """The destination of a chute; chutes count from 1 in reading order, through all halls. Refuses with 5, 9, 10.

    >>> destination(write_nested([[7, 300], 0]), 3)
    0
    >>> destination(write_nested([[7, 300], 0]), 4)
    Traceback (most recent call last):
    ...
    hailfeather.refusal.Refusal: refused 10: the plan has no such chute
    """
    answer = functions.hf_hall_destination(*lent("plan", plan), number_of("chute", chute, LARGEST_SIZE))
    accept_plan("hall_destination", answer)
    return answer.destination


def read(plan: BytesLike) -> Halls:
    """A hall plan as lists. Refuses with 5, 9.

    >>> read(bytes([2, 1, 2, 0, 7, 0, 172, 2, 0, 0]))
    Halls(outer=2, kinds=[1, 0, 0, 0], values=[2, 7, 300, 0])
    """
    lent_plan = lent("plan", plan)
    answer = functions.hf_hall_read(*lent_plan)
    accept_plan("hall_read", answer)
    kinds, values = (c_uint8 * answer.entries)(), (c_uint32 * answer.entries)()
    answer = functions.hf_hall_read_into(*lent_plan, kinds, len(kinds), values, len(values))
    accept_plan("hall_read_into", answer)
    return Halls(answer.outer, list(kinds), list(values))


def write(outer: int, kinds: Sequence[int], values: Sequence[int]) -> bytes:
    """The plan with these halls. Refuses with 5, 9.

    >>> write(2, [HALL, CHUTE, CHUTE, CHUTE], [2, 7, 300, 0]) == write_nested([[7, 300], 0])
    True
    """
    lent_kinds = (c_uint8 * len(kinds))(*[number_of("a kind", kind, LARGEST_KIND) for kind in kinds])
    lent_values = (c_uint32 * len(values))(*[number_of("a value", value, LARGEST_DESTINATION) for value in values])
    lists = number_of("outer", outer, LARGEST_SIZE), lent_kinds, len(lent_kinds), lent_values, len(lent_values)
    needed = functions.hf_hall_length(*lists)
    accept("hall_length", needed.number)
    room = room_for(needed.length)
    accept("hall_write", functions.hf_hall_write(*lists, room, len(room)).number)
    return bytes(room)


def nested(plan: BytesLike) -> List[Any]:
    """A hall plan as a list of its entries: a chute is its destination, and a hall again such a list. Refuses with 5, 9."""
    halls = read(plan)
    return hall_of(halls.outer, zip(halls.kinds, halls.values))


def hall_of(count: int, entries: Iterator[Tuple[int, int]]) -> List[Any]:
    """The hall that has the next so many entries, and theirs, of a plan that was read; so it calls itself no deeper than the levels."""
    return [hall_of(value, entries) if kind == HALL else value for kind, value in islice(entries, count)]


def write_nested(hall: Sequence[Any]) -> bytes:
    """The plan of a list as `nested` gives it; halls may be tuples too. Refuses with 5, 9.

    >>> write_nested([]), write_nested([[], [5]])
    (b'\\x00', b'\\x02\\x01\\x00\\x01\\x01\\x00\\x05')
    """
    if not isinstance(hall, (list, tuple)):
        raise TypeError(f"a hall has to be a list, not {type(hall).__name__}")
    kinds: List[int] = []
    values: List[int] = []
    chutes = 0
    for kind, value, levels in entries_of(hall, LEVELS_LIMIT - 1):
        kinds.append(kind)
        values.append(value)
        chutes += kind == CHUTE
        if chutes > CHUTES_LIMIT or (kind == HALL and levels == 0):
            break  # the library refuses it whatever follows, so a hall that holds itself is refused too
    return write(len(hall), kinds, values)


def entries_of(hall: Sequence[Any], levels: int) -> Iterator[Tuple[int, Any, int]]:
    """The entries of a hall in reading order, and those of its halls: kind, value, and how many levels are left below the hall that it stands in."""
    for entry in hall:
        is_hall = isinstance(entry, (list, tuple))
        yield (HALL, len(entry), levels) if is_hall else (CHUTE, entry, levels)
        if is_hall:
            yield from entries_of(entry, levels - 1)
