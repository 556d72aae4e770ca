"""Chute plans: how many rows one has, where a chute sends its parcels, plans written and walked, and old copies migrated.

>>> written = write([7, 300, 0])
>>> written.hex(" "), rows(written), list(walk(written))
('03 07 ac 02 00', 3, [7, 300, 0])

A number stands in the fewest groups of seven bits that hold it: 7 is 07, and 87 00, whose last group is empty, is malformed. So two good plans with equal
rows are equal bytes. The Refusal of a malformed plan tells the place of the first breach in reading order: of the first missing byte, which is the plan's
length, where a number ends too early; of a number's third byte where it goes on after that; of a number's last group where it is empty and others stand
before it, whatever the number's value breaks; 0 where there are more than 4,096 rows; and of the first byte after the last row.
"""

from ctypes import c_uint32, string_at
from itertools import islice
from typing import Any, Iterable, Iterator, NamedTuple, Tuple

from .lending import LARGEST_DESTINATION, LARGEST_SIZE, BytesLike, lent, number_of, room_for
from .library import functions
from .refusal import SOURCES, accept, accept_plan
from .structs import Cursor

PLAN_LIMIT = 65_536  # bytes: a longer plan is refused
ROWS_LIMIT = 4_096  # rows: a plan with more is refused


class Row(NamedTuple):
    """A row's bytes, the plan that they stand in (`site` or `house`), and the place of the first of them there."""

    source: str
    start: int
    bytes: bytes


def rows(plan: BytesLike) -> int:
    """How many rows a plan has. Refuses with 5, 9.

    >>> rows(bytes([1, 128, 128, 128, 0]))
    Traceback (most recent call last):
    ...
    hailfeather.refusal.Refusal: refused 9 at byte 3: the plan is malformed
    >>> rows(bytes([1, 135, 0]))  # 7 is 07, not 87 00
    Traceback (most recent call last):
    ...
    hailfeather.refusal.Refusal: refused 9 at byte 2: the plan is malformed
    """
    answer = functions.hf_plan_read(*lent("plan", plan))
    accept_plan("plan_read", answer)
    return answer.rows


def destination(plan: BytesLike, chute: int) -> int:
    """The destination of a chute; chutes count from 1, and destination 0 sends the parcel round again. Refuses with 5, 9, 10.

    >>> destination(bytes([3, 7, 172, 2, 0]), 2)
    300
    >>> destination(bytes([3, 7, 172, 2, 0]), 4)
    Traceback (most recent call last):
    ...
    hailfeather.refusal.Refusal: refused 10: the plan has no such chute
    """
    answer = functions.hf_plan_destination(*lent("plan", plan), number_of("chute", chute, LARGEST_SIZE))
    accept_plan("plan_destination", answer)
    return answer.destination


def row(site: BytesLike, house: BytesLike, chute: int) -> Row:
    """A chute's row: in the site plan if it has that chute, else in the house plan. Refuses with 5, 9, 10.

    >>> row(bytes([1, 9]), bytes([3, 7, 172, 2, 0]), 2)
    Row(source='house', start=2, bytes=b'\\xac\\x02')
    >>> row(bytes([1, 9]), bytes([3, 7, 172, 2]), 1)
    Traceback (most recent call last):
    ...
    hailfeather.refusal.Refusal: refused 9 at byte 4 of the house plan: the plan is malformed
    """
    lent_plans = {"site": lent("site", site), "house": lent("house", house)}
    answer = functions.hf_plan_row(*lent_plans["site"], *lent_plans["house"], number_of("chute", chute, LARGEST_SIZE))
    accept_plan("plan_row", answer)
    source = SOURCES[answer.source]
    return Row(source, answer.start, string_at(*lent_plans[source])[answer.start : answer.start + answer.length])


def write(destinations: Iterable[int]) -> bytes:
    """The plan with these destinations. Refuses with 9."""
    numbers = [number_of("a destination", number, LARGEST_DESTINATION) for number in islice(destinations, ROWS_LIMIT + 1)]
    lent_rows = (c_uint32 * len(numbers))(*numbers), len(numbers)
    needed = functions.hf_plan_length(*lent_rows)
    accept("plan_length", needed.number)
    room = room_for(needed.length)
    accept("plan_write", functions.hf_plan_write(*lent_rows, room, len(room)).number)
    return bytes(room)


def migrate(plan: BytesLike) -> bytes:
    """The plan by the present rule with the rows that a plan has by the old one, by which a number may stand in more groups than it needs. A plan that keeps
    the present rule stays as it is. Refuses with 5, and with 9 where the plan is malformed by the old rule too.

    >>> migrate(bytes([3, 135, 0, 172, 2, 128, 128, 0])).hex(" ")
    '03 07 ac 02 00'
    >>> migrate(bytes([3, 135, 0, 172]))
    Traceback (most recent call last):
    ...
    hailfeather.refusal.Refusal: refused 9 at byte 4: the plan is malformed by the old rule too
    """
    lent_plan = lent("plan", plan)
    needed = functions.hf_plan_migrated_length(*lent_plan)
    accept_plan("plan_migrated_length", needed)
    room = room_for(needed.length)
    accept_plan("plan_migrate", functions.hf_plan_migrate(*lent_plan, room, len(room)))
    return bytes(room)


def walk(plan: BytesLike) -> Iterator[int]:
    """The destinations one after another. The plan is read whole at once: this call, not the first step, refuses with 5, 9."""
    pointer, length = lent("plan", plan)
    lent_plan = lent("plan", string_at(pointer, min(length, PLAN_LIMIT + 1)))  # a copy, since the plan must not change meanwhile
    cursor = functions.hf_plan_start(*lent_plan)
    accept_plan("plan_start", cursor)
    return steps(lent_plan, cursor)


def steps(lent_plan: Tuple[Any, int], cursor: Cursor) -> Iterator[int]:
    """The destinations from a row on, to the end of a plan that was read."""
    answer = functions.hf_plan_step(*lent_plan, cursor)
    while answer.number == 0:
        yield answer.destination
        cursor.at = answer.next
        answer = functions.hf_plan_step(*lent_plan, cursor)
