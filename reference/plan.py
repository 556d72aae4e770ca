"""docs/RULES.md, "Chute plan" and "Places": reading, looking up, writing, walking and reporting.

Every answer has its place last, which is that of the breach where the number is 9 for a malformed plan, and else 0.

As a program it reads a plan on standard input and writes its report.
"""

import sys
from typing import NamedTuple, Optional

from refusals import PLAN_LIMIT, smallest

GROUPS = 3  # of seven bits in a number, at most
ROWS = 4_096  # in a plan, at most
LARGEST = 2 ** (7 * GROUPS) - 1  # destination: 2,097,151

# The rows of the table of places that a chute plan can meet, in the table's words.
CUT = "a number ends before its last group"
GOES_ON = "a number goes on after its third group"
EMPTY_GROUP = "a number is in more groups than it needs"
TOO_MANY_ROWS = "the number of rows is above 4,096"
BYTES_AFTER = "bytes follow the last row, or the last entry"
BREACHES = (CUT, GOES_ON, EMPTY_GROUP, TOO_MANY_ROWS, BYTES_AFTER)


class Breach(Exception):
    """Where a plan that is read breaks a rule, and which row of the table of places it is."""

    def __init__(self, rule, place):
        super().__init__(f"{rule}, at {place}")
        self.rule, self.place = rule, place


class Row(NamedTuple):
    """A row's destination, and where its bytes stand in the plan."""

    destination: int
    offset: int
    length: int


class Reading(NamedTuple):
    """What reading a plan comes to: its number, what it holds, which is nothing on a refusal, and the breach of a malformed one."""

    number: int
    content: list
    breach: Optional[Breach]

    @property
    def place(self):
        return self.breach.place if self.breach else 0


def groups_at(plan, at):
    """The groups of the number that starts at `at`, lowest first; the top bit of a byte tells that another follows."""
    groups = []
    while len(groups) < GROUPS:
        if at + len(groups) == len(plan):
            raise Breach(CUT, len(plan))
        byte = plan[at + len(groups)]
        groups.append(byte & 0x7F)
        if byte < 0x80:
            return groups
    raise Breach(GOES_ON, at + GROUPS - 1)


def value_of(groups):
    """The number that these groups of seven bits make."""
    return sum(group << (7 * place) for place, group in enumerate(groups))


def read_number(plan, at):
    """The number that starts at `at`, as (value, place after it). It has no group more than it needs: an empty one is never the last, unless it is alone."""
    groups = groups_at(plan, at)
    if len(groups) > 1 and groups[-1] == 0:
        raise Breach(EMPTY_GROUP, at + len(groups) - 1)
    return value_of(groups), at + len(groups)


def rows_of(plan, number_at=read_number):
    """The plan's rows in order, each number as `number_at` reads it; the first breach ends the reading."""
    count, at = number_at(plan, 0)
    if count > ROWS:
        raise Breach(TOO_MANY_ROWS, 0)
    rows = []
    for _ in range(count):
        destination, after = number_at(plan, at)
        rows.append(Row(destination, at, after - at))
        at = after
    if at < len(plan):
        raise Breach(BYTES_AFTER, at)
    return rows


def judged(plan, content_of):
    """What reading a plan by `content_of` comes to: a plan that is too long is not read."""
    if len(plan) > PLAN_LIMIT:
        return Reading(5, [], None)
    try:
        return Reading(0, content_of(plan), None)
    except Breach as breach:
        return Reading(9, [], breach)


def reading(plan):
    """What reading a chute plan comes to; it holds its rows."""
    return judged(plan, rows_of)


def read(plan):
    """(number, number of rows, place)."""
    found = reading(plan)
    return found.number, len(found.content), found.place


def destination(plan, chute):
    """(number, destination of the chute, place); chutes count from 1."""
    found = reading(plan)
    if found.number:
        return found.number, 0, found.place
    return (0, found.content[chute - 1].destination, 0) if 1 <= chute <= len(found.content) else (10, 0, 0)


def row(site, house, chute):
    """(number, source, offset, length, malformed, place): the row's bytes in the plan that it came from, and the first malformed plan.

    Source and malformed are "site", "house" or None. The smallest number counts, so a plan that is too long hides the other's breach.
    """
    both = {"site": reading(site), "house": reading(house)}
    number = smallest(*((found.number, found.number != 0) for found in both.values()))
    if number == 9:
        malformed = next(which for which, found in both.items() if found.breach)
        return 9, None, 0, 0, malformed, both[malformed].place
    if number:
        return number, None, 0, 0, None, 0
    for which, found in both.items():
        if 1 <= chute <= len(found.content):
            there = found.content[chute - 1]
            return 0, which, there.offset, there.length, None, 0
    return 10, None, 0, 0, None, 0


def written_number(value):
    """The number in the fewest groups of seven bits, lowest first, top bit set when another follows."""
    if value < 0x80:
        return bytes([value])
    return bytes([value & 0x7F | 0x80]) + written_number(value >> 7)


def bytes_of(destinations):
    """The plan of these rows, however many and great they are."""
    return b"".join(map(written_number, [len(destinations), *destinations]))


def write(destinations, length):
    """(number, plan or None, place): 9 if the rows break the rules or do not fill `length` bytes exactly; nothing is read, so the place is 0."""
    if len(destinations) > ROWS or any(value > LARGEST for value in destinations):
        return 9, None, 0
    plan = bytes_of(destinations)
    return (0, plan, 0) if len(plan) == length else (9, None, 0)


class Walker(NamedTuple):
    """The lent plan, its refusal, where the next row stands in it, and the place of its breach."""

    plan: bytes
    number: int
    at: int
    place: int


def walker(plan):
    """A walker before the first row; the plan is read whole here."""
    found = reading(plan)
    return Walker(plan, found.number, 0 if found.number else read_number(plan, 0)[1], found.place)


def next_row(walk):
    """(number, destination, walker, place): 10 past the last row, the plan's own number and place if it was refused."""
    if walk.number:
        return walk.number, 0, walk, walk.place
    if walk.at == len(walk.plan):
        return 10, 0, walk, 0
    value, after = read_number(walk.plan, walk.at)
    return 0, value, walk._replace(at=after), 0


def report(plan):
    """What the program writes for a plan."""
    found = reading(plan)
    if found.number:
        return f"refused {found.number} at {found.place}\n" if found.breach else f"refused {found.number}\n"
    lines = [f"{chute} {there.destination}\n" for chute, there in enumerate(found.content, 1)]
    return f"rows {len(found.content)}\n" + "".join(lines)


if __name__ == "__main__":
    sys.stdout.write(report(sys.stdin.buffer.read()))
