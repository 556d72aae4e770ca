"""docs/RULES.md, "Migration": a chute plan read by the old rule, under which a number may have more groups than it needs, and written by the present one.

As a program it reads a plan on standard input and writes the migrated plan, or nothing if it is refused.
"""

import sys

from plan import BYTES_AFTER, CUT, GOES_ON, TOO_MANY_ROWS, bytes_of, groups_at, judged, rows_of, value_of

# The rows of the table of places that a plan can meet by the old rule.
BREACHES = (CUT, GOES_ON, TOO_MANY_ROWS, BYTES_AFTER)


def read_number(plan, at):
    """The number that starts at `at` by the old rule, as (value, place after it)."""
    groups = groups_at(plan, at)
    return value_of(groups), at + len(groups)


def reading(plan):
    """What reading a plan by the old rule comes to; it holds its rows."""
    return judged(plan, lambda lent: rows_of(lent, read_number))


def migrated(rows):
    """The plan with these rows by the present rule."""
    return bytes_of([row.destination for row in rows])


def migrated_length(plan):
    """(number, bytes that the migrated plan takes, place by the old rule)."""
    found = reading(plan)
    return found.number, 0 if found.number else len(migrated(found.content)), found.place


def migrate(plan, length):
    """(number, migrated plan or None, place): 9 also if it does not fill `length` bytes exactly, where the place is 0, since nothing is malformed."""
    found = reading(plan)
    if found.number:
        return found.number, None, found.place
    made = migrated(found.content)
    return (0, made, 0) if len(made) == length else (9, None, 0)


if __name__ == "__main__":
    old = sys.stdin.buffer.read()
    sys.stdout.buffer.write(migrate(old, migrated_length(old)[1])[1] or b"")
