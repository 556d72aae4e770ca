"""Random calls of the migration's entries: plans by the old rule, padded or not, plans that it refuses, and buffers of other lengths."""

import migration
import plan
from callfile import pattern, written
from choose import SEED
from plan_calls import LARGEST, ROWS, damaged, destinations, in_three_groups, padded_sometimes, plan_of, some_plan


def migrate_of(lent, length):
    """How long the migrated plan is, and migrating it into a buffer of this length."""
    yield written("plan_migrated_length", [lent], migration.migrated_length(lent))
    yield written("plan_migrate", [lent, length], migration.migrate(lent, length))


def old_plan(rng):
    """A plan in which some numbers, or all, have more groups than they need; now and then it is damaged, so that it is malformed by the old rule too."""
    number = rng.choice([in_three_groups, padded_sometimes(rng, 0.1), padded_sometimes(rng, 0.6)])
    lent = plan_of(destinations(rng), number)
    return damaged(rng, lent) if rng.random() < 0.15 else lent


def migrate(rng):
    """A padded plan or any other, into a buffer of the needed length or another."""
    lent = old_plan(rng) if rng.random() < 0.7 else some_plan(rng)
    needed = migration.migrated_length(lent)[1]
    others = [0, needed + 1, max(0, needed - 1), len(lent)]
    return migrate_of(lent, needed if rng.random() < 0.75 else rng.choice(others))


def limits(_rng):
    """Plans on both sides of the limits of bytes and of rows, and the widest that the old rule accepts, into buffers around the needed length."""
    full = [plan_of([value] * ROWS, number) for value in (0, LARGEST) for number in (in_three_groups, plan.written_number)]
    many = [in_three_groups(count) + bytes(count) for count in (ROWS, ROWS + 1)]
    for lent in (*full, *many, b"\x00", b"\x80\x00", pattern(SEED, 0), pattern(SEED + 1, 0)):
        needed = migration.migrated_length(lent)[1]
        for length in (needed, needed + 1, max(0, needed - 1), 0, len(lent)):
            yield from migrate_of(lent, length)
