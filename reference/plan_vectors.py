"""The plans of vectors/cases.jsonl, for cases.py. They follow the old rule, under which a number may have more groups than it needs.

What a case says of a plan that the old rule alone accepts holds of the migrated plan, and the plan itself is refused at its empty group.
"""

import re

import migration
import plan
from vector import data, differences

EMPTY_LAST = re.compile(rb"[\x80-\xff]\x00")  # in a plan that the old rule accepts: the end of a number whose last group is empty


def migrated(lent):
    """A plan that the old rule accepts, by the present rule; every other as it is."""
    return migration.migrate(lent, migration.migrated_length(lent)[1])[1] or lent


def padded(case):
    """The plans of a case that the old rule alone accepts, by the names of their fields, each with the place of its first empty last group."""
    lent = {field: data(case[field]) for field in ("plan", "site", "house") if field in case}
    return {field: EMPTY_LAST.search(content).end() - 1 for field, content in lent.items() if migrated(content) != content}


def refused(found, expected):
    """A line if a padded plan is answered otherwise than with 9 and its place."""
    return [] if found == expected else [f"the padded plan: expected {expected}, the reference gives {found}"]


def check_plan(case):
    """The differences of a case with one plan; its place is that of the old rule."""
    lent = data(case["plan"])
    number, _, place = migration.migrated_length(lent)
    found = differences(case, "by the old rule: ", number=number, place_under_request_4=place)
    number, rows, _ = plan.read(migrated(lent))
    found += differences(case, number=number, rows=rows)
    chutes = [lookup["chute"] for lookup in case["lookups"]]
    for lookup in case["lookups"]:
        number, destination, _ = plan.destination(migrated(lent), lookup["chute"])
        found += differences(lookup, f"chute {lookup['chute']}: ", number=number, destination=destination)
    for place in padded(case).values():
        for answer in (plan.read(lent), *(plan.destination(lent, chute) for chute in chutes)):
            found += refused(answer, (9, 0, place))
    return found


def first_malformed(case, lent):
    """(which, place) of the first of two plans that the present rule refuses with 9, where one is padded."""
    places = {which: migration.migrated_length(content)[2] for which, content in lent.items() if migration.reading(content).breach} | padded(case)
    return next((which, places[which]) for which in lent if which in places)


def check_two_plans(case):
    """The differences of a case with two plans; the bytes of a migrated plan's row are its number in the fewest groups."""
    lent = {which: data(case[which]) for which in ("site", "house")}
    new = {which: migrated(content) for which, content in lent.items()}
    number, which, offset, length, _, _ = plan.row(new["site"], new["house"], case["chute"])
    part = new[which][offset : offset + length] if which else b""
    row = bytes.fromhex(case["row"])
    fewest = plan.written_number(migration.read_number(row, 0)[0]) if row else b""
    found = differences(case | {"row": fewest.hex()}, **{"number": number, "from": which, "row": part.hex()})
    if padded(case):
        found += refused(plan.row(lent["site"], lent["house"], case["chute"]), (9, None, 0, 0, *first_malformed(case, lent)))
    return found
