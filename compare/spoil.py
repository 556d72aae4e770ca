"""Writes the calls of a file with one field of each answer changed: a reader that compares must find every one of them.

    python3 compare/spoil.py FILE          any field but those that C alone sees: where a walk stands, and, where no plan is malformed, the 0 that says so
    python3 compare/spoil.py FILE places   of every plan's and hall plan's answer the place, which plan is malformed, or where the walk stands, and nothing else
"""

import random
import sys

WALK = ("plan_start", "plan_step")
PLANS = ("plan_", "hall_")
READ = (*WALK, "plan_read ", "plan_destination ", "plan_row ", "plan_migrate", "hall_read", "hall_destination ")  # how entries that read a plan begin
MALFORMED, AT, PLACE = -2, -2, -1  # fields of an answer, from its end: of plan_row, of a walk, and of every plan


def other(rng, field):
    """Another field of the same form: a digit changed, or a byte where there were none."""
    if field == "-":
        return "00"
    places = [place for place, digit in enumerate(field) if digit.isdigit() and not field.startswith(("*", "%"))] or [len(field) - 1]
    place = rng.choice(places)
    digits = [digit for digit in "0123456789" if digit != field[place]]
    return field[:place] + rng.choice(digits) + field[place + 1 :]


def seen(call, fields):
    """The fields that every reader compares; of a refusal its number, and of a malformed plan where that is, since no reader has an output of it."""
    if fields and fields[0] != "0" and not call.startswith("keccak_p"):
        malformed = fields[0] == "9" and call.startswith(READ)
        return [0, *([PLACE] if malformed else []), *([MALFORMED] if malformed and call.startswith("plan_row ") else [])]
    unseen = call.startswith(PLANS) + call.startswith(WALK) + call.startswith("plan_row ")
    return list(range(len(fields) - unseen))


def spoilt(rng, line):
    """The line with one field after the `=` changed."""
    call, _, answer = line.partition(" =")
    fields = answer.split()
    among = seen(call + " ", fields)
    return changed(rng, call, fields, rng.choice(among)) if among else None


def elsewhere(rng, line):
    """The line with another place of its plan or its walk, or another malformed one of two plans, whatever the number is."""
    call, _, answer = line.partition(" =")
    if not call.startswith(PLANS):
        return None
    among = [PLACE, *([AT] if call.startswith(WALK) else []), *([MALFORMED] if call.startswith("plan_row ") else [])]
    return changed(rng, call, answer.split(), rng.choice(among))


def changed(rng, call, fields, at):
    """The line of a call with another field there."""
    fields[at] = other(rng, fields[at])
    return f"{call} = {' '.join(fields)}"


def main(path, change):
    rng = random.Random(1)
    with open(path, encoding="ascii") as lines:
        for line in lines:
            print(change(rng, line.rstrip("\n")) or line.rstrip("\n"))


if __name__ == "__main__":
    main(sys.argv[1], elsewhere if sys.argv[2:] == ["places"] else spoilt)
