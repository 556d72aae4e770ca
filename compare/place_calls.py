"""Calls with malformed plans for every row of the table in docs/RULES.md, "Places", and which of these rows the answers of a file have."""

import hall
import migration
import plan
from callfile import parsed, pattern
from choose import SEED
from hall_calls import into_of, look_of, read_of
from hall_plans import CHUTES, LONGEST, nested
from migration_calls import migrate_of
from plan_calls import SOURCES
from plan_calls import look_of as flat_look_of
from plan_calls import read_of as flat_read_of
from plan_calls import row_of, walk_of

GOOD, LONG = bytes.fromhex("0307AC0200"), pattern(SEED + 1, 0)
FLAT = [
    *(bytes.fromhex(lent) for lent in ("", "80", "0307AC", "03078080")),  # cut
    *(bytes.fromhex(lent) for lent in ("808080", "0180808000", "0307AC02FFFFFF")),  # numbers that go on
    *(bytes.fromhex(lent) for lent in ("8000", "018700", "0307AC8200", "0207878000", "81A00080", "8200078080", "01870007")),  # padded numbers
    *(bytes.fromhex(lent) for lent in ("8120", "812080", "FFFF7F0707")),  # too many rows
    *(bytes.fromhex(lent) for lent in ("0000", "0307AC020007", "0107808080")),  # bytes after the last row
    *(bytes.fromhex(lent) for lent in ("0280808007", "02808080808080", "812080808000")),  # two breaches
]
EIGHT = b"\x01" * 15  # eight levels of one entry each, up to the entry on the eighth
FULL = bytes(2 * CHUTES)  # that many chutes
NINE = b"\x01" + hall.bytes_of(nested(8))  # an entry of the outermost hall with a level too many
HALLS = [
    *(bytes.fromhex(lent) for lent in ("", "80", "0180", "0100", "010080", "0101", "0282", "FFFF7F0007")),  # cut
    *(bytes.fromhex(lent) for lent in ("808080", "01808080", "0101FFFFFF00", "0200078280800007")),  # numbers that go on
    *(bytes.fromhex(lent) for lent in ("0000", "01000702", "010100808080")),  # bytes after the last entry
    *(bytes.fromhex(lent) for lent in ("8000", "81000007", "01800007", "01820007", "0200078280000080", "01008700", "010181000007")),  # padded numbers
    *(bytes.fromhex(lent) for lent in ("0102", "01820107", "01FFFF7F00", "0200078281010080", "0302000080808000", "03008080800200")),  # other kinds
    *(EIGHT + bytes.fromhex(lent) for lent in ("", "01", "0180", "8100", "818000", "818080", "8180", "02", "01808080")),  # levels, and padded kinds there
    *(b"\x81\x20" + FULL + rest for rest in (b"\x00", b"\x80", b"\x80\x00\x07")),  # a chute too many, and a kind that is cut or padded
    *(b"\x82\x20" + FULL + rest for rest in (b"\x00\x07" + NINE, NINE + b"\x00")),  # a chute too many before a level too many, and after it
    hall.bytes_of(LONGEST)[:-1],  # the last byte that a plan may have is missing
    plan.written_number(32_639) + hall.bytes_of(LONGEST)[3:],  # an entry is missing after it
]
# What the number 9 is for where the plan is a good one, by entry.
ELSE = {"hall_read_into": "lists of another length than the plan's entries", "plan_migrate": "a buffer of another length than the migrated plan"}
READERS = {
    **dict.fromkeys(["plan_read", "plan_destination", "plan_start"], plan),
    **dict.fromkeys(["plan_migrated_length", "plan_migrate"], migration),
    **dict.fromkeys(["hall_read", "hall_destination", "hall_read_into"], hall),
}


def limits(_rng):
    """Every entry that reads a plan, on every malformed one; of two plans the other is good, too long, or malformed too."""
    for lent in FLAT:
        yield from flat_read_of(lent)
        yield from flat_look_of(lent, 1)
        yield from walk_of(lent)
        yield from migrate_of(lent, migration.migrated_length(lent)[1])
        for other in (GOOD, LONG, *FLAT):
            yield from row_of(lent, other, 1)
        for other in (GOOD, LONG):
            yield from row_of(other, lent, 1)
    for lent in HALLS:
        yield from read_of(lent)
        yield from look_of(lent, 1)
        yield from into_of(lent, 1, 1)


def met(line):
    """(entry, row of the table) of an answer with 9 for a plan that was read, None of every other; of two plans the entry is named with the malformed one."""
    entry = line.split(" ", 1)[0]
    if entry not in READERS and entry != "plan_row":
        return None
    call = parsed(0, line)
    if call.answer.number != 9:
        return None
    which = SOURCES[call.answer.malformed] if entry == "plan_row" else "plan"
    breach = READERS.get(entry, plan).reading(getattr(call.given, which)).breach
    return (f"{entry}, {which}" if entry == "plan_row" else entry), breach.rule if breach else ELSE[entry]


def owed():
    """What the answers of a file have to have: each row of the table for each entry that can meet it."""
    readers = {**READERS, **{f"plan_row, {which}": plan for which in SOURCES[1:]}}
    return {(entry, rule) for entry, module in readers.items() for rule in module.BREACHES} | set(ELSE.items())
