"""The rows of docs/RULES.md, "Facts", that are of plans, and both sides of each limit and rule of plans, for both_sides.py."""

import hall
import migration
import plan

PLAN = bytes.fromhex("0307AC0200")


def plans():
    """P8 to P12, and the reports."""
    return [
        ("P8", plan.destination(PLAN, 2), (0, 300, 0)),
        ("P9", plan.destination(PLAN, 4), (10, 0, 0)),
        ("P10", plan.destination(PLAN, 0), (10, 0, 0)),
        ("P11", plan.read(b"\x00"), (0, 0, 0)),
        ("P12", plan.read(bytes.fromhex("0180808000")), (9, 0, 3)),
        ("report", plan.report(PLAN), "rows 3\n1 7\n2 300\n3 0\n"),
        ("report of P12", plan.report(bytes.fromhex("0180808000")), "refused 9 at 3\n"),
        ("report of 65,537 bytes", plan.report(bytes(65_537)), "refused 5\n"),
    ]


def walked(lent, asks):
    """The (number, destination, place) of so many asks of a walker."""
    walk, answers = plan.walker(lent), []
    for _ in range(asks):
        number, destination, walk, place = plan.next_row(walk)
        answers.append((number, destination, place))
    return answers


def walks_and_writing():
    """The walker past the end and on refused plans; writing, and reading what was written."""
    rows = [0, 127, 128, 16_383, 16_384, 2_097_151]
    written = plan.write(rows, 1 + 1 + 1 + 2 + 2 + 3 + 3)
    many = [1] * 4_096
    return [
        ("walk", walked(PLAN, 5), [(0, 7, 0), (0, 300, 0), (0, 0, 0), (10, 0, 0), (10, 0, 0)]),
        ("walk of P12", walked(bytes.fromhex("0180808000"), 2), [(9, 0, 3), (9, 0, 3)]),
        ("walk of 65,537 bytes", walked(bytes(65_537), 2), [(5, 0, 0), (5, 0, 0)]),
        ("written", written, (0, bytes.fromhex("06007F8001FF7F808001FFFF7F"), 0)),
        ("walk of the written", walked(written[1], 6), [(0, value, 0) for value in rows]),
        ("4,096 rows", plan.write(many, 4_098), (0, b"\x80\x20" + b"\x01" * 4_096, 0)),
        ("4,096 rows read", plan.read(b"\x80\x20" + b"\x01" * 4_096), (0, 4_096, 0)),
        ("4,097 rows read", plan.read(b"\x81\x20" + b"\x01" * 4_097), (9, 0, 0)),
    ]


def hall_limits():
    """Hall plans on both sides of each limit."""
    eight, nine = ("01" * (2 * level - 2) + "00" for level in (8, 9))
    chutes, halls = b"\x00\x07", b"\x01\x00"
    longest = b"\xfe\xfe\x01" + b"\x01\x80\x01" + halls * (128 + 32_637)  # of which 128 stand in the first, whose number of entries takes two groups
    return [
        ("level 8", hall.read(bytes.fromhex(eight)), (0, 7, 1, 0, 0)),
        ("level 9", hall.read(bytes.fromhex(nine)), (9, 0, 0, 0, 15)),
        ("4,096 chutes", hall.read(b"\x80\x20" + chutes * 4_096), (0, 4_096, 4_096, 4_096, 0)),
        ("4,097 chutes", hall.read(b"\x81\x20" + chutes * 4_097), (9, 0, 0, 0, 8_194)),
        ("65,536 bytes", (len(longest), hall.read(longest)), (65_536, (0, 32_766, 32_638, 0, 0))),
        ("65,537 bytes", hall.read(longest + b"\x00"), (5, 0, 0, 0, 0)),
        ("number of entries 2,097,151", hall.read(b"\xff\xff\x7f" + halls), (9, 0, 0, 0, 5)),
        ("destination 2,097,151", hall.write(1, [0], [2_097_151], 5), (0, bytes.fromhex("0100FFFF7F"), 0)),
        ("destination 2,097,152", hall.write(1, [0], [2_097_152], 5), (9, None, 0)),
        ("outermost 2^32 + 1", hall.write(2**32 + 1, [0], [7], 3), (9, None, 0)),
        ("length of 32,766 empty halls", hall.length(32_766, [1] * 32_766, [0] * 32_766), (0, 65_535, 0)),
        ("length of 32,767 empty halls", hall.length(32_767, [1] * 32_767, [0] * 32_767), (5, 0, 0)),
    ]


def halls():
    """A hall plan read, looked up and written; lookups are those of the flat plan with its destinations."""
    lent = bytes.fromhex("02010200" "0700AC02" "0000")
    lists = (2, [1, 0, 0, 0], [2, 7, 300, 0])
    return [
        ("halls", hall.reading(lent).content, [[7, 300], 0]),
        ("halls read", hall.read(lent), (0, 4, 2, 3, 0)),
        ("halls read into lists", hall.read_into(lent, 4, 4), (0, 4, 2, 3, *lists[1:], 0)),
        ("halls read into short lists", hall.read_into(lent, 3, 3), (9, 0, 0, 0, None, None, 0)),
        ("halls looked up", [hall.destination(lent, chute) for chute in range(6)], [plan.destination(PLAN, chute) for chute in range(6)]),
        ("halls measured", hall.length(*lists), (0, 10, 0)),
        ("halls written", hall.write(*lists, 10), (0, lent, 0)),
        ("kind 2", hall.read(bytes.fromhex("010200")), (9, 0, 0, 0, 1)),
        ("no entries", hall.read(b"\x00"), (0, 0, 0, 0, 0)),
        ("no bytes", hall.read(b""), (9, 0, 0, 0, 0)),
    ]


def places():
    """docs/RULES.md, "Places": every row of the table with the rule's words, flat and of halls; and of two plans the first malformed one."""
    flat = (
        ("0307AC", plan.CUT, 3), ("0180808000", plan.GOES_ON, 3), ("81A000", plan.EMPTY_GROUP, 2), ("812080", plan.TOO_MANY_ROWS, 0),
        ("0307AC020080", plan.BYTES_AFTER, 5),
    )
    nine = "01" * 16 + "808080"
    of_halls = (
        ("010080", hall.CUT, 3), ("01828080", hall.GOES_ON, 3), ("018200", hall.EMPTY_GROUP, 2), ("01000780", hall.BYTES_AFTER, 3),
        ("0200078201", hall.OTHER_KIND, 3), (nine, hall.LEVEL_BEYOND, 15), ("8120" + "0000" * 4_096 + "008000", hall.CHUTE_BEYOND, 8_194),
    )
    cut, after, long = b"\x02\x07", b"\x01\x07\x00\x00", bytes(65_537)
    none = (None, 0, 0)
    rows = [(module.reading(bytes.fromhex(lent)).breach, *row) for module, table in ((plan, flat), (hall, of_halls)) for lent, *row in table]
    return [
        *((f"place of {rule}", (breach.rule, breach.place), (rule, place)) for breach, rule, place in rows),
        ("rules met", [{rule for _, rule, _ in table} for table in (flat, of_halls)], [set(plan.BREACHES), set(hall.BREACHES)]),
        ("site malformed", plan.row(cut, PLAN, 1), (9, *none, "site", 2)),
        ("house malformed", plan.row(PLAN, after, 1), (9, *none, "house", 2)),
        ("both malformed", plan.row(b"", after, 1), (9, *none, "site", 0)),
        ("one malformed, one too long", [plan.row(after, long, 1), plan.row(long, after, 1)], [(5, *none, None, 0)] * 2),
        ("no such chute", plan.row(PLAN, PLAN, 4), (10, *none, None, 0)),
        ("a malformed plan and lists of the wrong length", hall.read_into(b"\x01\x02", 5, 6)[-1], 1),
    ]


def padded():
    """Both sides of the rule that a number has no group more than it needs: flat plans and hall plans, with their places, and of two plans the padded one."""
    flat = {
        "00": (0, 0, 0), "8000": (9, 0, 1), "808000": (9, 0, 2), "0107": (0, 1, 0), "018700": (9, 0, 2), "01878000": (9, 0, 3), "01878001": (0, 1, 0),
        "03070707": (0, 3, 0), "8300070707": (9, 0, 1), "8120": (9, 0, 0), "81A000": (9, 0, 2), "80A000": (9, 0, 2), "018780": (9, 0, 3), "8780": (9, 0, 2),
    }
    halls = {
        "010007": (0, 1, 1, 1, 0), "01800007": (9, 0, 0, 0, 2), "01810000": (9, 0, 0, 0, 2), "01820000": (9, 0, 0, 0, 2), "0182800000": (9, 0, 0, 0, 3),
        "81000007": (9, 0, 0, 0, 1), "01008700": (9, 0, 0, 0, 3), "01018000": (9, 0, 0, 0, 3), "01" * 15 + "8100": (9, 0, 0, 0, 16),
    }
    old = bytes.fromhex("018700")
    return [
        *((f"padded or not, {lent}", plan.read(bytes.fromhex(lent)), answer) for lent, answer in flat.items()),
        *((f"halls padded or not, {lent}", hall.read(bytes.fromhex(lent)), answer) for lent, answer in halls.items()),
        ("a chute beyond the 4,096th, padded", hall.read(b"\x81\x20" + bytes(8_192) + b"\x80\x00\x07"), (9, 0, 0, 0, 8_195)),
        ("walk of a padded plan", walked(old, 2), [(9, 0, 2)] * 2),
        ("padded site plan", plan.row(old, PLAN, 1), (9, None, 0, 0, "site", 2)),
        ("padded house plan", plan.row(PLAN, old, 1), (9, None, 0, 0, "house", 2)),
    ]


def migrated():
    """Plans by the old rule: what they are by the present one, and what is refused."""
    good = {
        "838000" "878000" "AC8200" "808000": PLAN, "8300" "8700" "AC02" "8000": PLAN, "0307AC0200": PLAN, "808000": b"\x00", "01FFFF7F": b"\x01\xff\xff\x7f",
    }
    refused = {"": 0, "018780": 3, "0180808000": 3, "81A000": 0, "8120": 0, "8000" "00": 2, "018700" "80": 3}
    most = b"\x80\xa0\x00" + b"\x81\x80\x00" * 4_096
    return [
        *((f"{lent} migrated", whole(bytes.fromhex(lent)), (0, made, 0)) for lent, made in good.items()),
        *((f"{lent} not migrated", whole(bytes.fromhex(lent)), (9, None, place)) for lent, place in refused.items()),
        ("migrated length", migration.migrated_length(bytes.fromhex("83008700AC028000")), (0, 5, 0)),
        ("4,096 padded rows migrated", whole(most), (0, b"\x80\x20" + b"\x01" * 4_096, 0)),
        ("65,536 and 65,537 bytes migrated", [whole(bytes(65_536)), whole(bytes(65_537))], [(9, None, 1), (5, None, 0)]),
        ("migrated into other buffers", [migration.migrate(PLAN, length) for length in (4, 6, 0)], [(9, None, 0)] * 3),
        ("a malformed plan into another buffer", migration.migrate(bytes.fromhex("0307AC"), 5), (9, None, 3)),
    ]


def whole(old):
    """What migrating a plan into a buffer of the length that it asks for answers."""
    return migration.migrate(old, migration.migrated_length(old)[1])


def rows():
    """All of them: each has a title, what the reference gives, and what is expected."""
    return plans() + walks_and_writing() + halls() + hall_limits() + places() + padded() + migrated()
