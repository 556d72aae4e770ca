#!/usr/bin/env python3
"""The cases of the program hall_cases and what it must write for them, worked out by the rules of docs/RULES.md alone.

    python3 reference/hall_cases.py --input > crates/hall_cases/stdin    the cases, in the form that crates/hall_cases/src/main.rt says
    python3 reference/hall_cases.py         > crates/hall_cases/stdout   what they are answered with; stops if the cases there are not these
"""
import sys
from pathlib import Path

import hall
from hall_case import Cases
from plan import written_number

SAMPLE = [[7, 300], [], [2_097_151]]  # 16 bytes, with numbers of one, two and three groups
ROOM = 524_288  # bytes of input that the program reads


def nested(depth, innermost):
    """A hall in a hall, and so on, `depth` of them; the innermost holds these entries."""
    return nested(depth - 1, [innermost]) if depth > 1 else innermost


def lists_of(halls):
    """The three values that halls are outside their bytes."""
    entries = list(hall.entries_in(halls))
    return len(halls), [kind for kind, _ in entries], [value for _, value in entries]


def examples(cases):
    cases.heading("examples")
    for halls in ([[7, 300], 0], [], [[]], [[], [], []], [[[], []], [[[]]]], SAMPLE, [5], [1, [2, [3, [4], 5], 6], 7]):
        cases.line(hall.bytes_of(halls))
    cases.line(b"")


def levels(cases):
    cases.heading("levels")
    for innermost in ([], [7], [1, 2, 3]):
        for depth in (7, 8, 9, 10):
            cases.line(hall.bytes_of(nested(depth, innermost)), depth - 1 + len(innermost))
    for halls in ([nested(7, []), 1, nested(7, [2]), []], [1, nested(7, [2]), nested(8, []), 3]):
        cases.line(hall.bytes_of(halls), len(list(hall.entries_in(halls))))


def kinds(cases):
    """Kinds other than 0 and 1, some of them 0 or 1 in their lowest byte, and 0 and 1 in more groups than they need."""
    cases.heading("kinds")
    for kind in (2, 3, 127, 128, 255, 256, 257, 65_536, 65_537, 2_097_151):
        cases.line(b"\x01" + written_number(kind) + b"\x00", 1)
    for padded in ("8000", "808000", "8100", "818000", "8200", "828000", "80808000", "81808000"):
        cases.line(bytes.fromhex("01" + padded + "00"), 1)
        cases.line(bytes.fromhex("02" "0101" + padded + "00" + "0007"), 3)


def promises(cases):
    """More entries promised than follow, fewer, and bytes after the last entry."""
    cases.heading("promises")
    for data in ("01", "FFFF7F", "FFFF7F0007", "FFFFFF7F", "80808000", "0101", "010105", "0101050007", "0101FFFF7F0007", "0301000007", "0201010007"):
        cases.line(bytes.fromhex(data), 2)
    for data in ("0000", "000000", "0100070007", "01000700", "01010000", "010101000700", "02010200" "0700AC02" "0000" "00"):
        cases.line(bytes.fromhex(data), 4)


def damaged(cases):
    sample = hall.bytes_of(SAMPLE)
    cases.heading("truncated")
    for size in range(len(sample)):
        cases.line(sample[:size], 6)
    cases.heading("flipped")
    for place in range(len(sample)):
        for mask in range(1, 256):
            data = sample[:place] + bytes([sample[place] ^ mask]) + sample[place + 1 :]
            cases.summed(data, 6, hall.read(data)[1] or 6)
        cases.end()


EIGHT = "01" * 15  # eight levels of one entry each, up to the entry on the eighth, whose kind is to stand at 15
NINE = "01" * 15 + "00"  # an entry of the outermost hall that is a level too many
# Malformed plans beside their good neighbours, for each row of the table in docs/RULES.md, "Places"; the chutes are below.
PLACES = {
    "a number cut": ("80", "8080", "00", "0180", "018080", "010007", "0100", "010080", "01008080", "0100808001", "0101", "010180", "0200AC0200"),
    "a number that goes on": ("808080", "81808000", "01808080", "0181808000", "0100808080", "0100FFFFFF7F", "0101808080", "010100", "020007808080"),
    "a number padded": (
        "8000", "808000", "81000007", "8180000007", "01800007", "01810000", "01820000", "0182800000", "018201", "01008700", "0100878000", "01008701",
        "0100878001", "01018000", "0101808000", "010181000007", EIGHT + "800007", EIGHT + "8100", EIGHT + "810000", EIGHT + "818000", EIGHT + "0007",
    ),
    "bytes after the last entry": ("0007", "010007FF", "01010080", "0101010007808080", "00" "00"),
    "another kind": ("0102", "010202", "018201", "01828001", "01FFFF7F", "018101", "02000702", "020007820100", "02010002", "020101000702", "02000701" "00"),
    "a level": (EIGHT, EIGHT + "00", EIGHT + "0007", EIGHT + "01", EIGHT + "0101", EIGHT + "0100", EIGHT + "02", EIGHT + "8101"),
}
# Plans with two breaches, of which the first in reading order counts.
TWO_BREACHES = (
    "0202", "02020080", "0282", "028280", "02828080",  # another kind and a number that is cut, then a kind that is cut or goes on before its value is judged
    "0302000080808000", "03008080800200", "0302008080", "030080808080",  # another kind before a number that goes on, the other way round, and one that is cut
    "01020000", "0100070200", "010080808000", "0100078080",  # a bad entry and bytes after the last, then such bytes that are no entry
    "020200" + NINE, "02" + NINE + "0200", EIGHT + "818080", EIGHT + "8180", EIGHT + "01808080", EIGHT + "820101",  # a level too many beside the others
    "02820002", "0202" "8200", "02008700" "808080", "02008080" "808700", "010007" "8000", "FFFF00", "81000200", "02" + NINE + "8000", "028000" + NINE,  # padded
    "FFFF7F02", "FFFF7F80", "FFFFFF02", "0101FFFF7F02",  # more entries promised than could follow, and a bad one
)


def places(cases):
    for title, plans in PLACES.items():
        cases.heading(title)
        for data in plans:
            cases.line(bytes.fromhex(data), 8 if data.startswith(EIGHT) else 1)
    cases.heading("two breaches")
    for data in TWO_BREACHES:
        cases.line(bytes.fromhex(data), 2)
    cases.heading("a chute too many")
    full = bytes(2 * 4_096)  # 4,096 chutes; what follows is another, its kind also cut or padded, or a level too many before it or after it
    for count, rest in ((4_097, "00"), (4_097, "80"), (4_097, "800007"), (4_098, "0007" + NINE), (4_098, NINE + "0007")):
        cases.line(written_number(count) + full + bytes.fromhex(rest), 4_097)


def building(chutes):
    """So many chutes in some 300 halls on three levels."""
    return [[[(511 * (14 * line + i)) % 2_097_152 for i in range(14) if 14 * line + i < chutes] for line in range(k, 300, 20)] for k in range(20)]


def many(cases):
    cases.heading("many chutes")
    for halls in (building(4_096), [*building(4_096), []], [*building(4_096), 0], [0] * 4_096, [[[0] * 4_095], 7]):
        cases.line(hall.bytes_of(halls), len(list(hall.entries_in(halls))))
    cases.heading("long")
    longest = [[[]] * 128, *[[]] * 32_637]
    for halls in (longest, [[]] * 32_767):
        cases.line(hall.bytes_of(halls), len(list(hall.entries_in(halls))))
    for size in (65_536, 65_537):
        cases.line(bytes(size))


def flat(cases):
    cases.heading("as flat plans")
    for halls in (SAMPLE, [], [[]], nested(8, [1, 2]), [1, [2, [3, [4], 5], 6], 7], building(500), building(4_096)):
        cases.flat(halls)


def written(cases):
    cases.heading("written")
    for halls in ([], [[]], [[7, 300], 0], SAMPLE, nested(8, []), nested(8, [127, 128, 16_383, 16_384]), [[0] * 127, [0] * 128], building(4_096)):
        cases.written(*lists_of(halls))
    for count in (4_096, 4_097):
        cases.written(count, [0] * count, [0] * count, 2 * count + 2)
    for outer in (32_767, 32_768):
        cases.written(outer, [1] * 32_767, [0] * 32_767, 65_537)
    cases.heading("not written")
    for outer in (1, 3, 2_097_151, 2_097_152, 2**32 + 2, 2**63 + 2, 2**64 - 1):
        cases.written(outer, [1, 0, 0, 0], [2, 7, 300, 0], 10)
    for kinds_given in ([1, 0, 0], [1, 0, 0, 0, 0], [1, 0, 2, 0], [255, 0, 0, 0], [], [0, 0, 0, 0], [1, 1, 0, 0]):
        cases.written(2, kinds_given, [2, 7, 300, 0], 10)
    for values in ([2, 7, 300], [2, 7, 300, 0, 0], [1, 7, 300, 0], [3, 7, 300, 0], [4, 7, 300, 0], [2_097_152, 7, 300, 0], [2**32 - 1, 7, 300, 0], []):
        cases.written(2, [1, 0, 0, 0], values, 10)
    for value in (2_097_151, 2_097_152, 2**31, 2**32 - 1):
        cases.written(1, [0], [value], 5)
    cases.written(*lists_of(nested(9, [])), 17)


def main(arguments):
    cases = Cases()
    for section in (examples, levels, kinds, promises, damaged, places, many, flat, written):
        section(cases)
    made = cases.count.to_bytes(4, "little") + cases.input
    if len(made) > ROOM:
        sys.exit(f"hall_cases reads {ROOM} bytes, and the cases have {len(made)}")
    if arguments == ["--input"]:
        sys.stdout.buffer.write(made)
    elif (Path(__file__).resolve().parent.parent / "crates/hall_cases/stdin").read_bytes() != made:
        sys.exit("crates/hall_cases/stdin has other cases: python3 reference/hall_cases.py --input writes it")
    else:
        sys.stdout.write("".join(cases.output))


if __name__ == "__main__":
    main(sys.argv[1:])
