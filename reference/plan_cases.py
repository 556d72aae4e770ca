#!/usr/bin/env python3
"""The cases of the program plan_cases and what it must write for them, worked out by the rules of docs/RULES.md alone.

    python3 reference/plan_cases.py --input > crates/plan_cases/stdin    the cases, in the form that crates/plan_cases/src/main.rt says
    python3 reference/plan_cases.py         > crates/plan_cases/stdout   what they are answered with; stops if the cases there are not these
"""
import sys
from pathlib import Path

import plan
from plan_case import Cases, padded_number, write_plan

SAMPLE_ROWS = [0, 1, 127, 128, 300, 16383, 16384, 2097151]
ROOM = 262_144  # bytes of input that the program reads


def examples(cases):
    cases.heading("examples")
    for data in ("0307AC0200", "00", "0180808000", ""):
        cases.line(bytes.fromhex(data))


def damaged(cases):
    sample = write_plan(SAMPLE_ROWS)
    cases.heading("sample")
    cases.line(sample)
    cases.heading("truncated")
    for size in range(len(sample) + 1):
        cases.line(sample[:size])
    cases.heading("flipped")
    for place in range(len(sample)):
        flipped = [sample[:place] + bytes([sample[place] ^ mask]) + sample[place + 1 :] for mask in range(1, 256)]
        cases.line(flipped[0x80 - 1])
        for data in flipped:
            cases.summed(data, 12)
        cases.end()
    cases.heading("every byte alone")
    for first in range(256):
        cases.line(bytes([first]))


# Numbers in more groups than they need beside those in as many as they do: alone, as rows, and as numbers of rows.
PADDED = (
    "00", "8000", "808000", "07", "8700", "878000", "8780",
    "0107", "018700", "018701", "01878000", "01878001", "0187", "018780", "01878080", "018000", "01808000", "01FFFF7F", "01FFFF00", "01FF00", "017F",
    "03070707", "8300070707", "838000070707", "8300", "810007", "81800007", "8120", "81A000", "8020", "80A000", "80A00007",
)


def edges(cases):
    cases.heading("padded")
    for data in PADDED:
        cases.line(bytes.fromhex(data))
    cases.heading("fourth group")
    for data in ("0180808000", "01FFFFFF7F", "80808000", "8180800007", "01FFFF80", "01FFFFFF"):
        cases.line(bytes.fromhex(data))
    cases.heading("after the last row")
    for data in ("0000", "000000", "010700", "01AC0280", "030700AC0200", "0307AC020000", "0307AC0200FF"):
        cases.line(bytes.fromhex(data))


# Malformed plans beside their good neighbours, for each row of the table in docs/RULES.md, "Places".
PLACES = {
    "a number cut": ("80", "8080", "808000", "02", "0207", "020780", "02078080", "0207808000", "02AC02", "02AC0207", "0207808001"),
    "a number that goes on": ("808080", "80808080", "808000", "FFFFFF00", "01808080", "01FFFFFFFF", "01808000", "0207808080", "020780808000", "0207808001"),
    "a number padded": ("8200", "828000", "82800007AC", "0207808000", "02AC0207", "02AC8200", "02AC820007", "03AC02870007", "8200AC0207"),
    "too many rows": ("8120", "812007", "81A000", "FFFF7F", "808001", "8020", "80A000"),
    "bytes after": ("0007", "800007", "01078080", "0207AC0207", "0207AC02", "01808000FF", "0080808000"),
}
# Plans with two breaches, of which the first in reading order counts.
TWO_BREACHES = (
    "812080808000", "8120808080", "812080", "81A00080", "FFFF7FFF", "80A080", "818080",  # too many rows that are bad too; a number of rows that goes on
    "038080800007", "0307808080", "0380808080", "030780", "03FFFFFF0780", "0307FFFFFF80",  # a row that goes on, and one that is cut
    "018080800007", "02078080800007", "0107808080", "010780",  # a bad row and bytes after the last, then such bytes that are no number
    "018700" "07", "0107" "8000", "028700" "808080", "02808080" "8700", "028700" "80", "82008700", "81A000" "8700", "FFFF00",  # a padded number
)


def places(cases):
    for title, plans in PLACES.items():
        cases.heading(title)
        for data in plans:
            cases.line(bytes.fromhex(data))
    cases.heading("two breaches")
    for data in TWO_BREACHES:
        cases.line(bytes.fromhex(data))
    cases.line(plan.written_number(4096) + b"\x01" * 4095 + b"\x80")
    cases.line(plan.written_number(4097) + b"\x01" * 4096 + b"\x80")


def many_rows(cases):
    cases.heading("many rows")
    body = bytes((7 * i + 3) % 128 for i in range(4098))
    for count in (4095, 4097, 4096):
        for size in (count - 1, count, count + 1):
            cases.line(plan.written_number(count) + body[:size])
    cases.summed(plan.written_number(4096) + body[:4096], 4100)
    cases.end()
    cases.heading("long")
    for size in (65535, 65536, 65537, 65600):
        cases.line(bytes(size))


def pairs(cases):
    cases.heading("pairs")
    site, house, none, bad = (bytes.fromhex(data) for data in ("02AC0207", "0480010180800109", "00", "018080"))
    long = bytes(65537)
    for first, second in (
        (site, house), (house, site), (site, none), (none, house), (none, none), (site, bad), (bad, site), (bad, bad), (site, long), (long, site), (long, bad),
        (bad, long), (long, long), (b"", site), (site, b""),
    ):
        for chute in (0, 1, 2, 3, 4, 5, 4096, 2**32 - 1, 2**32 + 1):
            cases.pair(first, second, chute)
    cases.heading("malformed pairs")
    malformed = [bytes.fromhex(data) for data in ("0307AC", "0207808080", "018700", "812007", "02AC020700", "")]
    for first in (site, none, long, *malformed):
        for second in (house, none, long, *malformed):
            if first in malformed or second in malformed:
                cases.pair(first, second, 1)


def written(cases):
    cases.heading("written")
    for rows in (
        [], [0], SAMPLE_ROWS, [7, 300, 0], [2097151], [2097152], [7, 4294967295, 0], [127, 128, 16383, 16384],
        [(i * 511) % 2097152 for i in range(4096)], [(i * 511) % 2097152 for i in range(4097)], [2097151] * 4096,
    ):
        cases.written(rows)


def walked(cases):
    """Asks of a walker, one after another: on a refused plan its number and place, past the last row 10."""
    cases.heading("walked")
    for data in ("0307AC0200", "00", write_plan(SAMPLE_ROWS).hex(), "0107", "018700", "810007", "0180808000", "", "00" * 65537, "0000"):
        cases.walked(bytes.fromhex(data))
    for data in ("0307AC", "0207808080", "808080", "8120", "0307AC020007", "00" * 65536):
        cases.walked(bytes.fromhex(data))


def migrated(cases):
    """Plans by the old rule: padded in all numbers, in some or in none, and those that it refuses too."""
    cases.heading("migrated")
    numbers = [len(SAMPLE_ROWS), *SAMPLE_ROWS]
    for data in (write_plan(SAMPLE_ROWS), b"".join(map(padded_number, numbers))):
        cases.migrated(data)
    for at in range(len(numbers)):
        cases.migrated(b"".join((padded_number if i == at else plan.written_number)(value) for i, value in enumerate(numbers)))
    for data in ("0307AC0200", "", *PADDED, *PLACES["bytes after"], *TWO_BREACHES):
        cases.migrated(bytes.fromhex(data))
    rows = [(i * 511) % 128 ** (i % 3 + 1) for i in range(4096)]
    wide = b"".join(bytes([value | 128, 0]) if value < 128 else plan.written_number(value) for value in rows)  # padded where one group is enough
    for data in (padded_number(4096) + wide, bytes(65536), bytes(65537)):
        cases.migrated(data)


def main(arguments):
    cases = Cases()
    for section in (examples, damaged, edges, places, many_rows, pairs, written, walked, migrated):
        section(cases)
    made = cases.count.to_bytes(4, "little") + cases.input
    if len(made) > ROOM:
        sys.exit(f"plan_cases reads {ROOM} bytes, and the cases have {len(made)}")
    if arguments == ["--input"]:
        sys.stdout.buffer.write(made)
    elif (Path(__file__).resolve().parent.parent / "crates/plan_cases/stdin").read_bytes() != made:
        sys.exit("crates/plan_cases/stdin has other cases: python3 reference/plan_cases.py --input writes it")
    else:
        sys.stdout.write("".join(cases.output))


if __name__ == "__main__":
    main(sys.argv[1:])
