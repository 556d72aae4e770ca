"""Runs vectors/nist-samples.txt against the reference (vectors/README.md has its format).

    python3 reference/nist.py

Prints `N samples agree`, or each difference and exit status 1. Samples of functions that the
reference does not have are counted and named.
"""

import re
import sys
from pathlib import Path

from fips202 import keccak_p
from sp800_185 import cshake256, kmac256, kmacxof256

SAMPLES = Path(__file__).resolve().parent.parent / "vectors" / "nist-samples.txt"
STATES = {"once": 1, "twice": 2}


def text_bytes(field):
    """A string given as text, `-` for the empty one."""
    return b"" if field == "-" else field.encode("ascii")


def message_bytes(field):
    """A message given in hexadecimal, or as `AA to BB` for the bytes AA, AA + 1 and so on to BB."""
    span = re.fullmatch(r"([0-9A-F]{2}) to ([0-9A-F]{2})", field)
    if span is None:
        return bytes.fromhex(field)
    first, last = (int(end, 16) for end in span.groups())
    return bytes(range(first, last + 1))


def sample_output(fields):
    """The reference's output for a sample's line, or None if it does not have the function."""
    title, key, name, custom, message, length = fields
    function = title.split()[0]
    custom, length = text_bytes(custom), int(length)
    if function == "cSHAKE256":
        return cshake256(message_bytes(message), length, text_bytes(name), custom)[2]
    if function in ("KMAC256", "KMACXOF256"):
        keyed = kmac256 if function == "KMAC256" else kmacxof256
        return keyed(bytes.fromhex(key), message_bytes(message), length, custom)[2]
    return None


def state_after(times):
    """The lanes of the zero state after Keccak-p[1600, 24], applied so many times, as the file gives them."""
    lanes = [0] * 25
    for _ in range(times):
        lanes = keccak_p(lanes)
    return " ".join(f"{lane:016X}" for lane in lanes)


def checked(line):
    """(title, the file's value, the reference's value or None) of a line."""
    fields = line.split(" | ")
    if len(fields) == 7:
        output = sample_output(fields[:6])
        return fields[0], fields[6], None if output is None else output.hex().upper()
    title, _, lanes = line.partition(" ")
    if title in STATES:
        return title, lanes.strip(), state_after(STATES[title])
    return "SHAKE256 of the empty message", line, cshake256(b"", 32, b"", b"")[2].hex().upper()


def main():
    lines = [line for line in SAMPLES.read_text().splitlines() if line and not line.startswith("#")]
    results = [checked(line) for line in lines]
    skipped = [title for title, _, found in results if found is None]
    wrong = [result for result in results if result[2] not in (None, result[1])]
    for title, expected, found in wrong:
        print(f"{title}: the file has {expected}, the reference {found}")
    if skipped:
        print(f"{len(skipped)} samples skipped: {'; '.join(skipped)}")
    if not wrong:
        print(f"{len(results) - len(skipped)} samples agree")
    return 1 if wrong else 0


if __name__ == "__main__":
    sys.exit(main())
