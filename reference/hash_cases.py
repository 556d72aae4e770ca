"""Cases of cSHAKE256, KMAC256 and KMACXOF256: NIST's samples, the counts of docs/RULES.md, and some thousand calls around the edges of blocks and limits.

The samples' outputs are the published ones of vectors/nist-samples.txt, not worked out here, and the counts those of docs/RULES.md's table.
"""

import os

from sp800_185 import cshake256, kmac256, kmacxof256

SAMPLES = os.path.join(os.path.dirname(__file__), "..", "vectors", "nist-samples.txt")
BUFFER = 300
LENGTHS = (0, 1, 84, 125, 126, 132, 133, 134, 135, 136, 137, 271, 272, 4096, 4097)
OUTPUTS = (0, 1, 32, 135, 136, 137, 272, 273)


def pattern(first, step, length):
    return bytes((first + step * i) % 256 for i in range(length))


DATA, KEY = bytes(range(200)), bytes(range(0x40, 0x60))
NAMED, CUSTOM, MESSAGE = pattern(3, 7, 4097), pattern(1, 5, 4097), pattern(2, 3, 4097)
SIGNATURE, APPLICATION = b"Email Signature", b"My Tagged Application"
# Each sample's letter, name or key, customisation and message.
PUBLISHED = {
    "cSHAKE256 sample 3": ("C", b"", SIGNATURE, DATA[:4]),
    "cSHAKE256 sample 4": ("C", b"", SIGNATURE, DATA),
    "SHAKE256 of the empty message": ("C", b"", b"", b""),
    "KMAC256 sample 4": ("M", KEY, APPLICATION, DATA[:4]),
    "KMAC256 sample 5": ("M", KEY, b"", DATA),
    "KMAC256 sample 6": ("M", KEY, APPLICATION, DATA),
    "KMACXOF256 sample 4": ("X", KEY, APPLICATION, DATA[:4]),
    "KMACXOF256 sample 5": ("X", KEY, b"", DATA),
    "KMACXOF256 sample 6": ("X", KEY, APPLICATION, DATA),
}
# Lengths of customisation, message and output, and the runs of KMACXOF256 with a key of 32 bytes (docs/RULES.md, 'Facts').
COUNTS = ((0, 0, 32, 3), (0, 0, 0, 3), (0, 0, 136, 3), (0, 0, 137, 4), (0, 133, 32, 3), (0, 134, 32, 4), (125, 0, 32, 3), (126, 0, 32, 4))


def published():
    """The published outputs by the samples' names."""
    outputs, label = {}, None
    with open(SAMPLES, encoding="ascii") as file:
        for line in file:
            fields = [field.strip() for field in line.split("|")]
            if len(fields) == 7 and not line.startswith("#"):
                outputs[fields[0]] = bytes.fromhex(fields[6])
            elif line.startswith("# SHAKE256 of the empty message"):
                label = "SHAKE256 of the empty message"
            elif label and line.strip():
                outputs[label] = bytes.fromhex(line.strip())
                label = None
    return outputs


def call(letter, named, custom, message, size):
    """(number, runs, output) of the function that a letter stands for."""
    if letter in "cC":
        return cshake256(message, size, named, custom)
    return (kmac256 if letter in "mM" else kmacxof256)(named, message, size, custom)


def shown(cases, letter, named, custom, message, size):
    """A call that is written out: number, runs, and the lent bytes."""
    cases.put("single", letter, size, 0, (named, custom, message))
    number, runs, output = call(letter, named, custom, message, size)
    cases.answer("single", number, runs, b"\xa5" * size if number else output)
    return runs


def samples(cases):
    outputs = published()
    for name, (letter, named, custom, message) in PUBLISHED.items():
        cases.heading("single", name)
        size = len(outputs[name])
        cases.put("single", letter, size, 0, (named, custom, message))
        cases.answer("single", 0, call(letter, named, custom, message, size)[1], outputs[name])


def counts(cases):
    cases.heading("single", "counts")
    for custom, message, size, runs in COUNTS:
        if shown(cases, "X", KEY, DATA[:custom], DATA[:message], size) != runs:
            raise SystemExit("the reference counts otherwise than docs/RULES.md")
    cases.heading("single", "names, and KMAC256 of no bytes")
    for name, custom in ((b"KMAC", b""), (b"kmac", b""), (b"KMAC ", b""), (b"KMA", b"C")):
        shown(cases, "C", name, custom, DATA, 1)
    shown(cases, "M", b"", b"", DATA, 0)


def group(cases, letter, i):
    """The calls with the i-th name or key, in one checksum."""
    for j, custom in enumerate(LENGTHS):
        for k in range((i + 2 * j) % 3, len(LENGTHS), 3):
            size = OUTPUTS[(i + j + k) % len(OUTPUTS)]
            strings = (NAMED[: LENGTHS[i]], CUSTOM[:custom], MESSAGE[: LENGTHS[k]])
            cases.put("single", letter, size, 0, strings)
            number, runs, output = call(letter, *strings, size)
            written = output if number == 0 else b""
            cases.add((number, runs))
            cases.add(written + b"\xa5" * (BUFFER - len(written)))
    cases.end("single")


def add(cases):
    samples(cases)
    counts(cases)
    for letter, title in (("c", "cSHAKE256 by the length of the name"), ("m", "KMAC256 by the length of the key"), ("x", "KMACXOF256 by the length of the key")):
        cases.heading("single", title)
        for i in range(len(LENGTHS)):
            group(cases, letter, i)
