"""Cases of sealing and opening: the edges of each length, mixed lengths, every bit flipped, and cut tags.

A sealing is opened again, from what it left in its buffers; a damaged or cut one is this reference's. The checksum goes over numbers and counts and over the
whole buffers, which hold A5 where a call writes nothing.
"""

from hash_cases import pattern
from sealing import open_sealed, seal

TEXTS = (0, 1, 31, 103, 104, 105, 136, 137, 239, 240, 241, 300)
IVS = (0, 1, 16, 125, 126)
TAGS = (15, 16, 17, 32, 64, 65)
CUTS = (32, 31, 17, 16, 15, 0)
BUFFER, TAG_BUFFER = 300, 65

# lengths of key, IV, text, label, output and tag
EDGES = (
    (32, 0, 0, 0, 0, 16),  # docs/RULES.md's counts
    (32, 0, 104, 0, 104, 16),
    (32, 0, 105, 0, 105, 16),
    (32, 125, 0, 0, 0, 16),  # a block of the IV
    (32, 126, 0, 0, 0, 16),
    (32, 0, 0, 133, 0, 16),  # a block of the label
    (32, 0, 0, 134, 0, 16),
    (32, 0, 104, 0, 104, 0),  # limits of the tag
    (32, 0, 104, 0, 104, 15),
    (32, 0, 104, 0, 104, 64),
    (32, 0, 104, 0, 104, 65),
    (31, 0, 104, 0, 104, 16),  # of the key
    (33, 0, 104, 0, 104, 16),
    (32, 0, 104, 0, 103, 16),  # of the output
    (32, 0, 104, 0, 105, 16),
    (32, 4096, 104, 0, 104, 16),  # of the IV
    (32, 4097, 104, 0, 104, 16),
    (31, 4097, 104, 0, 103, 15),  # several at once
    (32, 4097, 104, 0, 103, 15),
    (32, 0, 104, 0, 103, 15),
)
KEY, IV, TEXT, LABEL = pattern(1, 5, 33), pattern(2, 3, 4097), pattern(3, 7, 300), pattern(4, 9, 300)


def opened(cases, key, iv, ciphertext, label, out, tag, shown=False):
    """An opening; its tag stands behind the label."""
    cases.put("single", "O" if shown else "o", out, len(tag), (key, iv, ciphertext, label), behind=tag)
    number, runs, text = open_sealed(key, iv, ciphertext, label, tag, out)
    if shown:
        cases.answer("single", number, runs, b"\xa5" * out if number else text)
    else:
        cases.add((number, runs, *buffer(BUFFER, text)))
    return number, runs


def buffer(size, written):
    """A buffer that held A5 after a call that wrote these bytes, or None."""
    written = written or b""
    return written + b"\xa5" * (size - len(written))


def seal_and_open(cases, key, iv, text, label, out, tag):
    """Seals with these lengths, and opens what is then in the buffers with the same."""
    key, iv, text, label = KEY[:key], IV[:iv], TEXT[:text], LABEL[:label]
    cases.put("single", "l", out, tag, (key, iv, text, label))
    number, runs, ciphertext, new_tag = seal(key, iv, text, label, out, tag)
    ciphertexts, tags = buffer(BUFFER, ciphertext), buffer(TAG_BUFFER, new_tag)
    cases.add((number, runs, *ciphertexts, *tags))
    number, runs, back = open_sealed(key, iv, ciphertexts[: len(text)], label, tags[:tag], out)
    cases.add((number, runs, *buffer(BUFFER, back)))


def edges(cases):
    cases.heading("single", "sealing and opening at the edges of each length")
    for lengths in EDGES:
        seal_and_open(cases, *lengths)
        cases.end("single")


def round_trips(cases):
    cases.heading("single", "round trips by the length of the text")
    for text in TEXTS:
        for j in range(len(TEXTS) * len(TAGS)):
            seal_and_open(cases, 32, IVS[j % len(IVS)], text, TEXTS[j // len(TAGS)], text, TAGS[j % len(TAGS)])
        cases.end("single")


def flips(cases):
    """Every bit of all that is opened, flipped: each is refused with 8 and writes nothing."""
    given = pattern(5, 11, 71)
    key, iv, text, label = given[:32], given[32:44], given[44:64], given[64:]
    _, _, ciphertext, tag = seal(key, iv, text, label, len(text), 16)
    arguments = {"tag": tag, "ciphertext": ciphertext, "label": label, "IV": iv, "key": key}
    for name, argument in arguments.items():
        cases.heading("single", f"every bit of the {name} flipped")
        for bit in range(8 * len(argument)):
            flipped = bytearray(argument)
            flipped[bit // 8] ^= 1 << bit % 8
            its = arguments | {name: bytes(flipped)}
            if opened(cases, its["key"], its["IV"], its["ciphertext"], its["label"], len(text), its["tag"]) != (8, 0):
                raise SystemExit("the reference opens a damaged seal")
        cases.end("single")
    cases.heading("single", "none flipped")
    opened(cases, key, iv, ciphertext, label, len(text), tag, shown=True)


def cuts(cases):
    cases.heading("single", "a tag of 32 bytes, whole and cut")
    _, _, ciphertext, tag = seal(KEY[:32], IV[:12], TEXT[:20], LABEL[:7], 20, 32)
    for cut in CUTS:
        opened(cases, KEY[:32], IV[:12], ciphertext, LABEL[:7], 20, tag[:cut], shown=True)


def add(cases):
    for section in (edges, round_trips, flips, cuts):
        section(cases)
