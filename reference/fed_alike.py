"""Demand 3 on many awkward arguments: calls fed alike had equal arguments that count, and so had seedings, of one generator or of both.

    python3 reference/fed_alike.py

Names, keys, customisations, messages and seeds are chosen so that a careless joining of fields would make two of them one. Each seeding is also held beside the
call that it is made of, which has to be fed like it, and beside calls of KMAC256 with the same key, customisation and message, none of which may be. Prints how
many calls and seedings are fed differently, or each pair that is fed otherwise than it should be and exit status 1.
"""

import sys
from itertools import product

from generator import CSHAKE, KMAC, Generator, encode, fed_seed
from sp800_185 import bytepad, encode_string, fed_cshake256, fed_kmac256, fed_kmacxof256, right_encode

STRINGS = [b"", b"\x00", b"\x01", b"\x00\x01", b"\x01\x00", b"K", b"KMAC", b"KMAC\x01\x00"]
STRINGS += [bytes(length) for length in (125, 126, 136)]
ENDS = [b"", b"\x00", b"\x04", b"\x1f", right_encode(0), right_encode(8)]
PREFIXES = [
    bytepad(encode_string(name) + encode_string(custom), 136)
    for name, custom in product([b"", b"KMAC"], [b"", b"K"])
]
KEY_BLOCKS = [bytepad(encode_string(key), 136) for key in (b"", b"K")]
JOINED = product([b"", *PREFIXES, bytes(135)], [b"", *KEY_BLOCKS], ENDS)
MESSAGES = sorted({first + second + end for first, second, end in JOINED})
LENGTHS = [1, 32]


def calls():
    """(padded bytes, the arguments that count) of each accepted call of the three functions."""
    for name, custom, message in product(STRINGS, STRINGS, MESSAGES):
        if name != b"KMAC":
            yield fed_cshake256(message, name, custom), ("cSHAKE256", name, custom, message)
    for key, custom, message in product(STRINGS, STRINGS, MESSAGES):
        yield fed_kmacxof256(key, message, custom), ("KMACXOF256", key, custom, message)
        for length in LENGTHS:
            yield fed_kmac256(key, message, length, custom), ("KMAC256", key, custom, message, length)


def seedings(title, kind):
    """(padded bytes, the arguments that count) of one generator's seedings."""
    keys = [bytes(64), b"\x01" + bytes(63), bytes(63) + b"\x01"]
    personalisations = [text for text in STRINGS if len(text) <= 84] + [bytes(84), b"\x01\x01"]
    for key, seed, personalisation in product(keys, sorted({*MESSAGES, *STRINGS}), personalisations):
        yield fed_seed(Generator(kind, key), seed, personalisation), (title, key, seed, personalisation)


def call_of(title, key, seed, personalisation):
    """The padded bytes of the call that a seeding is made of."""
    message = seed + encode(personalisation)
    if title == "cSHAKE generator":
        return fed_cshake256(message, b"cSHAKE-DRNG seed", key)
    return fed_kmacxof256(key, message, b"KMAC-DRNG seed")


def beside_calls(feeds):
    """A line for each seeding that is not fed like its call, or is fed like a call of KMAC256."""
    kmac256 = set()
    for _, (_, key, seed, personalisation) in feeds:
        message = seed + encode(personalisation)
        kmac256 |= {fed_kmac256(key, message, length, b"KMAC-DRNG seed") for length in (*LENGTHS, 64)}
    for fed, arguments in feeds:
        if fed != call_of(*arguments):
            yield f"not fed like its call: {arguments}"
        if fed in kmac256:
            yield f"fed like a call of KMAC256: {arguments}"


def fed_alike(feeds):
    """(number of different feeds, the pairs of different arguments that are fed alike)."""
    seen, pairs = {}, []
    for fed, arguments in feeds:
        earlier = seen.setdefault(fed, arguments)
        if earlier != arguments:
            pairs.append((earlier, arguments))
    return len(seen), pairs


def main():
    feeds = [*seedings("cSHAKE generator", CSHAKE), *seedings("KMAC generator", KMAC)]
    call_feeds, call_pairs = fed_alike(calls())
    seeding_feeds, seeding_pairs = fed_alike(feeds)
    wrong = [f"fed alike: {one} {other}" for one, other in call_pairs + seeding_pairs] + list(beside_calls(feeds))
    for line in wrong:
        print(line)
    if wrong:
        return 1
    print(f"{call_feeds} calls and {seeding_feeds} seedings are fed differently, and each seeding like the call that it is made of")
    return 0


if __name__ == "__main__":
    sys.exit(main())
