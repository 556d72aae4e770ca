"""The generators of the cSHAKE-DRNG's paper, as docs/RULES.md, "Generators", reads it: the cSHAKE generator (1.1) and the KMAC generator (1.2).

They differ in the padded bytes of their two calls alone. Every step takes a generator and hands one back; a refused step hands back the one it got.
"""

from typing import Callable, NamedTuple

from fips202 import sponge
from refusals import OUTPUT_LIMIT, SEED_LIMIT, SHORT_LIMIT, smallest
from sp800_185 import fed_cshake256, fed_kmacxof256, runs

KEY_LENGTH = 64  # 512 bits (1.1.3, 1.2.3)
PIECE = 208  # 2 x 1,088 - 512 bits (1.1.5, 1.2.5)


class Kind(NamedTuple):
    """The padded bytes of a generator's two calls, each from the key and X."""

    fed_seed: Callable[[bytes, bytes], bytes]
    fed_piece: Callable[[bytes, bytes], bytes]


CSHAKE = Kind(  # 1.1.3, 1.1.4
    fed_seed=lambda key, x: fed_cshake256(x, b"cSHAKE-DRNG seed", key),
    fed_piece=lambda key, x: fed_cshake256(x, b"cSHAKE-DRNG generate", key),
)
KMAC = Kind(  # 1.2.3, 1.2.4
    fed_seed=lambda key, x: fed_kmacxof256(key, x, b"KMAC-DRNG seed"),
    fed_piece=lambda key, x: fed_kmacxof256(key, x, b"KMAC-DRNG generate"),
)


class Generator(NamedTuple):
    """Which of the two it is, the key, at first all zero, and whether it was ever seeded."""

    kind: Kind
    key: bytes = bytes(KEY_LENGTH)
    seeded: bool = False


def encode(a):
    """1.1.2 with n = 0 and nothing before: the string, then one byte holding its length."""
    return a + bytes([len(a)])


def fed_seed(generator, seed_bytes, personalisation):
    """1.1.3, 1.2.3: the padded bytes of a seeding."""
    return generator.kind.fed_seed(generator.key, seed_bytes + encode(personalisation))


def seed(generator, seed_bytes, personalisation):
    """1.1.3, 1.2.3: (number, runs, generator); numbers 3 and 5. An empty seed counts as a seeding."""
    number = smallest((3, len(personalisation) > SHORT_LIMIT), (5, len(seed_bytes) > SEED_LIMIT))
    if number:
        return number, 0, generator
    fed = fed_seed(generator, seed_bytes, personalisation)
    return 0, runs(fed, KEY_LENGTH), generator._replace(key=sponge(fed, KEY_LENGTH), seeded=True)


def generate(kind, key, additional):
    """1.1.4, 1.2.4: (new key, a piece of the stream, runs)."""
    fed = kind.fed_piece(key, encode(additional))
    length = KEY_LENGTH + PIECE
    output = sponge(fed, length)
    return output[:KEY_LENGTH], output[KEY_LENGTH:], runs(fed, length)


def draw(generator, additional, length):
    """1.1.5, 1.2.5: (number, runs, output or None, generator); numbers 1, 3 and 6. The last piece is cut."""
    number = smallest(
        (1, not generator.seeded),
        (3, len(additional) > SHORT_LIMIT),
        (6, length > OUTPUT_LIMIT),
    )
    if number:
        return number, 0, None, generator
    key, stream, total_runs = generator.key, bytearray(), 0
    while len(stream) < length:
        key, piece, piece_runs = generate(generator.kind, key, additional)
        stream += piece
        total_runs += piece_runs
    return 0, total_runs, bytes(stream[:length]), generator._replace(key=key)
