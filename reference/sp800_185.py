"""SP 800-185: the encodings, cSHAKE256, KMAC256 and KMACXOF256, all on whole bytes.

The three calls answer (number, runs, output) by docs/RULES.md: output None and runs 0 on a refusal.
"""

from fips202 import RATE, padded, sponge
from refusals import MESSAGE_LIMIT, OUTPUT_LIMIT, RESERVED_NAME, STRING_LIMIT, smallest


def big_endian(x):
    """2.3.1: x in the fewest bytes, at least one, highest byte first."""
    return x.to_bytes(max(1, (x.bit_length() + 7) // 8), "big")


def left_encode(x):
    """2.3.1: the number of bytes, then the bytes of x."""
    return bytes([len(big_endian(x))]) + big_endian(x)


def right_encode(x):
    """2.3.1: the bytes of x, then their number."""
    return big_endian(x) + bytes([len(big_endian(x))])


def encode_string(s):
    """2.3.2: the length in bits, left-encoded, then the string."""
    return left_encode(8 * len(s)) + s


def bytepad(x, w):
    """2.3.3: w left-encoded, x, then zeros to a multiple of w."""
    data = left_encode(w) + x
    return data + bytes(-len(data) % w)


def fed_cshake256(message, name, custom):
    """3.3: the padded bytes of cSHAKE256, which is SHAKE256 if name and customisation are empty."""
    if not name and not custom:
        return padded(message, 0x1F)
    prefix = bytepad(encode_string(name) + encode_string(custom), RATE)
    return padded(prefix + message, 0x04)


def fed_keyed(key, message, output_bits, custom):
    """4.3 and 4.3.1: the padded bytes of the cSHAKE256 call that both KMAC functions make."""
    keyed = bytepad(encode_string(key), RATE) + message + right_encode(output_bits)
    return fed_cshake256(keyed, RESERVED_NAME, custom)


def fed_kmac256(key, message, length, custom):
    """4.3: the padded bytes of KMAC256 for an output of `length` bytes."""
    return fed_keyed(key, message, 8 * length, custom)


def fed_kmacxof256(key, message, custom):
    """4.3.1: the padded bytes of KMACXOF256, for outputs of every length."""
    return fed_keyed(key, message, 0, custom)


def runs(fed, length):
    """docs/RULES.md, "Count": blocks of padded input, plus the blocks of output less one, or 0 for no output."""
    output_blocks = -(-length // RATE)
    return len(fed) // RATE + max(output_blocks - 1, 0)


def computed(fed, length):
    """An accepted call's answer: 0, its count and its output."""
    return 0, runs(fed, length), sponge(fed, length)


def refused(number):
    """A refused call's answer."""
    return number, 0, None


def cshake256(message, length, name, custom):
    """3.3: cSHAKE256(X, L, N, S), L in bytes."""
    number = smallest(
        (3, len(name) > STRING_LIMIT or len(custom) > STRING_LIMIT),
        (4, name == RESERVED_NAME),
        (5, len(message) > MESSAGE_LIMIT),
        (6, length > OUTPUT_LIMIT),
    )
    return refused(number) if number else computed(fed_cshake256(message, name, custom), length)


def kmac256(key, message, length, custom):
    """4.3: KMAC256(K, X, L, S), L in bytes; an empty output is refused."""
    number = smallest(
        (2, len(key) > STRING_LIMIT),
        (3, len(custom) > STRING_LIMIT),
        (5, len(message) > MESSAGE_LIMIT),
        (6, length > OUTPUT_LIMIT or length == 0),
    )
    return refused(number) if number else computed(fed_kmac256(key, message, length, custom), length)


def kmacxof256(key, message, length, custom):
    """4.3.1: KMACXOF256(K, X, L, S), L in bytes."""
    number = smallest(
        (2, len(key) > STRING_LIMIT),
        (3, len(custom) > STRING_LIMIT),
        (5, len(message) > MESSAGE_LIMIT),
        (6, length > OUTPUT_LIMIT),
    )
    return refused(number) if number else computed(fed_kmacxof256(key, message, custom), length)
