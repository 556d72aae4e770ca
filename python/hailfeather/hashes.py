"""Keccak-p[1600, 24], cSHAKE256, KMAC256 and KMACXOF256 in one call (FIPS 202, SP 800-185)."""

from ctypes import c_uint64
from typing import Sequence, Tuple

from .lending import BytesLike, Output, lent, output, room_for, size
from .library import functions
from .refusal import accept


def keccak_p(lanes: Sequence[int]) -> Tuple[int, ...]:
    """Keccak-p[1600, 24] of 25 lanes of 64 bits; the lane (x, y) is lanes[5 * y + x].

    >>> hex(keccak_p([0] * 25)[0])
    '0xf1258f7940e1dde7'
    """
    if len(lanes) != 25:
        raise ValueError(f"Keccak-p takes 25 lanes, not {len(lanes)}")
    state = (c_uint64 * 25)(*[size("a lane", lane) for lane in lanes])
    functions.hf_keccak_p(state)
    return tuple(state)


def cshake256(message: BytesLike, length: int, name: BytesLike = b"", customisation: BytesLike = b"") -> Output:
    """cSHAKE256: so many bytes of output. Without name and customisation it is SHAKE256. Refuses with 3, 4, 5, 6.

    >>> digest = cshake256(b"a plan", 16, customisation=b"depot 7")
    >>> digest.hex(), digest.runs
    ('08cf8f2f987b6cd9a536ceed69793541', 2)
    """
    return hashed("cshake256", lent("name", name), customisation, message, length)


def kmac256(key: BytesLike, message: BytesLike, length: int, customisation: BytesLike = b"") -> Output:
    """KMAC256: an authentication code of so many bytes; its length is part of what is authenticated, and may not be 0. Refuses with 2, 3, 5, 6.

    >>> kmac256(b"a key", b"a plan", 16, b"depot 7").hex()
    'aba8340f5e330c1d42d7f9a8055de1b5'
    >>> kmac256(b"a key", b"a plan", 0)
    Traceback (most recent call last):
    ...
    hailfeather.refusal.Refusal: refused 6: the output is empty or longer than 16,777,216 bytes
    """
    return hashed("kmac256", lent("key", key), customisation, message, length)


def kmacxof256(key: BytesLike, message: BytesLike, length: int, customisation: BytesLike = b"") -> Output:
    """KMACXOF256: so many bytes of output, of which a shorter one is the beginning of a longer one. Refuses with 2, 3, 5, 6.

    >>> kmacxof256(b"a key", b"a plan", 16).startswith(kmacxof256(b"a key", b"a plan", 8))
    True
    """
    return hashed("kmacxof256", lent("key", key), customisation, message, length)


def hashed(entry: str, first: Tuple, customisation: BytesLike, message: BytesLike, length: int) -> Output:
    """The output of one of the three functions, which take their arguments in the same order; `first` is the lent name or key."""
    room = room_for(size("length", length))
    outcome = getattr(functions, f"hf_{entry}")(*first, *lent("customisation", customisation), *lent("message", message), room, len(room))
    accept(entry, outcome.number)
    return output(room, outcome.runs)
