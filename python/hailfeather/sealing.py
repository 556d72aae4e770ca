"""Sealing and opening by the KMAC AEAD: encryption of a text with a tag over the ciphertext and a label."""

from typing import NamedTuple

from .lending import BytesLike, Output, lent, output, room_for, size
from .library import functions
from .refusal import accept

TAG_LIMIT = 64  # bytes: a longer tag is refused


class Sealed(NamedTuple):
    """What sealing answers; `runs` is the number of permutations that the call takes by its definition."""

    ciphertext: bytes
    tag: bytes
    runs: int


def seal(key: BytesLike, iv: BytesLike, text: BytesLike, label: BytesLike = b"", tag_length: int = 32) -> Sealed:
    """Seals a text under a key of 32 bytes and an IV, never twice with one key and one IV. Refuses with 2, 3, 5, 7.

    The label is authenticated with the text and not encrypted. The tag has 16 to 64 bytes; a shorter one is the beginning of a longer one. It covers
    ciphertext and label joined, not the place where one ends and the other begins.

    >>> sealed = seal(bytes(32), b"plan 1", b"03 07", label=b"depot 7")
    >>> sealed.ciphertext.hex(), sealed.runs
    ('7d828d9b63', 6)
    >>> open_sealed(bytes(32), b"plan 1", sealed.ciphertext, sealed.tag, label=b"depot 7")
    b'03 07'
    """
    lent_text = lent("text", text)
    room, tag = room_for(lent_text[1]), room_for(size("tag_length", tag_length), TAG_LIMIT)
    outcome = functions.hf_seal(*lent("key", key), *lent("iv", iv), *lent_text, *lent("label", label), room, len(room), tag, len(tag))
    accept("seal", outcome.number)
    return Sealed(bytes(room), bytes(tag), outcome.runs)


def open_sealed(key: BytesLike, iv: BytesLike, ciphertext: BytesLike, tag: BytesLike, label: BytesLike = b"") -> Output:
    """The text that was sealed with the same key, IV and label. Refuses with 2, 3, 5, 7, 8.

    >>> open_sealed(bytes(32), b"plan 1", b"03 07", bytes(32))
    Traceback (most recent call last):
    ...
    hailfeather.refusal.Refusal: refused 8: the tag does not match
    """
    lent_text = lent("ciphertext", ciphertext)
    room = room_for(lent_text[1])
    outcome = functions.hf_open(*lent("key", key), *lent("iv", iv), *lent_text, *lent("label", label), room, len(room), *lent("tag", tag))
    accept("open", outcome.number)
    return output(room, outcome.runs)
