"""docs/RULES.md, "Sessions": cSHAKE256 and KMACXOF256 piece by piece.

A session keeps the joined pieces and how many bytes it has given; each ask is worked out afresh
from the one-shot definition, so that the joined-bytes rule is plain to see. Every step takes a
session and hands one back; a refused step hands back the one it got.
"""

from functools import partial
from typing import Callable, NamedTuple, Optional

from fips202 import sponge
from refusals import MESSAGE_LIMIT, OUTPUT_LIMIT, RESERVED_NAME, STRING_LIMIT, smallest
from sp800_185 import fed_cshake256, fed_kmacxof256


class Session(NamedTuple):
    """`fed` turns a message into the function's padded bytes; None marks a session that could not start."""

    fed: Optional[Callable[[bytes], bytes]]
    message: bytes = b""
    giving: bool = False
    given: int = 0


# Handed back by a refused start: giving, with nothing more to give.
NOT_STARTED = Session(fed=None, giving=True)


def start_cshake256(name, custom):
    """(number, session) for cSHAKE256; numbers 3 and 4."""
    number = smallest(
        (3, len(name) > STRING_LIMIT or len(custom) > STRING_LIMIT),
        (4, name == RESERVED_NAME),
    )
    return number, NOT_STARTED if number else Session(partial(fed_cshake256, name=name, custom=custom))


def start_kmacxof256(key, custom):
    """(number, session) for KMACXOF256; numbers 2 and 3."""
    number = smallest((2, len(key) > STRING_LIMIT), (3, len(custom) > STRING_LIMIT))
    fed = partial(fed_kmacxof256, key, custom=custom)
    return number, NOT_STARTED if number else Session(fed)


def take(session, piece):
    """(number, session): 1 from a giving session even for an empty piece, 5 for the total with this piece."""
    message = session.message + piece
    number = smallest((1, session.giving), (5, len(message) > MESSAGE_LIMIT))
    return number, session if number else session._replace(message=message)


def give(session, length):
    """(number, output or None, session): 6 for the total, or for a byte from a session that could not start.

    The first accepted ask, even for 0 bytes, turns the session to giving for good.
    """
    total = session.given + length
    number = smallest((6, total > OUTPUT_LIMIT or (session.fed is None and length > 0)))
    if number:
        return number, None, session
    return 0, next_bytes(session, length), session._replace(giving=True, given=total)


def next_bytes(session, length):
    """The bytes from `given` on of the one-shot answer over the joined pieces."""
    if length == 0:
        return b""
    return sponge(session.fed(session.message), session.given + length)[session.given :]
