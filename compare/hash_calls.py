"""Random calls of the permutation, the three functions in one call, and sessions."""

import fips202
import sessions
from callfile import lanes_of, written
from choose import MOST, block_length, message_length, output_length, some_bytes, string_length
from sp800_185 import cshake256, kmac256, kmacxof256

NAMES = [b"KMAC", b"KMAC", b"kmac", b"KMAC ", b"KMA", b"TupleHash", b"cSHAKE-DRNG seed"]


def permutation(rng):
    """Random states, and states of a single bit."""
    state = rng.randbytes(200) if rng.random() < 0.8 else (1 << rng.randrange(1600)).to_bytes(200, "little")
    lanes = lanes_of(state.hex())
    yield written("keccak_p", [lanes], [fips202.keccak_p(list(lanes))])


def some_string(rng):
    return some_bytes(rng, string_length(rng))


def some_name(rng):
    """A name for cSHAKE256, now and then the reserved one or a neighbour of it."""
    return rng.choice(NAMES) if rng.random() < 0.15 else some_string(rng)


def cshake(rng):
    plain = rng.random() < 0.2  # SHAKE256
    name, custom = (b"", b"") if plain else (some_name(rng), some_string(rng))
    message, length = some_bytes(rng, message_length(rng)), output_length(rng)
    yield written("cshake256", [name, custom, message, length], cshake256(message, length, name, custom))


def keyed(entry, function):
    """The calls of KMAC256 or KMACXOF256."""

    def calls(rng):
        key, custom, message, length = some_string(rng), some_string(rng), some_bytes(rng, message_length(rng)), output_length(rng)
        yield written(entry, [key, custom, message, length], function(key, message, length, custom))

    return calls


kmac = keyed("kmac256", kmac256)
kmacxof = keyed("kmacxof256", kmacxof256)


def started(rng):
    """(line, session) of a session's start."""
    custom = some_string(rng) if rng.random() < 0.8 else b""
    if rng.random() < 0.5:
        entry, start, string = "session_cshake256", sessions.start_cshake256, some_name(rng) if rng.random() < 0.8 else b""
    else:
        entry, start, string = "session_kmacxof256", sessions.start_kmacxof256, some_string(rng)
    number, session = start(string, custom)
    return written(entry, [string, custom], [number]), session


def taken(session, piece):
    """(line, session) of a piece taken."""
    number, session = sessions.take(session, piece)
    return written("take", [piece], [number]), session


def given(session, length):
    """(line, session) of an ask for output."""
    number, output, session = sessions.give(session, length)
    return written("give", [length], [number, output]), session


def step(rng, session):
    """(line, session) of any call, at its time or not."""
    choice = rng.random()
    if choice < 0.005:
        return given(session, MOST - session.given + rng.choice([1, 2]))
    if choice < 0.01:
        return taken(session, some_bytes(rng, MOST - len(session.message) + 1))
    length = 0 if rng.random() < 0.1 else block_length(rng, 2)
    if choice < (0.25 if session.giving else 0.75):
        return taken(session, some_bytes(rng, length))
    return given(session, length)


def session(rng):
    """A session of several calls."""
    line, state = started(rng)
    yield line
    for _ in range(rng.randint(1, 12)):
        line, state = step(rng, state)
        yield line
