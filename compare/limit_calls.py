"""Calls on both sides of the limits of 16,777,216 bytes, for every entry that has one."""

import generator
import sealing
import sessions
from callfile import pattern, written
from choose import MOST
from hash_calls import given, taken
from sp800_185 import cshake256, kmac256, kmacxof256

SIDES = [MOST, MOST + 1]


def one_shot(rng):
    """A message, and an output, of each side."""
    key, custom = rng.randbytes(32), rng.randbytes(7)
    for message_length, length in [(m, 64) for m in SIDES] + [(100, n) for n in SIDES] + [(MOST + 1, MOST + 1)]:
        message = pattern(message_length, rng.randrange(256))
        for name, s in ((b"", b""), (b"name", custom)):
            yield written("cshake256", [name, s, message, length], cshake256(message, length, name, s))
        for entry, function in (("kmac256", kmac256), ("kmacxof256", kmacxof256)):
            yield written(entry, [key, custom, message, length], function(key, message, length, custom))


def session(rng):
    """A session that takes and gives all that it may, in uneven pieces, and is asked for one byte more of each."""
    key = rng.randbytes(40)
    number, state = sessions.start_kmacxof256(key, b"")
    yield written("session_kmacxof256", [key, b""], [number])
    for length in (1, 8_000_000, 135, MOST - 8_000_136, 1, 0):
        line, state = taken(state, pattern(length, rng.randrange(256)))
        yield line
    for length in (MOST + 1, 1, 5_000_000, 136, MOST - 5_000_137, 1, 0):
        line, state = given(state, length)
        yield line


def seal(rng):
    """Text and label together at each side, the one or the other being the long one."""
    key, iv = rng.randbytes(32), rng.randbytes(12)
    _, auth_key, _ = sealing.crypt(key, iv, b"")
    for side in SIDES:
        for length in (side - 9, 9, side):
            text, label = pattern(length, rng.randrange(256)), pattern(side - length, 7)
            yield written("seal", [key, iv, text, label, length, 32], sealing.seal(key, iv, text, label, length, 32))
            good, _ = sealing.auth(auth_key, label, text, 32)
            for tag in (good, good[:31] + bytes([good[31] ^ 1])):
                yield written("open", [key, iv, text, label, length, tag], sealing.open_sealed(key, iv, text, label, tag, length))


def draw(rng):
    """A draw of each side from each generator."""
    for fresh, kind in (("generator_fresh", generator.CSHAKE), ("kmac_generator_fresh", generator.KMAC)):
        seed = rng.randbytes(48)
        number, runs, state = generator.seed(generator.Generator(kind), seed, b"")
        yield written(fresh, [], [])
        yield written("seed", [seed, b""], [number, runs, state.key])
        for length in SIDES:
            number, runs, output, state = generator.draw(state, b"", length)
            yield written("draw", [b"", length], [number, runs, output, state.key])
