"""Random calls of sealing, opening and the generators."""

import generator
import sealing
from callfile import written
from choose import MOST, SEED, STRING, TOO_LONG, block_length, output_length, short_length, some_bytes, string_length

OTHER_KEYS = [0, 16, 31, 33, 64]  # lengths of keys that no seal has


def tag_length(rng):
    choice = rng.random()
    if choice < 0.05:
        return rng.choice([0, 1, 15, 65, 66, 200])
    return rng.choice([16, 32, 64]) if choice < 0.5 else rng.randint(16, 64)


def lent_length(rng, text):
    """The lent output's length: the text's, seldom another."""
    return len(text) if rng.random() < 0.96 else max(0, len(text) + rng.choice([-1, 1, 32]))


def seal(rng):
    """Seals, then opens what was sealed, whole and damaged."""
    key = some_bytes(rng, 32 if rng.random() < 0.96 else rng.choice(OTHER_KEYS))
    iv, text, label = (some_bytes(rng, length(rng)) for length in (string_length, block_length, block_length))
    if rng.random() < 0.003:
        label = some_bytes(rng, MOST - len(text) + rng.choice([1, 2]))
    arguments = [key, iv, text, label, lent_length(rng, text), tag_length(rng)]
    number, runs, ciphertext, tag = sealing.seal(*arguments)
    yield written("seal", arguments, [number, runs, ciphertext, tag])
    if number == 0:
        yield opened(rng, key, iv, ciphertext, label, tag)
        yield opened(rng, *damaged(rng, [key, iv, ciphertext, label, tag]))


def opened(rng, key, iv, ciphertext, label, tag):
    """The line of an opening."""
    length = lent_length(rng, ciphertext)
    return written("open", [key, iv, ciphertext, label, length, tag], sealing.open_sealed(key, iv, ciphertext, label, tag, length))


def flipped(rng, part):
    """The bytes with one bit flipped, or one byte where there are none."""
    if not part:
        return rng.randbytes(1)
    number = int.from_bytes(part, "little") ^ 1 << rng.randrange(8 * len(part))
    return number.to_bytes(len(part), "little")


def damaged(rng, parts):
    """One of key, IV, ciphertext, label and tag flipped or of another length, or the border between ciphertext and label moved."""
    key, iv, ciphertext, label, tag = parts
    if rng.random() < 0.5:
        place = rng.randrange(5)
        parts[place] = flipped(rng, parts[place][:STRING])
        return parts
    return rng.choice(
        [
            [key, iv, ciphertext, label, tag[: rng.choice([0, 15, 16, 17, 31, 32])]],
            [key, iv, ciphertext, label, tag + rng.randbytes(rng.choice([1, 33]))],
            [key, iv, ciphertext + label[:1], label[1:], tag],
            [key, iv, ciphertext[:-1], ciphertext[-1:] + label, tag],
            [key, some_bytes(rng, rng.choice(TOO_LONG)), ciphertext, label, tag],
            [some_bytes(rng, rng.choice(OTHER_KEYS)), iv, ciphertext, label, tag],
        ]
    )


def seeded(rng, state):
    """(line, generator) of a seeding."""
    length = rng.choice([0, 32, 64, SEED - 1, SEED, SEED + 1]) if rng.random() < 0.15 else block_length(rng)
    seed, personalisation = some_bytes(rng, length), some_bytes(rng, short_length(rng))
    number, runs, state = generator.seed(state, seed, personalisation)
    return written("seed", [seed, personalisation], [number, runs, state.key]), state


def drawn(rng, state):
    """(line, generator) of a draw, with lengths around the pieces' ends."""
    near = max(0, rng.choice([0, 72, 208, 416, 624]) + rng.randint(-3, 3))
    length, additional = near if rng.random() < 0.6 else output_length(rng), some_bytes(rng, short_length(rng))
    number, runs, output, state = generator.draw(state, additional, length)
    return written("draw", [additional, length], [number, runs, output, state.key]), state


def cshake_generator(rng):
    """A cSHAKE generator's calls."""
    yield written("generator_fresh", [], [])
    yield from generator_calls(rng, generator.Generator(generator.CSHAKE))


def kmac_generator(rng):
    """A KMAC generator's calls."""
    yield written("kmac_generator_fresh", [], [])
    yield from generator_calls(rng, generator.Generator(generator.KMAC))


def generator_calls(rng, state):
    """A fresh generator through several seedings and draws; the first draw may come too early."""
    for _ in range(rng.randint(2, 8)):
        line, state = (seeded if rng.random() < 0.4 else drawn)(rng, state)
        yield line
