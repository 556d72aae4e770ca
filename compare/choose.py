"""Random arguments for calls: lengths around every limit and block edge."""

from callfile import pattern

RATE = 136
STRING, SHORT, SEED, MOST = 4_096, 84, 65_536, 16_777_216  # docs/RULES.md's limits
WRITTEN_OUT = 700  # longer strings are patterns, so that the file stays small

# Lengths of a name, key or customisation where an encoding or a padding changes: 31 and 32 bytes are 248 and 256 bits, 8,191 is past every limit, and
# the rest lie where a prefix block fills up.
STRING_EDGES = [0, 0, 1, 4, 16, 31, 32, 33, *range(119, 138), *range(255, 274), 4_095, 4_096]
TOO_LONG = [4_097, 5_000, 8_191, 8_192]


def some_bytes(rng, length):
    """Random bytes of this length, or a pattern where they would be long."""
    return rng.randbytes(length) if length <= WRITTEN_OUT else pattern(length, rng.randrange(256))


def string_length(rng):
    """Of a name, key, customisation or IV; now and then past the limit."""
    choice = rng.random()
    if choice < 0.03:
        return rng.choice(TOO_LONG)
    return rng.choice(STRING_EDGES) if choice < 0.6 else rng.randint(0, 300)


def short_length(rng):
    """Of an additional input or a personalisation."""
    choice = rng.random()
    if choice < 0.05:
        return rng.choice([SHORT + 1, 100, 255, 256, 300])
    return rng.choice([0, 0, 1, SHORT - 1, SHORT]) if choice < 0.5 else rng.randint(0, SHORT)


def block_length(rng, blocks=4):
    """Of a message or an output: around a block's edge, or anything up to some blocks."""
    if rng.random() < 0.6:
        return max(0, rng.randint(0, blocks) * RATE + rng.randint(-12, 12))
    return rng.randint(0, blocks * RATE)


def message_length(rng):
    """Of a message: seldom several KiB, very seldom past the limit."""
    choice = rng.random()
    if choice < 0.001:
        return MOST + rng.choice([1, 2, 136])
    return rng.randint(1_000, 20_000) if choice < 0.03 else block_length(rng)


def output_length(rng):
    """Of an output: seldom some KiB, very seldom past the limit."""
    choice = rng.random()
    if choice < 0.001:
        return MOST + rng.choice([1, 2, 136])
    if choice < 0.02:
        return rng.randint(1_000, 6_000)
    return rng.choice([0, 1, 16, 32, 64]) if choice < 0.4 else block_length(rng, 3)
