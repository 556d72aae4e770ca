"""Hall plans for random calls: good ones, short, long, deep and wide, damaged ones, and plans around every limit."""

import hall
import plan
import plan_calls
from callfile import pattern
from choose import SEED
from plan_calls import LARGEST, destination, padded_sometimes

LEVELS, CHUTES = 8, 4_096
OTHER_KINDS = [2, 3, 127, 128, 255, 256, 257, 65_536, LARGEST]  # some are 0 or 1 in their lowest byte
LONGEST = [[[]] * 128, *[[]] * 32_637]  # a plan of 65,536 bytes


def some_hall(rng, level, most, halls):
    """A hall on this level with up to so many entries of its own, of which such a share are halls."""
    entries = range(rng.randint(0, most))
    return [some_hall(rng, level + 1, most, halls / 2) if rng.random() < halls and level < LEVELS else destination(rng) for _ in entries]


def nested(depth):
    """A hall in a hall, and so on, so many of them."""
    return [nested(depth - 1)] if depth > 1 else []


def deep(rng):
    """A hall in a hall, and so on, some entries beside each; now and then a level too many."""
    inner = some_hall(rng, LEVELS, 2, 0)
    for _ in range(rng.choice([2, 5, LEVELS - 2, LEVELS - 1, LEVELS - 1, LEVELS])):
        inner = [*some_hall(rng, LEVELS, 1, 0), inner, *some_hall(rng, LEVELS, 1, 0)]
    return inner


def building(rng, chutes):
    """So many chutes in some 300 halls on four levels."""
    lines = [[] for _ in range(256)]
    for _ in range(chutes):
        rng.choice(lines).append(destination(rng))
    return [[lines[8 * part : 8 * part + 8] for part in range(4 * k, 4 * k + 4)] for k in range(8)]


def one_chute_more(rng):
    """All chutes that there may be and one more, which comes before a level too many, after it or alone."""
    nine = nested(LEVELS)
    return [*[0] * CHUTES, *rng.choice([[0], [0, 7], [[], 0], [[7]], [0, nine], [nine, 0]])]


def some_halls(rng):
    """Halls as lists in one another."""
    choice = rng.random()
    if choice < 0.004:
        return building(rng, rng.choice([CHUTES - 1, CHUTES, CHUTES + 1]))
    if choice < 0.012:
        return one_chute_more(rng)
    if choice < 0.018:
        return [[]] * rng.choice([127, 128, 129, 300])
    if choice < 0.3:
        return deep(rng)
    return some_hall(rng, 1, *rng.choice([(3, 0.5), (6, 0.6), (40, 0.05), (1, 0.9)]))


def numbers_of(halls):
    """The numbers that the halls' plan is made of."""
    return [len(halls), *(number for entry in hall.entries_in(halls) for number in entry)]


def damaged(rng, numbers):
    """The numbers with a kind or a number of entries changed, a number left out or one more."""
    at = rng.randrange(len(numbers))
    other = rng.choice(OTHER_KINDS) if at % 2 else rng.choice([LARGEST, numbers[at] + 1, abs(numbers[at] - 1)])
    return rng.choice(
        [
            [*numbers[:at], min(other, LARGEST), *numbers[at + 1 :]],
            [*numbers[:at], rng.choice([0, 1]), *numbers[at + 1 :]],
            numbers[:at] + numbers[at + 1 :],
            [*numbers, rng.choice([0, 1])],
        ]
    )


def some_plan(rng):
    """A hall plan to be read, as it is or damaged in its numbers, its bytes or both, and how many entries it has where it is not."""
    if rng.random() < 0.02:
        return rng.choice([pattern(rng.choice([SEED - 1, SEED, SEED + 1]), 0), rng.randbytes(rng.randint(0, 6))]), rng.randint(0, 3)
    halls = some_halls(rng)
    number = padded_sometimes(rng, rng.choice([0.03, 0.3])) if rng.random() < 0.12 else plan.written_number
    numbers, choice = numbers_of(halls), rng.random()
    lent = b"".join(map(number, damaged(rng, numbers) if choice < 0.22 else numbers))
    return plan_calls.damaged(rng, lent) if 0.15 < choice < 0.4 else lent, len(numbers) // 2


def limit_plans(rng):
    """Plans on both sides of the limits of bytes, of levels, of chutes and of a number."""
    depths = [[7]]
    for _ in range(LEVELS):
        depths.append([depths[-1]])
    shapes = [LONGEST, [[]] * 32_767, *depths[-2:], *(building(rng, chutes) for chutes in (CHUTES, CHUTES + 1)), [LARGEST], []]
    return [b"".join(map(plan.written_number, numbers_of(halls))) for halls in shapes] + [bytes(SEED), bytes(SEED + 1), b"\xff\xff\x7f\x00\x07", b""]
