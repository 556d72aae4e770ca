"""docs/RULES.md, "Numbers": the limits, and which number is given."""

STRING_LIMIT = 4_096  # a KMAC key, a name, a customisation, an IV (numbers 2 and 3)
SHORT_LIMIT = 84  # an additional input, a personalisation (number 3)
RESERVED_NAME = b"KMAC"  # the standard's own function (number 4)
MESSAGE_LIMIT = 16_777_216  # a message, a session's total, text plus label (number 5)
SEED_LIMIT = 65_536  # a seed (number 5)
PLAN_LIMIT = 65_536  # a plan to be read, a buffer that a hall plan is to be written into (number 5)
OUTPUT_LIMIT = 16_777_216  # an output, a session's total, a draw (number 6)
TAG_LENGTHS = range(16, 65)  # lengths of a tag (number 7)


def smallest(*rows):
    """The smallest number whose condition holds, 0 if none does; each row is (number, condition)."""
    return min((number for number, holds in rows if holds), default=0)
