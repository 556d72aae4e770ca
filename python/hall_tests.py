"""Tests of hall plans: both sides of every limit, what is taken for lists and numbers, and halls as lists in one another."""

import random
import unittest
from typing import Any, Callable, List

from hailfeather import Refusal, hall, plan
from hailfeather.refusal import WORDS

PLAN = bytes([2, 1, 2, 0, 7, 0, 172, 2, 0, 0])
KINDS, VALUES = [hall.HALL, hall.CHUTE, hall.CHUTE, hall.CHUTE], [2, 7, 300, 0]


def in_halls(entries: List[Any], halls: int) -> List[Any]:
    """The entries inside of so many halls in one another."""
    for _ in range(halls):
        entries = [entries]
    return entries


class Hall(unittest.TestCase):
    def refused(self, entry: str, number: int, function: Callable, *arguments: Any) -> None:
        with self.assertRaises(Refusal) as caught:
            function(*arguments)
        self.assertEqual((caught.exception.number, caught.exception.words), (number, WORDS[entry, number]))

    def unread(self, number: int, bad: bytes) -> None:
        for function in (hall.summary, hall.read, hall.nested):
            self.refused("hall_read", number, function, bad)
        for chute in (0, 1, 2**100):
            self.refused("hall_destination", number, hall.destination, bad, chute)

    def test_reading(self) -> None:
        for lent in (PLAN, bytearray(PLAN), memoryview(PLAN), memoryview(bytes(byte for byte in PLAN for _ in range(2)))[::2]):
            self.assertEqual(hall.summary(lent), hall.Summary(outer=2, entries=4, chutes=3))
            self.assertEqual(hall.read(lent), hall.Halls(2, KINDS, VALUES))
            self.assertEqual(hall.nested(lent), [[7, 300], 0])
            self.assertEqual([hall.destination(lent, chute) for chute in (1, 2, 3)], [7, 300, 0])
        for chute in (0, 4, 4_096, 2**32, 2**32 + 1, 2**64 + 1, 2**100):
            self.refused("hall_destination", 10, hall.destination, PLAN, chute)
        self.assertRaisesRegex(ValueError, "chute is negative", hall.destination, PLAN, -1)
        self.assertRaises(TypeError, hall.destination, PLAN, 1.0)
        self.assertEqual(hall.read(bytes([0])), hall.Halls(0, [], []))
        self.assertEqual(hall.nested(bytes([1, 1, 1, 0, 7])), [[7]])
        self.assertEqual(hall.destination(hall.write_nested([[[]], [[5, []], 6]]), 2), 6)

    def test_malformed(self) -> None:
        for length in range(len(PLAN)):
            self.unread(9, PLAN[:length])
        bad = ([1, 2, 0], [1, 0x80, 2, 0], [1, 0x81, 2, 0], [0, 0], [*PLAN, 0], [0xFF, 0xFF, 0x7F], [1, 1, 0xFF, 0xFF, 0x7F], [1, 0, 0x80, 0x80, 0x80, 0])
        for one in bad:
            self.unread(9, bytes(one))
        for at, number in enumerate(PLAN[:5]):  # each number with an empty group after it
            self.unread(9, PLAN[:at] + bytes([number | 128, 0]) + PLAN[at + 1 :])
            self.unread(9, PLAN[:at] + bytes([number | 128, 128, 0]) + PLAN[at + 1 :])
        self.unread(9, bytes(65_536))
        self.unread(5, bytes(65_537))
        self.unread(5, bytes(1 << 25))
        for function in (hall.summary, hall.read, hall.nested, lambda lent: hall.destination(lent, 1)):
            self.assertRaisesRegex(TypeError, "^plan is a str", function, "a text")
            self.assertRaisesRegex(TypeError, "^plan has to be bytes", function, [1, 0, 7])

    def test_lists(self) -> None:
        for kinds in (KINDS, bytes(KINDS), tuple(KINDS)):
            self.assertEqual(hall.write(2, kinds, VALUES), PLAN)
        for outer in (0, 1, 3, 2_097_152, 2**32 + 2, 2**64 + 2, 2**100):
            self.refused("hall_length", 9, hall.write, outer, KINDS, VALUES)
        for kinds, values in ((KINDS[:3], VALUES), (KINDS, VALUES[:3]), (KINDS[:3], VALUES[:3]), ([*KINDS, 0], [*VALUES, 0]), ([], [])):
            self.refused("hall_length", 9, hall.write, 2, kinds, values)
        for kind in (2, 255, 256, 257, 2**64, 2**100):
            self.refused("hall_length", 9, hall.write, 1, [kind], [0])
        for kind in (hall.CHUTE, hall.HALL):
            for value in (2_097_152, 2**32, 2**32 + 1, 2**100):
                self.refused("hall_length", 9, hall.write, 1, [kind], [value])
        self.assertEqual(hall.write(1, [hall.CHUTE], [2_097_151]), bytes([1, 0, 255, 255, 127]))
        self.assertRaisesRegex(ValueError, "outer is negative", hall.write, -1, [], [])
        self.assertRaisesRegex(ValueError, "a kind is negative", hall.write, 1, [-1], [0])
        self.assertRaisesRegex(ValueError, "a value is negative", hall.write, 1, [0], [-1])
        for arguments in ((1.0, [0], [0]), (1, [0.0], [0]), (1, [0], ["7"]), (1, iter([0]), [0]), (1, [0], None)):
            self.assertRaises(TypeError, hall.write, *arguments)

    def test_limits(self) -> None:
        for entries in ([5], []):
            deepest = in_halls(entries, 7)
            self.assertEqual(hall.nested(hall.write_nested(deepest)), deepest)
            for halls in (8, 9, 3_000):
                self.refused("hall_length", 9, hall.write_nested, in_halls(entries, halls))
        widest = [[2_097_151] * 2_048, [], [[8] * 2_047, 9], []]
        self.assertEqual(hall.nested(hall.write_nested(widest)), widest)
        self.assertEqual(hall.destination(hall.write_nested(widest), 4_096), 9)
        self.refused("hall_length", 9, hall.write_nested, [*widest, 0])
        longest = hall.write_nested([*[[]] * 32_765, 128])
        self.assertEqual((len(longest), hall.summary(longest)), (65_536, (32_766, 32_766, 1)))
        self.assertEqual(hall.write_nested(hall.nested(longest)), longest)
        self.refused("hall_length", 5, hall.write_nested, [*[[]] * 32_765, 16_384])
        self.refused("hall_length", 9, hall.write_nested, [*[[]] * 32_765, 2_097_152])

    def test_nested(self) -> None:
        itself: List[Any] = [7]
        itself += [itself] * 100
        self.refused("hall_length", 9, hall.write_nested, itself)
        self.assertEqual(hall.write_nested(((7, 300), 0)), PLAN)
        for bad in (7, "77", PLAN, None, {7: 300}, iter([7])):
            self.assertRaisesRegex(TypeError, "a hall has to be a list", hall.write_nested, bad)
        for bad in (1.0, "7", None, {}):
            self.assertRaises(TypeError, hall.write_nested, [[7, bad]])
        self.assertRaisesRegex(ValueError, "negative", hall.write_nested, [[-7]])

    def test_as_the_flat_list(self) -> None:
        """Lookup answers as the flat list of destinations in reading order would."""
        chosen = random.Random(1)

        def made(levels: int) -> List[Any]:
            return [made(levels - 1) if levels and chosen.random() < 0.4 else chosen.choice((0, 127, 128, 16_384)) for _ in range(chosen.randrange(5))]

        for _ in range(50):
            halls = made(7)
            written = hall.write_nested(halls)
            read = hall.read(written)
            flat = plan.write(value for kind, value in zip(read.kinds, read.values) if kind == hall.CHUTE)
            self.assertEqual((hall.nested(written), hall.write(*read)), (halls, written))
            self.assertEqual(hall.summary(written), (read.outer, len(read.kinds), plan.rows(flat)))
            self.assertEqual([hall.destination(written, chute) for chute in range(1, plan.rows(flat) + 1)], list(plan.walk(flat)))
            self.refused("hall_destination", 10, hall.destination, written, plan.rows(flat) + 1)
