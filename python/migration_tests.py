"""Tests of the migration of chute plans: what the old rule reads, and what it refuses, with its place and its words."""

import unittest
from typing import Optional

from hailfeather import Refusal, plan
from hailfeather.refusal import WORDS

GOOD = bytes([3, 7, 172, 2, 0])
PADDED = bytes.fromhex("8380008700ac8200808000")  # the same rows, with an empty group in each number that has room for one


class Migration(unittest.TestCase):
    def refused(self, bad: bytes, number: int, place: Optional[int]) -> None:
        with self.assertRaises(Refusal) as caught:
            plan.migrate(bad)
        refusal = caught.exception
        self.assertEqual((refusal.number, refusal.place, refusal.malformed), (number, place, None), bad[:20])
        self.assertEqual(refusal.words, WORDS["plan_migrated_length", number])

    def migrated(self, old: str, new: str) -> None:
        """The first becomes the second, which is a good plan and stays as it is; the first is none unless it is the second."""
        self.assertEqual(plan.migrate(bytes.fromhex(old)).hex(), new)
        self.assertEqual(plan.migrate(bytes.fromhex(new)).hex(), new)
        self.assertEqual(plan.write(plan.walk(bytes.fromhex(new))).hex(), new)
        if old != new:
            self.assertRaises(Refusal, plan.rows, bytes.fromhex(old))

    def test_old_copies(self) -> None:
        self.migrated(PADDED.hex(), GOOD.hex())
        for old, new in (("00", "00"), ("8000", "00"), ("808000", "00"), ("830007ac0200", "0307ac0200"), ("01ffff7f", "01ffff7f"), ("01808100", "018001")):
            self.migrated(old, new)
        for seven in ("07", "8700", "878000"):
            self.migrated("01" + seven, "0107")
            self.migrated("02" + seven + "8001", "02078001")
        widest = b"\x80\xa0\x00" + b"\xff\x80\x00" * 4_096
        self.assertEqual(plan.migrate(widest), plan.write([127] * 4_096))
        self.refused(widest[:-1], 9, len(widest) - 1)
        self.refused(widest + b"\x00", 9, len(widest))

    def test_all_kinds_of_bytes(self) -> None:
        doubled = bytes(byte for byte in PADDED for _ in range(2))
        for lent in (PADDED, bytearray(PADDED), memoryview(PADDED), memoryview(doubled)[::2]):
            self.assertEqual(plan.migrate(lent), GOOD)
        self.assertRaisesRegex(TypeError, "^plan is a str", plan.migrate, "a text")
        self.assertRaisesRegex(TypeError, "^plan has to be bytes", plan.migrate, [1, 7])

    def test_malformed_by_the_old_rule(self) -> None:
        """The places are those of the table in docs/RULES.md, "Places", without the row for empty groups."""
        for length in range(len(PADDED)):
            self.refused(PADDED[:length], 9, length)
        for bad, place in (("80808000", 2), ("0180808000", 3), ("02870080808000", 5), ("8120", 0), ("81a000", 0), ("81a000808080", 0), ("800000", 2)):
            self.refused(bytes.fromhex(bad), 9, place)
        self.refused(bytes.fromhex("01870007"), 9, 3)
        self.refused(bytes(65_536), 9, 1)
        self.refused(bytes(65_537), 5, None)
        self.refused(bytes(1 << 25), 5, None)
