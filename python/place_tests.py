"""Tests of where plans are malformed: both sides of each row of the table in docs/RULES.md, "Places", and what a refusal tells, copied too."""

import copy
import pickle
import unittest
from typing import Any, Callable, Optional

from hailfeather import Refusal, hall, plan
from hailfeather.refusal import accept_plan
from hailfeather.structs import HallSummary, RowLocation

GOOD = bytes([3, 7, 172, 2, 0])
HALLS = bytes([2, 1, 2, 0, 7, 0, 172, 2, 0, 0])
LONG = bytes(65_537)
EIGHT = b"\x01" * 15  # eight levels, each with an entry, of which the last is still to come
FULL = b"\x81\x20" + bytes(2 * 4_096)  # 4,097 entries, of which 4,096 are chutes, and the last is still to come


class Places(unittest.TestCase):
    def told(self, number: int, place: Optional[int], malformed: Optional[str], function: Callable, *arguments: Any) -> None:
        with self.assertRaises(Refusal) as caught:
            function(*arguments)
        refusal = caught.exception
        self.assertEqual((refusal.number, refusal.place, refusal.malformed), (number, place, malformed), arguments)
        at = "" if place is None else f" at byte {place}"
        of = "" if malformed is None else f" of the {malformed} plan"
        self.assertEqual(str(refusal), f"refused {number}{at}{of}: {refusal.words}")

    def malformed(self, bad: bytes, place: int) -> None:
        """Every function refuses the chute plan with 9 and this place, and of two plans names it."""
        for function in (plan.rows, plan.walk):
            self.told(9, place, None, function, bad)
        for chute in (0, 1, 2**100):
            self.told(9, place, None, plan.destination, bad, chute)
            self.told(9, place, "site", plan.row, bad, GOOD, chute)
            self.told(9, place, "house", plan.row, GOOD, bad, chute)
            self.told(9, place, "site", plan.row, bad, GOOD[:3], chute)
            self.told(9, 3, "site", plan.row, GOOD[:3], bad, chute)
            self.told(5, None, None, plan.row, bad, LONG, chute)
            self.told(5, None, None, plan.row, LONG, bad, chute)

    def malformed_halls(self, bad: bytes, place: int) -> None:
        for function in (hall.summary, hall.read, hall.nested):
            self.told(9, place, None, function, bad)
        for chute in (0, 1, 2**100):
            self.told(9, place, None, hall.destination, bad, chute)

    def test_chute_plans(self) -> None:
        for length in range(len(GOOD)):
            self.malformed(GOOD[:length], length)
        for bad, place in (("8080", 2), ("808080", 2), ("018080", 3), ("0180808000", 3), ("8120", 0), ("ffff7f", 0), ("0000", 1), ("0307ac020080", 5)):
            self.malformed(bytes.fromhex(bad), place)
        self.malformed(b"\x81\x20" + bytes(4_097), 0)
        self.malformed(b"\x80\x20" + bytes(4_097), 4_098)
        self.malformed(LONG[1:], 1)
        self.assertEqual([plan.rows(bytes.fromhex(good)) for good in ("0307ac0200", "00", "018001", "01808001")], [3, 0, 1, 1])
        self.assertEqual(plan.rows(b"\x80\x20" + bytes(4_096)), 4_096)

    def test_hall_plans(self) -> None:
        for length in range(len(HALLS)):
            self.malformed_halls(HALLS[:length], length)
        for bad, place in (("01808080", 3), ("010080808000", 4), ("0000", 1), ("010200", 1), ("01800100", 1), ("02000782800100", 3)):
            self.malformed_halls(bytes.fromhex(bad), place)
        self.malformed_halls(HALLS + b"\x00", 10)
        for entry in (b"\x01\x00", b"\x01", b"\x01\x80\x00", b"\x01\x80\x80\x80"):
            self.malformed_halls(EIGHT + entry, 15)
        for entry in (b"\x00\x00", b"\x00", b"\x00\x80\x00", b"\x00\x80\x80\x80"):
            self.malformed_halls(FULL + entry, len(FULL))
        self.assertEqual([hall.summary(good).chutes for good in (EIGHT + b"\x00\x07", FULL + b"\x01\x00")], [1, 4_096])

    def test_padded_numbers(self) -> None:
        """A number in more groups than it needs has the place of its last group, whatever its value breaks."""
        for bad, place in (("8000", 1), ("808000", 2), ("830007ac0200", 1), ("018000", 2), ("018700", 2), ("01878000", 3), ("0307ac820000", 4)):
            self.malformed(bytes.fromhex(bad), place)
        self.malformed(bytes.fromhex("81a000"), 2)  # 4,097 rows
        self.malformed(bytes.fromhex("01870007"), 2)  # and a byte after the last row
        for number in (b"\x80\x00", b"\x80\x80\x00", b"\x81\x00", b"\x82\x00", b"\x87\x80\x00"):
            for before in (b"", b"\x01", b"\x01\x00", b"\x01\x01"):  # the outermost number, a kind, a destination, a hall's number of entries
                self.malformed_halls(before + number, len(before + number) - 1)
        self.malformed_halls(EIGHT + b"\x81\x00\x00", 16)
        self.malformed_halls(FULL + b"\x80\x00\x00", len(FULL) + 1)
        for good in ("010000", "01008001", "0100808001"):
            self.assertEqual(hall.summary(bytes.fromhex(good)).chutes, 1)

    def test_two_breaches(self) -> None:
        """The first breach in reading order counts, and a number is judged once it is read."""
        for bad, place in (("0280808080", 3), ("0280800180", 5), ("0280800080", 3), ("018080800707", 3), ("8120808080", 0), ("81a0", 2), ("ffffff7f", 2)):
            self.malformed(bytes.fromhex(bad), place)
        for bad, place in (("010280", 1), ("0182", 2), ("03020000808080", 1), ("03008080800200", 4), ("020007030009", 3)):
            self.malformed_halls(bytes.fromhex(bad), place)

    def test_without_a_breach(self) -> None:
        for function in (plan.rows, plan.walk, hall.summary, hall.read, hall.nested):
            self.told(5, None, None, function, LONG)
        self.told(10, None, None, plan.destination, GOOD, 4)
        self.told(10, None, None, plan.row, GOOD, GOOD, 4)
        self.told(10, None, None, hall.destination, HALLS, 4)
        self.told(9, None, None, plan.write, [2_097_152])
        self.told(9, None, None, plan.write, [0] * 4_097)
        self.told(5, None, None, plan.migrate, LONG)
        self.told(9, None, None, hall.write, 1, [2], [0])
        self.told(5, None, None, hall.write_nested, [[]] * 32_767)

    def test_answers(self) -> None:
        """The place of an answer with 9 alone, be it 0, as of an empty plan."""
        self.told(9, 0, None, accept_plan, "hall_read", HallSummary(number=9))
        self.told(9, 3, "house", accept_plan, "plan_row", RowLocation(number=9, place=3, malformed=2))
        self.told(10, None, None, accept_plan, "plan_row", RowLocation(number=10))
        accept_plan("hall_read_into", HallSummary(number=0, entries=4))

    def test_copies(self) -> None:
        refusals = [Refusal("open", 8), Refusal("plan_read", 9, 0), Refusal("plan_row", 9, 65_536, "house")]
        for refusal in refusals:
            for again in (pickle.loads(pickle.dumps(refusal)), copy.copy(refusal), copy.deepcopy(refusal)):
                self.assertIsInstance(again, Refusal)
                self.assertEqual(vars(again), vars(refusal))
                self.assertEqual((again.args, str(again)), (refusal.args, str(refusal)))
