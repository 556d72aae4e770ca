"""Tests on both sides of every limit that the library has, with the refusals' words and counts."""

import pickle
import unittest
from typing import Any, Callable, List

from hailfeather import Generator, KmacGenerator, Refusal, Session, cshake256, kmac256, kmacxof256, open_sealed, plan, seal
from hailfeather.generator import EitherGenerator
from hailfeather.refusal import FILE, WORDS

MOST = 16_777_216
KEY = bytes(32)


class Limits(unittest.TestCase):
    def refused(self, entry: str, number: int, function: Callable, *arguments: Any) -> None:
        with self.assertRaises(Refusal) as caught:
            function(*arguments)
        refusal = caught.exception
        self.assertEqual((refusal.number, refusal.words), (number, WORDS[entry, number]))
        self.assertTrue(refusal.place is None or number == 9)  # place_tests has the places
        at = "" if refusal.place is None else f" at byte {refusal.place}"
        of = "" if refusal.malformed is None else f" of the {refusal.malformed} plan"
        self.assertEqual(str(refusal), f"refused {number}{at}{of}: {refusal.words}")

    def test_hashes(self) -> None:
        string, message = bytes(4_097), bytes(MOST + 1)
        accepted, refused = string[:-1], message[:-1]
        self.assertEqual(len(cshake256(b"", 3, accepted, accepted)), 3)
        self.refused("cshake256", 3, cshake256, b"", 3, string)
        self.refused("cshake256", 3, cshake256, b"", 3, b"", string)
        self.refused("cshake256", 4, cshake256, b"", 3, b"KMAC")
        self.assertEqual(len(cshake256(b"", 3, b"kmac") + cshake256(b"", 3, b"KMAC ")), 6)
        self.refused("cshake256", 5, cshake256, message, 3)
        self.refused("cshake256", 6, cshake256, b"", MOST + 1)
        self.assertEqual((cshake256(b"", 0), cshake256(b"", 0).runs), (b"", 1))
        for entry, function in (("kmac256", kmac256), ("kmacxof256", kmacxof256)):
            self.assertEqual(len(function(accepted, refused, MOST, accepted)), MOST)
            self.refused(entry, 2, function, string, message, 0, string)
            self.refused(entry, 3, function, b"", message, 0, string)
            self.refused(entry, 5, function, b"", message, MOST + 1)
            self.refused(entry, 6, function, b"", b"", MOST + 1)
        self.refused("kmac256", 6, kmac256, b"", b"", 0)
        for taken, given, runs in ((0, 0, 3), (0, 136, 3), (0, 137, 4), (133, 32, 3), (134, 32, 4)):
            self.assertEqual(kmacxof256(KEY, bytes(taken), given).runs, runs)

    def test_sessions(self) -> None:
        self.refused("session_cshake256", 3, Session.cshake256, bytes(4_097))
        self.refused("session_cshake256", 4, Session.cshake256, b"KMAC")
        self.refused("session_kmacxof256", 2, Session.kmacxof256, bytes(4_097))
        self.refused("session_kmacxof256", 3, Session.kmacxof256, b"", bytes(4_097))
        session = Session.kmacxof256(KEY)
        session.take(bytes(MOST - 1))
        self.refused("take", 5, session.take, bytes(2))
        session.take(bytes(1))
        self.refused("give", 6, session.give, MOST + 1)
        session.take(b"")
        given = session.give(1) + session.give(MOST - 1)
        self.refused("give", 6, session.give, 1)
        self.refused("take", 1, session.take, b"")
        self.assertEqual(session.give(0), b"")
        self.assertEqual(given, kmacxof256(KEY, bytes(MOST), MOST))

    def test_sealing(self) -> None:
        for length in (0, 31, 33):
            self.refused("seal", 2, seal, bytes(length), b"", b"")
            self.refused("open", 2, open_sealed, bytes(length), b"", b"", bytes(32))
        self.refused("seal", 3, seal, KEY, bytes(4_097), b"")
        self.refused("open", 3, open_sealed, KEY, bytes(4_097), b"", bytes(32))
        for length in (0, 15, 65):
            self.refused("seal", 7, seal, KEY, b"", b"", b"", length)
            self.refused("open", 7, open_sealed, KEY, b"", b"", bytes(length))
        for length in (16, 64):
            sealed = seal(KEY, bytes(4_096), b"text", b"label", length)
            self.assertEqual((len(sealed.tag), sealed.runs), (length, 36))
            opened = open_sealed(KEY, bytes(4_096), sealed.ciphertext, sealed.tag, b"label")
            self.assertEqual((opened, opened.runs), (b"text", 36))
            self.refused("open", 8, open_sealed, KEY, bytes(4_096), sealed.ciphertext, bytes(length), b"label")
        self.assertEqual([seal(KEY, b"", bytes(length)).runs for length in (0, 104, 105)], [6, 6, 7])

    def test_text_and_label(self) -> None:
        for text, label in ((MOST, 0), (9, MOST - 9)):
            sealed = seal(KEY, b"", bytes(text), bytes(label))
            self.assertEqual(open_sealed(KEY, b"", sealed.ciphertext, sealed.tag, bytes(label)), bytes(text))
            self.refused("seal", 5, seal, KEY, b"", bytes(text), bytes(label + 1))
            self.refused("open", 5, open_sealed, KEY, b"", bytes(text + 1), bytes(32), bytes(label))

    def test_generators(self) -> None:
        self.generator(Generator(), 484, [0, 3, 6, 241_980])
        self.generator(KmacGenerator(), 485, [0, 4, 8, 322_640])

    def generator(self, generator: EitherGenerator, seeding: int, draws: List[int]) -> None:
        """A fresh generator, with the counts of its longest seeding and of draws of no bytes, of a piece, of one byte more and of the most."""
        self.refused("draw", 1, generator.draw, 0)
        self.refused("seed", 3, generator.seed, bytes(65_537), bytes(85))
        self.refused("seed", 5, generator.seed, bytes(65_537), bytes(84))
        self.refused("draw", 1, generator.draw, 1)
        self.assertEqual(generator.seed(bytes(65_536), bytes(84)), seeding)
        self.refused("draw", 3, generator.draw, MOST + 1, bytes(85))
        self.refused("draw", 6, generator.draw, MOST + 1, bytes(84))
        self.assertEqual([generator.draw(length, bytes(84)).runs for length in (0, 208, 209, MOST)], draws)

    def test_plans(self) -> None:
        widest = plan.write([2_097_151] * 4_096)
        self.assertEqual((len(widest), plan.rows(widest), plan.destination(widest, 4_096)), (12_290, 4_096, 2_097_151))
        self.refused("plan_length", 9, plan.write, [0] * 4_097)
        self.refused("plan_destination", 10, plan.destination, widest, 4_097)
        self.refused("plan_row", 10, plan.row, widest, bytes([0]), 4_097)
        for bad, number in ((b"", 9), (bytes([1, 128, 128, 128, 0]), 9), (bytes(65_536), 9), (bytes(65_537), 5), (bytes(1 << 25), 5)):
            self.refused("plan_read", number, plan.rows, bad)
            self.refused("plan_destination", number, plan.destination, bad, 1)
            self.refused("plan_row", number, plan.row, bad, widest, 1)
            self.refused("plan_row", number, plan.row, widest, bad, 1)
            self.refused("plan_start", number, plan.walk, bad)
        self.assertEqual((plan.rows(bytes([0])), list(plan.walk(bytes([0])))), (0, []))

    def test_refusals(self) -> None:
        again = pickle.loads(pickle.dumps(Refusal("open", 8)))
        self.assertEqual((again.number, again.place, again.malformed, str(again)), (8, None, None, "refused 8: the tag does not match"))
        self.assertIsInstance(again, ValueError)
        lines = [f"{entry} {number} {words}" for (entry, number), words in WORDS.items()]
        self.assertEqual(lines, FILE.read_text(encoding="utf-8").splitlines())
