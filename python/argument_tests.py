"""Tests of what the module takes as bytes, lengths, chutes and destinations, and what it raises before a call."""

import ctypes
import itertools
import tracemalloc
import unittest
from array import array

from hailfeather import Generator, KmacGenerator, Output, Refusal, Session, cshake256, keccak_p, kmac256, kmacxof256, open_sealed, plan, seal
from hailfeather.generator import EitherGenerator
from hailfeather.lending import lent

LARGEST = 2**64 - 1
PLAN = bytes([3, 7, 172, 2, 0])
TAKERS = {
    "message": lambda bad: cshake256(bad, 1),
    "name": lambda bad: cshake256(b"", 1, name=bad),
    "customisation": lambda bad: kmac256(b"", b"", 1, bad),
    "key": lambda bad: kmacxof256(bad, b"", 1),
    "piece": lambda bad: Session.cshake256().write(bad),
    "iv": lambda bad: seal(bytes(32), bad, b""),
    "text": lambda bad: seal(bytes(32), b"", bad),
    "label": lambda bad: seal(bytes(32), b"", b"", bad),
    "ciphertext": lambda bad: open_sealed(bytes(32), b"", bad, bytes(32)),
    "tag": lambda bad: open_sealed(bytes(32), b"", b"", bad),
    "seed": lambda bad: Generator().seed(bad),
    "personalisation": lambda bad: Generator().seed(b"", bad),
    "additional": lambda bad: Generator().draw(1, bad),
    "plan": plan.walk,
    "site": lambda bad: plan.row(bad, PLAN, 1),
    "house": lambda bad: plan.row(PLAN, bad, 1),
}
LENGTHS = {
    "cshake256": lambda length: cshake256(b"", length),
    "kmac256": lambda length: kmac256(b"", b"", length),
    "kmacxof256": lambda length: kmacxof256(b"", b"", length),
    "give": lambda length: Session.cshake256().give(length),
    "draw": lambda length: seeded(Generator()).draw(length),
    "draw, KMAC": lambda length: seeded(KmacGenerator()).draw(length),
    "seal": lambda length: seal(bytes(32), b"", b"", b"", length),
}


def seeded(generator: EitherGenerator) -> EitherGenerator:
    generator.seed(b"")
    return generator


class Bytes(unittest.TestCase):
    def test_all_kinds(self) -> None:
        content = bytes(range(200))
        doubled = bytes(byte for byte in content for _ in range(2))
        kinds = [Output(content), bytearray(content), memoryview(content), memoryview(bytearray(content)), memoryview(doubled)[::2]]
        kinds += [memoryview(bytearray(doubled))[::2], array("I", content)]
        for kind in kinds:
            self.assertEqual(kmac256(kind, kind, 32, kind), kmac256(content, content, 32, content), repr(kind))

    def test_none_of_them(self) -> None:
        for empty in (b"", bytearray(), memoryview(b""), memoryview(bytearray(5))[5:], array("I")):
            pointer, length = lent("message", empty)
            self.assertEqual(length, 0)
            self.assertTrue(ctypes.cast(pointer, ctypes.c_void_p).value, "no null pointer")
            self.assertEqual(cshake256(empty, 32), cshake256(b"", 32))

    def test_no_copy(self) -> None:
        content, changing = b"some bytes", bytearray(b"some bytes")
        where = ctypes.addressof(ctypes.c_char.from_buffer(changing))
        self.assertEqual(ctypes.cast(lent("x", content)[0], ctypes.c_void_p).value, ctypes.cast(content, ctypes.c_void_p).value)
        self.assertEqual(ctypes.addressof(lent("x", changing)[0]), where)
        self.assertEqual(ctypes.addressof(lent("x", memoryview(changing)[3:])[0]), where + 3)

    def test_others_are_type_errors(self) -> None:
        for name, taker in TAKERS.items():
            with self.assertRaisesRegex(TypeError, f"^{name} is a str: encode it"):
                taker("a text")
            for bad in (None, 5, [1, 2], 1.5):
                with self.assertRaisesRegex(TypeError, f"^{name} has to be bytes"):
                    taker(bad)


class Lengths(unittest.TestCase):
    def test_before_the_call(self) -> None:
        for name, taker in LENGTHS.items():
            with self.subTest(name):
                self.assertRaisesRegex(ValueError, "is negative: -1", taker, -1)
                for large in (LARGEST + 1, 2**100):
                    self.assertRaises(OverflowError, taker, large)
                for bad in (1.0, "1", None):
                    self.assertRaises(TypeError, taker, bad)

    def test_too_long_takes_little_memory(self) -> None:
        for name, taker in LENGTHS.items():
            for length in (2**32, 2**32 + 32, 2**63, LARGEST):
                tracemalloc.start()
                with self.assertRaises(Refusal) as caught:
                    taker(length)
                peak = tracemalloc.get_traced_memory()[1]
                tracemalloc.stop()
                self.assertEqual(caught.exception.number, 7 if name == "seal" else 6, name)
                self.assertLess(peak, (1 if name == "seal" else 17) << 20, name)

    def test_lanes(self) -> None:
        self.assertEqual(len(keccak_p([LARGEST] * 25)), 25)
        self.assertNotEqual(keccak_p([LARGEST] + [0] * 24), keccak_p([0] * 25))
        self.assertRaises(OverflowError, keccak_p, [LARGEST + 1] + [0] * 24)
        self.assertRaisesRegex(ValueError, "negative", keccak_p, [-1] + [0] * 24)
        for count in (0, 24, 26):
            self.assertRaisesRegex(ValueError, f"25 lanes, not {count}", keccak_p, [0] * count)


class PlanNumbers(unittest.TestCase):
    def refused(self, number: int, function: object, *arguments: object) -> None:
        with self.assertRaises(Refusal) as caught:
            function(*arguments)
        self.assertEqual(caught.exception.number, number)

    def test_chutes(self) -> None:
        self.assertEqual([plan.destination(PLAN, chute) for chute in (1, 2, 3)], [7, 300, 0])
        for chute in (0, 4, 2**32 - 1, 2**32, 2**32 + 1, 2**64 + 1, 2**100):
            self.refused(10, plan.destination, PLAN, chute)
            self.refused(10, plan.row, PLAN, PLAN, chute)
        for function, arguments in ((plan.destination, (PLAN,)), (plan.row, (PLAN, PLAN))):
            self.assertRaisesRegex(ValueError, "chute is negative", function, *arguments, -1)
            self.assertRaises(TypeError, function, *arguments, 1.0)

    def test_destinations(self) -> None:
        self.assertEqual(plan.write([2_097_151]), bytes([1, 255, 255, 127]))
        for large in (2_097_152, 2**32 - 1, 2**32, 2**32 + 1, 2**64, 2**100):
            self.refused(9, plan.write, [large])
        self.assertRaisesRegex(ValueError, "a destination is negative", plan.write, [-1])
        self.refused(9, plan.write, itertools.repeat(0))
        self.assertEqual(plan.write(iter([7, 300, 0])), PLAN)
