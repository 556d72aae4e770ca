"""Tests of the Python module: the published samples, the limits, what it takes and refuses before a call, and the examples of its documentation.

    python3 python/tests.py
"""

import doctest
import importlib
import pkgutil
import re
import sys
import unittest
from pathlib import Path

import hailfeather
from hailfeather import cshake256, keccak_p, kmac256, kmacxof256

PARTS = ["argument_tests", "hall_tests", "header_tests", "import_tests", "limit_tests", "migration_tests", "place_tests", "state_tests"]
SAMPLES = Path(__file__).resolve().parent.parent / "vectors" / "nist-samples.txt"
KEYED = {"KMAC256": kmac256, "KMACXOF256": kmacxof256}


def text_bytes(field: str) -> bytes:
    """A string given as text, `-` for the empty one."""
    return b"" if field == "-" else field.encode("ascii")


def message_bytes(field: str) -> bytes:
    """A message in hexadecimal, or `AA to BB` for the bytes from AA to BB."""
    ends = [int(end, 16) for end in re.findall("[0-9A-F]{2}", field)]
    return bytes(range(ends[0], ends[1] + 1)) if " to " in field else bytes.fromhex(field)


class Samples(unittest.TestCase):
    """NIST's published samples (vectors/README.md has their form)."""

    def setUp(self) -> None:
        self.lines = [line for line in SAMPLES.read_text(encoding="ascii").splitlines() if line and not line.startswith("#")]

    def test_functions(self) -> None:
        tried = []
        for title, key, name, custom, message, length, output in (line.split(" | ") for line in self.lines if " | " in line):
            function = title.split()[0]
            with self.subTest(title):
                if function == "cSHAKE256":
                    found = cshake256(message_bytes(message), int(length), text_bytes(name), text_bytes(custom))
                elif function in KEYED:
                    found = KEYED[function](bytes.fromhex(key), message_bytes(message), int(length), text_bytes(custom))
                else:
                    continue
                tried.append(title)
                self.assertEqual(found.hex().upper(), output)
        self.assertEqual(len(tried), 8)

    def test_permutation(self) -> None:
        expected = {line.split()[0]: tuple(int(lane, 16) for lane in line.split()[1:]) for line in self.lines if line.startswith(("once", "twice"))}
        once = keccak_p([0] * 25)
        self.assertEqual({"once": once, "twice": keccak_p(once)}, expected)

    def test_shake256(self) -> None:
        self.assertEqual(cshake256(b"", 32).hex().upper(), self.lines[-1])


def load_tests(loader: unittest.TestLoader, tests: unittest.TestSuite, pattern: object) -> unittest.TestSuite:
    """The tests of this file, of the others, and the examples of every module."""
    tests.addTests(loader.loadTestsFromName(part) for part in PARTS)
    for module in pkgutil.iter_modules(hailfeather.__path__, "hailfeather."):
        tests.addTest(doctest.DocTestSuite(importlib.import_module(module.name)))
    tests.addTest(doctest.DocTestSuite(hailfeather))
    return tests


if __name__ == "__main__":
    sys.exit(not unittest.main(exit=False).result.wasSuccessful())
