#!/usr/bin/env python3
"""The cases of the program call_cases and what it must write for them, worked out by the rules of docs/RULES.md alone.

    python3 reference/call_cases.py --input > crates/call_cases/stdin    the cases, in the form that crates/call_cases/src/main.rt says
    python3 reference/call_cases.py         > crates/call_cases/stdout   what they are answered with; stops if the cases there are not these
"""
import sys
from pathlib import Path

import generator_cases
import hash_cases
import seal_cases
import session_cases

MODULUS = 2**32 - 5
SECTIONS = (hash_cases, seal_cases, session_cases, generator_cases)
STDIN = Path(__file__).resolve().parent.parent / "crates/call_cases/stdin"
BLOCK = 393_216  # the program's buffer
SIZE = {2: 21, 4: 41}  # a case's bytes, by how many strings it has


class Block:
    """The cases of a family, and the bytes of their strings, which may be shared."""

    def __init__(self, strings):
        self.cases, self.strings = [], strings

    def words(self, case, places):
        """A word and the strings of a case; of four strings, a word more."""
        letter, out, tag, strings = case
        words = [out]
        for held, length in strings + [(b"", 0)] * (self.strings - len(strings)):
            words += [places[held], length]
        words += [tag] if self.strings == 4 else []
        return letter.encode() + in_words(words)

    def made(self):
        held = {b""} | {string for *_, strings in self.cases for string, _ in strings}
        base = 4 + len(self.cases) * SIZE[self.strings]
        data, places = bytearray(), {}
        # the longest first, since shorter ones are mostly parts of them
        for string in sorted(held, key=lambda string: (-len(string), string)):
            if string not in data:
                data += string
            places[string] = base + data.find(string)
        made = in_words((len(self.cases),)) + b"".join(self.words(case, places) for case in self.cases) + bytes(data)
        assert len(made) <= BLOCK
        return made


def in_words(numbers):
    return b"".join(number.to_bytes(4, "little") for number in numbers)


class Cases:
    """The cases of the three families, each with what it writes: calls that keep no state, sessions, and the generators."""

    def __init__(self):
        self.blocks = {"single": Block(4), "session": Block(2), "generator": Block(2)}
        self.output = {family: [] for family in self.blocks}
        self.total = 0

    def put(self, family, letter, out=0, tag=0, strings=(), behind=b""):
        """A case: its letter, two words, and its strings, the last of which has `behind` after it."""
        last = len(strings) - 1
        held = [(string + behind if i == last else string, len(string)) for i, string in enumerate(strings)]
        self.blocks[family].cases.append((letter, out, tag, held))

    def write(self, family, line):
        self.output[family].append(line + "\n")

    def heading(self, family, text):
        self.put(family, "h", strings=[text.encode()])
        self.write(family, text)
        self.total = 0

    def end(self, family):
        """The checksum, which begins anew."""
        self.put(family, "e")
        self.write(family, str(self.total))
        self.total = 0

    def add(self, numbers):
        """The checksum taken on by numbers, one after the other."""
        total = self.total
        for number in numbers:
            total = (total * 257 + number + 1) % MODULUS
        self.total = total

    def answer(self, family, number, runs, output):
        """A line with number, runs and bytes."""
        self.write(family, f"{number} {runs} {output.hex()}")

    def input(self):
        *filled, last = (block.made() for block in self.blocks.values())
        return b"".join(block + bytes(BLOCK - len(block)) for block in filled) + last


def main(arguments):
    cases = Cases()
    for section in SECTIONS:
        section.add(cases)
    made = cases.input()
    if arguments == ["--input"]:
        sys.stdout.buffer.write(made)
    elif STDIN.read_bytes() != made:
        sys.exit("crates/call_cases/stdin has other cases: python3 reference/call_cases.py --input writes it")
    else:
        sys.stdout.write("".join(line for lines in cases.output.values() for line in lines))


if __name__ == "__main__":
    main(sys.argv[1:])
