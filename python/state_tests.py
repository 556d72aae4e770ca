"""Tests of sessions, generators and walks over several calls: as files, copied, closed, refused, and from two threads."""

import copy
import io
import itertools
import pickle
import shutil
import threading
import unittest

from hailfeather import Generator, KmacGenerator, Refusal, Session, cshake256, kmacxof256, plan

MOST = 16_777_216
GENERATORS = (Generator, KmacGenerator)


class Sessions(unittest.TestCase):
    def test_as_a_file(self) -> None:
        content = bytes(range(251)) * 997
        session = Session.kmacxof256(b"a key", b"depot 7")
        shutil.copyfileobj(io.BytesIO(content), session, 1_000)
        self.assertEqual([session.write(bytearray(3)), session.write(memoryview(bytearray(8)).cast("I"))], [3, 8])
        whole = io.BytesIO()
        shutil.copyfileobj(session, whole, 1_000_003)
        self.assertEqual(whole.getvalue(), kmacxof256(b"a key", content + bytes(11), MOST, b"depot 7"))
        self.assertEqual((session.read(), session.read(5), session.read(None)), (b"", b"", b""))

    def test_read_the_rest(self) -> None:
        session = Session.cshake256()
        self.assertEqual(session.read(0), b"")
        self.assertRaises(Refusal, session.write, b"x")
        self.assertEqual(session.read(10) + session.read(), cshake256(b"", MOST))

    def test_copies(self) -> None:
        first = Session.cshake256(b"name")
        first.take(b"ab")
        copies = [first.copy(), copy.copy(first), copy.deepcopy(first)]
        first.take(b"c")
        self.assertEqual(first.give(40), cshake256(b"abc", 40, b"name"))
        first.close()
        for other in copies:
            self.assertEqual(other.give(40), cshake256(b"ab", 40, b"name"))
        self.assertRaises(TypeError, pickle.dumps, copies[0])

    def test_closed(self) -> None:
        with Session.kmacxof256(b"a key") as session:
            session.take(b"a")
            held = session._state()
        self.assertEqual(bytes(held), bytes(len(bytes(held))))
        session.close()
        for call in (lambda: session.take(b""), lambda: session.give(0), session.copy, session.read, lambda: session.write(b"")):
            self.assertRaisesRegex(ValueError, "the session is closed", call)

    def test_overwritten(self) -> None:
        session = Session.kmacxof256(b"a key")
        before = session._state()
        session.take(b"a")
        after = session._state()
        del session
        for held in (before, after):
            self.assertEqual(bytes(held), bytes(len(bytes(held))))


class Generators(unittest.TestCase):
    def test_refused_as_before(self) -> None:
        for first, second in [(kind(), kind()) for kind in GENERATORS]:
            first.seed(b"seed")
            second.seed(b"seed")
            for refused in (lambda: first.draw(MOST + 1), lambda: first.draw(1, bytes(85)), lambda: first.seed(bytes(65_537))):
                self.assertRaises(Refusal, refused)
            self.assertEqual(first.draw(0), b"")
            self.assertEqual(first.draw(100), second.draw(100))
            self.assertNotEqual(first.draw(100), first.draw(100))

    def test_never_copied(self) -> None:
        for kind, copied in itertools.product(GENERATORS, (copy.copy, copy.deepcopy, pickle.dumps)):
            self.assertRaisesRegex(TypeError, "cannot be copied", copied, kind())

    def test_closed(self) -> None:
        for generator in [kind() for kind in GENERATORS]:
            generator.seed(b"seed")
            held = generator._state()
            generator.close()
            self.assertEqual(bytes(held), bytes(type(held)()))
            for call in (lambda: generator.seed(b""), lambda: generator.draw(1)):
                self.assertRaisesRegex(ValueError, "the generator is closed", call)

    def test_threads_draw_different_bytes(self) -> None:
        for generator, drawn in [(kind(), []) for kind in GENERATORS]:
            generator.seed(b"seed")
            threads = [threading.Thread(target=lambda: drawn.extend(generator.draw(100_000) for _ in range(8))) for _ in range(4)]
            for thread in threads:
                thread.start()
            for thread in threads:
                thread.join()
            self.assertEqual((len(drawn), len(set(drawn))), (32, 32))


class Walks(unittest.TestCase):
    def test_walk(self) -> None:
        lent = bytearray(plan.write([7, 300, 0]))
        walk = plan.walk(lent)
        self.assertEqual(next(walk), 7)
        lent[2:] = b""
        self.assertEqual(list(walk), [300, 0])
        self.assertEqual((list(walk), next(walk, None)), ([], None))

    def test_rows_of_two_plans(self) -> None:
        site, house = bytearray(plan.write([9])), memoryview(plan.write([1, 2, 2_097_151]))
        self.assertEqual(plan.row(site, house, 1), ("site", 1, b"\x09"))
        self.assertEqual(plan.row(site, house, 3), plan.Row("house", 3, b"\xff\xff\x7f"))
