"""Makes every call of the file through the Python module and compares the answers.

    python3 compare/python_calls.py FILE

Prints for each entry how many lines agree and how many are left out, since the module cannot express them: a lent output or list of another length than
the text, the plan or its entries, and calls on a session or a walk that could not start, where the module hands out none. Exits with 1 on any difference.
"""

import sys
from collections import Counter
from typing import Any, Optional, Tuple

from callfile import FORMS, LIST, NUMBER, OUTPUT, Call, agrees, calls
from python_plans import UNSEEN, LeftOut, PlanReader, same_length, started

import hailfeather  # python_plans has put it on the path
from hailfeather import Generator, KmacGenerator, Refusal, Session
from hailfeather.generator import EitherGenerator


class Reader(PlanReader):
    """A method for each entry: from the arguments to the answer's fields; the session and the generator of the last lines are kept."""

    session: Optional[Session] = None
    generator: EitherGenerator = Generator()

    def keccak_p(self, given: Any) -> Tuple:
        return (hailfeather.keccak_p(given.lanes),)

    def cshake256(self, given: Any) -> Tuple:
        output = hailfeather.cshake256(given.message, given.length, given.name, given.customisation)
        return 0, output.runs, output

    def kmac256(self, given: Any) -> Tuple:
        output = hailfeather.kmac256(given.key, given.message, given.length, given.customisation)
        return 0, output.runs, output

    def kmacxof256(self, given: Any) -> Tuple:
        output = hailfeather.kmacxof256(given.key, given.message, given.length, given.customisation)
        return 0, output.runs, output

    def session_cshake256(self, given: Any) -> Tuple:
        self.session = None
        self.session = Session.cshake256(given.name, given.customisation)
        return (0,)

    def session_kmacxof256(self, given: Any) -> Tuple:
        self.session = None
        self.session = Session.kmacxof256(given.key, given.customisation)
        return (0,)

    def take(self, given: Any) -> Tuple:
        started(self.session).take(given.piece)
        return (0,)

    def give(self, given: Any) -> Tuple:
        return 0, started(self.session).give(given.length)

    def seal(self, given: Any) -> Tuple:
        same_length(given.text, given.length)
        sealed = hailfeather.seal(given.key, given.iv, given.text, given.label, given.tag_length)
        return 0, sealed.runs, sealed.ciphertext, sealed.tag

    def open(self, given: Any) -> Tuple:
        same_length(given.ciphertext, given.length)
        text = hailfeather.open_sealed(given.key, given.iv, given.ciphertext, given.tag, given.label)
        return 0, text.runs, text

    def generator_fresh(self, given: Any) -> Tuple:
        self.generator = Generator()
        return ()

    def kmac_generator_fresh(self, given: Any) -> Tuple:
        self.generator = KmacGenerator()
        return ()

    def key(self) -> bytes:
        """The generator's key, which the module keeps to itself."""
        return bytes(self.generator._state().key)

    def seed(self, given: Any) -> Tuple:
        return 0, self.generator.seed(given.seed, given.personalisation), self.key()

    def draw(self, given: Any) -> Tuple:
        output = self.generator.draw(given.length, given.additional)
        return 0, output.runs, output, self.key()

    def answer(self, call: Call) -> Tuple:
        """The module's answer; on a refusal 0, no bytes and no list for all but the number, a generator's key, and where a plan is malformed."""
        try:
            return getattr(self, call.entry)(call.given)
        except Refusal as refusal:
            _, form = FORMS[call.entry]
            nothing, told = {NUMBER: 0, LIST: ()}, self.refused(refusal)
            if "key" in form.made._fields:
                told["key"] = self.key()
            others = [told.get(name, nothing.get(kind, b"")) for name, kind in zip(form.made._fields, form.kinds)]
            return (refusal.number, *others[1:])


def alike(call: Call, found: Tuple) -> bool:
    """Whether the answer is the file's, field by field."""
    _, form = FORMS[call.entry]
    if len(found) != len(call.answer):
        return False
    seen = [fields for fields in zip(form.kinds, call.answer, found) if fields[2] is not UNSEEN]
    return all(agrees(field, value) if kind is OUTPUT else field == value for kind, field, value in seen)


def main(path: str) -> int:
    reader, agreed, left_out, differ = Reader(), Counter(), Counter(), 0
    for call in calls(path):
        try:
            found = reader.answer(call)
        except LeftOut:
            left_out[call.entry] += 1
            continue
        if alike(call, found):
            agreed[call.entry] += 1
        else:
            differ += 1
            print(f"line {call.line}: {call.entry} differs: the file has {call.answer}, the module {found}"[:400])
    for entry in sorted({*agreed, *left_out}):
        print(f"{entry}: {agreed[entry]} agree, {left_out[entry]} left out")
    print(f"Python: {sum(agreed.values())} lines agree, {differ} differ, {sum(left_out.values())} are left out")
    return 1 if differ else 0


if __name__ == "__main__":
    if len(sys.argv) != 2:
        sys.exit(__doc__)
    try:
        sys.exit(main(sys.argv[1]))
    except (OSError, ValueError) as reason:
        sys.exit(f"python_calls.py: {reason}")
