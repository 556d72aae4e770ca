"""The library's refusals, with their words from refusals.txt beside this file."""

from pathlib import Path
from typing import Any, Dict, Optional, Tuple

FILE = Path(__file__).with_name("refusals.txt")


def words_by_entry() -> Dict[Tuple[str, int], str]:
    """The words of each entry's numbers."""
    try:
        lines = FILE.read_text(encoding="utf-8").splitlines()
    except OSError as reason:
        raise ImportError(f"the refusals' words cannot be read ({reason}): copy the module's folder whole") from None
    parts = [line.split(" ", 2) for line in lines]
    return {(entry, int(number)): words for entry, number, words in parts}


WORDS = words_by_entry()
MALFORMED = 9  # the number of a malformed plan
SOURCES = {1: "site", 2: "house"}  # the plans that hf_source names


class Refusal(ValueError):
    """A call that the library refused: nothing was changed, and a session or a generator is as it was.

    >>> refusal = Refusal("open", 8)
    >>> refusal.number, refusal.words, str(refusal)
    (8, 'the tag does not match', 'refused 8: the tag does not match')

    `place` is the byte, from 0, at which a plan that was read is malformed, and `malformed` which of two plans that is, "site" or "house"; they are
    None with every number but 9, and with 9 for rows or halls to be written.

    >>> refusal = Refusal("plan_read", 9, 3)
    >>> refusal.place, refusal.malformed, str(refusal)
    (3, None, 'refused 9 at byte 3: the plan is malformed')
    >>> str(Refusal("plan_row", 9, 3, "site"))
    'refused 9 at byte 3 of the site plan: the plan is malformed'
    """

    def __init__(self, entry: str, number: int, place: Optional[int] = None, malformed: Optional[str] = None) -> None:
        super().__init__(entry, number, place, malformed)  # all of them, so that a pickled or copied refusal has them again
        self.number = number
        self.words = WORDS[entry, number]
        self.place = place
        self.malformed = malformed

    def __str__(self) -> str:
        place = "" if self.place is None else f" at byte {self.place}"
        plan = "" if self.malformed is None else f" of the {self.malformed} plan"
        return f"refused {self.number}{place}{plan}: {self.words}"


def accept(entry: str, number: int) -> None:
    """Raises the entry's Refusal unless the number is 0."""
    if number != 0:
        raise Refusal(entry, number)


def accept_plan(entry: str, answer: Any) -> None:
    """Raises the Refusal of an entry that reads a plan, or two, unless the answer's number is 0; with 9 it has the place."""
    if answer.number == MALFORMED:
        raise Refusal(entry, answer.number, answer.place, SOURCES.get(getattr(answer, "malformed", None)))
    accept(entry, answer.number)
