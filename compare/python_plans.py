"""The entries of flat plans and of hall plans through the Python module, for python_calls.py."""

import sys
from pathlib import Path
from typing import Any, Dict, Iterator, Optional, Sequence, Tuple

sys.path.insert(0, str(Path(__file__).resolve().parent.parent / "python"))

from hailfeather import Refusal, hall, plan  # noqa: E402  (the path above leads to it)

SOURCES = {"site": 1, "house": 2}
NOWHERE = 0  # the place in an answer for which no plan is malformed, and the plan of two that is malformed if neither is
UNSEEN = object()  # a field of the answer that the module keeps to itself
LONGEST = 65_536  # bytes of a hall plan: the module lends no longer buffer


class LeftOut(Exception):
    """The module cannot express the line."""


def started(state: Any) -> Any:
    """A session or a walk, if there is one."""
    if state is None:
        raise LeftOut
    return state


def same_length(content: Sequence[int], length: int) -> None:
    """Leaves the line out if it lends another length than the module does."""
    if len(content) != length:
        raise LeftOut


class PlanReader:
    """A method for each entry: from the arguments to the answer's fields; the walk of the last lines is kept."""

    walk: Optional[Iterator[int]] = None

    @staticmethod
    def refused(refusal: Refusal) -> Dict[str, Any]:
        """The fields of a refused plan's answer that are not 0: its place, and which of two plans it is."""
        return {"place": refusal.place or NOWHERE, "malformed": SOURCES.get(refusal.malformed, NOWHERE)}

    def plan_read(self, given: Any) -> Tuple:
        return 0, plan.rows(given.plan), NOWHERE

    def plan_destination(self, given: Any) -> Tuple:
        return 0, plan.destination(given.plan, given.chute), NOWHERE

    def plan_row(self, given: Any) -> Tuple:
        row = plan.row(given.site, given.house, given.chute)
        if row.bytes != getattr(given, row.source)[row.start : row.start + len(row.bytes)]:
            return ()
        return 0, SOURCES[row.source], row.start, len(row.bytes), NOWHERE, NOWHERE

    def plan_length(self, given: Any) -> Tuple:
        return 0, len(plan.write(given.destinations)), NOWHERE

    def plan_write(self, given: Any) -> Tuple:
        written = plan.write(given.destinations)
        same_length(written, given.length)
        return 0, written, NOWHERE

    def plan_migrated_length(self, given: Any) -> Tuple:
        return 0, len(plan.migrate(given.plan)), NOWHERE

    def plan_migrate(self, given: Any) -> Tuple:
        migrated = plan.migrate(given.plan)
        same_length(migrated, given.length)
        return 0, migrated, NOWHERE

    def plan_start(self, given: Any) -> Tuple:
        self.walk = None
        self.walk = plan.walk(given.plan)
        return 0, UNSEEN, NOWHERE

    def plan_step(self, given: Any) -> Tuple:
        destination = next(started(self.walk), None)
        return (10, 0, UNSEEN, NOWHERE) if destination is None else (0, destination, UNSEEN, NOWHERE)

    def hall_read(self, given: Any) -> Tuple:
        found = hall.summary(given.plan)
        return 0, found.entries, found.outer, found.chutes, NOWHERE

    def hall_destination(self, given: Any) -> Tuple:
        return 0, hall.destination(given.plan, given.chute), NOWHERE

    def hall_read_into(self, given: Any) -> Tuple:
        """The plan as nested lists has to be that of the lists too."""
        found = hall.read(given.plan)
        same_length(found.kinds, given.kinds_length)
        same_length(found.values, given.values_length)
        if hall.write_nested(hall.nested(given.plan)) != hall.write(*found):
            return ()
        chutes = found.kinds.count(hall.CHUTE)
        return 0, len(found.kinds), found.outer, chutes, tuple(found.kinds), tuple(found.values), NOWHERE

    def hall_length(self, given: Any) -> Tuple:
        return 0, len(hall.write(given.outer, given.kinds, given.values)), NOWHERE

    def hall_write(self, given: Any) -> Tuple:
        if given.length > LONGEST:
            raise LeftOut
        try:
            written = hall.write(given.outer, given.kinds, given.values)
        except Refusal as refusal:
            if refusal.number == 5:  # the module would have to lend a longer buffer than the line does
                raise LeftOut from None
            raise
        same_length(written, given.length)
        return 0, written, NOWHERE
