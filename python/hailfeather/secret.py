"""A C struct that holds secrets, and is overwritten when another takes its place or it is no longer needed."""

from ctypes import Structure, addressof, memset, sizeof
from threading import Lock
from typing import Any, Callable, Optional

from .refusal import accept


class Secret:
    """Holds such a struct; `close`, or the end of a `with` block, overwrites it before Python does away with it.

    Copies that the library made on the stack during a call are out of reach.
    """

    _field: str  # under which the library's answers hold the struct after a call
    _held: Optional[Structure] = None

    def __init__(self, state: Structure) -> None:
        self._held = state
        self._lock = Lock()  # calls run outside Python's own lock, and two at once would go on from one point

    def _state(self) -> Any:
        """The struct, unless it is closed."""
        if self._held is None:
            raise ValueError(f"the {self._field} is closed")
        return self._held

    def _put(self, state: Optional[Structure]) -> None:
        """Keeps this struct and overwrites the old one."""
        old, self._held = self._held, state
        if old is not None:
            memset(addressof(old), 0, sizeof(old))

    def _advance(self, entry: str, function: Callable, *arguments: object) -> Any:
        """The library's answer to a call on the struct. The struct in it is kept, which on a refusal is the one passed in."""
        with self._lock:
            answer = function(self._state(), *arguments)
            self._put(getattr(answer, self._field))
        accept(entry, answer.number)
        return answer

    def close(self) -> None:
        """Overwrites what is held; every later call but this one is a ValueError."""
        with self._lock:
            self._put(None)

    def __enter__(self) -> Any:
        return self

    def __exit__(self, *reason: object) -> None:
        self.close()

    def __del__(self) -> None:
        self._put(None)
