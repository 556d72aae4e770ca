"""Running sessions over cSHAKE256 and KMACXOF256: the message taken in pieces, the output given in portions."""

from typing import Optional

from .lending import BytesLike, lent, room_for, size
from .library import functions
from .refusal import accept
from .secret import Secret
from .structs import SessionState


class Session(Secret):
    """A session takes the message and then gives the output; the first ask for output, be it for no bytes, ends the message for good.

    >>> session = Session.kmacxof256(b"a key", customisation=b"depot 7")
    >>> session.take(b"a ")
    >>> session.take(b"plan")
    >>> (session.give(10) + session.give(6)).hex()
    '2c84576ecc384c3a27a3d4674c9583fb'
    >>> session.take(b"")
    Traceback (most recent call last):
    ...
    hailfeather.refusal.Refusal: refused 1: the session has begun to give output and takes no more of the message
    """

    _field = "session"

    @classmethod
    def cshake256(cls, name: BytesLike = b"", customisation: BytesLike = b"") -> "Session":
        """A session of cSHAKE256. Refuses with 3, 4."""
        return cls._started("session_cshake256", *lent("name", name), *lent("customisation", customisation))

    @classmethod
    def kmacxof256(cls, key: BytesLike, customisation: BytesLike = b"") -> "Session":
        """A session of KMACXOF256. Refuses with 2, 3."""
        return cls._started("session_kmacxof256", *lent("key", key), *lent("customisation", customisation))

    @classmethod
    def _started(cls, entry: str, *arguments: object) -> "Session":
        step = getattr(functions, f"hf_{entry}")(*arguments)
        accept(entry, step.number)
        return cls(step.session)

    def take(self, piece: BytesLike) -> None:
        """Takes a piece of the message. Refuses with 1, 5."""
        self._advance("take", functions.hf_session_take, *lent("piece", piece))

    def give(self, length: int) -> bytes:
        """The next bytes of output. Refuses with 6."""
        room = room_for(size("length", length))
        self._advance("give", functions.hf_session_give, room, len(room))
        return bytes(room)

    def copy(self) -> "Session":
        """A second session that goes on from the same point.

        >>> common = Session.cshake256(customisation=b"depot 7")
        >>> common.take(b"a plan")
        >>> other = common.copy()
        >>> common.give(16) == other.give(16)
        True
        """
        with self._lock:
            return type(self)(SessionState.from_buffer_copy(self._state()))

    __copy__ = copy

    def __deepcopy__(self, memo: object) -> "Session":
        return self.copy()

    def write(self, piece: BytesLike) -> int:
        """`take` as a file has it: answers how many bytes were taken, which is all of them.

        >>> import io, shutil
        >>> session = Session.cshake256(customisation=b"depot 7")
        >>> shutil.copyfileobj(io.BytesIO(b"a plan"), session)
        >>> session.read(16).hex()
        '08cf8f2f987b6cd9a536ceed69793541'
        """
        self.take(piece)
        return memoryview(piece).nbytes

    def read(self, size: Optional[int] = -1) -> bytes:
        """`give` as a file has it: the bytes that are left where fewer are left, so none at the end; all of them with None or a negative size."""
        state = self._state()
        left = state.limit - state.given
        return self.give(left if size is None or size < 0 else min(size, left))
