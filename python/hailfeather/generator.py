"""The cSHAKE generator and the KMAC generator. They gather no randomness: all of it comes from the seeds."""

from typing import Any

from .lending import BytesLike, Output, lent, output, room_for, size
from .library import functions
from .secret import Secret


class EitherGenerator(Secret):
    """What both generators do."""

    _field = "generator"
    _functions: str  # how the names of the generator's functions in C begin

    def __init__(self) -> None:
        super().__init__(getattr(functions, f"{self._functions}_fresh")())

    def seed(self, seed: BytesLike, personalisation: BytesLike = b"") -> int:
        """Makes a new key of the old one, the seed and the personalisation; answers the call's number of permutations. Refuses with 3, 5."""
        function = getattr(functions, f"{self._functions}_seed")
        return self._advance("seed", function, *lent("seed", seed), *lent("personalisation", personalisation)).runs

    def draw(self, length: int, additional: BytesLike = b"") -> Output:
        """So many bytes; two draws of 10 bytes are not one of 20. Refuses with 1, 3, 6."""
        function, room = getattr(functions, f"{self._functions}_draw"), room_for(size("length", length))
        answer = self._advance("draw", function, *lent("additional", additional), room, len(room))
        return output(room, answer.runs)

    def __reduce_ex__(self, protocol: Any) -> Any:
        raise TypeError("a generator cannot be copied: two copies would draw the same bytes")


class Generator(EitherGenerator):
    """A cSHAKE generator that was never seeded. It cannot be copied, since two copies would draw the same bytes; after os.fork seed one of the two anew.

    >>> generator = Generator()
    >>> generator.draw(16)
    Traceback (most recent call last):
    ...
    hailfeather.refusal.Refusal: refused 1: the generator was never seeded
    >>> runs = generator.seed(b"a seed of good randomness", personalisation=b"depot 7")
    >>> generator.draw(16).hex()
    '7a59e4879eaf09a3cab7030536e9def0'
    """

    _functions = "hf_generator"


class KmacGenerator(EitherGenerator):
    """A KMAC generator that was never seeded, for those whose policy names KMAC. All that is said of Generator holds of it, but a draw takes
    4 permutations for each piece of 208 bytes, not 3, and it makes its own bytes of the same seeds.

    >>> generator = KmacGenerator()
    >>> runs = generator.seed(b"a seed of good randomness", personalisation=b"depot 7")
    >>> generator.draw(16).hex()
    '2e3f5a098c3ef65458ab98608b610759'
    """

    _functions = "hf_kmac_generator"
