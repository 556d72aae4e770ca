"""What a caller hands over, as the library is lent it: bytes by pointer and length, and numbers within their C type."""

from ctypes import Array, c_char_p, c_uint8, cast
from operator import index
from typing import Any, Tuple, Union

from .library import BYTES

BytesLike = Union[bytes, bytearray, memoryview]

OUTPUT_LIMIT = 16_777_216  # bytes: a longer output is refused
LARGEST_SIZE = 2**64 - 1
LARGEST_DESTINATION = 2**32 - 1


class Output(bytes):
    """Bytes that a call gave; `runs` is the number of permutations that the call takes by its definition."""

    runs: int


def output(room: "Array[c_uint8]", runs: int) -> Output:
    """The filled room as an Output."""
    made = Output(room)
    made.runs = runs
    return made


def lent(name: str, argument: BytesLike) -> Tuple[Any, int]:
    """Pointer and length of an argument, without a copy where its memory is whole and ctypes can reach it: bytes, or writable."""
    if isinstance(argument, str):
        raise TypeError(f"{name} is a str: encode it to bytes first, for example with .encode()")
    if not isinstance(argument, bytes):
        try:
            view = memoryview(argument)
        except TypeError:
            raise TypeError(f"{name} has to be bytes, a bytearray or a memoryview, not {type(argument).__name__}") from None
        if view.nbytes > 0 and view.c_contiguous and not view.readonly:  # an empty buffer may have a null pointer, which the library is never lent
            return (c_uint8 * view.nbytes).from_buffer(view), view.nbytes
        argument = view.tobytes()
    return cast(c_char_p(argument), BYTES), len(argument)


def size(name: str, number: int) -> int:
    """A length that fits size_t."""
    number = index(number)
    if number < 0:
        raise ValueError(f"{name} is negative: {number}")
    if number > LARGEST_SIZE:
        raise OverflowError(f"{name} is greater than {LARGEST_SIZE:,}")
    return number


def room_for(length: int, limit: int = OUTPUT_LIMIT) -> "Array[c_uint8]":
    """Memory to be written. Beyond the limit one byte more than it is enough for the library to refuse."""
    return (c_uint8 * min(length, limit + 1))()


def number_of(name: str, number: int, largest: int) -> int:
    """A chute, a destination, or a kind or a number of entries; one beyond its C type counts as the largest of that, which no plan has either."""
    number = index(number)
    if number < 0:
        raise ValueError(f"{name} is negative: {number}")
    return min(number, largest)
