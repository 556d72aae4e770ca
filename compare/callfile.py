"""The file of calls, read and written. Its format stands in compare/README.md, from which the form of each entry's line is taken."""

import re
import struct
import zlib
from collections import namedtuple
from functools import lru_cache
from itertools import groupby
from pathlib import Path
from typing import Any, Callable, Dict, Iterator, NamedTuple, Optional, Sequence, Tuple

FORM = re.compile(r"    ([a-z_0-9]+)((?: [A-Z-]+)*) =((?: [A-Z-]+)*)")  # an entry's line in the README
SHOWN_WHOLE = 1_024  # bytes: a longer output stands as its CRC-32
SHOWN_EACH = 3  # equal numbers of a list, one after another: of more, one stands there and how many there are
PERIOD = 65_536  # bytes after which a pattern begins again


class Pattern(bytes):
    """Bytes that the file names by their length and seed."""

    seed: int


@lru_cache(maxsize=4)
def pattern(length: int, seed: int) -> Pattern:
    """The bytes of which byte i is (seed + 7 i + i div 256) mod 256.

    >>> pattern(4, 250).hex(), bytes_field(pattern(4, 250))
    ('fa01080f', '*4:250')
    """
    period = bytes((seed + 7 * i + i // 256) % 256 for i in range(min(length, PERIOD)))
    made = Pattern((period * (length // PERIOD + 1))[:length])
    made.seed = seed
    return made


def bytes_of(field: str) -> bytes:
    """The bytes of an argument: `-`, hexadecimal digits, or `*LENGTH:SEED`.

    >>> bytes_of("-"), bytes_of("0aff"), bytes_of("*3:1")
    (b'', b'\\n\\xff', b'\\x01\\x08\\x0f')
    """
    if field.startswith("*"):
        length, seed = field[1:].split(":")
        return pattern(int(length), int(seed))
    return b"" if field == "-" else bytes.fromhex(field)


def bytes_field(content: bytes) -> str:
    """An argument's bytes as they stand in the file: a Pattern by its length and seed, all others in hexadecimal."""
    return f"*{len(content)}:{content.seed}" if isinstance(content, Pattern) else bytes(content).hex() or "-"


def shown(output: Optional[bytes]) -> str:
    """An output as it stands in the file, `-` for none.

    >>> shown(None), shown(bytes(2)), shown(bytes(1025))
    ('-', '0000', '%1025:0e3b57ed')
    """
    if output and len(output) > SHOWN_WHOLE:
        return f"%{len(output)}:{zlib.crc32(output):08x}"
    return bytes(output).hex() if output else "-"


def agrees(field: str, output: bytes) -> bool:
    """Whether an output is the one that the file shows."""
    return shown(output) == field if field.startswith("%") else output == bytes_of(field)


def lanes_of(field: str) -> Tuple[int, ...]:
    """The 25 lanes of 200 bytes in hexadecimal, low byte first."""
    return struct.unpack("<25Q", bytes.fromhex(field))


def lanes_field(lanes: Sequence[int]) -> str:
    """The lanes' 200 bytes in hexadecimal, low byte first."""
    return struct.pack("<25Q", *lanes).hex()


def list_of(field: str) -> Tuple[int, ...]:
    """Numbers separated by commas, of which `TIMES*NUMBER` is that many equal ones, or `-`.

    >>> list_of("-"), list_of("7,4*0,1")
    ((), (7, 0, 0, 0, 0, 1))
    """
    runs = [part.rpartition("*") for part in field.split(",") if part != "-"]
    return tuple(number for times, _, value in runs for number in [int(value)] * int(times or 1))


def list_field(numbers: Optional[Sequence[int]]) -> str:
    """Numbers as they stand in the file, `-` for none.

    >>> list_field(None), list_field([7, 0, 0, 0, 0, 1])
    ('-', '7,4*0,1')
    """
    runs = [(value, len(list(equal))) for value, equal in groupby(numbers or ())]
    return ",".join(f"{times}*{value}" if times > SHOWN_EACH else ",".join([str(value)] * times) for value, times in runs) or "-"


class Kind(NamedTuple):
    """How a field is read and written."""

    read: Callable[[str], Any]
    write: Callable[[Any], str]


BYTES = Kind(bytes_of, bytes_field)
NUMBER = Kind(int, str)
OUTPUT = Kind(str, shown)  # read as it stands, to be compared by `agrees`
LIST = Kind(list_of, list_field)
LISTS = {"LANES": Kind(lanes_of, lanes_field), "DESTINATIONS": LIST, "KINDS": LIST, "VALUES": LIST}
LENGTHS = {"LENGTH", "TAG-LENGTH", "KINDS-LENGTH", "VALUES-LENGTH"}
COUNTS = {"RUNS", "ROWS", "ENTRIES", "OUTER", "CHUTES"}
NUMBERS = {*LENGTHS, *COUNTS, "NUMBER", "CHUTE", "DESTINATION", "SOURCE", "START", "MALFORMED", "AT", "PLACE"}


def kind(name: str, others: Kind) -> Kind:
    """The kind of the field with this name; `others` is that of bytes, which are outputs after the `=`."""
    return LISTS.get(name) or (NUMBER if name in NUMBERS else others)


class Fields:
    """The fields of a line before or after its `=`."""

    def __init__(self, title: str, names: Sequence[str], others: Kind) -> None:
        self.kinds = [kind(name, others) for name in names]
        self.made = namedtuple(title, [name.lower().replace("-", "_") for name in names])  # type: ignore[misc]

    def read(self, fields: Sequence[str]) -> Any:
        """The fields' values by name."""
        return self.made(*[kind.read(field) for kind, field in zip(self.kinds, self.made(*fields))])

    def write(self, values: Sequence[Any]) -> str:
        """The values as fields, each after a blank."""
        return "".join(" " + kind.write(value) for kind, value in zip(self.kinds, self.made(*values)))


def forms() -> Dict[str, Tuple[Fields, Fields]]:
    """For each entry of the README its arguments and its answer."""
    lines = Path(__file__).with_name("README.md").read_text(encoding="utf-8").splitlines()
    found = [match.groups() for match in map(FORM.fullmatch, lines) if match]
    return {entry: (Fields("Given", given.split(), BYTES), Fields("Answer", answer.split(), OUTPUT)) for entry, given, answer in found}


FORMS = forms()


class Call(NamedTuple):
    """A line of the file: `given` has the arguments and `answer` the answer's fields, both by the README's names in small letters."""

    line: int
    entry: str
    given: Any
    answer: Any


def parsed(number: int, line: str) -> Call:
    """The call of a line; ValueError with the line's number if it has not the form of its entry."""
    entry, *fields = line.split(" ")
    if entry not in FORMS:
        raise ValueError(f"line {number}: there is no entry {entry}")
    given, answer = FORMS[entry]
    try:
        middle = fields.index("=")
        return Call(number, entry, given.read(fields[:middle]), answer.read(fields[middle + 1 :]))
    except (TypeError, ValueError, struct.error) as reason:
        raise ValueError(f"line {number}: not a call of {entry}: {reason}") from None


def written(entry: str, given: Sequence[Any], answer: Sequence[Any]) -> str:
    """The line of a call, without a line feed.

    >>> written("give", [3], [0, b"abc"]), written("take", [pattern(70_000, 9)], [0]), written("give", [5], [6, None])
    ('give 3 = 0 616263', 'take *70000:9 = 0', 'give 5 = 6 -')
    >>> parsed(1, "give 3 = 0 616263")
    Call(line=1, entry='give', given=Given(length=3), answer=Answer(number=0, output='616263'))
    """
    arguments, result = FORMS[entry]
    return f"{entry}{arguments.write(given)} ={result.write(answer)}"


def calls(path: str) -> Iterator[Call]:
    """The calls of a file in their order; ValueError if there is none."""
    number = 0
    with open(path, encoding="ascii") as lines:
        for number, line in enumerate(lines, 1):
            yield parsed(number, line.rstrip("\n"))
    if number == 0:
        raise ValueError(f"{path} has no calls")
