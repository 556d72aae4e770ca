"""A case of the program plan_cases: how it is written down, and what it must be answered with."""
import functools

import migration
import plan

plan.reading = functools.lru_cache(maxsize=16)(plan.reading)  # the same plan is asked for thousands of chutes
SOURCES = [None, "site", "house"]
MODULUS = 2**32 - 5
ZEROS = 2**24  # from here on a number of bytes means zeros
BUFFER, UNTOUCHED = 12_300, b"\xee"  # bytes, of which a part is lent to be written, and what each holds first
ANSWER = "%d:%d:%d "  # number, value and place


def write_plan(rows):
    """The plan of these rows, None where they break the plan's rules."""
    length = sum(len(plan.written_number(value)) for value in [len(rows), *rows])
    return plan.write(rows, length)[1]


def padded_number(value):
    """The number in three groups, more than it may need."""
    return bytes([value & 127 | 128, value >> 7 & 127 | 128, value >> 14])


def added(total, value):
    """The checksum taken on by a number."""
    return (total * 257 + value + 1) % MODULUS


def summed(content, total=0):
    """The checksum taken on by numbers one after another."""
    for value in content:
        total = added(total, value)
    return total


class Cases:
    """The cases one after another, each with what it writes."""

    def __init__(self):
        self.input, self.output, self.count, self.total = bytearray(), [], 0, 0

    def put(self, letter, first=b"", second=b"", chute=0):
        lengths = [len(part) if any(part) or len(part) < 1000 else ZEROS + len(part) for part in (first, second)]
        self.input += letter + b"".join(n.to_bytes(4, "little") for n in [*lengths, chute % 2**32, chute >> 32])
        self.input += b"".join(part for part, n in zip((first, second), lengths) if n < ZEROS)
        self.count += 1
        if letter != b"s":
            self.total = 0

    def out(self, text):
        self.output.append(text + "\n")

    def heading(self, text):
        self.put(b"h", text.encode())
        self.out(text)

    def line(self, data):
        """The refusal, the number of rows and the place, and lookups."""
        count = plan.read(data)[1]
        self.put(b"l", data, chute=count)
        chutes = (0, 1, count, count + 1, plan.ROWS, 2**32 - 1, 2**32 + 1)
        answers = [plan.read(data), *(plan.destination(data, chute) for chute in chutes)]
        self.out("".join(ANSWER % answer for answer in answers))

    def summed(self, data, chutes):
        """All answers of a plan, taken into the checksum."""
        self.put(b"s", data, chute=chutes)
        for answer in (plan.read(data), *(plan.destination(data, chute) for chute in range(chutes))):
            self.total = summed(answer, self.total)

    def end(self):
        """The checksum."""
        self.out("%d " % self.total)
        self.put(b"e")

    def pair(self, site, house, chute):
        """Where a row is: number, source and place; the malformed plan, start and length; and the row's bytes."""
        self.put(b"p", site, house, chute)
        number, source, start, length, malformed, place = plan.row(site, house, chute)
        part = {"site": site, "house": house, None: b""}[source][start : start + length]
        located = ANSWER % (number, SOURCES.index(source), place) + "%d %d %d " % (SOURCES.index(malformed), start, length)
        self.out(located + part.hex())
        self.out(part.hex() + "\n")  # once as returned, once as cut at its location

    def written(self, rows):
        """Rows written into buffers of the length they take, one byte more, one less, and none."""
        self.put(b"w", b"".join(row.to_bytes(4, "little") for row in rows))
        data = write_plan(rows)
        needed = len(data or b"")
        text = ANSWER % (9 if data is None else 0, needed, 0)
        for lent in (needed, needed + 1, max(needed - 1, 0), 0):
            number, filled, place = plan.write(rows, lent)
            text += ANSWER % (number, summed((filled or b"").ljust(BUFFER, UNTOUCHED)), place)
        self.out(text)

    def migrated(self, data):
        """A plan by the old rule, written by the present one into buffers of the length it takes, one byte more, one less, and its own length, if there is room."""
        self.put(b"m", data)
        number, needed, place = migration.migrated_length(data)
        text = ANSWER % (number, needed, place)
        for lent in (needed, needed + 1, max(needed - 1, 0), len(data)):
            number, filled, place = migration.migrate(data, lent)
            text += ANSWER % (number, summed((filled or b"").ljust(BUFFER, UNTOUCHED)), place) if lent <= BUFFER else ""
        self.out(text)

    def walked(self, data):
        """Twelve asks of a walk: where it stands, and each answer."""
        self.put(b"a", data)
        walk, text = plan.walker(data), ""
        for _ in range(12):
            text += "%d " % walk.at
            number, destination, walk, place = plan.next_row(walk)
            text += ANSWER % (number, destination, place)
        self.out(text)
