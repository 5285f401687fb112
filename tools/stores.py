"""Reads the two files of a store, as docs/FORMAT.md says: what they hold, or the fault that the program has to tell.

A plain reader, to compare the program with and to look into a store. `Side` reads one side as far as it can be read, `held`
says what both hold; worlds are read by stored_worlds.py. `Wrong` is raised where bytes are no spelling.
"""
import re
from typing import NamedTuple

GATE, MOST = 1, 1 << 62
# The formats of a side: in the second a frame has a count of its inputs, and a world may go by other rules.
FIRST, SECOND = FORMATS = 1, 2
TEXT_BYTES = frozenset([9, 10, *range(32, 127)])


class Wrong(Exception):
    """Bytes that are no spelling: `at` is the place of the first byte with which this is known, `why` says why."""

    def __init__(self, at, why):
        super().__init__('byte %d: %s' % (at, why))
        self.at, self.why = at, why


class Reader:
    """Bytes, and how far they were read. `lengths` has the places of the counts and lengths that it met."""

    def __init__(self, given, at=0):
        self.given, self.at = given, at
        self.lengths = []

    def check(self, is_right, why):
        """Raises Wrong at the last byte that was read, unless all is right."""
        if not is_right:
            raise Wrong(self.at - 1, why)

    def take(self, count):
        if self.at + count > len(self.given):
            raise Wrong(len(self.given), 'the bytes end')
        self.at += count
        return self.given[self.at - count:self.at]

    def number(self, size, signed=False):
        return int.from_bytes(self.take(size), 'big', signed=signed)

    def upto(self, size, most, least=0):
        number = self.number(size)
        self.check(least <= number <= most, 'the number %d is not %d to %d' % (number, least, most))
        return number

    def count(self):
        self.lengths.append(self.at)
        return self.number(4)

    def flag(self):
        return self.upto(1, 1)

    def text(self):
        count = self.count()
        start = self.at
        taken = self.given[start:start + count]
        if not TEXT_BYTES.issuperset(taken):
            bad = next(place for place, byte in enumerate(taken) if byte not in TEXT_BYTES)
            raise Wrong(start + bad, 'the byte %02x stands in no text' % taken[bad])
        return self.take(count).decode()

    def many(self, member):
        return [member() for _ in range(self.count())]

    def maybe(self, value):
        return value() if self.flag() else None

    def table(self, value):
        """A list of names that rise, each with a value; the values by their names."""
        found = {}
        last = None
        for _ in range(self.count()):
            name = self.text()
            self.check(last is None or last < name, 'the name %r does not come behind the one before it' % name)
            found[name] = value()
            last = name
        return found


# ---- a side

class Header(NamedTuple):
    generation: int
    grid: tuple
    names: list
    length: int


class Frame(NamedTuple):
    """A frame: the place of its gate, and its inputs, as the requests that give them."""

    at: int
    inputs: list


class Side:
    """A side as far as it can be read: `header`, the place of its `world`, its `frames`, and the place of the closed gate
    behind them, `end`. What can't be read is None, and `wrong` says where and why."""

    def __init__(self, given):
        self.given = given
        self.header = self.world = self.wrong = self.end = None
        self.frames = []
        if self.is_open and self.format in FORMATS:
            try:
                self.read(Reader(given, 2))
            except Wrong as wrong:
                self.wrong = wrong

    @property
    def is_open(self):
        return is_open(self.given)

    @property
    def format(self):
        return self.given[1] if len(self.given) > 1 else None

    def read(self, reader):
        found = header(reader)
        if not 0 < found.generation <= MOST:
            raise Wrong(9, 'the generation %d is not 1 to 2^62' % found.generation)
        self.header = found
        start = reader.at
        reader.take(found.length)
        self.world = start, reader.at
        for frame in frames(reader, self.format):
            self.frames.append(frame)
        self.end = reader.at - 1

    @property
    def inputs(self):
        """The inputs of all frames."""
        return [one for frame in self.frames for one in frame.inputs]


def is_open(side):
    return len(side) > 1 and side[0] == GATE


def in_first_format(given):
    """The bytes of a sound side of the second format, as the first one has them; those of a closed side as they are."""
    side = Side(given)
    if not side.is_open:
        return given
    made = given[:1] + bytes([FIRST]) + given[2:side.world[1]]
    for frame in side.frames:
        start = frame.at + 5
        length = int.from_bytes(given[frame.at + 1:start], 'big')
        made += bytes([GATE]) + (length - 4).to_bytes(4, 'big') + given[start + 4:start + length]
    return made + b'\0'


def header(reader):
    generation = reader.number(8)
    grid = reader.upto(2, 200, 1), reader.upto(2, 100, 1)
    names = list(reader.table(lambda: None))
    return Header(generation, grid, names, reader.number(8))


def frames(reader, form):
    """The frames of a side of this format, from a gate on, to the closed one."""
    while reader.number(1) == GATE:
        at, length = reader.at - 1, reader.count()
        start = reader.at
        reader.take(length)
        body = Reader(reader.given[:reader.at], start)
        found = inputs(body) if form == FIRST else counted_inputs(body)
        reader.lengths += body.lengths
        yield Frame(at, found)


def inputs(reader):
    """The inputs of a frame of the first format, to its end."""
    found = []
    while reader.at < len(reader.given):
        found.append(input_at(reader))
    return found


def counted_inputs(reader):
    """Those of a frame of the second one: so many, to its end."""
    found = reader.many(lambda: input_at(reader))
    if reader.at < len(reader.given):
        raise Wrong(reader.at, 'bytes stand behind the %d inputs of a frame' % len(found))
    return found


def input_at(reader):
    """An input, as the request that gives it."""
    tag = reader.upto(1, 8, 1)
    if tag == 1:
        script = reader.text()
        return 'load %d\n%s\n' % (len(script), script) if '\n' in script else ('cmd ' + script if script else 'cmd') + '\n'
    if tag < 4:
        name = reader.text()
        # A name that no line can tell is no keysym.
        return '%s %s\n' % (['key', 'keyup'][tag - 2], name if re.fullmatch(r'\w+', name) else '!')
    if tag < 6:
        return '%s %d %d %d\n' % (['press', 'release'][tag - 4], reader.number(1), reader.number(2), reader.number(2))
    if tag == 6:
        return 'clock %d\n' % min(reader.number(8), 10 ** 19 - 1)
    return 'turn\n' if tag == 7 else 'rules %d\n' % reader.number(1)


# ---- both sides

class Held(NamedTuple):
    """What a store holds: which side is live, its format, its header, the bytes of its world, the inputs in its frames."""

    side: int
    format: int
    header: Header
    world: bytes
    inputs: list


def held(given):
    """What two sides hold: a `Held`, None where both are closed, or the name of a fault."""
    return held_by([Side(one) for one in given])


def live_of(sides):
    """Which side is live, by the headers of those that are open; None where that can't be told."""
    opened = [number for number in (0, 1) if sides[number].is_open]
    headers = {number: sides[number].header for number in opened}
    if not opened or None in headers.values() or len({found.generation for found in headers.values()}) < len(opened):
        return None
    return max(opened, key=lambda number: headers[number].generation)


def held_by(sides):
    """The same of sides that were read."""
    opened = [side for side in sides if side.is_open]
    if not opened:
        return None
    if any(side.format not in FORMATS for side in opened):
        return 'version'
    live = live_of(sides)
    if live is None or sides[live].wrong:
        return 'damaged'
    side = sides[live]
    return Held(live, side.format, side.header, side.given[slice(*side.world)], side.inputs)
