"""Reads a world from its bytes, as docs/FORMAT.md says; stores.py has the reader, and what two files hold.

`world` gives it with all that stands in it, or raises `Wrong`; by which rules one may go is told by the format of its side.
"""
import re
from typing import Any, NamedTuple

from format_tables import (ANCHORS, BUTTON, CHECKBUTTON, DOWN, ENTRY, FILLS, FOCUS_IN, FOCUS_OUT, FRAME, KEYSYMS, KEY_DOWN,
                           KEY_UP, LABEL, LISTBOX, ROOT, SIDES, TEXT, UP, VIRTUAL, options_of)
from stores import FIRST, MOST, Reader, Wrong

LAST = MOST - 1  # The last time that there is.


# ---- options

def is_integer(value, least, most):
    found = re.fullmatch(r'\s*([+-]?)(0[xX][0-9a-fA-F]+|0[0-7]*|[1-9][0-9]*)\s*', value)
    if not found:
        return False
    digits = found[2]
    number = int(digits, 16 if digits[1:2] in ('x', 'X') else 8 if digits[0] == '0' else 10)
    return least <= (-number if found[1] == '-' else number) <= most


def size(value):
    return is_integer(value, 0, 10_000)


def lines(value):
    return is_integer(value, 1, 10_000)


def one_of(words):
    return words.split().__contains__


# What the options may have, where it isn't any text; those that are named with a class go before the others.
LEGAL = {
    'takefocus': one_of('0 1'), 'width': size, 'height': size, 'anchor': ANCHORS.__contains__,
    'state': one_of('normal disabled'), 'selectmode': one_of('browse single multiple extended'),
    (BUTTON, 'state'): one_of('normal active disabled'), (CHECKBUTTON, 'state'): one_of('normal active disabled'),
    (ENTRY, 'state'): one_of('normal disabled readonly'), (TEXT, 'width'): lines, (TEXT, 'height'): lines,
}


def is_legal(kind, name, value):
    """Whether an option of a class may have a value."""
    test = LEGAL.get((kind, name)) or LEGAL.get(name)
    return test is None or test(value)


# ---- windows

class Window(NamedTuple):
    """A window; `packing` and `tags` may be missing, `content` is what its widget holds, by its class."""

    number: int
    path: str
    kind: int
    options: dict
    tags: Any
    propagates: int
    packed: list
    packing: Any
    content: Any


class Packing(NamedTuple):
    side: str
    fill: str
    expand: int
    anchor: str
    padx: int
    pady: int
    ipadx: int
    ipady: int


def is_path(path):
    return path == '.' or re.fullmatch(r'(\.[a-z0-9_][A-Za-z0-9_]{0,63})+', path) is not None


def parent(path):
    return path.rpartition('.')[0] or '.'


def window(reader):
    number, path = reader.upto(8, MOST), reader.text()
    reader.check(is_path(path), '%r is no path' % path)
    kind = reader.upto(1, TEXT)
    return Window(number, path, kind, options(reader, kind), reader.maybe(lambda: reader.many(reader.text)), reader.flag(),
                  reader.many(lambda: reader.number(8)), reader.maybe(lambda: packing(reader)), content(reader, kind))


def options(reader, kind):
    names = [name for name, _ in options_of(kind)]
    values = reader.many(reader.text)
    reader.check(len(values) == len(names), '%d options, and not %d' % (len(values), len(names)))
    for name, value in zip(names, values):
        reader.check(is_legal(kind, name, value), 'the option -%s may not have %r' % (name, value))
    return dict(zip(names, values))


def packing(reader):
    side, fill, expand, anchor = [reader.upto(1, most) for most in (3, 3, 1, 8)]
    return Packing(SIDES[side], FILLS[fill], expand, ANCHORS[anchor], *[reader.upto(2, 1000) for _ in range(4)])


def content(reader, kind):
    if kind == ENTRY:
        return reader.text(), reader.number(4)
    if kind == LISTBOX:
        items = reader.many(lambda: (reader.text(), reader.flag()))
        return items, reader.upto(4, max(0, len(items) - 1))
    return lines_of_text(reader) if kind == TEXT else None


def lines_of_text(reader):
    text = reader.text()
    tags = reader.many(lambda: (reader.text(), reader.many(lambda: (reader.number(4), reader.number(4)))))
    for _, ranges in tags:
        reader.check(all(start < stop <= len(text) for start, stop in ranges), 'a range of a tag is empty or behind the text')
        reader.check(all(one[1] < other[0] for one, other in zip(ranges, ranges[1:])), 'ranges of a tag touch or fall')
    marks = reader.many(lambda: (reader.text(), reader.number(4), reader.flag()))
    reader.check(all(place <= len(text) for _, place, _ in marks), 'a mark is behind the text')
    for names in ([tag[0] for tag in tags], [mark[0] for mark in marks]):
        reader.check(len(names) == len(set(names)), 'two tags or two marks have one name')
    reader.check(bool(marks) and marks[0][0] == 'insert', 'the first mark is not insert')
    return text, tags, marks


def windows(reader, following):
    """The windows; numbers are below the following one."""
    found = reader.many(lambda: window(reader))
    numbers = [one.number for one in found]
    reader.check(bool(found) and found[0][:3] == (0, '.', ROOT), 'the first window is not .')
    reader.check(all(one.kind != ROOT for one in found[1:]), 'two windows are of the class root')
    reader.check(numbers == sorted(set(numbers)) and numbers[-1] < following, 'the numbers of windows do not rise')
    reader.check(len({one.path for one in found}) == len(found), 'two windows have one path')
    before = {'.'}
    for one in found:
        reader.check(one.path == '.' or parent(one.path) in before, '%s stands before the window that it is in' % one.path)
        before.add(one.path)
    return found


def check_packing(reader, found):
    """Whether what is packed in each window, and how each is packed, agree."""
    reader.check(found[0].packing is None, '. is packed')
    inside = {one.number: set() for one in found}
    numbers = {one.path: one.number for one in found}
    for one in found[1:]:
        if one.packing:
            inside[numbers[parent(one.path)]].add(one.number)
    for one in found:
        reader.check(len(one.packed) == len(set(one.packed)) and set(one.packed) == inside[one.number],
                     'what is packed in %s are not the windows in it that are packed' % one.path)


# ---- events

class Pattern(NamedTuple):
    near: int
    kind: int
    modifiers: int
    detail: str


class Event(NamedTuple):
    window: int
    kind: int
    detail: str
    state: int
    time: int
    places: list
    data: str


class Binding(NamedTuple):
    number: int
    tag: str
    sequence: tuple
    script: str


def is_name(text):
    return re.fullmatch(r'[!-;=?-~]+', text) is not None


def is_detail(kind, detail):
    if kind in (KEY_DOWN, KEY_UP):
        return detail in KEYSYMS
    return kind in (DOWN, UP) and detail in ('1', '2', '3', '4', '5')


def modifiers(reader):
    return reader.upto(2, 8191)


def sequence(reader):
    found = reader.many(lambda: Pattern(reader.flag(), reader.upto(1, VIRTUAL, 1), modifiers(reader), reader.text()))
    reader.check(is_sequence(found), 'no binding can be made for such a sequence')
    return tuple(found)


def is_sequence(patterns):
    if not 1 <= len(patterns) <= 8:
        return False
    if patterns[0].kind == VIRTUAL:
        return len(patterns) == 1 and patterns[0][:3] == (0, VIRTUAL, 0) and is_name(patterns[0].detail)
    repeats = 4
    for at, (near, kind, _, detail) in enumerate(patterns):
        repeats = repeats + 1 if near else 1
        if repeats > 4 or near and patterns[at][1:] != patterns[at - 1][1:]:
            return False
        if kind == VIRTUAL or detail and not is_detail(kind, detail):
            return False
    return True


def event(reader):
    found = Event(reader.upto(8, MOST), reader.upto(1, VIRTUAL, 1), reader.text(), modifiers(reader), reader.upto(8, LAST),
                  [reader.number(8, signed=True) for _ in range(4)], reader.text())
    reader.check(is_event(found), 'the fields of an event do not go with its kind')
    return found


def is_event(it):
    if it.kind in (KEY_DOWN, KEY_UP):
        return it.detail in KEYSYMS and not any(it.places) and not it.data
    if it.kind in (FOCUS_IN, FOCUS_OUT):
        return not (it.detail or it.state or it.time or any(it.places) or it.data)
    if not all(-100_000 <= one <= 100_000 for one in it.places):
        return False
    return is_name(it.detail) if it.kind == VIRTUAL else is_detail(it.kind, it.detail) and not it.data


def bindings(reader, following):
    found = reader.many(lambda: Binding(reader.number(8), reader.text(), sequence(reader), reader.text()))
    reader.check(all(one.number < following for one in found), 'the number of a binding is not below the next one')
    reader.check(len({one.number for one in found}) == len(found), 'two bindings have one number')
    reader.check(len({one[1:3] for one in found}) == len(found), 'two bindings have one tag and sequence')
    return found


def virtual_event(reader):
    name = reader.text()
    reader.check(is_name(name), '%r is no name of a virtual event' % name)
    found = reader.many(lambda: sequence(reader))
    reader.check(found and len(set(found)) == len(found), 'a virtual event has no sequence, or one twice')
    reader.check(all(one[0].kind != VIRTUAL for one in found), 'a virtual event has the sequence of one')
    return name, found


def virtuals(reader):
    found = reader.many(lambda: virtual_event(reader))
    reader.check(len({name for name, _ in found}) == len(found), 'two virtual events have one name')
    return found


def history(reader):
    found = reader.many(lambda: event(reader))
    reader.check(len(found) <= 32 and all(one.kind != VIRTUAL for one in found), 'no such events can be past ones')
    return found


def waiting_event(reader):
    found, is_marked = event(reader), reader.flag()
    reader.check(found.kind > KEY_UP or found.window == 0, 'the event of a key waits for another window than .')
    return found, is_marked


def waiting(reader, following, timers, idle):
    ids = [[one[0] for one in found] for found in (timers, idle)]
    for found in ids:
        reader.check(found == sorted(set(found)) and all(one < following for one in found), 'the ids of after do not rise')
    reader.check(not set(ids[0]) & set(ids[1]), 'two scripts of after have one id')


# ---- variables

def variable(reader):
    return reader.table(reader.text) if reader.flag() else reader.text()


def procedure(reader):
    return reader.many(lambda: (reader.text(), reader.maybe(reader.text))), reader.text()


# ---- a world

class World(NamedTuple):
    """A world, field by field; `sizes` has the bytes of each part by its name."""

    accepted: int
    clock: int
    next_window: int
    next_binding: int
    next_id: int
    windows: list
    globals: dict
    procedures: dict
    bindings: list
    virtuals: list
    history: list
    queue: list
    timers: list
    idle: list
    focus: int
    held_keys: int
    held_buttons: int
    pressed: Any
    memories: dict
    faults: list
    rules: int
    sizes: dict


class Parts:
    """Reads the parts of a world, and keeps how many bytes each has."""

    def __init__(self, reader):
        self.reader, self.sizes = reader, {}

    def part(self, name, read):
        before = self.reader.at
        found = read()
        self.sizes[name] = self.reader.at - before
        return found


def world(reader, form):
    """The world behind these bytes, in a side of this format; raises Wrong."""
    accepted, clock = reader.upto(8, MOST), reader.upto(8, LAST)
    next_window, next_binding, next_id = [reader.upto(8, MOST) for _ in range(3)]
    parts = Parts(reader)
    part = parts.part
    found = [
        part('windows', lambda: windows(reader, next_window)),
        part('globals', lambda: reader.table(lambda: variable(reader))),
        part('procedures', lambda: reader.table(lambda: procedure(reader))),
        part('bindings', lambda: bindings(reader, next_binding)),
        part('virtual events', lambda: virtuals(reader)),
        part('past events', lambda: history(reader)),
        part('events that wait', lambda: reader.many(lambda: waiting_event(reader))),
        part('timers', lambda: reader.many(lambda: (reader.number(8), reader.upto(8, LAST), reader.text()))),
        part('idle scripts', lambda: reader.many(lambda: (reader.number(8), reader.text()))),
    ]
    waiting(reader, next_id, *found[-2:])
    focus, keys, buttons = reader.number(8), reader.upto(1, 127), reader.upto(1, 31)
    pressed = reader.maybe(lambda: reader.number(8))
    memories = part('memories', lambda: reader.table(reader.text))
    faults = part('faults', lambda: reader.many(reader.text))
    reader.check(len(faults) <= 32, 'more than 32 faults')
    rules = reader.upto(1, 1 if form == FIRST else 2, 1)
    world = World(accepted, clock, next_window, next_binding, next_id, *found, focus, keys, buttons, pressed, memories, faults,
                  rules, parts.sizes)
    check_agreement(reader, world)
    return world


def check_agreement(reader, world):
    """What is known with a world's last byte: whether its parts agree."""
    check_packing(reader, world.windows)
    numbers = {one.number for one in world.windows}
    reader.check(all(one.window in numbers for one, _ in world.queue), 'an event waits for a window that is not there')
    reader.check(world.focus in numbers, 'the window with the focus is not there')
    reader.check(world.pressed is None or world.pressed in numbers, 'the window of the last press is not there')


def world_in(side, names=None):
    """The world of a side, to the last of its bytes. Where `names` are told, its memories have to be those. Raises Wrong, whose
    place is one of the side."""
    start, end = side.world
    return world_between(side.given, start, end, side.format, names)


def world_between(given, start, end, form, names=None):
    """The same of the bytes from a place to another, in a side of this format."""
    reader = Reader(given[:end], start)
    found = world(reader, form)
    if reader.at < end:
        raise Wrong(reader.at, 'bytes stand behind the world')
    reader.check(names is None or list(found.memories) == names, 'the memories are not those of the names of the header')
    return found


def whole_world(given, form):
    """The world that these bytes are in a side of this format, to the last of them; None where they are none."""
    try:
        return world_between(given, 0, len(given), form)
    except Wrong:
        return None
