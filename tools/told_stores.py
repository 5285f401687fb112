"""Tells what stores.py and stored_worlds.py read of a store, in lines of text."""
from format_tables import CLASSES, ENTRY, KINDS, LISTBOX, MODIFIER_KEYS, MODIFIERS, REPEATS, TEXT, VIRTUAL, options_of
from stored_worlds import world_in
from stores import FORMATS, Held, Side, Wrong, held_by, live_of

NAMES = 'ab'
# What is told of a text in a list of many.
MOST = 100
SPECIAL = '"$;[]\\{} \n\t'
ESCAPES = {'\n': '\\n', '\t': '\\t'}


def element(text):
    """A text as one element of a list (docs/LANGUAGE.md, how a list is written)."""
    if not text:
        return '{}'
    if text[0] != '#' and not any(sign in SPECIAL for sign in text):
        return text
    if '\\' not in text and is_balanced(text):
        return '{%s}' % text
    quoted = ''.join(ESCAPES.get(sign, '\\' + sign if sign in SPECIAL else sign) for sign in text)
    return '\\' + quoted if text[0] == '#' else quoted


def listed(texts):
    """Texts as a list."""
    return ' '.join(map(element, texts))


def is_balanced(text):
    depth = 0
    for sign in text:
        depth += {'{': 1, '}': -1}.get(sign, 0)
        if depth < 0:
            return False
    return depth == 0


def line(text, most=None):
    """A text on one line, as the program answers it; cut where it has more than so many characters."""
    told = text.replace('\\', '\\\\').replace('\n', '\\n').replace('\t', '\\t')
    return told if most is None or len(told) <= most else told[:most - 3] + '...'


# ---- sides

def damage(side):
    """Where a side is damaged: what is raised of it, or of its world."""
    if side.wrong or not side.world:
        return side.wrong
    try:
        world_in(side, side.header.names)
    except Wrong as wrong:
        return wrong
    return None


def side_lines(number, side, is_live):
    """A side with what is in it."""
    yield 'side %s: %s' % (NAMES[number], side_state(side, is_live))
    if not side.header:
        yield from damage_lines(side)
        return
    found = side.header
    yield '  generation %d, a grid of %d by %d, commands: %s' % (found.generation, *found.grid, ' '.join(found.names) or 'none')
    if side.world:
        yield from world_lines(side)
        yield from frame_lines(side)
    yield from damage_lines(side)
    rest = 0 if side.end is None else len(side.given) - side.end - 1
    if rest:
        yield '  %d bytes behind the closed gate at %d count for nothing' % (rest, side.end)


def side_state(side, is_live):
    length = len(side.given)
    if not side.is_open:
        return 'the gate is closed; %s' % ('the %d bytes count for nothing' % length if length else 'no bytes')
    if side.format not in FORMATS:
        return 'the gate is open, %d bytes of the format %d, which is not known' % (length, side.format)
    return 'the gate is open, %d bytes of the format %d%s' % (length, side.format, '; this side is live' if is_live else '')


def damage_lines(side):
    wrong = damage(side)
    if wrong:
        yield '  DAMAGE at byte %d (0x%x): %s' % (wrong.at, wrong.at, wrong.why)


def world_lines(side):
    start, end = side.world
    try:
        world = world_in(side, side.header.names)
    except Wrong:
        yield '  a world of %d bytes at %d, which is damaged' % (end - start, start)
        return
    yield '  a world of %d bytes at %d, behind %d inputs' % (end - start, start, world.accepted)
    counts = {'windows': world.windows, 'globals': world.globals, 'procedures': world.procedures, 'bindings': world.bindings,
              'virtual events': world.virtuals, 'past events': world.history, 'events that wait': world.queue,
              'timers': world.timers, 'idle scripts': world.idle, 'memories': world.memories, 'faults': world.faults}
    for name, size in world.sizes.items():
        yield '    %-18s%6d  in %d bytes' % (name, len(counts[name]), size)


def frame_lines(side):
    number = first_input(side)
    for frame in side.frames:
        yield '  a frame at %d with %d inputs' % (frame.at, len(frame.inputs))
        for one in frame.inputs:
            yield '    %6d  %s' % (number, line(one[:-1], MOST))
            number += 1


def first_input(side):
    """The number of the first input in the frames of a side; 1 where its world can't be read."""
    try:
        return world_in(side).accepted + 1
    except Wrong:
        return 1


# ---- a store

FAULTS = {'damaged': 'A start on it says: fault damaged', 'version': 'A start on it says: fault version'}


class Store:
    """The two files of a store."""

    def __init__(self, path):
        given = []
        for side in ('.a', '.b'):
            with open(path + side, 'rb') as file:
                given.append(file.read())
        self.sides = [Side(one) for one in given]
        self.held, self.live = held_by(self.sides), live_of(self.sides)
        self.side = None if self.live is None else self.sides[self.live]
        if isinstance(self.held, Held) and damage(self.side):
            self.held = 'damaged'

    @property
    def fault(self):
        return self.held if isinstance(self.held, str) else None

    def world(self, number):
        """The world of a side."""
        side = self.sides[number]
        return world_in(side, side.header.names)

    def lines(self):
        """All that is told of the store."""
        for number, side in enumerate(self.sides):
            yield from side_lines(number, side, number == self.live)
        yield self.verdict()

    def verdict(self):
        if self.fault:
            return FAULTS[self.fault]
        if self.held is None:
            return 'The store holds nothing yet.'
        before, count = self.world(self.live).accepted, len(self.held.inputs)
        return 'The store opens by side %s, to the state behind %d inputs: %d of them are in its frames.' % (
            NAMES[self.live], before + count, count)

    def requests(self):
        """The inputs as lines, and whether these are all from the beginning of the store."""
        if self.held is None:
            return '', True
        if self.side.header.generation > 1 and self.has_all_before():
            return requests_of(self.sides[1 - self.live]) + 'checkpoint\n' + requests_of(self.side), True
        return requests_of(self.side), self.side.header.generation == 1

    def has_all_before(self):
        """Whether the other side is the first one, and its frames have all inputs that came before the world of the live one."""
        other = self.sides[1 - self.live]
        return (other.is_open and other.header.generation == 1 and not damage(other) and
                len(other.inputs) == self.world(self.live).accepted)


def requests_of(side):
    """The inputs of a side's frames, a commit behind each frame."""
    return ''.join(''.join(frame.inputs) + 'commit\n' for frame in side.frames)


# ---- worlds

def told_world(world):
    """What stands in a world, in lines; the texts in them as the program's answers have them."""
    yield from map(line, world_parts(world))


def world_parts(world):
    paths = {one.number: one.path for one in world.windows}
    yield 'behind %d inputs; rules %d; clock %d; next window %d, binding %d, after#%d' % (
        world.accepted, world.rules, world.clock, world.next_window, world.next_binding, world.next_id)
    held = [name for bit, name in enumerate(MODIFIER_KEYS) if world.held_keys >> bit & 1]
    held += ['button %d' % (bit + 1) for bit in range(5) if world.held_buttons >> bit & 1]
    press = 'none' if world.pressed is None else paths[world.pressed]
    yield 'focus %s; held: %s; window of the last press: %s' % (paths[world.focus], ', '.join(held) or 'nothing', press)
    sections = [
        ('windows', window_lines(world, paths)),
        ('variables', variable_lines(world.globals)),
        ('procedures', ['%s {%s} %s' % (element(name), ' '.join(map(parameter, parameters)), body)
                        for name, (parameters, body) in world.procedures.items()]),
        ('bindings', ['%s %s %s' % (element(one.tag), spelled(one.sequence), one.script) for one in world.bindings]),
        ('virtual events', ['<<%s>> %s' % (name, ' '.join(map(spelled, found))) for name, found in world.virtuals]),
        ('past events', [event_line(one, paths) for one in world.history]),
        ('events that wait', [event_line(one, paths) + (' (put with mark)' if is_marked else '')
                              for one, is_marked in world.queue]),
        ('timers', ['after#%d at %d: %s' % (number, due, script) for number, due, script in world.timers]),
        ('idle scripts', ['after#%d: %s' % (number, script) for number, script in world.idle]),
        ('memories', ['%s %s' % (name, element(kept)) for name, kept in world.memories.items()]),
        ('faults', world.faults),
    ]
    for title, lines in sections:
        lines = list(lines)
        yield '%s: %d' % (title, sum(not one.startswith('  ') for one in lines))
        yield from ('  ' + one for one in lines)


def window_lines(world, paths):
    for one in world.windows:
        parts = [one.path, CLASSES[one.kind], *set_options(one), *packing_words(one), *content_words(one)]
        if one.tags is not None:
            parts.append('tags {%s}' % listed(one.tags))
        if not one.propagates:
            parts.append('does not propagate')
        if one.packed:
            parts.append('packs {%s}' % ' '.join(paths[number] for number in one.packed))
        yield ' '.join(parts)


def set_options(window):
    """The options of a window that are not as at first."""
    for name, first in options_of(window.kind):
        first = window.path.rpartition('.')[2] if name == 'variable' else first
        if window.options[name] != first:
            yield '-%s %s' % (name, element(window.options[name]))


def packing_words(window):
    """How a window is packed: its side, and what isn't as at first."""
    if window.packing is None:
        return
    yield 'packed -side ' + window.packing.side
    for (name, value), first in zip(window.packing._asdict().items(), ['', 'none', 0, 'center', 0, 0, 0, 0]):
        if name != 'side' and value != first:
            yield '-%s %s' % (name, value)


def content_words(window):
    """What the widget of a window holds."""
    if window.kind == ENTRY:
        yield 'text %s cursor %d' % (element(window.content[0]), window.content[1])
    elif window.kind == LISTBOX:
        items, active = window.content
        chosen = [str(place) for place, (_, is_selected) in enumerate(items) if is_selected]
        yield 'items {%s} active %d selected {%s}' % (listed(item for item, _ in items), active, ' '.join(chosen))
    elif window.kind == TEXT:
        text, tags, marks = window.content
        yield 'text %s' % element(text)
        yield from ('tag %s {%s}' % (element(name), ' '.join('%d-%d' % one for one in ranges)) for name, ranges in tags)
        yield from ('mark %s %d%s' % (element(name), place, ' left' if left else '') for name, place, left in marks)


def variable_lines(variables):
    for name, value in variables.items():
        if isinstance(value, str):
            yield '%s = %s' % (element(name), value)
            continue
        yield '%s is an array of %d elements' % (element(name), len(value))
        yield from ('  %s = %s' % (element('%s(%s)' % (name, index)), kept) for index, kept in value.items())


def parameter(one):
    name, default = one
    return element(name) if default is None else '{%s %s}' % (element(name), element(default))


def spelled(sequence):
    """A sequence in the canonical spelling (docs/EVENTS.md)."""
    runs = []
    for one in sequence:
        if one.near:
            runs[-1][1] += 1
        else:
            runs.append([one, 1])
    return ''.join(pattern(one, repeats) for one, repeats in runs)


def pattern(one, repeats):
    if one.kind == VIRTUAL:
        return '<<%s>>' % one.detail
    held = ''.join(name + '-' for bit, name in enumerate(MODIFIERS) if one.modifiers >> bit & 1)
    return '<%s%s%s%s>' % (REPEATS[repeats], held, KINDS[one.kind], '-' + one.detail if one.detail else '')


def event_line(one, paths):
    """An event: its kind, window, detail, state, time and places. The window of a past one may be gone."""
    name = '<<%s>>' % one.detail if one.kind == VIRTUAL else KINDS[one.kind] + ('-' + one.detail if one.detail else '')
    data = ', data %s' % element(one.data) if one.data else ''
    return '%s in %s, state %d, time %d, at %d %d, %d %d on the screen%s' % (
        name, paths.get(one.window, 'a window that is gone'), one.state, one.time, *one.places, data)
