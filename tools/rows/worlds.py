#!/usr/bin/env python3
"""Worlds as bytes, from plain descriptions of them: `python3 tools/rows/worlds.py BASE` writes BASE.in and BASE.out for
crates/rows. `python3 tools/rows/worlds.py told` writes the first world's bytes with a word to each part, as in
docs/FORMAT.md.

Each world is told twice: by the lines that lead to it, and field by field, worked out by hand from the pages of docs. The
bytes of the fields follow the tables of docs/FORMAT.md, and the options of a class those of docs/WIDGETS.md. Nothing here
comes from the program.
"""
import os
import sys

sys.path.insert(0, os.path.dirname(os.path.dirname(os.path.realpath(__file__))))
from format_tables import (ANCHORS, BUTTON, BUTTON_1, BUTTON_3, CHECKBUTTON, CONTROL, DOWN, ENTRY, FILLS, FOCUS_IN, FOCUS_OUT,
                           FRAME, KEY_DOWN, KEY_UP, LABEL, LISTBOX, LOCK, MODIFIER_KEYS, ROOT, SHIFT, SIDES, TEXT, UP, VIRTUAL,
                           options_of)


# ---- worlds, field by field

def window(number, path, kind, options=None, tags=None, propagates=True, packed=(), packing=None, content=None):
    """A window; `packing` names what isn't at first, `content` is what its widget holds."""
    return dict(number=number, path=path, kind=kind, options=options or {}, tags=tags, propagates=propagates, packed=packed,
                packing=packing, content=content)


def event(number, kind, detail='', state=0, time=0, places=(0, 0, 0, 0), data=''):
    return (number, kind, detail, state, time, places, data)


def pattern(kind, detail, modifiers=0, near=False):
    return (near, kind, modifiers, detail)


# No bindings of classes, so that the world is small.
BARE = ('cmd foreach tag {Entry Listbox Text Button Checkbutton all} {foreach sequence [bind $tag] {bind $tag $sequence {}}}; '
        'unset tag sequence')

SMALL = dict(
    title='A world with a label, a variable and a script that waits, by tools/rows/worlds.py',
    grid=(20, 3),
    lines=[BARE, 'cmd label .l -text hi; pack .l -side left', 'cmd set x 5; after 100 {set x 6}'],
    accepted=3, clock=0, next_window=2, next_binding=25, next_id=1,
    windows=[
        window(0, '.', ROOT, packed=[1]),
        window(1, '.l', LABEL, {'text': 'hi'}, packing={'side': 'left'}),
    ],
    globals={'x': '5'}, procedures={},
    bindings=[], virtuals=[], history=[], queue=[],
    timers=[(0, 100, 'set x 6')], idle=[],
    focus=0, held_keys=[], held_buttons=[], last_press=None,
    memories={'app.next': '', 'app.swap': ''}, faults=[],
)

FULL = dict(
    title='A world with every field filled, by tools/rows/worlds.py',
    grid=(20, 12),
    lines=[
        BARE,
        'cmd frame .f -width 9 -bg red; label .f.l -text hi -anchor w; pack .f.l -side left -padx 1; '
        'pack .f -expand 1 -fill both; pack propagate .f 0',
        'cmd frame .x; button .b -text go -command {set r 1} -state active; destroy .x; '
        'checkbutton .c -variable on -takefocus 0; entry .e -textvariable v -show *; .e insert 0 abc; .e icursor 1',
        'cmd listbox .l -height 2 -selectmode multiple; .l insert end one two; .l selection set 1; .l activate 1',
        'cmd text .t -width 5 -height 1 -wrap none; .t insert end "a line\\nb" big; .t tag add far 1.0 1.1; '
        '.t tag add far 1.3 end; .t mark set here 1.2; .t mark gravity here left; .t mark set insert 1.4; '
        '.t tag add none 1.0 1.0',
        'cmd pack .b -side left -anchor ne -ipadx 2 -pady 3; pack .c .e; pack forget .c; bindtags .e {.e all mine}; '
        'bindtags .c .',
        'cmd set a(k) one; set a(j) {}; proc p {u {w 3} args} {return $u}; proc o {} {}',
        'cmd bind .e <Control-x><Double-y> {set z 1}; bind mine <<Go>> {+list %W}; bind .f <1> {lappend r %x}; '
        'bind .e <Control-x><Double-y> +more; event add <<Go>> <F1> <Double-2>; event add <<No>> a',
        'cmd after 100 {set t 1}; after 50 early; after cancel after#0; after idle {set i 1}; after 100 late; '
        'after idle second',
        'cmd bind . <<Bad>> {error boom}; event generate . <<Bad>>; bind . <<Bad>> {}; app.next; app.swap kept; focus .e',
        'cmd event generate .f <Shift-ButtonPress-1> -time 7 -x -2 -y 3 -rootx 4 -rooty 100000',
        'turn',
        'key Shift_L',
        'clock 77',
        'key Caps_Lock',
        'keyup Control_R',
        'turn',
        'turn',
        'press 3 19 11',
        'press 1 1 2',
        'release 3 0 0',
        'cmd event generate .b <<Go>> -when mark -data {some data} -x 5 -state 8; '
        'event generate .e <Key-z> -when head -time 9',
    ],
    # Each line is accepted. Numbers go on: `.x` had 3, and each set or append of a binding takes one, behind the 25 of classes.
    accepted=22, clock=77, next_window=9, next_binding=30, next_id=5,
    windows=[
        window(0, '.', ROOT, packed=[1, 4, 6]),
        window(1, '.f', FRAME, {'background': 'red', 'width': '9'}, propagates=False, packed=[2],
               packing={'expand': 1, 'fill': 'both'}),
        window(2, '.f.l', LABEL, {'text': 'hi', 'anchor': 'w'}, packing={'side': 'left', 'padx': 1}),
        window(4, '.b', BUTTON, {'text': 'go', 'command': 'set r 1', 'state': 'active'},
               packing={'side': 'left', 'anchor': 'ne', 'ipadx': 2, 'pady': 3}),
        window(5, '.c', CHECKBUTTON, {'variable': 'on', 'takefocus': '0'}, tags=['.']),
        # What a linked entry shows is the variable's; its own text stays as it was.
        window(6, '.e', ENTRY, {'textvariable': 'v', 'show': '*'}, tags=['.e', 'all', 'mine'], packing={}, content=('', 1)),
        window(7, '.l', LISTBOX, {'height': '2', 'selectmode': 'multiple'},
               content=([('one', False), ('two', True)], 1)),
        window(8, '.t', TEXT, {'width': '5', 'height': '1', 'wrap': 'none'},
               content=('a line\nb', [('big', [(0, 8)]), ('far', [(0, 1), (3, 8)]), ('none', [])],
                        [('insert', 4, False), ('here', 2, True)])),
    ],
    globals={'a': {'k': 'one', 'j': ''}, 'on': '0', 'r': '-2', 'v': 'abc'},
    procedures={'p': ([('u', None), ('w', '3'), ('args', None)], 'return $u'), 'o': ([], '')},
    # In the order in which they were made; the first was appended to last.
    bindings=[
        (28, '.e', [pattern(KEY_DOWN, 'x', CONTROL), pattern(KEY_DOWN, 'y'), pattern(KEY_DOWN, 'y', near=True)],
         'set z 1\nmore'),
        (26, 'mine', [pattern(VIRTUAL, 'Go')], 'list %W'),
        (27, '.f', [pattern(DOWN, '1')], 'lappend r %x'),
    ],
    virtuals=[
        ('Go', [[pattern(KEY_DOWN, 'F1')], [pattern(DOWN, '2'), pattern(DOWN, '2', near=True)]]),
        ('No', [[pattern(KEY_DOWN, 'a')]]),
    ],
    # What was delivered: the press that a script made up, and three of the events that waited.
    history=[
        event(1, DOWN, '1', SHIFT, 7, (-2, 3, 4, 100000)),
        event(0, FOCUS_OUT),
        event(6, FOCUS_IN),
        event(6, KEY_DOWN, 'Shift_L'),
    ],
    # Keys wait under `.`. The label lies at 1, 2; the press over it took the release of the other button.
    queue=[
        (event(0, KEY_DOWN, 'z', 0, 9), False),
        (event(4, VIRTUAL, 'Go', 8, 77, (5, 0, 0, 0), 'some data'), True),
        (event(0, KEY_DOWN, 'Caps_Lock', SHIFT, 77), False),
        (event(0, KEY_UP, 'Control_R', SHIFT | LOCK, 77), False),
        (event(0, DOWN, '3', SHIFT | LOCK, 77, (19, 11, 19, 11)), False),
        (event(2, DOWN, '1', SHIFT | LOCK | BUTTON_3, 77, (0, 0, 1, 2)), False),
        (event(2, UP, '3', SHIFT | LOCK | BUTTON_1 | BUTTON_3, 77, (-1, -2, 0, 0)), False),
    ],
    timers=[(1, 50, 'early'), (3, 100, 'late')], idle=[(2, 'set i 1'), (4, 'second')],
    focus=6, held_keys=['Shift_L', 'Caps_Lock'], held_buttons=[1], last_press=2,
    memories={'app.next': '1', 'app.swap': 'kept'}, faults=['boom'],
)

WORLDS = [SMALL, FULL]


# ---- as bytes: a list of parts, each the bytes and what they tell

def number(size, value, told, signed=False):
    return [(value.to_bytes(size, 'big', signed=signed), told)]


def text(value, told):
    raw = value.encode('ascii')
    return [(len(raw).to_bytes(4, 'big') + raw, told)]


def many(members, told):
    """A list, of members that are parts already."""
    return number(4, len(members), told) + [part for member in members for part in member]


def maybe(value, told):
    return [(b'\0', told)] if value is None else [(b'\1', told)] + value


def options(kind, given):
    return many([text(given.get(name, first), name) for name, first in options_of(kind)], 'options')


def packing(given):
    if given is None:
        return maybe(None, 'not packed')
    places = [given.get(name, 0) for name in ('padx', 'pady', 'ipadx', 'ipady')]
    chosen = [SIDES.index(given.get('side', 'top')), FILLS.index(given.get('fill', 'none')), given.get('expand', 0),
              ANCHORS.index(given.get('anchor', 'center'))]
    return maybe([(bytes(chosen), 'side, fill, expand, anchor')] +
                 [(b''.join(place.to_bytes(2, 'big') for place in places), 'padx, pady, ipadx, ipady')], 'packed')


def content(kind, held):
    if kind == ENTRY:
        return text(held[0], 'its text') + number(4, held[1], 'its cursor')
    if kind == LISTBOX:
        items = [text(item, 'item') + number(1, selected, 'selected') for item, selected in held[0]]
        return many(items, 'items') + number(4, held[1], 'active')
    if kind == TEXT:
        characters, tags, marks = held
        ranges = [text(name, 'tag') + many([number(4, start, 'from') + number(4, end, 'to') for start, end in places], 'ranges')
                  for name, places in tags]
        places = [text(name, 'mark') + number(4, place, 'place') + number(1, left, 'left') for name, place, left in marks]
        return text(characters, 'its text') + many(ranges, 'tags') + many(places, 'marks')
    return []


def told_window(it):
    tags = None if it['tags'] is None else many([text(tag, 'tag') for tag in it['tags']], 'tags')
    return (number(8, it['number'], 'number') + text(it['path'], 'path') + number(1, it['kind'], 'class') +
            options(it['kind'], it['options']) + maybe(tags, 'tags of its own') + number(1, it['propagates'], 'propagates') +
            many([number(8, child, 'window') for child in it['packed']], 'windows packed in it') + packing(it['packing']) +
            content(it['kind'], it['content']))


def mapped(entries, put, told):
    return many([text(name, 'name') + put(entries[name]) for name in sorted(entries, key=str.encode)], told)


def variable(value):
    if isinstance(value, dict):
        return number(1, 1, 'array') + mapped(value, lambda element: text(element, 'value'), 'elements')
    return number(1, 0, 'scalar') + text(value, 'value')


def procedure(it):
    parameters = [text(name, 'parameter') + maybe(None if default is None else text(default, 'default'), 'default')
                  for name, default in it[0]]
    return many(parameters, 'parameters') + text(it[1], 'body')


def sequence(patterns):
    return many([number(1, near, 'near') + number(1, kind, 'kind') + number(2, modifiers, 'modifiers') + text(detail, 'detail')
                 for near, kind, modifiers, detail in patterns], 'patterns')


def told_event(it):
    place, kind, detail, state, time, places, data = it
    return (number(8, place, 'window') + number(1, kind, 'kind') + text(detail, 'detail') + number(2, state, 'state') +
            number(8, time, 'time') +
            [part for at, name in zip(places, 'x y X Y'.split()) for part in number(8, at, name, signed=True)] + text(data, 'data'))


def told_world(it):
    bits = sum(1 << MODIFIER_KEYS.index(key) for key in it['held_keys'])
    buttons = sum(1 << button - 1 for button in it['held_buttons'])
    press = None if it['last_press'] is None else number(8, it['last_press'], 'window')
    return (
        number(8, it['accepted'], 'inputs accepted') + number(8, it['clock'], 'clock') +
        number(8, it['next_window'], 'next window') + number(8, it['next_binding'], 'next binding') +
        number(8, it['next_id'], 'next id of after') +
        many([told_window(one) for one in it['windows']], 'windows') +
        mapped(it['globals'], variable, 'globals') + mapped(it['procedures'], procedure, 'procedures') +
        many([number(8, serial, 'number') + text(tag, 'tag') + sequence(patterns) + text(script, 'script')
              for serial, tag, patterns, script in it['bindings']], 'bindings') +
        many([text(name, 'name') + many([sequence(one) for one in found], 'sequences') for name, found in it['virtuals']],
             'virtual events') +
        many([told_event(one) for one in it['history']], 'history') +
        many([told_event(one) + number(1, mark, 'put with mark') for one, mark in it['queue']], 'queue') +
        many([number(8, serial, 'id') + number(8, due, 'due') + text(script, 'script') for serial, due, script in it['timers']],
             'timers') +
        many([number(8, serial, 'id') + text(script, 'script') for serial, script in it['idle']], 'idle scripts') +
        number(8, it['focus'], 'focus') + number(1, bits, 'held keys') + number(1, buttons, 'held buttons') +
        maybe(press, 'last press') + mapped(it['memories'], lambda kept: text(kept, 'memory'), 'memories') +
        many([text(fault, 'fault') for fault in it['faults']], 'faults') + number(1, 1, 'rules'))


# ---- what is written

def rows(base):
    given, wanted = [], []
    for world in WORLDS:
        heading = '== world %d %d %s' % (world['grid'] + (world['title'],))
        spelling = b''.join(part for part, _ in told_world(world)).hex()
        given += [heading] + world['lines']
        wanted += [heading] + [spelling[at:at + 64] for at in range(0, len(spelling), 64)]
        wanted += ['%d bytes, sound' % (len(spelling) // 2)]
    for name, lines in (('in', given), ('out', wanted)):
        with open('%s.%s' % (base, name), 'w') as file:
            file.write('\n'.join(lines) + '\n')


def dump(world):
    at = 0
    for part, told in told_world(world):
        print('%04x  %-40s %s' % (at, part.hex(), told))
        at += len(part)


if __name__ == '__main__':
    if sys.argv[1] == 'told':
        dump(SMALL)
    else:
        rows(sys.argv[1])
