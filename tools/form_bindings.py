"""Bindings of a form that never fire, as far as its world and its text tell.

What a terminal can give is what form_terminal/keys.py makes of all that terminals send.
"""
import re
import string

from format_tables import CLASSES, FOCUS_IN, FOCUS_OUT, KEY_DOWN, KEY_UP, MODIFIERS, SHIFT, VIRTUAL
from form_terminal.keys import LETTERS, NUMBERS, Keyboard
from told_stores import spelled

OF_CLASSES = 25  # So many bindings there are at first.
BITS = {'Shift_L': 1, 'Control_L': 4, 'Alt_L': 8}
BUTTONS = 0x1f00
KEYS = (KEY_DOWN, KEY_UP)
OF_FOCUS = (*KEYS, FOCUS_IN, FOCUS_OUT)


def never_firing(world, text):
    """Sentences about the bindings of a world that never fire; `text` is the form's script."""
    tags = {one.number: tags_of(one) for one in world.windows}
    names = dict(world.virtuals)
    for one in world.bindings:
        if one.number < OF_CLASSES:
            continue
        why = why_never(one, [window for window in world.windows if one.tag in tags[window.number]], names, text)
        if why:
            yield 'The binding of %s to %s never fires: %s.' % (spelled(one.sequence), one.tag, why)


def tags_of(window):
    """The tags of a window: its own, or those of its place and class."""
    if window.tags is not None:
        return window.tags
    if window.path == '.':
        return ['.', 'Tk', 'all']
    return [window.path, CLASSES[window.kind].capitalize(), '.', 'all']


def why_never(binding, windows, names, text):
    """Why a binding never fires; None where it may."""
    if not windows:
        return 'no window has this tag'
    sequence = binding.sequence
    if sequence[0].kind == VIRTUAL:
        name = sequence[0].detail
        if name in names:
            found = [why_not_met(one, windows, text) for one in names[name]]
            return None if None in found or is_generated(name, text) else found[0]
        return None if is_generated(name, text) else 'nothing generates this event, and it has no sequence'
    return why_not_met(sequence, windows, text)


def is_generated(name, text):
    return re.search(r'event\s+generate\s.*<<%s>>' % re.escape(name), text) is not None


def why_not_met(sequence, windows, text):
    """Why the events of a sequence never come to these windows."""
    for one in sequence:
        why = why_not_given(one)
        if why:
            return why
    if sequence[-1].kind in OF_FOCUS and not any(may_have_focus(window, text) for window in windows):
        return 'keys go to the window with the focus, and %s takes none' % ' '.join(window.path for window in windows[:3])
    return None


def may_have_focus(window, text):
    return (window.path == '.' or window.options['takefocus'] == '1' or
            re.search(r'focus\s+(%s(?![\w.])|\$|%%W)' % re.escape(window.path), text) is not None)


def why_not_given(pattern):
    """Why a terminal never gives what fits a pattern."""
    held = [name for bit, name in enumerate(MODIFIERS) if pattern.modifiers >> bit & 1]
    if pattern.kind in (FOCUS_IN, FOCUS_OUT):
        return 'nothing is held in events of the focus' if held else None
    for name in held:
        if name in ('Mod2', 'Mod3', 'Mod4', 'Mod5', 'Lock', 'Button4', 'Button5'):
            return 'no terminal tells that %s is held' % name
    if pattern.kind not in KEYS:
        return 'no terminal tells the button %s' % pattern.detail if pattern.detail in ('4', '5') else None
    wanted = pattern.modifiers & ~BUTTONS
    if any(pattern.detail in ('', key) and state & wanted == wanted for key, state in TERMINAL_KEYS):
        return None
    if wanted & SHIFT and pattern.detail in string.ascii_letters:
        return 'a terminal gives the key %s, and tells nothing of Shift' % pattern.detail.upper()
    if wanted:
        return 'no terminal gives this key with these modifiers'
    return 'no terminal gives this key'


def terminal_keys():
    """All keys that come from a terminal, each with the sum of the bits of what is held."""
    sent = [chr(number) for number in range(128)] + ['\x1b' + sign for sign in string.ascii_letters + string.digits]
    sent += ['\x1b[1;%d%s' % (bits, letter) for bits in range(1, 9) for letter in LETTERS]
    sent += ['\x1b[%d;%d~' % (number, bits) for bits in range(1, 9) for number in NUMBERS] + ['\x1b[Z']
    found = set()
    for one in sent:
        keyboard = Keyboard((1, 1), has_interrupt=False)
        for typed in keyboard.read(one.encode()) + keyboard.read(b''):
            found |= keys_in(typed.lines)
    return found


def keys_in(lines):
    """The keys that go down in lines, with what is held then."""
    state, found = 0, set()
    for line in lines:
        word, name = line.split(' ', 1)
        if word == 'key':
            found.add((name, state))
            state |= BITS.get(name, 0)
    return found


TERMINAL_KEYS = terminal_keys()
