"""What is typed and clicked in a terminal, as lines of the program."""
import re
from typing import NamedTuple

SIGNS = dict(zip(' !"#$%&\'()*+,-./:;<=>?@[\\]^_`{|}~', (
    'space exclam quotedbl numbersign dollar percent ampersand apostrophe parenleft parenright asterisk plus comma minus '
    'period slash colon semicolon less equal greater question at bracketleft backslash bracketright asciicircum '
    'underscore grave braceleft bar braceright asciitilde').split()))
PLAIN = {'\t': 'Tab', '\r': 'Return', '\n': 'Return', '\x7f': 'BackSpace', '\x08': 'BackSpace', '\x1b': 'Escape'}
LETTERS = dict(zip('ABCDHFPQRS', 'Up Down Right Left Home End F1 F2 F3 F4'.split()))
NUMBERS = dict(zip((1, 2, 3, 4, 5, 6, 7, 8, 11, 12, 13, 14, 15, 17, 18, 19, 20, 21, 23, 24), (
    'Home Insert Delete End Prior Next Home End F1 F2 F3 F4 F5 F6 F7 F8 F9 F10 F11 F12').split()))
# The keys that a terminal may tell as held, by the bits in which it tells them.
HOLDERS = ['Shift_L', 'Alt_L', 'Control_L']

CLICK = re.compile(r'\x1b\[<(\d+);(\d+);(\d+)([Mm])')
NAMED = re.compile(r'\x1b(?:O|\[)(?:(\d+)(?:;(\d+))?)?([A-Z~])')
CONSOLE = re.compile(r'\x1b\[\[([A-E])')
OTHER = re.compile(r'\x1b\[[\d;?<]*[A-Za-z~]')
BEGUN = re.compile(r'\x1b(?:\[\[|\[[\d;?<]*|O)?')

# The terminal's own keys: Control-C and Control-].
INTERRUPT, AWAY = '\x03', '\x1d'


class Typed(NamedTuple):
    """One thing that was typed: the lines that it gives, which belong together; or a key of the terminal's own; or what
    can't be typed into a form."""

    lines: tuple = ()
    own: str = ''
    unknown: str = ''


class Keyboard:
    """Reads what a terminal sends. `size` is the grid's; `has_interrupt` tells whether Control-C is a key of the terminal's
    own, and not one of the form."""

    def __init__(self, size, has_interrupt=True):
        self.size = size
        self.own = {AWAY: 'away', **({INTERRUPT: 'interrupt'} if has_interrupt else {})}
        self.rest = b''
        self.pressed = set()

    def is_waiting(self):
        """Whether the beginning of a key came, and perhaps more of it will."""
        return bool(self.rest)

    def read(self, sent, is_shown=True):
        """All that is typed by these bytes and those that waited. No bytes mean that nothing more comes of what waited.
        Clicks count only where the grid `is_shown`."""
        is_whole, self.rest = not sent, self.rest + sent
        found = []
        while self.rest:
            length, typed = self.first(is_whole, is_shown)
            if not length:
                break
            self.rest = self.rest[length:]
            found.append(typed)
        return found

    def first(self, is_whole, is_shown):
        """The first thing in what waits, and how many bytes it has; none where more of it may come."""
        sent = self.rest.decode('latin-1')
        if sent[0] == '\x1b':
            return self.behind_escape(sent, is_whole, is_shown)
        if sent[0] < '\x80':
            return 1, self.character(sent[0])
        length = 2 if sent[0] < '\xe0' else 3 if sent[0] < '\xf0' else 4
        if len(sent) < length and not is_whole:
            return 0, None
        character = self.rest[:length].decode(errors='replace')[:1]
        return length if character != '\ufffd' else 1, Typed(unknown=character if character.isprintable() else 'this key')

    def behind_escape(self, sent, is_whole, is_shown):
        """What begins with an escape: a click, a key that has a name, a key with Alt, or the key Escape."""
        click, named, console, other = (form.match(sent) for form in (CLICK, NAMED, CONSOLE, OTHER))
        if click:
            return click.end(), self.click(*map(int, click.groups()[:3]), click[4] == 'M') if is_shown else Typed()
        if named:
            return named.end(), named_key(*named.groups())
        if console:
            return console.end(), Typed(held(['F%d' % ('ABCDE'.index(console[1]) + 1)]))
        if other:
            return other.end(), Typed(unknown='this key')
        if not is_whole and BEGUN.fullmatch(sent):
            return 0, None
        if sent[1:2].isalnum() and sent[1].isascii():
            return 2, Typed(held([sent[1]], HOLDERS[1:2]))
        return 1, self.character('\x1b')

    def character(self, character):
        """What a character of ASCII stands for."""
        if character in self.own:
            return Typed(own=self.own[character])
        if character in PLAIN:
            return Typed(held([PLAIN[character]]))
        if character in SIGNS:
            return Typed(held([SIGNS[character]]))
        if '\x01' <= character <= '\x1a':
            return Typed(held([chr(ord(character) + 96)], HOLDERS[2:]))
        return Typed(held([character])) if character.isalnum() else Typed(unknown='this key')

    def click(self, code, column, row, is_press):
        """A button that goes down in a cell of the grid, or comes up; one that went down there comes up there too."""
        button, column, row = code % 4 + 1, column - 2, row - 2
        columns, rows = self.size
        is_inside = 0 <= column < columns and 0 <= row < rows
        if code >= 32 or button == 4 or not (is_inside if is_press else button in self.pressed):
            return Typed()
        (self.pressed.add if is_press else self.pressed.discard)(button)
        place = button, min(max(column, 0), columns - 1), min(max(row, 0), rows - 1)
        holders = [holder for bit, holder in enumerate(HOLDERS) if code >> bit + 2 & 1]
        return Typed(around(['%s %d %d %d' % ('press' if is_press else 'release', *place)], holders))


def named_key(number, holding, last):
    """The key that a terminal tells by a sequence behind an escape."""
    if last == 'Z':
        return Typed(held(['Tab'], HOLDERS[:1]))
    name = NUMBERS.get(int(number or 0)) if last == '~' else LETTERS.get(last)
    bits = int(holding or 1) - 1
    holders = [holder for bit, holder in enumerate(HOLDERS) if bits >> bit & 1]
    return Typed(held([name], holders)) if name else Typed(unknown='this key')


def held(names, holders=()):
    """The lines of keys that go down and up one by one, while others are held."""
    return around([line for name in names for line in ('key ' + name, 'keyup ' + name)], holders)


def around(lines, holders):
    """Lines behind those that press the keys which are held meanwhile, and before those that free them."""
    return (*['key ' + holder for holder in holders], *lines, *['keyup ' + holder for holder in reversed(holders)])


def freeing():
    """The lines that free what a run may have left held when it was ended in hard ways."""
    return tuple('keyup ' + holder for holder in HOLDERS)
