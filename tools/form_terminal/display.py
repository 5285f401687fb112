"""The screen of a terminal: the rows of a form in a frame, and what is told below it."""
import os
import select
import sys
import termios
import textwrap
import tty

# Another screen, no cursor, reports of buttons; and back.
BEGIN = '\x1b[?1049h\x1b[2J\x1b[?25l\x1b[?1000h\x1b[?1006h'
END = '\x1b[?1006l\x1b[?1000l\x1b[?25h\x1b[?1049l'
# Lines behind the form in a terminal that doesn't tell how many it has.
UNKNOWN = 6


class Display:
    """Draws what has changed. `size` is the grid's columns and rows."""

    def __init__(self, size, ending):
        self.size, self.ending = size, ending
        self.before = termios.tcgetattr(sys.stdin)
        self.measure()
        tty.setraw(sys.stdin, termios.TCSADRAIN)
        self.write(BEGIN)

    def measure(self):
        """Takes the terminal's size as it is now, and draws all anew next time. One that doesn't tell its size, as on a
        serial line, counts as large enough."""
        try:
            self.columns, self.lines = os.get_terminal_size(sys.stdout.fileno())
        except OSError:
            self.columns = self.lines = 0
        if not self.columns or not self.lines:
            self.columns, self.lines = max(80, self.needs()[0]), self.needs()[1] + UNKNOWN
        self.drawn = {}

    def close(self):
        """Leaves the terminal as it was."""
        self.write(END)
        try:
            termios.tcsetattr(sys.stdin, termios.TCSANOW, self.before)
        except termios.error:
            pass

    def write(self, text):
        """Writes to the terminal, which may be gone: then the next look at what is typed tells."""
        try:
            sys.stdout.buffer.write(text.encode(errors='replace'))
            sys.stdout.buffer.flush()
        except OSError:
            pass

    def bell(self):
        """Makes the sound of the terminal."""
        self.write('\a')

    def needs(self):
        """The columns and lines that the form takes: the grid in its frame, and a line below it."""
        return self.size[0] + 2, self.size[1] + 3

    def is_large_enough(self):
        """Whether the form, its frame and a line below it have room."""
        columns, lines = self.needs()
        return self.columns >= columns and self.lines >= lines

    def draw(self, rows, told, focus=''):
        """Draws the rows of the grid and what is told; `focus` is the path of the window with the focus, which stands in the
        frame."""
        if self.ending.is_resized:
            self.ending.is_resized = False
            self.measure()
            self.write('\x1b[2J')
        self.put([line[:self.columns] for line in self.picture(rows, told, focus)[:self.lines]])

    def picture(self, rows, told, focus):
        """The lines to show: the form in its frame, or why it isn't shown, and what is told, wrapped."""
        if self.is_large_enough():
            focus = '- %s ' % focus if focus and len(focus) + 4 <= self.size[0] else ''
            above, below = '+' + '-' * self.size[0] + '+', '+' + focus.ljust(self.size[0], '-') + '+'
            shown = [above] + ['|%s|' % row for row in rows] + [below]
        else:
            shown = self.wrapped('Too small: %d by %d cells are needed, and %d by %d are there.' % (
                *self.needs(), self.columns, self.lines))
        return shown + [line for one in told for line in self.wrapped(one)]

    def wrapped(self, text):
        """A text as lines of the terminal's width."""
        return textwrap.wrap(text, max(self.columns, 1))

    def put(self, lines):
        """Draws the lines that differ from those that are drawn."""
        for place in range(max(len(lines), len(self.drawn))):
            line = lines[place] if place < len(lines) else ''
            if self.drawn.get(place) != line:
                self.write('\x1b[%d;1H%s\x1b[K' % (place + 1, line))
                self.drawn[place] = line

    def typed(self, seconds):
        """What was typed within so many seconds, or before a signal came; None where the terminal is gone."""
        ready = select.select([sys.stdin, self.ending.wake], [], [], seconds)[0]
        if self.ending.wake in ready:
            self.ending.clear()
        if sys.stdin not in ready:
            return b''
        try:
            return os.read(sys.stdin.fileno(), 4096) or None
        except OSError:
            return None
