"""A program in a pseudo terminal: what it shows, as a screen of characters, and what is typed to it."""
import fcntl
import os
import pty
import re
import select
import signal
import struct
import subprocess
import termios
import time

# What a terminal is told besides the characters: the cursor's place, the end of a line cleared, the screen cleared.
CONTROL = re.compile(r'\x1b\[([?<]?)([\d;]*)([A-Za-z])|[\r\n\a]')


class PseudoTerminal:
    """A command in a terminal of its own. `columns` by `lines` cells are kept of what it writes; `bells` counts its sounds."""

    def __init__(self, command, columns=80, lines=30, environment=None):
        self.columns, self.lines = columns, lines
        self.clear()
        self.bells = 0
        self.rest = ''
        self.master, self.slave = pty.openpty()
        self.resize(columns, lines)
        self.before = termios.tcgetattr(self.slave)
        self.process = subprocess.Popen(command, stdin=self.slave, stdout=self.slave, stderr=self.slave,
                                        start_new_session=True, env=environment, preexec_fn=self.take_terminal)

    def take_terminal(self):
        """Makes the terminal the command's own, so that it gets its signals."""
        fcntl.ioctl(0, termios.TIOCSCTTY, 0)

    def resize(self, columns, lines):
        """Gives the terminal another size, as a user who drags its corner."""
        self.columns, self.lines = columns, lines
        fcntl.ioctl(self.slave, termios.TIOCSWINSZ, struct.pack('HHHH', lines, columns, 0, 0))

    def clear(self):
        """Takes all that is shown away."""
        self.cells = {}
        self.column = self.line = 0

    def type(self, text):
        """Types a text, or bytes."""
        sent = text.encode() if isinstance(text, str) else text
        while sent:
            sent = sent[os.write(self.master, sent):]

    def look(self, seconds=0.05):
        """Takes in what is written within so many seconds, or until nothing more comes."""
        deadline = time.monotonic() + seconds
        while True:
            if not select.select([self.master], [], [], max(0, deadline - time.monotonic()))[0]:
                return
            try:
                self.write(os.read(self.master, 65536).decode(errors='replace'))
            except OSError:
                return
            if time.monotonic() > deadline:
                return

    def write(self, text):
        """Draws what the program writes."""
        text = self.rest + text
        at = 0
        while at < len(text):
            found = CONTROL.match(text, at)
            if not found and text[at] == '\x1b':
                break
            if found:
                self.control(*(found.groups() if found[3] else ('', '', found[0])))
                at = found.end()
            else:
                self.put(text[at])
                at += 1
        self.rest = text[at:]

    def control(self, mark, numbers, letter):
        """Does what a control sequence asks for: its mark, its numbers, its last letter."""
        numbers = [int(number or 1) for number in numbers.split(';')]
        if letter == 'H':
            self.line, self.column = numbers[0] - 1, (numbers + [1])[1] - 1
        elif letter == 'K':
            self.cells = {place: sign for place, sign in self.cells.items() if place[0] != self.line or place[1] < self.column}
        elif letter == 'J' or mark and numbers == [1049]:
            self.clear()
        elif letter == '\a':
            self.bells += 1
        elif letter == '\r':
            self.column = 0
        elif letter == '\n':
            self.line += 1

    def put(self, sign):
        """Shows a character at the cursor."""
        if self.column >= self.columns:
            self.line, self.column = self.line + 1, 0
        self.cells[self.line, self.column] = sign
        self.column += 1

    def rows(self):
        """The rows that are shown, without the spaces behind them."""
        last = max((line for line, _ in self.cells), default=-1)
        columns = range(self.columns)
        return [''.join(self.cells.get((line, column), ' ') for column in columns).rstrip() for line in range(last + 1)]

    def text(self):
        """What is shown, in lines."""
        return '\n'.join(self.rows())

    def waits_for(self, pattern, seconds=10):
        """Whether what is shown comes to fit a pattern within so many seconds."""
        deadline = time.monotonic() + seconds
        while not re.search(pattern, self.text()):
            if time.monotonic() > deadline:
                return False
            self.look()
        return True

    def ends(self, seconds=10):
        """The status with which the command ends within so many seconds; None where it goes on."""
        deadline = time.monotonic() + seconds
        while self.process.poll() is None and time.monotonic() < deadline:
            self.look()
        self.look(0.1)
        return self.process.poll()

    def is_clean(self):
        """Whether the terminal is in the mode in which it was at first."""
        return termios.tcgetattr(self.slave) == self.before

    def close(self):
        """Ends the command in the hard way, where it goes on."""
        if self.process.poll() is None:
            self.process.send_signal(signal.SIGKILL)
        self.process.wait()
        os.close(self.master)
        os.close(self.slave)
