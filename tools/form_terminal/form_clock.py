"""The clock of a form."""
import time

from .copy_of_store import copy_of


class FormClock:
    """Goes on steadily from the later of this machine's clock and the store's: the machine's may be set back or forth
    meanwhile. Times are milliseconds, as those of the line `clock`.

    `ahead` is how far it is before the machine's clock at first.
    """

    def __init__(self, session):
        """Sets the clock of a session."""
        machine = int(time.time() * 1000)
        is_behind = session.clock(machine).is_refused('clock')
        self.first = stored_time(session) if is_behind else machine
        self.begun = steady()
        self.ahead = self.first - machine

    def now(self):
        """The time of the form now."""
        return self.first + steady() - self.begun


def steady():
    """Milliseconds of a clock that nobody sets, and that goes on while the machine sleeps."""
    return int(time.clock_gettime(time.CLOCK_BOOTTIME) * 1000)


def stored_time(session):
    """The clock of a session, asked on a copy of its store: an event that a script generates has it as its time."""
    with copy_of(session) as copy:
        return int(copy.script('bind . <<Clock>> {set time %t}; event generate . <<Clock>>; set time').text)


def duration(milliseconds):
    """A length of time in plain words, by its largest unit."""
    for unit, length in (('days', 86_400_000), ('hours', 3_600_000), ('minutes', 60_000)):
        if milliseconds >= 2 * length:
            return '%d %s' % (round(milliseconds / length), unit)
    return '%.1f seconds' % (milliseconds / 1000)
