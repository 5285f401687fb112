"""The signals that end a run in a terminal, or tell that it has another size."""
import os
import select
import signal
import sys

# Seconds within which a run ends by itself once a signal asked for it.
PATIENCE = 5


class Ending:
    """Notes the signals, and wakes who waits for `wake`. A run that doesn't end in time, or is asked twice, ends by
    SystemExit wherever it is."""

    def __init__(self):
        self.is_asked = self.is_resized = False
        self.wake, write = os.pipe()
        for end in (self.wake, write):
            os.set_blocking(end, False)
        signal.set_wakeup_fd(write, warn_on_full_buffer=False)
        for one in (signal.SIGTERM, signal.SIGHUP, signal.SIGINT):
            signal.signal(one, self.ask)
        signal.signal(signal.SIGALRM, self.force)
        signal.signal(signal.SIGWINCH, self.resize)
        signal.signal(signal.SIGTSTP, signal.SIG_IGN)

    def ask(self, *_):
        """Notes that the run is to end; asked twice, it ends at once."""
        if self.is_asked:
            self.force()
        self.is_asked = True
        signal.alarm(PATIENCE)

    def force(self, *_):
        """Ends the run wherever it is."""
        sys.exit(1)

    def resize(self, *_):
        """Notes that the terminal has another size."""
        self.is_resized = True

    def clear(self):
        """Takes out what woke."""
        try:
            os.read(self.wake, 512)
        except BlockingIOError:
            pass

    def pause(self, seconds):
        """Waits so many seconds, or until a signal comes."""
        select.select([self.wake], [], [], seconds)
        self.clear()
