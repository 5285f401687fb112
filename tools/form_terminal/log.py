"""What a run tells of itself, in a file beside its store."""
import time


class Log:
    """Lines with their times behind those that are there; without a path nothing is written. What is typed is never
    written."""

    def __init__(self, path=None):
        self.file = open(path, 'a') if path else None

    def say(self, text):
        """Writes one line, with the time."""
        if not self.file:
            return
        try:
            self.file.write('%s %s\n' % (time.strftime('%Y-%m-%d %H:%M:%S'), ' '.join(text.split())))
            self.file.flush()
        except OSError:
            pass  # A full disk stops no form.
