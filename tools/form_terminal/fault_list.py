"""The errors of scripts that ran by themselves, as they are told below a form."""
from gaikyrumo import error_in_words

# So many are told, the latest.
MOST = 3


class FaultList:
    """The errors that the program keeps, and those of them that were put away."""

    def __init__(self):
        self.there, self.seen = [], []

    def new(self):
        """The errors behind those that were put away: the program keeps the last 32, so some of these may be gone."""
        place = next(place for place in range(len(self.seen) + 1) if self.there[:len(self.seen) - place] == self.seen[place:])
        return self.there[len(self.seen) - place:]

    def put_away(self):
        """Tells those that are there no longer."""
        self.seen = self.there

    def told(self):
        """What is told of them, in lines."""
        lines = ['fault: ' + error_in_words(text) for text in self.new()[-MOST:]]
        return lines + ['Control-] puts the faults away.'] if lines else []
