"""The turn that is refused now, which blocks what waits behind it."""
from gaikyrumo import Fault, refusal_in_words

from .refused_turn import RefusedTurn, find_refused, leave_out

# A turn that is refused for this is tried again, and may well run.
PASSING = 'memory'


class Blocked:
    """Why the next turn of a session is refused, as far as it is; `names` are paths of windows that may be there."""

    def __init__(self, session, names, log):
        self.session, self.names, self.log = session, names, log
        self.forget()

    def forget(self):
        """Knows of no refused turn any more; one that is still refused is noted anew."""
        self.reason, self.turn = '', None

    def note(self, reason):
        """Notes why the next turn is refused, empty where it isn't; finds out what it is. Gives whether it is a new one."""
        if reason == self.reason:
            return False
        self.forget()
        if reason and reason != PASSING:
            self.turn = self.found()
            self.log.say('a turn is refused (%s): %s' % (reason, self.turn.what))
        self.reason = reason
        return bool(self.turn)

    def found(self):
        """What the turn is; a turn that isn't known where no copy of the store can be asked."""
        self.session.commit()
        try:
            return find_refused(self.session, self.names)
        except (Fault, OSError) as fault:
            self.log.say('no copy of the store can be asked: %s' % fault)
            return RefusedTurn('a turn')

    def is_known(self):
        """Whether a turn is refused that can be left out."""
        return bool(self.turn and (self.turn.window or self.turn.id))

    def leave_out(self):
        """Leaves it out, and gives what it was."""
        what = self.turn.what
        answer = leave_out(self.session, self.turn)
        self.log.say('left out: %s (%s)' % (what, answer))
        self.forget()
        return what

    def told(self):
        """What is told of it, in lines."""
        return ['A turn is refused: %s. %s' % (refusal_in_words(self.reason), self.way_past())] if self.reason else []

    def way_past(self):
        """What is to be done about the turn."""
        if self.reason == PASSING:
            return 'It is tried again.'
        if self.is_known():
            return 'Control-] leaves it out: %s.' % self.turn.what
        return 'It was not found out what it is: docs/OPERATION.md tells how to go on.'
