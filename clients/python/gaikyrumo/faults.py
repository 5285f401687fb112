"""What can go wrong with a session, and what it means in plain words."""
import signal

IN_USE = 75  # The status of a start whose store another program has.

# What the program's last line `fault NAME` means, and what helps.
MEANINGS = {
    'memory': ('the program wanted memory', 'Free memory and start it again: what was committed stands.'),
    'disk': ('the disk failed, or the store cannot be opened',
             'Look at the disk: is it full, is it there, may this user write on it? What was committed stands.'),
    'failed': ('the disk had failed before', 'Start it again: what was committed stands.'),
    'damaged': ('the bytes of the store were never written so',
                'Something else wrote on its files. Put a copy of them back, or begin a new store.'),
    'version': ('the store is of a format that this program does not know', 'Start the newer program that wrote it.'),
    'grid': ('the store was made for another size of the grid', 'Start it with the size that it was made with.'),
    'commands': ('the store was made with other commands of an application',
                 'Start the program that has the commands it was made with.'),
    'limits': ('what the store holds passes the limits of this program', 'Start the program that wrote it.'),
    'large': ('the first state is too large for a disk', 'Start a program with fewer commands of an application.'),
}

# What the program's status means where it wrote no such line.
STATUSES = {
    0: 'it came to the end of its input',
    1: 'its session failed',
    2: 'it does not take the words that it was started with',
    3: 'reading its input or writing its output failed',
    5: 'it wanted memory',
    69: "the toolchain's command rt is not on the PATH",
    70: 'the program was not proved',
    IN_USE: 'another program has the store',
}
NO_MEMORY = 5


class Fault(Exception):
    """Any fault of this module; its text is one or more plain sentences."""

    # The status that a program which ends for it should end with.
    status = 1
    # Whether starting the program again may help by itself.
    may_start_again = False


class Unstartable(Fault):
    """The program can't be started: it isn't there, or isn't one."""


class StoreUnreachable(Fault):
    """The lock beside the store can't be opened: its folder is missing, closed to this user, or on a full disk."""


class StoreInUse(Fault):
    """Another program has the store. Nothing of the store was touched."""

    status = IN_USE


class StoreChanged(Fault):
    """A store holds fewer inputs than it had acknowledged: it isn't the one that it was."""


class NotDone(Fault):
    """A screen or a checkpoint wasn't made, and the session goes on. `reason` is `memory` or `large`."""

    def __init__(self, what, reason):
        why = {'memory': 'memory is wanting', 'large': 'the state is too large'}.get(reason, reason)
        super().__init__('No %s: %s. Nothing has changed, and the session goes on.' % (what, why))
        self.reason = reason


class Ended(Fault):
    """The program ended by itself. `code` is its status, or the signal that killed it as a negative number; `said` is
    what it wrote to its standard error last."""

    def __init__(self, code, said=''):
        super().__init__(('The program ended: %s.' % ending(code)) + (' It said: ' + said if said else ''))
        self.code, self.said = code, said
        self.status = code if code > 0 else 1
        self.may_start_again = code < 0 or code == NO_MEMORY


class SessionFault(Ended):
    """The program ended with the line `fault NAME`; `name` is that name."""

    def __init__(self, name, code, said=''):
        super().__init__(code, said)
        meaning, help_ = MEANINGS[name]
        self.args = ('The program ended: %s (fault %s). %s' % (meaning, name, help_) + (' It said: ' + said if said else ''),)
        self.name = name
        self.may_start_again = name == 'memory' or code < 0


def ending(code):
    """How a program ended, by its status or by the signal that killed it, in plain words."""
    if code < 0:
        return 'it was killed by signal %d (%s)' % (-code, signal.Signals(-code).name)
    return STATUSES.get(code, 'with status %d' % code)
