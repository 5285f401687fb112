"""The lock of a store: one program at a time works on it."""
import fcntl
import os

from .faults import StoreInUse, StoreUnreachable


class StoreLock:
    """The lock on `PATH.lock`, by `flock`. It is held as long as a process has its file open that inherited it, so it goes
    with the last of them, whatever ends it. The file stays, and is always empty.
    """

    def __init__(self, store):
        """Takes the lock; raises StoreInUse where another program has it, StoreUnreachable where its file can't be opened."""
        self.path = str(store) + '.lock'
        try:
            self.file = os.open(self.path, os.O_RDWR | os.O_CREAT | os.O_CLOEXEC, 0o666)
        except OSError as error:
            raise StoreUnreachable(unreachable(self.path, error)) from error
        try:
            fcntl.flock(self.file, fcntl.LOCK_EX | fcntl.LOCK_NB)
        except BlockingIOError as error:
            self.let_go()
            raise StoreInUse(in_use(store, self.path)) from error
        except OSError as error:
            self.let_go()
            raise StoreUnreachable(unreachable(self.path, error)) from error

    def let_go(self):
        """Closes the file here; a program that was started with it keeps the lock."""
        if self.file >= 0:
            os.close(self.file)
            self.file = -1


def unreachable(path, error):
    """Why the file of a lock can't be opened, in plain words."""
    folder = os.path.dirname(path) or '.'
    if not os.path.isdir(folder):
        return 'The folder %s of the store is not there. Make it first.' % folder
    return 'The store in the folder %s cannot be opened: %s (%s).' % (folder, error.strerror, path)


def in_use(store, path):
    """Who has a store, in plain words."""
    found = holders(path)
    who = ' and '.join('process %d (%s)' % holder for holder in found) if found else 'another program'
    return 'The store %s is in use by %s. Nothing was touched.' % (store, who)


def holders(path):
    """The processes that have a file open, but for this one, as far as this user may see: the number and the words of each."""
    if not os.path.isdir('/proc'):
        return []
    wanted = os.stat(path)
    found = []
    for process in sorted(map(int, filter(str.isdigit, os.listdir('/proc')))):
        if process != os.getpid() and has_open(process, wanted):
            found.append((process, words_of(process)))
    return found


def has_open(process, wanted):
    """Whether a process has this file open; a process that may not be looked into has not."""
    folder = '/proc/%d/fd' % process
    try:
        return any(is_same(os.path.join(folder, name), wanted) for name in os.listdir(folder))
    except OSError:
        return False


def is_same(path, wanted):
    """Whether a path leads to this file."""
    try:
        return os.path.samestat(os.stat(path), wanted)
    except OSError:
        return False


def words_of(process):
    """The first words of a process's command, 60 characters at most."""
    try:
        with open('/proc/%d/cmdline' % process, 'rb') as file:
            return file.read().replace(b'\0', b' ').decode(errors='replace').strip()[:60]
    except OSError:
        return '?'
