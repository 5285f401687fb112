"""Starts the program on a store, under the store's lock."""
import subprocess

from .faults import Unstartable
from .lock import StoreLock


def words(program, store, size=None):
    """The words that start the program on a store: its path, and the grid's columns and rows where they are told."""
    grid = ['--width', str(size[0]), '--height', str(size[1])] if size else []
    return [str(program), '--store', str(store)] + grid


def start(program, store, size=None, before=(), **how):
    """Starts the program, and gives its process, which has the lock as long as it runs.

    `before` are words that run it, such as those of strace; `how` is for subprocess.Popen, where its pipes are told. It is
    started in a session of its own, so that a signal of the terminal reaches the caller alone. Raises StoreInUse,
    StoreUnreachable or Unstartable.
    """
    if not str(store):
        raise ValueError('a store needs a path')
    lock = StoreLock(store)
    try:
        return subprocess.Popen([*before, *words(program, store, size)], pass_fds=[lock.file], start_new_session=True, **how)
    except OSError as error:
        raise Unstartable('The program %s cannot be started: %s.' % (program, error.strerror)) from error
    finally:
        lock.let_go()
