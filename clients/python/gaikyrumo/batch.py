"""Sessions that are given to the program whole, and their answers."""
import os
import subprocess
import tempfile
from typing import NamedTuple

from .start import start

# A line `commit` is put in behind so many requests, since no more than 256 inputs may wait.
WAITING = 250


class Run(NamedTuple):
    """What a run of the program gave: its status, its lines without their newlines, its standard error."""

    status: int
    lines: list
    errors: bytes

    def answers(self):
        """The lines but those of commits."""
        return [line for line in self.lines if not line.startswith(b'committed ')]


def requests_in(session):
    """The requests of a session, as bytes: a line, or a line `load N` with the N bytes and the newline behind it."""
    requests = []
    at = 0
    while at < len(session):
        end = session.find(b'\n', at)
        end = len(session) if end < 0 else end + 1
        words = session[at:end].rstrip(b'\n').split(b' ')
        if len(words) == 2 and words[0] == b'load' and words[1].isdigit():
            end = min(len(session), end + int(words[1]))
            end += session[end:end + 1] == b'\n'
        requests.append(session[at:end])
        at = end
    return requests


def with_commits(session, every=WAITING):
    """The session with a line `commit` behind every so many requests, if it has more."""
    requests = requests_in(session)
    if len(requests) <= every:
        return session
    return b''.join(request + b'commit\n' * (number % every == 0) for number, request in enumerate(requests, 1))


def run(program, given, store=None, size=None, before=(), environment=None, seconds=None):
    """Gives the program all of a session's bytes at once, and waits for its end.

    Without a store it is one of its own, in a folder that goes with it (TMPDIR says where). `before` are words that run
    the program, such as those of valgrind. Behind so many `seconds` it is killed, and subprocess.TimeoutExpired is
    raised; else what `start` raises.
    """
    if store is None:
        with tempfile.TemporaryDirectory() as folder:
            return run(program, given, os.path.join(folder, 'store'), size, before, environment, seconds)
    pipes = {'stdin': subprocess.PIPE, 'stdout': subprocess.PIPE, 'stderr': subprocess.PIPE}
    with start(program, store, size, before, env=environment, **pipes) as process:
        try:
            written, errors = process.communicate(given, timeout=seconds)
        except subprocess.TimeoutExpired:
            process.kill()
            raise
    return Run(process.returncode, written.splitlines(), errors)
