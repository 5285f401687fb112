"""A client of the program `desk` (docs/PROGRAM.md): sessions by calls, answers as data, faults in plain words.

Standard library alone. `Session` asks line by line, `batch` gives a whole session at once; both hold the store's lock as
long as the program runs.
"""
from .answers import Answer
from .batch import Run, requests_in, run, with_commits
from .errors import error_in_words, refusal_in_words
from .faults import (Ended, Fault, NotDone, SessionFault, StoreChanged, StoreInUse, StoreUnreachable, Unstartable)
from .lock import StoreLock
from .session import Session
from .start import start

__all__ = ['Answer', 'Ended', 'Fault', 'NotDone', 'Run', 'Session', 'SessionFault', 'StoreChanged', 'StoreInUse',
           'StoreLock', 'StoreUnreachable', 'Unstartable', 'error_in_words', 'refusal_in_words', 'requests_in', 'run',
           'start', 'with_commits']
