"""A session on a copy of a store, to ask what no line of the program tells."""
import contextlib
import os
import shutil
import tempfile

from gaikyrumo import Session


@contextlib.contextmanager
def copy_of(session):
    """A session on a copy of a session's store, which goes with it: what is tried there changes nothing here. What waits
    here is committed first."""
    session.commit()
    with tempfile.TemporaryDirectory() as folder:
        store = os.path.join(folder, 'copy')
        for side in ('.a', '.b'):
            shutil.copyfile(session.store + side, store + side)
        with Session(session.program, store, session.size, session.environment) as copy:
            yield copy
