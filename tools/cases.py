"""Tries cases, functions that are named for what they show, each in a folder of its own."""
import tempfile
import traceback

# Lines of what a case raised that are told, and characters of each.
MOST, LENGTH = 12, 1000


def tried(cases, names, place_in):
    """Tries the cases of these names, or all; gives the status to end with. `place_in` makes of a folder what a case is given,
    which is closed behind it where it can be."""
    chosen = [case for case in cases if not names or case.__name__ in names]
    failed = sum(not is_right(case, place_in) for case in chosen)
    print('%d passed, %d failed' % (len(chosen) - failed, failed))
    return 1 if failed or not chosen else 0


def is_right(case, place_in):
    """Whether a case passes; it is told."""
    name = case.__name__.replace('_', ' ')
    with tempfile.TemporaryDirectory(ignore_cleanup_errors=True) as folder:
        place = place_in(folder)
        try:
            case(place)
        except Exception:  # Whatever a case raises, the others are tried.
            print('\n'.join(line[:LENGTH] for line in traceback.format_exc().splitlines()[-MOST:]))
            print('FAILED: ' + name, flush=True)
            return False
        finally:
            getattr(place, 'close', lambda: None)()
    print('ok: ' + name, flush=True)
    return True
