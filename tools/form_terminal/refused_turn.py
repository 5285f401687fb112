"""A turn that is refused stays where it was, and blocks what waits behind it: what it is, and how it is left out."""
import re
from typing import NamedTuple

from .copy_of_store import copy_of

# A tag for the time of one turn; on the copy it notes the detail of the event.
TAG = 'Left_out'
NOTES = '; '.join('bind %s <%s> {set Left_out %s}' % (TAG, kind, form) for kind, form in (
    ('KeyPress', '%K'), ('KeyRelease', '%K'), ('ButtonPress', '%b'), ('ButtonRelease', '%b')))
# Scripts of `after` that are tried one by one.
MOST_SCRIPTS = 30


class RefusedTurn(NamedTuple):
    """What the turn would do: deliver an event to a window, or run the script of an id of `after`; both are empty where it
    wasn't found out. `what` tells it in plain words."""

    what: str
    window: str = ''
    id: str = ''


def find_refused(session, names=()):
    """What the next turn of a session is, which is refused. It is tried on copies of its store: events with a tag that has no
    bindings of the form in place of those of each window, scripts of `after` each with the others taken out. `names` are
    paths of windows that may be there without being packed."""
    with copy_of(session) as copy:
        found = event_of(copy, names)
        ids = copy.script('after info').text.split()[:MOST_SCRIPTS]
    if not found and not is_refused_without(session, ids):
        found = next((script_of(session, one) for one in ids if is_refused_without(session, set(ids) - {one})), None)
    return found or RefusedTurn('a turn')


def event_of(copy, names):
    """The event that the next turn delivers, or None."""
    copy.script('set Left_out {}; ' + NOTES)
    for path in sorted({*packed_windows(copy), copy.script('focus').text, *names}):
        copy.script('bindtags %s %s' % (path, TAG))
    answer = copy.turn()
    if not answer.text.startswith('event '):
        return None
    _, kind, window = answer.text.split(' ')
    detail = copy.script('set Left_out').text
    return RefusedTurn('the event %s in %s' % (' of '.join(filter(None, [kind, detail])), window), window)


def packed_windows(copy):
    """The paths of `.` and of all windows that are packed, one in another."""
    found = ['.']
    for path in found:
        found += copy.script('pack slaves ' + path).text.split()
    return found


def is_refused_without(session, ids):
    """Whether the next turn is refused with the scripts of `after` of these ids taken out."""
    with copy_of(session) as copy:
        for one in sorted(ids):
            copy.script('after cancel ' + one)
        return copy.turn().is_refused()


def script_of(session, one):
    """The script of `after` of this id."""
    with copy_of(session) as copy:
        script = copy.script('lindex [after info %s] 0' % one).text
    return RefusedTurn('the script of %s: %s' % (one, script), id=one)


def paths_in(script):
    """The texts in a script that look like paths of windows."""
    return re.findall(r'(?<![\w.])(?:\.[a-z0-9_]\w*)+', script)


def leave_out(session, refused):
    """Leaves the turn out. An event is delivered while its window has a tag without bindings, and the window gets its tags
    back; a script of `after` is cancelled. All of it is kept, or nothing. Gives the answer of the turn, or of the cancel.
    """
    if not session.has_room(3):
        session.commit()
    if refused.id:
        answer = session.script('after cancel ' + refused.id)
    else:
        session.script('set Left_out [bindtags %s]; bindtags %s %s' % (refused.window, refused.window, TAG))
        answer = session.turn()
        session.script('bindtags %s $Left_out; unset Left_out' % refused.window)
    session.commit()
    return answer
