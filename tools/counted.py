"""Sessions that count, and what their stores have to open to.

Each input sets two variables to its number. A store has kept an input whole where both variables are the number of the inputs
that it holds.
"""
import re

from gaikyrumo import run

GRID = (20, 3)
COUNT = b'cmd incr n; set m $n\n'


def acknowledged_in(answers):
    """The number in the last whole line `committed N` or `checkpointed N`, or 0."""
    numbers = re.findall(rb'^(?:committed|checkpointed) (\d+)\n', answers, re.M)
    return int(numbers[-1]) if numbers else 0


def kept(program, store):
    """How many inputs the store has kept, by the answer to one more, which is not committed; or what is wrong."""
    done = run(program, b'cmd list [info exists n] [info exists m]\ncmd list $n $m\n', store, GRID, seconds=60)
    lines = [line.decode() for line in done.lines]
    if done.status != 0 or len(lines) != 2:
        return None, 'the store does not open: %r' % lines
    if lines == ['ok 1 0 0', 'error 2 E11 n']:
        return 0, None
    found = re.fullmatch(r'ok (\d+) (\d+) (\d+)', lines[1])
    if not found:
        return None, 'other answers: %r' % lines
    number, n, m = map(int, found.groups())
    if n != m or number != n + 2:
        return None, 'an input in part: %r' % lines
    return n, None


def fault(program, store, least, most):
    """What is wrong with a store that has to have kept so many inputs, and how many it has."""
    count, why = kept(program, store)
    if why is None and not least <= count <= most:
        why = '%d inputs are kept, and not %d to %d' % (count, least, most)
    return why, count
