"""Times scripts in the proved program and in wish.

Both read requests from standard input and answer each, wish by bench/host.tcl. A time is processor time, the system's with
it, so that what runs beside matters little; that of the X server isn't in it. It is the least of so many runs, less that of
a run which only makes what the scripts work on. The answers must be the same; where the program is asked by other
lines than wish, the last ones. Commits, one behind each 60 requests, are in the program's times: TMPDIR says where the
store lies, so TMPDIR=/dev/shm leaves the device out.
"""
import functools
import os
import resource
import subprocess
import sys

HERE = os.path.dirname(os.path.realpath(__file__))
sys.path.insert(0, os.path.join(os.path.dirname(HERE), 'tools'))
import proved  # noqa: E402
from gaikyrumo import run, with_commits  # noqa: E402

WISH = ['wish', os.path.join(HERE, 'host.tcl')]


def request(script):
    """The lines of a script that is loaded; bytes are lines already."""
    return script if isinstance(script, bytes) else b'load %d\n%s\n' % (len(script), script.encode())


def text_of(answer):
    """What stands behind `ok` and the number."""
    return answer.split(b' ', 2)[2:]


def used():
    """The processor time, in seconds, of all that was run so far."""
    times = resource.getrusage(resource.RUSAGE_CHILDREN)
    return times.ru_utime + times.ru_stime


def answers_of_program(program, given):
    done = run(program, with_commits(given))
    if done.status:
        raise SystemExit('the program says: %r' % done.lines[-1:])
    return done.answers()


def answers_of_wish(given):
    done = subprocess.run(WISH, input=given, stdout=subprocess.PIPE, stderr=subprocess.DEVNULL, check=True)
    return done.stdout.splitlines()


def once(answers_of, scripts):
    """The time of a run, in seconds, and its answers."""
    given = b''.join(map(request, scripts))
    begun = used()
    answers = answers_of(given)
    return used() - begun, answers


def timed(answers_of, made, scripts, rounds):
    """The time of one of the scripts, in microseconds, and the answers."""
    begun = min(once(answers_of, made)[0] for _ in range(rounds))
    runs = [once(answers_of, made + scripts) for _ in range(rounds)]
    return (min(seconds for seconds, _ in runs) - begun) / len(scripts) * 1e6, runs[0][1]


def side(scripts, place):
    """The scripts of one side: where one is a pair, the program takes the first, wish the second."""
    return [script if isinstance(script, str) else script[place] for script in scripts]


def print_table(work):
    """Prints a line for each of the work: its name, the scripts that make what it works on, and those that are timed."""
    words = sys.argv[1:]
    program = proved.program_in(words)
    rounds = int(words[0]) if words else 5
    print('| Command | program, µs | wish, µs |')
    print('|---|---|---|')
    for name, made, scripts in work:
        ours, answers = timed(functools.partial(answers_of_program, program), side(made, 0), side(scripts, 0), rounds)
        theirs, expected = timed(answers_of_wish, side(made, 1), side(scripts, 1), rounds)
        if side(scripts, 0) != side(scripts, 1):
            is_same = text_of(answers[-1]) == text_of(expected[-1])
        else:
            is_same = answers == expected
        if not is_same or any(answer.startswith((b'error', b'refused')) for answer in answers):
            raise SystemExit('other answers: %s: %r, %r' % (name, answers[-1], expected[-1]))
        print(f'| {name} | {ours:.1f} | {theirs:.1f} |')
