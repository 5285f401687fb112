"""A form: a script with the size of its grid, and its rules. What is wrong with one is told by its line."""
import re
from typing import NamedTuple

from gaikyrumo import error_in_words, refusal_in_words, run

MOST_BYTES = 1_048_576
GRID = re.compile(r'on a grid of (\d+) by (\d+)(?:, by rules ([12]))?')


class FormFault(Exception):
    """A form that can't be used; its text says why, and on which line."""


class Form(NamedTuple):
    """A form: where its file is, its script, the columns and rows of its grid, and the rules by which it is run."""

    path: str
    script: str
    size: tuple
    rules: int


def read_form(path):
    """The form in a file; raises FormFault."""
    try:
        with open(path, 'rb') as file:
            script = file.read()
    except OSError as error:
        raise FormFault('The form %s cannot be read: %s.' % (path, error.strerror)) from error
    text = checked(path, script)
    found = GRID.search(text)
    if not found:
        raise FormFault('The form %s does not say the size of its grid. Its first line has to, as in: # An order, on a grid '
                        'of 44 by 15.' % path)
    size = int(found[1]), int(found[2])
    if not (1 <= size[0] <= 200 and 1 <= size[1] <= 100):
        raise FormFault('%s, line %d: a grid has 1 to 200 columns and 1 to 100 rows.' % (path, line_at(text, found.start())))
    return Form(path, text, size, int(found[3] or 1))


def checked(path, script):
    """The text of a script, where it is one: tabs, newlines and the printing characters of ASCII."""
    text = script.decode(errors='replace')
    wrong = re.search(r'[^\t\n -~]', text)
    if wrong:
        line = line_at(text, wrong.start())
        if wrong[0] == '\r':
            raise FormFault('%s, line %d: a carriage return. Save the form with a newline alone at the end of each line.'
                            % (path, line))
        raise FormFault('%s, line %d: the character %s. A script has tabs and the printing characters of ASCII alone.'
                        % (path, line, wrong[0] if wrong[0].isprintable() else repr(wrong[0])))
    if len(script) > MOST_BYTES:
        raise FormFault('The form %s has %d bytes: a script has %d at most.' % (path, len(script), MOST_BYTES))
    return text


def line_at(text, place):
    """The number of the line in which a place of a text stands, the first being 1."""
    return text.count('\n', 0, place) + 1


def go_by_rules(session, form):
    """Has a new store go by the rules of a form."""
    if form.rules > 1:
        session.line('rules %d' % form.rules)


def load(session, form):
    """Loads a form into a new store, and commits it. Where it fails nothing is kept, and FormFault says why."""
    go_by_rules(session, form)
    answer = session.script(form.script)
    if answer.kind == 'ok':
        session.commit()
        return
    why = error_in_words(answer.text) if answer.kind == 'error' else 'refused, ' + refusal_in_words(answer.text)
    line = failing_line(session.program, form)
    raise FormFault('%s, line %d: %s.\n    %s\nThe form was not loaded, and nothing is kept.'
                    % (form.path, line, why, form.script.split('\n')[line - 1].strip()))


def failing_line(program, form):
    """The line on which the command begins that doesn't run: the first behind the most lines that run by themselves."""
    lines = form.script.split('\n')
    count = len(lines) - 1
    while count > 0 and not runs(program, form, lines[:count]):
        count -= 1
    while count > 0 and lines[count - 1].endswith('\\'):
        count -= 1
    while count < len(lines) - 1 and re.match(r'\s*(#|$)', lines[count]):
        count += 1
    return count + 1


def runs(program, form, lines):
    """Whether these lines of a form run in a store of their own."""
    script = '\n'.join(lines)
    done = run(program, ('rules %d\nload %d\n%s\n' % (form.rules, len(script), script)).encode(), size=form.size)
    return len(done.lines) == 2 and done.lines[1].startswith(b'ok ')
