"""The program's answers as data (docs/PROGRAM.md has them as lines)."""
import re
from typing import NamedTuple

ESCAPES = {'\\\\': '\\', '\\n': '\n', '\\t': '\t'}
NUMBERED = ('ok', 'error', 'committed', 'checkpointed', 'drained')


class Answer(NamedTuple):
    """One line of an answer.

    `kind` is its first word, or `row`; `number` is the number behind it, of the input or of how many, else 0; `text` is
    the rest: the result, the error, the reason of a refusal, the name or text of a fault, the characters of a row.
    """

    kind: str
    number: int = 0
    text: str = ''

    @property
    def is_accepted(self):
        """Whether this tells that an input was accepted: a script that ended in an error was."""
        return self.kind in ('ok', 'error')

    def is_refused(self, reason=None):
        """Whether this tells of a refusal, or of one for this reason."""
        return self.kind == 'refused' and reason in (None, self.text)

    def __str__(self):
        return ' '.join(filter(None, [self.kind, str(self.number) if self.kind in NUMBERED else '', self.text]))


def read(line):
    """The answer that a line tells, without its newline."""
    if line.startswith('|'):
        return Answer('row', 0, line[1:-1])
    kind, _, rest = line.partition(' ')
    if kind not in NUMBERED:
        return Answer(kind, 0, unescaped(rest))
    number, _, text = rest.partition(' ')
    return Answer(kind, int(number), unescaped(text))


def unescaped(text):
    """The text that is spelled with a backslash before a backslash, `n` for a newline and `t` for a tab."""
    return re.sub(r'\\[\\nt]', lambda found: ESCAPES[found[0]], text)


def is_last(request, answers, rows):
    """Whether no answer to a request follows these; `rows` is the height of the grid."""
    word = request.split(None, 1)[0] if request.strip() else ''
    last = answers[-1]
    if word == 'screen':
        return last.kind != 'row' or len(answers) == rows
    if word == 'faults':
        return last.kind == 'end'
    if word == 'drain':
        return last.kind in ('drained', 'bad')
    return True
