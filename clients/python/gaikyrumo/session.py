"""A session that is asked line by line."""
import subprocess
import tempfile

from .answers import is_last, read
from .faults import MEANINGS, Ended, Fault, NotDone, SessionFault, StoreChanged, Unstartable
from .growth import Growth
from .start import start

# So many inputs may wait for a commit, and so many turns may be asked for at once.
ROOM = 256
MOST_TURNS = 10_000
MOST_LOADED = 1_048_576
# What of the standard error of a program that ended is told: its last characters.
SAID = 300
# Seconds that it is waited for a program to end by the end of its input.
PATIENCE = 5


class Session:
    """A run of the program on a store, which has the store's lock as long as the program runs.

    `size` is the grid's columns and rows. Each call writes a line and reads its answers. Where 256 inputs wait, a call that
    gives one more commits them and sends it again. A call on a program that has ended raises Ended, or SessionFault
    where it wrote what had failed; `start_again` goes on from the store.

    `acknowledged` is how many inputs stand on the disk, `waiting` the requests that were accepted since, in their order.
    """

    def __init__(self, program, store, size=(40, 12), environment=None):
        """Starts the program; raises StoreInUse, StoreUnreachable, Unstartable, Ended or SessionFault."""
        self.program, self.store, self.size, self.environment = program, str(store), size, environment
        self.process = None
        self.acknowledged = 0
        self.open()

    def __enter__(self):
        return self

    def __exit__(self, *_):
        self.close()

    # ---- the program

    def open(self):
        """Starts the program, and asks how many inputs the store holds."""
        self.errors = tempfile.TemporaryFile()
        self.growth, self.waiting, self.last = Growth(self.store), [], ''
        try:
            self.process = start(self.program, self.store, self.size, stdin=subprocess.PIPE, stdout=subprocess.PIPE,
                                 stderr=self.errors, env=self.environment)
            self.commit()
        except Fault:
            self.close()
            raise

    def start_again(self):
        """Starts the program anew, and gives the requests that it had accepted and the store has not kept, in their order:
        they may be sent again. Where it ends at once, the next call gives them.
        """
        before, waiting = self.acknowledged, self.waiting
        self.close()
        try:
            self.open()
        except Fault:
            self.acknowledged, self.waiting = before, waiting
            raise
        if self.acknowledged < before:
            raise StoreChanged('The store %s holds %d inputs, and had acknowledged %d. Something else changed its files.'
                               % (self.store, self.acknowledged, before))
        return waiting[self.acknowledged - before:]

    def close(self):
        """Ends the program, without a commit, by the end of its input; one that goes on for 5 seconds is killed. Gives its
        status; None where it was closed before."""
        if self.process is None:
            self.errors.close()
            return None
        process, self.process = self.process, None
        for stream in (process.stdin, process.stdout):
            try:
                stream.close()
            except OSError:
                pass  # What was not written yet is lost with the program.
        try:
            process.wait(PATIENCE)
        except subprocess.TimeoutExpired:
            process.kill()
        self.errors.close()
        return process.wait()

    def ended(self):
        """What the end of the program tells, as an exception."""
        code = self.process.wait()
        self.errors.seek(0)
        said = ' '.join(self.errors.read().decode(errors='replace').split())[-SAID:]
        word, _, name = self.last.partition(' ')
        return SessionFault(name, code, said) if word == 'fault' and name in MEANINGS else Ended(code, said)

    # ---- requests and answers

    def ask(self, request):
        """Writes a request, a line or a `load` with its script, and gives all its answers."""
        if self.process is None:
            raise ValueError('the session was closed')
        try:
            self.process.stdin.write(request.encode() + b'\n')
            self.process.stdin.flush()
        except OSError:
            pass  # It has ended: what it wrote before is still read.
        answers = []
        while not answers or not is_last(request, answers, self.size[1]):
            answers.append(self.answer())
        self.note(request, answers)
        return answers

    def answer(self):
        """The next line of the program's output."""
        line = self.process.stdout.readline()
        if not line.endswith(b'\n'):
            raise self.ended()
        self.last = line[:-1].decode(errors='replace')
        return read(self.last)

    def note(self, request, answers):
        """Keeps count of what waits and what stands."""
        is_drain = request.startswith('drain ')
        self.waiting += ['turn' if is_drain else request for answer in answers if answer.is_accepted]
        for answer in answers:
            if answer.kind in ('committed', 'checkpointed'):
                self.acknowledged, self.waiting = answer.number, []

    def send(self, request):
        """Gives an input; where no more may wait, what waits is committed, and the input sent again. Gives its answer."""
        answer = self.ask(request)[0]
        if answer.is_refused('pending'):
            self.commit()
            answer = self.ask(request)[0]
        return answer

    def line(self, line):
        """Gives an input that is a line, such as `key a`. Raises ValueError where it is more than one, or a `load`."""
        if '\n' in line or line.startswith('load '):
            raise ValueError('a script with newlines is for `script`')
        return self.send(line)

    def script(self, script):
        """Runs a script, of one line or of several, as one input. Raises ValueError where it has over 1,048,576 bytes."""
        length = len(script.encode())
        if length > MOST_LOADED:
            raise ValueError('a script has %d bytes at most' % MOST_LOADED)
        return self.send('load %d\n%s' % (length, script))

    def clock(self, milliseconds):
        """Sets the clock; the answer is refused where the session's clock is later."""
        return self.line('clock %d' % milliseconds)

    def turn(self):
        """Runs one thing that waits."""
        return self.line('turn')

    def drain(self, turns=MOST_TURNS):
        """Runs what waits, up to so many turns: an answer for each turn, and behind them the refusal that ended them, if
        one did other than for what waits for a commit."""
        ran = []
        while len(ran) < turns:
            answers = self.ask('drain %d' % min(turns - len(ran), MOST_TURNS))[:-1]
            is_full = bool(answers) and answers[-1].is_refused('pending')
            ran += answers[:-1] if is_full else answers
            if not is_full:
                break
            self.commit()
        return ran

    def screen(self):
        """The rows of the grid; raises NotDone where memory for them is wanting."""
        answers = self.ask('screen')
        if answers[0].kind != 'row':
            raise NotDone('screen', answers[0].text)
        return [answer.text for answer in answers]

    def faults(self):
        """The errors of scripts that ran by themselves, the last 32, the oldest first."""
        return [answer.text for answer in self.ask('faults')[:-1]]

    def commit(self):
        """Puts what was accepted on the disk; gives how many inputs stand there."""
        return self.kept('commit', 'committed')

    def checkpoint(self):
        """Puts the whole state on the disk; gives how many inputs stand there. Raises NotDone where it can't be made."""
        return self.kept('checkpoint', 'checkpointed')

    def kept(self, request, kind):
        """The number in the answer to a commit or a checkpoint; raises NotDone, or the end of the program."""
        answer = self.ask(request)[0]
        if answer.kind == kind:
            return answer.number
        if request == 'checkpoint' and answer.text in ('memory', 'large'):
            raise NotDone('checkpoint', answer.text)
        if answer.kind == 'fault':
            raise self.ended()
        raise Unstartable('%s answers "%s" to the line %s: it is another program.' % (self.program, answer, request))

    def keep(self):
        """Commits, and makes a checkpoint where the store has grown so far that one is due. Gives whether it made one."""
        self.commit()
        if not self.growth.is_due():
            return False
        try:
            self.checkpoint()
        except NotDone:
            self.growth.put_off()
            return False
        return True

    def has_room(self, inputs):
        """Whether so many inputs more may wait for a commit, by their number."""
        return len(self.waiting) + inputs <= ROOM
