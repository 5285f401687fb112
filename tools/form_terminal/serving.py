"""Takes what is typed and the clock to a session, and draws what comes of it."""
import collections
import time

from gaikyrumo import Ended, NotDone, refusal_in_words

from .blocked import Blocked
from .fault_list import FaultList
from .refused_turn import paths_in

# Seconds between two looks at the clock, and within which the rest of a key comes.
PAUSE, REST = 0.2, 0.05
# Turns that run before the screen is drawn, and inputs that may wait for a commit where nothing calls for one.
TURNS, WAITING = 200, 40
# What was typed and can't be given yet, at most.
MOST_TYPED = 5000
# Seconds before each start of a program that was killed or wanted memory. Before the last one what it had accepted and not
# kept is left out, in case that is what ends it.
DELAYS = (0, 1, 2, 4, 8)
# Seconds that what is told stays at the least.
TOLD = 3
# Why a key isn't taken now, and will be.
WAITS = {'large': '65,536 events wait already', 'memory': 'memory is wanting'}
ASCII = 'a form takes the letters, digits and signs of ASCII'


class Serving:
    """A form that is served in a terminal. What is shown was committed before, unless `at_pauses`: then commits wait until
    nothing is typed for a moment."""

    def __init__(self, session, form, display, keyboard, clock, log, hint='', focus='', at_pauses=False):
        """`hint` is told where nothing else is; `focus` is the path of the window with the focus, as far as it is known."""
        self.session, self.display, self.keyboard = session, display, keyboard
        self.clock, self.log, self.hint, self.at_pauses = clock, log, hint, at_pauses
        self.typed, self.waits = collections.deque(), []
        self.left, self.is_giving = collections.deque(), False
        self.told, self.told_until = hint, 0
        self.rows = [' ' * form.size[0]] * form.size[1]
        self.focus = focus
        self.blocked, self.faults = Blocked(session, paths_in(form.script), log), FaultList()
        self.starts = self.ends = 0
        self.is_over = self.puts_away = False

    # ---- the loop

    def run(self, first=()):
        """Serves until the terminal's own key, a signal, or the end of the terminal; what was typed then is kept. `first` are
        lines to give before what is typed. Raises the program's end where it can't be mended."""
        if first:
            self.typed.append(list(first))
        try:
            while not self.is_ended():
                self.go_on()
            self.finish()
        except Ended as fault:
            self.hold(fault)
            raise

    def finish(self):
        """Keeps what was typed last."""
        try:
            self.work()
        except Ended as fault:
            self.mend(fault)
            self.work()
        self.session.commit()

    def is_ended(self):
        """Whether the run is to end."""
        return self.is_over or self.display.ending.is_asked

    def go_on(self):
        """One round: what came is worked off and drawn, then a moment is waited for more."""
        try:
            self.work()
            self.draw()
        except Ended as fault:
            self.mend(fault)
        self.read(REST if self.keyboard.is_waiting() else PAUSE)

    def work(self):
        """Gives the clock and what was typed, runs what waits, and keeps it."""
        is_typed = bool(self.typed or self.left)
        self.give_left()
        if self.puts_away:
            self.puts_away = False
            self.put_away()
        self.session.clock(self.clock.now())
        self.give()
        has_run = self.drain()
        self.keep(is_typed, has_run)
        self.rows = self.screen()
        self.faults.there = self.session.faults()
        self.starts = self.ends = 0

    def give_left(self):
        """Gives again what the program had accepted and not kept, and keeps it, whatever comes of what is given next."""
        if not self.left:
            return
        while self.left:
            self.session.send(self.left[0])
            self.left.popleft()
        self.session.commit()

    # ---- what is typed

    def read(self, seconds):
        """Takes what is typed within so many seconds."""
        sent = self.display.typed(seconds)
        if sent is None:
            self.is_over = True
            return
        for typed in self.keyboard.read(sent, self.display.is_large_enough()):
            self.take(typed)

    def take(self, typed):
        """Takes one thing that was typed."""
        if typed.own == 'interrupt':
            self.is_over = True
        elif typed.own == 'away':
            self.puts_away = True
        elif typed.unknown:
            self.tell("%s can't be typed: %s." % (typed.unknown, ASCII))
        elif typed.lines and len(self.typed) >= MOST_TYPED:
            self.tell('Too much was typed that the form did not take: this key is not taken.')
        elif typed.lines:
            if time.monotonic() > self.told_until:
                self.told = self.hint
            self.typed.append(list(typed.lines))

    def tell(self, text):
        """Tells something below the form, with a sound; it stays until a key behind the next few seconds."""
        self.told, self.told_until = text, time.monotonic() + TOLD
        self.display.bell()

    def give(self):
        """Gives what was typed, as far as it is taken; the rest stays for the next round. Lines that belong together are
        kept together, so that no key stays held where the program is killed between them."""
        self.waits = []
        self.is_giving = True
        while self.typed:
            lines = self.typed[0]
            if not self.session.has_room(len(lines)):
                self.session.commit()
            while lines:
                answer = self.session.line(lines[0])
                if answer.kind == 'refused' and answer.text in WAITS:
                    self.waits = ['What was typed waits: %s.' % WAITS[answer.text]]
                    self.is_giving = False
                    return
                if not answer.is_accepted:
                    self.tell('%s: %s.' % (lines[0], refusal_in_words(answer.text)))
                lines.pop(0)
            self.typed.popleft()
        self.is_giving = False

    # ---- turns

    def drain(self):
        """Runs what waits; gives whether something ran."""
        answers = self.session.drain(TURNS)
        for answer in answers:
            if answer.text.startswith('event FocusIn '):
                self.focus = answer.text.split(' ')[2]
        is_refused = bool(answers) and answers[-1].is_refused()
        if self.blocked.note(answers[-1].text if is_refused else ''):
            self.display.bell()
        return len(answers) > is_refused

    def put_away(self):
        """Leaves out the turn that is refused; where none is, takes away the faults that are told, and else what is told."""
        if self.blocked.is_known():
            self.tell('Left out: %s.' % self.blocked.leave_out())
        elif self.faults.new():
            self.faults.put_away()
        else:
            self.told = self.hint

    # ---- what is kept and shown

    def keep(self, is_typed, has_run):
        """Commits what is about to be shown; with `at_pauses` what was shown, once nothing is typed."""
        waiting = self.session.waiting
        if self.at_pauses:
            is_due = not is_typed and any(not request.startswith('clock ') for request in waiting)
        else:
            is_due = bool(waiting) and (is_typed or has_run)
        if (is_due or len(waiting) > WAITING) and self.session.keep():
            self.log.say('a checkpoint of %d inputs' % self.session.acknowledged)

    def screen(self):
        """The rows of the form, as they were where memory for them is wanting."""
        try:
            return self.session.screen()
        except NotDone as fault:
            self.told = str(fault)
            return self.rows

    def draw(self):
        """Draws the form, and what there is to tell."""
        told = [self.told] + self.waits + self.blocked.told() + self.faults.told()
        self.display.draw(self.rows, told, self.focus)

    # ---- a program that ended

    def mend(self, fault):
        """Starts the program again where it was killed or wanted memory; else raises its end."""
        if not fault.may_start_again or self.starts == len(DELAYS):
            raise fault
        self.log.say('%s Starting it again.' % fault)
        self.draw_alone('%s It is started again.' % fault)
        self.wait(DELAYS[self.starts])
        self.starts += 1
        if self.is_ended() and self.starts > 1:
            raise fault
        try:
            rest = self.session.start_again()
        except Ended as again:
            return self.mend(again)
        self.blocked.forget()
        self.send_again(rest)

    def send_again(self, rest):
        """Has what the program had accepted and not kept sent again. Where it ended each time over that, or over the key that
        was given, this is left out."""
        self.left.extendleft(reversed(rest))
        self.ends += 1
        if self.ends < len(DELAYS):
            return
        if self.is_giving and self.typed:
            self.left.extend(self.typed.popleft())
        if self.left:
            self.tell('The program ended %d times over the last %d lines: they were left out.' % (self.ends, len(self.left)))
            self.log.say(self.told)
            self.left.clear()

    def wait(self, seconds):
        """Waits; what is typed meanwhile is taken later."""
        while seconds > 0 and not self.is_ended():
            self.read(PAUSE)
            seconds -= PAUSE

    def draw_alone(self, text):
        """Draws the form as it was, and one thing that is told."""
        self.display.draw(self.rows, [text], self.focus)

    def hold(self, fault):
        """Where the program ended for good: says so, and takes no keys, until the terminal's own key or a signal."""
        self.log.say(str(fault))
        while not self.is_ended():
            self.draw_alone('%s Nothing that is typed now is taken.' % fault)
            sent = self.display.typed(PAUSE)
            if sent is None:
                return
            for typed in self.keyboard.read(sent, False):
                if typed.own == 'interrupt':
                    return
                self.display.bell()
