"""Sessions of `bind`, `bindtags` and `event generate` drawn at random, and what they answer by a plain search.

A session is a list of scripts. Each event that is generated answers what its scripts noted. The search is the definition
itself: it tries each event of the history for each pattern, and compares each two ways in which bindings are met.
"""
import proved  # It finds the client.
from gaikyrumo import run, with_commits

HISTORY = 32
FAULTS = 32
NEAR = 500
BITS = {'Shift': 1, 'Lock': 2, 'Control': 4, 'Mod1': 8, 'Mod4': 64, 'Button1': 256}
REPEATS = {1: None, 2: 'Double', 3: 'Triple'}
MODIFIERS = ['Control', 'Mod1', 'Mod4']
MODIFIER_KEYS = ['Shift_L', 'Control_R', 'Alt_L']
WINDOWS = ['.', '.a', '.b']
CLASSES = {'.': 'Tk', '.a': 'Frame', '.b': 'Frame'}
NAMES = ['U', 'V', 'W']


class Pattern:
    """One event that a sequence wants; `near` where a repeat word asks for it right behind the one before."""

    def __init__(self, kind, modifiers=(), detail=None, near=False):
        self.kind, self.modifiers, self.detail, self.near = kind, frozenset(modifiers), detail, near

    def key(self):
        return self.kind, self.modifiers, self.detail, self.near

    def fits(self, event):
        state = sum(BITS[name] for name in self.modifiers)
        return (self.kind == event.kind and self.detail in (None, event.detail) and event.state & state == state)


class Event:
    """An event that is delivered."""

    def __init__(self, kind, window, detail, state=0, time=0, place=(0, 0), data=''):
        self.kind, self.window, self.detail, self.state = kind, window, detail, state
        self.time, self.place, self.data = time, place, data

    def may_lie_before(self, later):
        """Whether it may lie between chosen events, of which `later` is the next."""
        if self.kind == 'KeyPress' and self.detail in MODIFIER_KEYS:
            return later.kind == 'KeyPress'
        return self.kind not in ('KeyPress', 'ButtonPress')

    def value(self, form):
        """What stands for a percent form."""
        key, button = self.kind.startswith('Key'), self.kind.startswith('Button')
        virtual = self.kind == 'Virtual'
        values = {'W': self.window}
        if key:
            values['K'] = self.detail
        if button:
            values['b'] = self.detail
        if virtual:
            values['d'] = self.data or '{}'
        if key or button or virtual:
            values.update(s=str(self.state), t=str(self.time))
        if button or virtual:
            values.update(X=str(self.place[0]), Y=str(self.place[1]))
        return values.get(form, '??')


def is_near(earlier, later):
    return 0 <= later.time - earlier.time <= NEAR and (
        not later.kind.startswith('Button') or earlier.place == later.place)


def occurs(sequence, history):
    """Whether a sequence ends with the last event of a history: its last pattern fits it, and the others end with one
    before, between which and the last nothing lies that may not."""
    last, before = history[-1], history[:-1]
    if not sequence[-1].fits(last):
        return False
    if len(sequence) == 1:
        return True
    while before:
        near = not sequence[-1].near or is_near(before[-1], last)
        if before[-1].window == last.window and near and occurs(sequence[:-1], before):
            return True
        if not before[-1].may_lie_before(last):
            return False
        before = before[:-1]
    return False


def beats(one, other):
    """Whether a way, a sequence and whether it is that of a virtual event, is more specific than another."""
    (first, virtual), (second, other_virtual) = one, other
    detailed = first[-1].detail is not None
    if detailed != (second[-1].detail is not None):
        return detailed
    if len(first) != len(second):
        return len(first) > len(second)
    for mine, its in zip(reversed(first), reversed(second)):
        if mine.modifiers != its.modifiers:
            return mine.modifiers > its.modifiers
    return [p.key() for p in first] == [p.key() for p in second] and other_virtual and not virtual


class Plain:
    """The bindings, tags and history of a session, as lists."""

    def __init__(self):
        self.bindings = []
        self.virtuals = {}
        self.history = []
        self.tags = {}
        self.faults = []
        self.noted = []
        self.count = 0

    def bind(self, tag, sequence, actions, append=False):
        """Binds a list of actions; an empty one takes the binding away."""
        key = [pattern.key() for pattern in sequence]
        old = [one for one in self.bindings if one['tag'] == tag and [p.key() for p in one['sequence']] == key]
        if not actions:
            self.bindings = [one for one in self.bindings if one not in old]
            return
        actions = (old[0]['actions'] if append and old else []) + actions
        self.count += 1
        if old:
            old[0].update(actions=actions, number=self.count)
        else:
            self.bindings.append({'tag': tag, 'sequence': sequence, 'actions': actions, 'number': self.count})

    def ways(self, binding, event):
        """The ways in which an event meets a binding."""
        first = binding['sequence'][0]
        if event.kind == 'Virtual':
            return [(binding['sequence'], False)] if first.kind == 'Virtual' and first.detail == event.detail else []
        if first.kind != 'Virtual':
            return [(binding['sequence'], False)] if occurs(binding['sequence'], self.history) else []
        return [(sequence, True) for sequence in self.virtuals.get(first.detail, []) if occurs(sequence, self.history)]

    def chosen(self, tag, event):
        """The actions of the binding of a tag that fires, if any does."""
        met = [(one, way) for one in self.bindings if one['tag'] == tag for way in self.ways(one, event)]
        best = [one for one, way in met if not any(beats(other, way) for _, other in met)]
        return list(max(best, key=lambda one: one['number'])['actions']) if best else None

    def tags_of(self, window):
        if self.tags.get(window):
            return self.tags[window]
        return [window, CLASSES[window]] + ['.'] * (window != '.') + ['all']

    def generate(self, event):
        """Delivers an event, and runs its scripts."""
        if event.kind.startswith('Key'):
            event.window = '.'
        if event.kind != 'Virtual':
            self.history = (self.history + [event])[-HISTORY:]
        scripts = [self.chosen(tag, event) for tag in self.tags_of(event.window)
                   if not tag.startswith('.') or tag in WINDOWS]
        for actions in scripts:
            if actions is not None and self.run(actions, event):
                return

    def run(self, actions, event):
        """Runs actions, and tells whether the event ends with them."""
        for action, *words in actions:
            if action == 'note':
                self.noted.append(words[0] + ''.join(':' + event.value(form) for form in words[1]))
            elif action == 'generate':
                self.generate(Event('Virtual', words[0], words[1]))
            elif action == 'unbind':
                self.bind(words[0], words[1], [])
            elif action == 'error':
                self.faults = (self.faults + [words[0]])[-FAULTS:]
                return True
            else:
                return action == 'break'
        return False


# ---- how they are spelled

def listed(texts):
    """The list of texts, as docs/LANGUAGE.md says: one with braces in it stands in braces."""
    return ' '.join('{%s}' % text if '{' in text else text for text in texts)


def spelled_pattern(pattern, times=1):
    if pattern.kind == 'Virtual':
        return '<<%s>>' % pattern.detail
    words = [REPEATS[times]] if times > 1 else []
    words += sorted(pattern.modifiers, key=lambda name: BITS[name]) + [pattern.kind]
    return '<%s>' % '-'.join(words + ([pattern.detail] if pattern.detail else []))


def spelled(sequence):
    """A sequence, with a repeat word for those that are near."""
    text, index = '', 0
    while index < len(sequence):
        times = 1
        while index + times < len(sequence) and sequence[index + times].near:
            times += 1
        text += spelled_pattern(sequence[index], times)
        index += times
    return text


def spelled_action(action, words):
    if action == 'note':
        return 'lappend r %s%s' % (words[0], ''.join(':%' + form for form in words[1]))
    if action == 'generate':
        return 'event generate %s <<%s>> -rootx 0 -rooty 0' % tuple(words)
    if action == 'unbind':
        return 'bind %s %s {}' % (words[0], spelled(words[1]))
    return ' '.join([action] + list(words))


def spelled_script(actions):
    return '; '.join(spelled_action(action, words) for action, *words in actions)


# ---- drawing

class Draw:
    """A session drawn at random, with the answers that the plain search gives.

    With `as_wish` just what this project and wish 8.6.13 rule alike, as tools/events_against_wish says."""

    def __init__(self, random, as_wish=False, virtuals=True):
        self.random, self.as_wish, self.virtuals = random, as_wish, virtuals
        self.plain = Plain()
        self.notes = 0
        self.time, self.place, self.window, self.playing = 1000, (0, 0), '.', []
        self.rows, self.only_clicks = [], False

    def one(self, *choices):
        return self.random.choice(choices)

    def modifiers(self):
        """Modifiers of a pattern; as wish does, only such that of two sets one has all of the other's."""
        if self.as_wish:
            return MODIFIERS[:self.one(0, 0, 0, 1, 2, 3)]
        return [name for name in MODIFIERS if self.random.random() < .3]

    def pattern(self):
        if self.only_clicks:
            return Pattern(self.one('ButtonPress', 'ButtonRelease'), detail=self.one('1', '2'))
        kind = self.one(*['KeyPress'] * 6, *['ButtonPress'] * 4, 'KeyRelease', 'ButtonRelease')
        detail = self.one('x', 'x', 'Home', None) if kind.startswith('Key') else self.one('1', '1', None)
        return Pattern(kind, self.modifiers(), detail)

    def sequence(self):
        """One to three patterns, some of them repeated; or one that is bound, with little changed."""
        if self.only_clicks:
            detail = self.one('1', '1', '2')
            return [Pattern('ButtonPress', detail=detail, near=place > 0) for place in range(self.one(1, 2, 3))]
        physical = [one['sequence'] for one in self.plain.bindings if one['sequence'][0].kind[:3] in ('Key', 'But')]
        if physical and self.random.random() < .75:
            return self.variant(self.one(*physical))
        found = []
        for _ in range(1 if self.as_wish else self.one(1, 1, 2, 2, 3)):
            pattern = self.pattern()
            found.append(pattern)
            again = 0 if self.as_wish else self.one(0, 0, 0, 0, 1, 2)
            found += [Pattern(pattern.kind, pattern.modifiers, pattern.detail, True)] * again
        return found[:5]

    def variant(self, sequence):
        """A sequence without its first pattern, with another in front, with other modifiers in one place, or without a detail. What
        is repeated is never cut: the rest of it would be spelled as the repetition of what stands in front."""
        place, change = self.random.randrange(len(sequence)), self.random.random()
        if change < .15 and len(sequence) > 1 and not sequence[1].near:
            return sequence[1:]
        old = sequence[place]
        if old.near or place + 1 < len(sequence) and sequence[place + 1].near:
            is_cut = len(sequence) > 4 and sequence[-4].near
            return sequence if self.as_wish or is_cut else [self.pattern()] + sequence[-4:]
        turned = set(self.random.sample(MODIFIERS, self.one(1, 2, 2)))
        other = self.modifiers() if self.as_wish else old.modifiers ^ turned
        changed = Pattern(old.kind, old.modifiers, None) if change > .8 else Pattern(old.kind, other, old.detail)
        return sequence[:place] + [changed] + sequence[place + 1:]

    def bound(self):
        """What is bound: a sequence, a virtual event, or a change of focus."""
        kind = self.random.random()
        if kind < .2:
            return [Pattern('Virtual', detail=self.one(*NAMES))]
        if kind < .25:
            return [Pattern(self.one('FocusIn', 'FocusOut'))]
        return self.sequence()

    def tag(self):
        return self.one(*['.'] * 8, '.a', 'Frame', 'all', 'all', *([] if self.only_clicks else ['mine']))

    def script(self, sequence):
        """Actions: a note, perhaps an event that is generated or a binding that is taken away, and how it ends."""
        self.notes += 1
        first = sequence[0]
        forms = self.one('', 'W', 'Ks', 'bW', 't', 'dWst', 'bXY')
        if self.as_wish and first.kind[:3] not in ('But', 'Vir'):
            forms = self.one('', 'W', 'W', 'K')
        actions = [['note', 'n%d' % self.notes, forms]]
        if self.only_clicks:
            return actions
        deeper = NAMES[NAMES.index(first.detail) + 1:] if first.kind == 'Virtual' else NAMES
        if deeper and self.random.random() < .15:
            actions.append(['generate', self.one(*WINDOWS), self.one(*deeper)])
        if self.plain.bindings and self.random.random() < .08:
            other = self.one(*self.plain.bindings)
            actions.append(['unbind', other['tag'], other['sequence']])
        end = self.random.random()
        if end < .3:
            last = ['break'] if self.as_wish else ['return']
            actions.append(self.one(['break'], ['continue'], ['error', 'boom%d' % self.notes], last))
        return actions

    def answer(self, line, text=''):
        self.rows.append((line, text))

    def bind(self):
        tag, sequence = self.tag(), self.bound()
        if self.plain.bindings and self.random.random() < .25:
            old = self.one(*self.plain.bindings)
            tag, sequence = old['tag'], old['sequence']
        if self.random.random() < .12:
            self.plain.bind(tag, sequence, [])
            self.answer('bind %s %s {}' % (tag, spelled(sequence)))
            return
        actions, append = self.script(sequence), self.random.random() < .2
        self.plain.bind(tag, sequence, actions, append)
        self.answer('bind %s %s {%s%s}' % (tag, spelled(sequence), '+' * append, spelled_script(actions)))

    def bindtags(self):
        window = self.one(*WINDOWS)
        tags = [self.one('.', '.', '.a', '.gone', 'Frame', 'all', 'mine') for _ in range(self.one(0, 0, 2, 3, 4))]
        self.plain.tags[window] = tags
        self.answer('bindtags %s {%s}' % (window, ' '.join(tags)))

    def change_virtual(self):
        name, sequence = self.one(*NAMES), self.sequence()
        physical = [one['sequence'] for one in self.plain.bindings if one['sequence'][0].kind[:3] in ('Key', 'But')]
        if physical and self.random.random() < .5:
            sequence = self.one(*physical)
        there = self.plain.virtuals.setdefault(name, [])
        keys = [[pattern.key() for pattern in one] for one in there]
        if there and self.random.random() < .3:
            gone = self.one(*there)
            there.remove(gone)
            self.answer('event delete <<%s>> %s' % (name, spelled(gone)))
            return
        if [pattern.key() for pattern in sequence] not in keys:
            there.append(sequence)
        self.answer('event add <<%s>> %s' % (name, spelled(sequence)))

    def query(self):
        """How many bindings a tag has; the first world has some of `all`."""
        tag = self.one('.', '.', '.a', 'Frame')
        self.answer('llength [bind %s]' % tag, str(sum(one['tag'] == tag for one in self.plain.bindings)))

    def wanted(self):
        """The next pattern of a sequence that is played, or any."""
        if not self.playing and self.random.random() < .85:
            sequences = [one['sequence'] for one in self.plain.bindings]
            sequences += [one for several in self.plain.virtuals.values() for one in several]
            physical = [one for one in sequences if one[0].kind not in ('Virtual', 'FocusIn', 'FocusOut')]
            self.playing = list(self.one(*physical)) if physical else []
            self.window = self.one(*WINDOWS) if self.random.random() < .4 else '.'
        noise = self.random.random()
        if noise < .12 and not self.only_clicks:
            return Pattern('KeyPress', detail=self.one(*MODIFIER_KEYS))
        if not self.playing or noise < .18:
            return self.pattern()
        return self.playing.pop(0)

    def wait(self):
        """So many keys that come up that what was typed before is just within the history, or just isn't."""
        count = self.one(28, 29, 30, 31)
        self.plain.noted = []
        for _ in range(count):
            self.plain.generate(Event('KeyRelease', '.', 'y', 0, self.time))
        self.answer('set r {}; for {set i 0} {$i < %d} {incr i} {event generate . <KeyRelease-y> -time %d}; set r'
                    % (count, self.time), listed(self.plain.noted))

    def event(self):
        """An event with its line; mostly one that a binding wants."""
        pattern = self.wanted()
        kind, detail = pattern.kind, pattern.detail
        held = self.one(.1, .8)
        modifiers = set(pattern.modifiers) | {name for name in MODIFIERS + ['Button1'] if self.random.random() < held}
        detail = detail or (self.one('x', 'Home', 'y') if kind.startswith('Key') else self.one('1', '2', '3'))
        back = [] if self.as_wish else [-100]
        self.time = max(0, self.time + self.one(0, 1, 100, 100, 100, 250, 300, 499, 500, 501, *back))
        self.place = self.one(self.place, self.place, self.place, (0, 0), (50, 0))
        window = self.window if self.random.random() < .9 else self.one(*WINDOWS)
        event = Event(kind, window, detail, sum(BITS[name] for name in modifiers), self.time, self.place)
        line = 'event generate %s %s -time %d' % (window, spelled_pattern(Pattern(kind, modifiers, detail)), self.time)
        if kind.startswith('Button'):
            line += ' -rootx %d -rooty %d' % self.place
        return event, line

    def generate(self):
        kind = self.random.random()
        if kind < .12:
            window, name = self.one(*WINDOWS), self.one(*NAMES)
            event = Event('Virtual', window, name, self.one(0, 4), self.time, (3, 4), self.one('d1', 'd2'))
            line = 'event generate %s <<%s>> -data %s -state %d -time %d -rootx 3 -rooty 4' % (
                window, name, event.data, event.state, event.time)
        elif kind < .16:
            window, name = self.one(*WINDOWS), self.one('FocusIn', 'FocusOut')
            event, line = Event(name, window, ''), 'event generate %s <%s>' % (window, name)
        else:
            event, line = self.event()
        self.plain.noted = []
        self.plain.generate(event)
        self.answer('set r {}; %s; set r' % line, listed(self.plain.noted))

    def clicks(self, events=40):
        """Scripts and answers: clicks, twice and three times, all bound before the first."""
        self.only_clicks = True
        self.answer('frame .a -width 2 -height 1; frame .b -width 2 -height 1; pack .a .b')
        for _ in range(10):
            self.bind()
        for _ in range(events):
            self.generate()
        return self.rows

    def crowd(self, most=200, events=20):
        """Scripts and answers: up to so many bindings, some of virtual events with sequences, all bound before the first
        event."""
        self.answer('frame .a -width 2 -height 1; frame .b -width 2 -height 1; pack .a .b')
        for _ in range(self.random.randint(1, most)):
            self.bind()
            if self.virtuals and self.random.random() < .05:
                self.change_virtual()
        for _ in range(events):
            self.generate()
        return self.rows

    def session(self, events=40):
        """Scripts and answers; the faults stand behind them in `plain.faults`."""
        self.answer('frame .a -width 2 -height 1; frame .b -width 2 -height 1; pack .a .b')
        for _ in range(16):
            self.bind()
        for _ in range(events):
            kind = self.random.random()
            if kind < .15:
                self.bind()
            elif kind < .18:
                self.bindtags()
            elif kind < .21:
                self.query()
            elif kind < .28 and self.virtuals:
                self.change_virtual()
            elif kind < .3 and not self.as_wish:
                self.wait()
            else:
                self.generate()
        return self.rows


def program_answers(program, scripts):
    """What the program answers to scripts: each a word and a text; and the faults behind them."""
    given = ''.join('cmd %s\n' % script for script in scripts) + 'faults\n'
    lines = [line.decode() for line in run(program, with_commits(given.encode()), seconds=600).answers()]
    if len(lines) <= len(scripts) or lines[-1] != 'end':
        raise SystemExit('the program answered %d lines to %d scripts' % (len(lines), len(scripts)))
    answers = [(line.split(' ', 2) + [''])[::2] for line in lines[:len(scripts)]]
    return [tuple(answer[:2]) for answer in answers], [line.partition(' ')[2] for line in lines[len(scripts):-1]]
