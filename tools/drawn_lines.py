"""Lines of the program drawn at random: words of the language, keys and buttons, times, rules, scripts behind their length, and what is
no line at all."""
from format_tables import KEYSYMS

WIDTH, HEIGHT = 20, 3
MOST_LINE, MOST_LOAD = 65_600, 1_048_576
COMMANDS = ('set unset incr append lappend list llength lindex lrange lsearch concat join split string expr if while for '
            'foreach break continue return error catch proc global eval info frame label button checkbutton entry listbox '
            'text destroy focus tk_focusNext tk_focusPrev pack bind bindtags event after app.next app.swap .a .b .e .l .t '
            '.a.c p q update nosuch').split()
WORDS = ('a b x y(1) y $a $x $y(1) ${x} 0 1 2 -1 08 '
         '0x1f 99 100 9223372036854775807 -9223372036854775808 end end-1 insert 1.0 1.end -exact -text -width -height '
         '-side left -fill both -textvariable -variable -command -expand -padx -state disabled normal -when tail head '
         'mark -data -time -x configure cget get insert delete index curselection selection activate names tag add '
         'remove ranges mark invoke toggle slaves propagate forget generate info exists cancel idle length range equal '
         'else elseif idletasks . .a .b .e .l .t .a.c .a.c.d .L all Entry <Key-a> <1> <Double-1> <<V>> <<V> <Control-x> %W %x %% '
         '{*}$a {*} # ; ; ; ; \\n \\x41 \\ { } [ ] " $ ( ) + * / < ? && || == eq ! ~').split()
WORDS += ['[set a]', '[incr x]', '{a b}', '{set a 1}', '{incr x}', '{$a < 9}', '"a b"', '"x $a"', '{incr n; lappend r $n}',
          '{event generate . <<V>>}', '{while 1 {}}', '{error boom}', '[list a {b c}]', '{p $a}', '{incr x; $w}', '{p}']
WHOLE = [
    'set a 1; set x 2; set y(1) 3', 'label .a -text $a -width 4; pack .a', 'entry .e -textvariable x; pack .e; focus .e',
    'button .b -text go -command {incr n}; pack .b -side left', 'checkbutton .a.c -variable on; pack .a.c', '.b invoke',
    'listbox .l -height 2; .l insert end a b c; pack .l', 'text .t -height 2; .t insert end "a\\nb"; pack .t -fill both',
    'destroy .a .e .b .l .t', 'bind . <<V>> {lappend r %d; error %W}', 'bind . <Key> {incr n}', 'bind .e <1> {after 0 {p}}',
    'event generate . <<V>> -when tail -data {a b}', 'event generate . <<V>>', 'after 5 {incr n}', 'after idle {error idle}',
    'proc p {{u 1} args} {global n; incr n; return $u}', 'proc p {} {p}', 'p', 'bind . <<V>> {event generate . <<V>>}',
    'foreach i {1 2 3} {append s $i}; set s', 'for {set i 0} {$i < 99} {incr i} {lappend k $i}; llength $k', 'while 1 {}',
    'while 1 {append s $s$s}', 'append s 0123456789abcdef0123456789abcdef; string length $s', 'unset s',
    'catch {expr {1 / 0}} m', 'expr {$a * (3 - 1) + [llength {a b}]}', 'app.next', 'app.swap [app.next]', 'focus .l',
    'bindtags .e {.e all}', 'error "a\\tb"', 'update', 'update idletasks', 'after idle {incr n}; update; set n',
    'after idle {update; error idle}',
]
NUMBERS = ('0 1 2 3 4 5 7 9 10 19 20 63 64 99 100 255 256 1000 65535 65536 70000 007 000000000000000000000 0x10 1e3 -1 +1 1.5 '
           '4611686018427387903 4611686018427387904 9223372036854775807 18446744073709551616 9999999999999999999 '
           '10000000000000000000 10001 10000').split() + ['', ' ', '1 ', ' 1', '1  1', '1\t']
NAMES = sorted(KEYSYMS) + ['nosuch', 'aa', '', ' ', 'a b', 'shift_l', '\t', 'é', '<a>']
PLAIN = ['screen', 'faults', 'commit', 'commit', 'commit', 'checkpoint', 'turn', 'turn', 'quit ', 'Commit', 'turn 1',
         'screen x']


class Lines:
    """Lines at random."""

    def __init__(self, draws):
        self.draws = draws
        self.clock = 0

    def script(self):
        draws = self.draws
        parts = [draws.choice(COMMANDS)]
        for _ in range(int(draws.expovariate(0.25)) + 1):
            parts.append(draws.choice(WORDS))
            if parts[-1] == ';':
                parts.append(draws.choice(COMMANDS))
        return (' ' if draws.random() < 0.97 else '').join(parts)

    def command(self):
        return 'cmd ' + (self.draws.choice(WHOLE) if self.draws.random() < 0.4 else self.script())

    def key(self):
        return '%s %s' % (self.draws.choice(['key', 'keyup']), self.draws.choice(NAMES))

    def button(self):
        draws = self.draws
        fits = [draws.randint(0, 6), draws.randint(0, WIDTH), draws.randint(0, HEIGHT)]
        return ' '.join([draws.choice(['press', 'release'])] +
                        [str(fit) if draws.random() < 0.9 else draws.choice(NUMBERS) for fit in fits])

    def time(self):
        draws = self.draws
        if draws.random() < 0.2:
            number = draws.choice(NUMBERS)
            # The last of these times would leave no later one.
            return 'clock ' + (number if len(number) < 12 or draws.random() < 0.02 else '12')
        self.clock += draws.randint(-5, 50)
        return 'clock %d' % self.clock

    def rules(self):
        return 'rules ' + self.draws.choice(['1', '1', '2', *NUMBERS])

    def drain(self):
        return 'drain ' + self.draws.choice(NUMBERS)

    def plain(self):
        return self.draws.choice(PLAIN)

    def load(self):
        """A script behind its length, which is right, or not by a little, or any other."""
        draws = self.draws
        script = '\n'.join(self.script() for _ in range(draws.randint(0, 3)))
        if draws.random() < 0.05:
            script += draws.choice(['\x80', '\0', '\r'])
        length = str(len(script) + draws.choice([0, 0, 0, 0, 0, 0, -1, 1, 5]))
        if draws.random() < 0.3:
            length = draws.choice(NUMBERS)
            if length.isdigit() and 1000 < int(length) <= MOST_LOAD and draws.random() < 0.98:
                length = '20'
        return 'load %s\n%s' % (length, script)

    def noise(self):
        draws = self.draws
        return ''.join(map(chr, draws.choices(range(256) if draws.random() < 0.5 else range(32, 127), k=draws.randint(0, 80))))

    def overlong(self):
        draws = self.draws
        size = draws.choice([MOST_LINE - 1, MOST_LINE, MOST_LINE + 1, 70_000, 300_000])
        start = draws.choice(['cmd #', 'cmd set a ', 'key ', '', 'cmd append s '])
        return start + 'x' * (size - len(start))

    def any(self):
        draws = self.draws
        if draws.random() < 0.0005:
            return self.overlong()
        kinds = [self.command, self.key, self.button, self.time, self.rules, self.drain, self.plain, self.load, self.noise]
        line = draws.choices(kinds, [40, 8, 6, 5, 1, 3, 12, 14, 8])[0]()
        if draws.random() < 0.08:
            at = draws.randint(0, len(line))
            line = line[at:] if draws.random() < 0.3 else line[:at]
        return line
