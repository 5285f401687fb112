#!/usr/bin/env python3
"""Rows of bindings and events drawn at random: `python3 tools/rows/choices.py BASE [SESSIONS [SEED]]` writes BASE.in and
BASE.out for crates/rows. What fires is found by the plain search of tools/event_sessions.py, not by the program.
"""
import os
import random
import sys

sys.path.insert(0, os.path.dirname(os.path.dirname(os.path.realpath(__file__))))

from event_sessions import Draw

TITLE = 'Bindings: which of them fire, by the plain search of tools/rows/choices.py'


def main():
    count = int(sys.argv[2]) if len(sys.argv) > 2 else 10
    drawn = random.Random(int(sys.argv[3]) if len(sys.argv) > 3 else 1)
    lines, answers = [], []
    for _ in range(count):
        draw = Draw(drawn)
        rows = draw.session()
        lines += ['== 20 3 ' + TITLE] + ['cmd ' + script for script, _ in rows] + ['faults']
        answers += ['== 20 3 ' + TITLE] + [('ok %d %s' % row).rstrip() for row in enumerate((text for _, text in rows), 1)]
        answers += ['fault ' + text for text in draw.plain.faults] + ['end']
    for name, text in (('in', lines), ('out', answers)):
        with open('%s.%s' % (sys.argv[1], name), 'w') as file:
            file.write('\n'.join(text) + '\n')


main()
