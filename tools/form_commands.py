"""The commands of a script, each with its place and its words, as docs/LANGUAGE.md says where they end.

It reads no further than that: what a command does, and what is wrong with its form, the program tells.
"""
import re
from typing import NamedTuple

NAME = re.compile(r'\w*', re.A)
BLANKS = re.compile(r'(?:[ \t]|\\\n)*')


class Command(NamedTuple):
    """A command: the places of its first character and of what stands behind it, and those of its words."""

    start: int
    end: int
    words: list


class Ended(Exception):
    """The text ended inside a word."""


def commands(text):
    """The commands of a script in their order; one that isn't closed goes to its end."""
    at = 0
    while True:
        at = next_start(text, at)
        if at == len(text):
            return
        words = []
        start = at
        try:
            at = words_end(text, at, words)
        except Ended:
            at = len(text)
        yield Command(start, at, words)


def next_start(text, at, closing=''):
    """Where the next command begins, behind blanks, separators and comments; a character of `closing` counts as one."""
    while at < len(text) and text[at] not in closing:
        if text[at] in ' \t\n;':
            at += 1
        elif text.startswith('\\\n', at):
            at += 2
        elif text[at] == '#':
            at = comment_end(text, at)
        else:
            break
    return at


def comment_end(text, at):
    while at < len(text) and text[at] != '\n':
        at += 2 if text[at] == '\\' else 1
    return min(at, len(text))


def words_end(text, at, words, closing=''):
    """Where a command ends that begins here; its words join `words`."""
    while at < len(text) and text[at] not in '\n;' + closing:
        end = word_end(text, at, closing)
        words.append((at, end))
        at = BLANKS.match(text, end).end()
    return at


def word_end(text, at, closing):
    if text.startswith('{*}', at) and text[at + 3:at + 4].strip(' \t\n;' + closing):
        at += 3
    if text[at] == '{':
        at = brace_end(text, at)
    elif text[at] == '"':
        at = quote_end(text, at)
    while at < len(text) and text[at] not in ' \t\n;' + closing and not text.startswith('\\\n', at):
        at = part_end(text, at)
    return at


def part_end(text, at):
    """Where a character, an escape, a variable or a script in brackets ends."""
    if text[at] == '\\':
        return min(at + 2, len(text))
    if text[at] == '[':
        return bracket_end(text, at)
    return variable_end(text, at) if text[at] == '$' else at + 1


def brace_end(text, at):
    depth = 0
    while at < len(text):
        depth += {'{': 1, '}': -1}.get(text[at], 0)
        at += 2 if text[at] == '\\' else 1
        if depth == 0:
            return at
    raise Ended


def quote_end(text, at):
    at += 1
    while at < len(text):
        if text[at] == '"':
            return at + 1
        at = part_end(text, at)
    raise Ended


def bracket_end(text, at):
    at += 1
    while True:
        at = next_start(text, at, ']')
        if at == len(text):
            raise Ended
        if text[at] == ']':
            return at + 1
        at = words_end(text, at, [], ']')


def variable_end(text, at):
    if text.startswith('${', at):
        end = text.find('}', at)
        return len(text) if end < 0 else end + 1
    end = NAME.match(text, at + 1).end()
    if end == at + 1 or not text.startswith('(', end):
        return end
    while end < len(text) and text[end] != ')':
        end = part_end(text, end)
    return end + 1
