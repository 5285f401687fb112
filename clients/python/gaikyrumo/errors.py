"""What the errors of scripts mean (docs/LANGUAGE.md has the table), and why an input was refused."""

ERRORS = {
    'E01': "a brace isn't closed",
    'E02': "a quote isn't closed",
    'E03': "a bracket isn't closed",
    'E04': 'text right behind a closing quote',
    'E05': 'text right behind a closing brace',
    'E06': 'an escape for a character that stands in no text',
    'E07': 'more than 32 brackets or parentheses open in one another',
    'E08': 'the brace or parenthesis of a variable is missing',
    'E09': 'no such command',
    'E10': 'a wrong number of words, or an unknown subcommand',
    'E11': 'no such variable',
    'E12': 'an array used as a scalar, or a scalar as an array',
    'E13': 'no integer, or no condition',
    'E14': 'an integer beyond 64 bits',
    'E15': 'a text that is no list',
    'E16': 'a division by 0',
    'E17': 'a bad name of a variable or a procedure',
    'E18': 'break or continue outside a loop',
    'E19': 'a bad index',
    'E20': 'a text that is no expression',
    'E30': 'a text that is no path',
    'E31': 'a window has this path already',
    'E32': 'no window has this path',
    'E33': 'not allowed on .',
    'E34': 'an unknown option',
    'E35': 'a value that the option may not have',
    'E36': 'no such mark',
    'E40': 'a text that is no sequence of events',
    'E41': 'a sequence of more than eight events',
    'E42': "an event that can't be generated so",
    'E45': 'no script of after waits under this id',
}

REFUSALS = {
    'budget': 'it takes more than 100,000 steps',
    'depth': 'it opens more than 64 scripts in one another',
    'large': 'a text or a list would be longer than is allowed',
    'memory': 'memory is wanting',
    'bad': 'there is no such key, button, cell, time or rules, rules would go back, or the script is too long',
    'clock': 'the time is before the present one',
    'pending': 'too much waits for a commit',
}


def error_in_words(text):
    """The text of an error with what it means; a text that no error of the language has stays as it is."""
    meaning = ERRORS.get(text[:3]) if text[3:4] in ('', ' ') else None
    return '%s (%s)' % (text, meaning) if meaning else text


def refusal_in_words(reason):
    """Why an input was refused, in plain words."""
    return REFUSALS.get(reason, reason)
