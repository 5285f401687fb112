"""Which procedures of a form an error came through, and on which lines: the form is loaded again with procedures that note it."""
from form_commands import commands

# The variable in which they note it, and what stands behind the name of a procedure's own body.
NOTES, BODY = 'Check_form', '__checked'

WRAPPER = '''proc %(name)s args {
    global Check_form
    set before $Check_form(depth)
    set depth [expr {$before + 1}]
    set Check_form(depth) $depth
    set code [catch {%(name)s__checked {*}$args} result]
    set Check_form(depth) $before
    if {$code == 0} {return $result}
    if {$Check_form(failed) != $depth + 1} {set Check_form(trace) {}}
    set Check_form(failed) $depth
    set Check_form(trace) [concat [list [list %(name)s $Check_form($depth)]] $Check_form(trace)]
    error $result
}
'''
FIRST = 'set Check_form(depth) 0; set Check_form(failed) 0; set Check_form(trace) {}'


def noting(text):
    """A form as scripts that note where they are; a procedure with a literal body becomes two."""
    return [one for command in commands(text) for one in noted(text, command)]


def noted(text, command):
    """A command of a form as scripts to run."""
    words = [text[start:end] for start, end in command.words]
    if len(words) != 4 or words[0] != 'proc' or not is_plain(words[1]) or not is_braced(words[3]):
        return [marked(text[command.start:command.end], command.start)]
    body = 'global %s\n%s' % (NOTES, marked(words[3][1:-1], command.words[3][0] + 1))
    return ['proc %s %s {%s}' % (words[1] + BODY, words[2], body), WRAPPER % {'name': words[1]}]


def is_plain(name):
    return name.replace('_', '').isalnum() and name.isascii()


def is_braced(word):
    return word[:1] == '{' and word[-1:] == '}' and len(word) > 1


def marked(script, offset):
    """A script that notes the place of each command before it runs, also in bodies; `offset` is its own place."""
    return '\n'.join('set %s($%s(depth)) %d; set %s(failed) 0\n%s' % (
        NOTES, NOTES, offset + command.start, NOTES, with_bodies(script, command, offset)) for command in commands(script))


def with_bodies(script, command, offset):
    """A command whose bodies are marked."""
    words = [script[start:end] for start, end in command.words]
    found, at = '', command.start
    for number in bodies(words):
        start, end = command.words[number]
        if is_braced(words[number]):
            found += script[at:start] + '{%s}' % marked(script[start + 1:end - 1], offset + start + 1)
            at = end
    return found + script[at:command.end]


def bodies(words):
    """Which words of a command are bodies that it runs."""
    if words[:1] == ['if']:
        return [at for at in range(2, len(words)) if words[at] not in ('then', 'else', 'elseif') and words[at - 1] != 'elseif']
    places = {'while': 2, 'foreach': 3, 'for': 4, 'catch': 1}
    place = places.get(words[0]) if words else None
    return [place] if place is not None and place < len(words) else []


def trace(session, text, failing, wanted):
    """Where the error of a command arose: the place of the command in the form, and the names of the procedures that it came
    through with the places there, the outermost first. None where the error isn't the same; `session` is one on a store of
    its own."""
    session.script(FIRST)
    for one in noting(text[:failing.start]):
        if session.script(one).kind != 'ok':
            return None
    answer = session.script(marked(text[failing.start:failing.end], failing.start))
    if answer.text.replace(BODY, '') != wanted:
        return None
    place = int(session.script('set %s(0)' % NOTES).text)
    return place, [(name, int(place)) for name, place in pairs(session.script('set %s(trace)' % NOTES).text)]


def pairs(listed):
    """The members of a list of names with numbers."""
    return [one.strip(' {').split(' ') for one in listed.split('}') if one.strip()]
