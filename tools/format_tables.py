"""The classes of windows with their options, and the words that stand in a world as numbers: the tables of docs/FORMAT.md,
docs/WIDGETS.md and docs/EVENTS.md, for what reads worlds and what writes them."""

ROOT, FRAME, LABEL, BUTTON, CHECKBUTTON, ENTRY, LISTBOX, TEXT = range(8)
CLASSES = 'root frame label button checkbutton entry listbox text'.split()
SIDES = 'top bottom left right'.split()
FILLS = 'none x y both'.split()
ANCHORS = 'center n ne e se s sw w nw'.split()

# Options with their values at first; `-variable` of a checkbutton is the last part of its path then.
COMMON = [('background', ''), ('foreground', ''), ('font', ''), ('relief', ''), ('borderwidth', '')]
AREA = [('width', '0'), ('height', '0')]
CAPTION = [('text', ''), ('textvariable', ''), ('width', '0'), ('anchor', 'center')]
INVOKED = CAPTION + [('command', ''), ('state', 'normal')]
# The options of each class behind the common ones; whether it takes the focus stands between.
OWN = {
    ROOT: ('0', AREA),
    FRAME: ('0', AREA),
    LABEL: ('0', CAPTION),
    BUTTON: ('1', INVOKED),
    CHECKBUTTON: ('1', INVOKED + [('variable', ''), ('onvalue', '1'), ('offvalue', '0')]),
    ENTRY: ('1', [('textvariable', ''), ('show', ''), ('width', '20'), ('state', 'normal')]),
    LISTBOX: ('1', [('width', '20'), ('height', '10'), ('state', 'normal'), ('selectmode', 'browse')]),
    TEXT: ('1', [('width', '80'), ('height', '24'), ('state', 'normal'), ('wrap', 'char')]),
}

KEY_DOWN, KEY_UP, DOWN, UP, FOCUS_IN, FOCUS_OUT, VIRTUAL = range(1, 8)
KINDS = [None, *'KeyPress KeyRelease ButtonPress ButtonRelease FocusIn FocusOut'.split()]
# The first names of the modifiers, by rising bit.
MODIFIERS = ('Shift Lock Control Mod1 Mod2 Mod3 Mod4 Mod5 Button1 Button2 Button3 Button4 Button5').split()
SHIFT, LOCK, CONTROL, BUTTON_1, BUTTON_3 = 1, 2, 4, 256, 1024
REPEATS = [None, '', 'Double-', 'Triple-', 'Quadruple-']
MODIFIER_KEYS = 'Shift_L Shift_R Control_L Control_R Alt_L Alt_R Caps_Lock'.split()
SIGNS = ('space exclam quotedbl numbersign dollar percent ampersand apostrophe parenleft parenright asterisk plus comma minus '
         'period slash colon semicolon less equal greater question at bracketleft backslash bracketright asciicircum '
         'underscore grave braceleft bar braceright asciitilde').split()
OTHER_KEYS = ('BackSpace Tab Return Escape Delete Home Left Up Right Down Prior Next End Insert F1 F2 F3 F4 F5 F6 F7 F8 F9 F10 '
              'F11 F12').split()
KEYSYMS = frozenset([*'abcdefghijklmnopqrstuvwxyzABCDEFGHIJKLMNOPQRSTUVWXYZ0123456789', *SIGNS, *OTHER_KEYS, *MODIFIER_KEYS])


def options_of(kind):
    """The options of a class with their values at first, in the order in which a world has them."""
    focus, own = OWN[kind]
    return COMMON + [('takefocus', focus)] + own
