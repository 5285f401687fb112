# Makes rows of crates/rows_parts: `xvfb-run -a wish8.6 tools/rows/events.tcl FOLDER` writes FOLDER/stdin and
# FOLDER/stdout.
#
# What a text spells is asked of wish 8.6.13: `bind . TEXT x; bind .`. Its answer is then put into this project's
# spelling, which differs from wish's in this: a character is spelled with brackets, `KeyPress` and `ButtonPress` in
# full, modifiers by rising bit by their first names behind the repeat word. Rows that this project alone rules, where
# wish takes more, are in the lists `own` and `long`.
wm withdraw .
set folder [lindex $argv 0]
set bits {Shift 1 Lock 2 Control 4 Mod1 8 Mod2 16 Mod3 32 Mod4 64 Mod5 128 Button1 256 Button2 512 Button3 1024 Button4 2048 Button5 4096}
set first {Alt Mod1 M1 Mod1 M2 Mod2 M3 Mod3 M4 Mod4 M5 Mod5 B1 Button1 B2 Button2 B3 Button3 B4 Button4 B5 Button5}
set types {Key KeyPress KeyPress KeyPress KeyRelease KeyRelease Button ButtonPress ButtonPress ButtonPress ButtonRelease ButtonRelease FocusIn FocusIn FocusOut FocusOut}
set times {Double 2 Triple 3 Quadruple 4}
# The signs, as keysyms(n) has them.
set signs {space 32 exclam 33 quotedbl 34 numbersign 35 dollar 36 percent 37 ampersand 38 apostrophe 39 parenleft 40
    parenright 41 asterisk 42 plus 43 comma 44 minus 45 period 46 slash 47 colon 58 semicolon 59 less 60 equal 61
    greater 62 question 63 at 64 bracketleft 91 backslash 92 bracketright 93 asciicircum 94 underscore 95 grave 96
    braceleft 123 bar 124 braceright 125 asciitilde 126}
set others {BackSpace Tab Return Escape Delete Home Left Up Right Down Prior Next End Insert F1 F2 F3 F4 F5 F6 F7 F8 F9
    F10 F11 F12 Shift_L Shift_R Control_L Control_R Alt_L Alt_R Caps_Lock}
foreach {name code} $signs {set name_of([format %c $code]) $name}

# The keysym of a character.
proc keysym {character} {
    global name_of
    expr {[info exists name_of($character)] ? $name_of($character) : $character}
}

# The events of wish's spelling: a list of times, modifiers by rising bit, type, detail; or a name alone.
proc events {spelling} {
    global bits first types times
    set events {}
    while {$spelling ne ""} {
        if {[string match "<<*" $spelling]} {
            return [list [list virtual [string range $spelling 2 end-2]]]
        }
        if {[string index $spelling 0] ne "<"} {
            lappend events [list 1 {} KeyPress [keysym [string index $spelling 0]]]
            set spelling [string range $spelling 1 end]
            continue
        }
        set close [string first > $spelling 1]
        set count 1
        set held {}
        set type ""
        set detail ""
        foreach word [split [string range $spelling 1 $close-1] -] {
            if {[dict exists $times $word]} {
                set count [dict get $times $word]
            } elseif {$type eq "" && [dict exists $first $word]} {
                lappend held [dict get $first $word]
            } elseif {$type eq "" && [dict exists $bits $word]} {
                lappend held $word
            } elseif {$type eq ""} {
                set type [dict get $types $word]
            } else {
                set detail $word
            }
        }
        set sorted {}
        dict for {name bit} $bits {if {$name in $held} {lappend sorted $name}}
        lappend events [list $count $sorted $type $detail]
        set spelling [string range $spelling $close+1 end]
    }
    return $events
}

# This project's spelling.
proc spelled {events} {
    set text ""
    foreach event $events {
        if {[lindex $event 0] eq "virtual"} {return "<<[lindex $event 1]>>"}
        lassign $event count held type detail
        set words [lindex {{} {} Double Triple Quadruple} $count]
        lappend words {*}$held $type
        if {$detail ne ""} {lappend words $detail}
        append text "<[join $words -]>"
    }
    return $text
}

proc asked {text} {
    if {[catch {bind . $text x} told]} {return ""}
    set spelling [lindex [bind .] 0]
    bind . $text {}
    return $spelling
}

proc error_of {number text} {
    return "E$number [string range $text 0 63]"
}

set in {}
set out {}
proc row {question answer} {
    lappend ::in $question
    lappend ::out $answer
}

proc row_of_sequence {text} {
    global in out
    set spelling [asked $text]
    if {$spelling eq ""} {
        row "bind $text" [error_of 40 $text]
        return
    }
    set events [events $spelling]
    set count 0
    foreach event $events {incr count [expr {[lindex $event 0] eq "virtual" ? 1 : [lindex $event 0]}]}
    row "bind $text" [expr {$count > 8 ? [error_of 41 $text] : [spelled $events]}]
}

proc row_of_pattern {text} {
    global bits
    set spelling [asked $text]
    set events [events $spelling]
    if {$spelling eq "" || [llength $events] != 1} {
        row "generate $text" [error_of 40 $text]
        return
    }
    lassign [lindex $events 0] count held type detail
    if {$count eq "virtual"} {
        row "generate $text" "1 Virtual 0 $held"
        return
    }
    set state 0
    foreach name $held {incr state [dict get $bits $name]}
    row "generate $text" "$count $type $state $detail"
}

# Keysyms.
foreach character [split abcdefghijklmnopqrstuvwxyzABCDEFGHIJKLMNOPQRSTUVWXYZ0123456789 {}] {
    row "key $character" [scan $character %c]
}
foreach {name code} $signs {row "key $name" $code}
foreach name $others {row "key $name" none}
foreach name {nosuch KP_Enter Space F13 F0 ab ! spac spaces Shift Meta_L 10 escape XF86Back} {row "key $name" "no keysym"}

# Each keysym as a detail, with and without a type; each character bare.
foreach name [concat [dict keys $signs] $others a Z 0 6 9] {row_of_sequence <$name>; row_of_sequence <Key-$name>}
for {set code 33} {$code < 127} {incr code} {
    set character [format %c $code]
    if {$character ne "<"} {row_of_sequence $character}
}
# Each modifier by each name, each type, each button, each repeat word.
foreach name [concat [dict keys $bits] [dict keys $first]] {row_of_sequence <$name-a>; row_of_sequence <$name-ButtonRelease>}
foreach name [dict keys $types] {row_of_sequence <$name>; row_of_sequence <$name-1>; row_of_sequence <$name-x>}
foreach name {1 2 3 4 5} {row_of_sequence <$name>; row_of_sequence <Button-$name>; row_of_sequence <ButtonRelease-$name>}
foreach name [dict keys $times] {row_of_sequence <$name-1>; row_of_sequence <$name-Key-a>; row_of_sequence <Shift-$name-Control-2>}
# Sequences, white space, separators, orders, errors.
foreach text {
    ab {a b} { a} {a } <Key-x><Key><Key-b> {<Key-x> <Key> <Key-b>} <Control-Alt-Key> <Control-Shift-Alt-B1-Key-a>
    <Button5-Lock-M3-Shift-F12> <Alt-Control-Shift-Lock-x> {<Control Shift Key a>} {<Control-- Shift-a>} <Shift-Shift-a>
    <Double-Control-a> <Control-Double-a> <Triple-Button-1><KeyRelease> <Double-1><Double-1><Double-1><Double-1>
    abcdefgh <Quadruple-1><Quadruple-1> <B1-B2-B3-B4-B5-ButtonRelease-1> <<Paste>> { <<Paste>>} {<<Paste>> } <<a-b_c.d>>
    <<1>> {} { } < > << >> <> <<>> <-a> {< a>} <a <Key-a <Key-a-b> <Control> <Double> <Control-Double> <a-Key>
    <Key-Key> <Button-6> <Button-a> <ButtonRelease-0> <FocusIn-a> <FocusOut-1> <Key-nosuch> <nosuch> <<Paste>>a a<<Paste>>
    <<A>><<B>> <<a <<a> <1-Shift> <Shift-1-2> <Key-1-2> a<b <a>> <KeyPress> <Key><Key><Key><Key><Key><Key><Key><Key>
    <Mod2-Mod5-Mod3-Key-bracketleft> <Lock-M1-Tab> <Shift-KeyPress-Tab> <Control-KeyPress> <Mod1-KeyPress> <Quadruple-Key>
    -- --- <Key-minus> - <minus> 1 <Key-1> <Double-Key-1> <Lock-5> <M5-B5-5> <ButtonPress-3> <KeyRelease-Shift_L>
    <FocusIn> <FocusOut> <FocusIn><Key> <Shift-FocusIn>
} {
    row_of_sequence $text
}
# Separators behind the last word, and those that stand behind no type and no detail.
foreach text {
    <a-> <a---> {<a >} {<a> } {<Key >} <Key-> <Key--> <Key-a-> {<Key-a- >} {<Key - a -- >} <KeyPress--a-> <1-> <Button-> <Double-1-->
    <Control-a-> {<Control-a >} <Control-Key-> {<Double-Control-a - ->} {<ButtonRelease-2 - >} <Triple-Shift-Key-Return--> {<FocusOut >}
    <minus-> <Key-6-> <Key-a->b {<a-> <b- >} <a->> <-> <--> {< >} <Control-> <B1-> <Double-> <Double-Control-> <Shift-1-2-> <Key-nosuch->
    <a- {<a -} <a-<b> <<V>-> {<<V> >}
} {
    row_of_sequence $text
}
# More than eight.
foreach text {
    abcdefghi <Quadruple-1><Quadruple-1><1> <Key><Key><Key><Key><Key><Key><Key><Key><Key> {a b c d e f g <Double-h>}
    <Triple-a><Triple-b><Triple-c> <Double-1><Double-1><Double-1><Double-1><Double-1>
} {
    row_of_sequence $text
}
# A long text that is ill formed spells none, however many events stand before its fault.
foreach text {abcdefghij<Key-nosuch> <Quadruple-1><Quadruple-1><1><Key <Key><Key><Key><Key><Key><Key><Key><Key><Key><} {
    row_of_sequence $text
}
foreach text {
    a <Key-a> <1> <Double-1> <Shift-Control-x> <<V>> <Alt-ButtonRelease-2> <KeyPress> <FocusIn> ab <a><b> <<V>>a {} <
    <Triple-Shift-Key-Return> <B3-M2-Button> <Key-nosuch> <Control-Alt-Shift-Key-a> <Key-> {<Double-1 - >} <Control-a-> <Control->
} {
    row_of_pattern $text
}
# What this project alone rules: one repeat word, names without spaces and `<`, the modifiers, types and keysyms that it has; no white
# space around a pattern that stands alone.
foreach text {
    <<<>> <Double-Triple-1> <Double-Double-1> {<<a b>>} <Meta-a> <Any-a> <Motion> <Enter> <MouseWheel> <Configure> <Command-a> <M-a>
    <KP_Enter> <Extended-a> <F13>
} {
    row "bind $text" [error_of 40 $text]
}
foreach text {{ a} {a } { <Key-a>} {<Key-a> } { <<V>>} {<<V>> }} {row "generate $text" [error_of 40 $text]}
foreach {name lines} [list stdin $in stdout $out] {
    set file [open [file join $folder $name] w]
    fconfigure $file -translation lf
    puts $file [join $lines \n]
    close $file
}
puts [llength $in]
exit
