# Integers, and lists: what a text splits into, and how elements are written.

namespace eval rows {
    # What a text is taken for as an integer.
    proc integer {text} {
        if {![string is entier -strict $text]} { return [list error "E13 $text"] }
        set value [expr {$text + 0}]
        expr {$value < -(1 << 63) || $value >= 1 << 63 ? {error E14} : [list ok $value]}
    }

    # A text of a sign, digits and white space.
    proc drawn_integer {} {
        set front [pick {{} {} {} 0 0 0x 0x 00 0x0}]
        set text [pick {{} {} {} { } "\t" {  }}][pick {{} {} {} {} - - + + +- {- }}]$front
        set kinds [expr {$front in {{}} ? 6 : $front in {0 00} ? 4 : 10}]
        set kinds [expr {$kinds + (rand() < 0.15)}]
        for {set left [pick {0 1 2 3 5 15 16 17 19 20 22}]} {$left > 0} {incr left -1} {
            append text [pick [lrange {0 1 7 7 8 9 a f A F g} 0 $kinds-1]]
        }
        append text [pick {{} {} {} { } "\t" {  }}]
    }

    # A text of openings, signs and closings.
    proc drawn_list {} {
        set signs { { } " " "\t" "\n" \{ \} \{ \} \" \\ \\ \\ a b n t x u 1 4 0 7 # $ \[ \] \; }
        set text {}
        for {set left [expr {1 + int(rand() * 3)}]} {$left > 0} {incr left -1} {
            append text [pick { {} {} \{ \{ \" }]
            for {set more [expr {int(rand() * 7)}]} {$more > 0} {incr more -1} { append text [pick $signs] }
            append text [pick { {} { } { } "\} " "\} " "\" " \}\} }]
        }
        return $text
    }

    # The elements of a text, `none` where it is no list, and `outside` where one is no text here.
    proc elements {text} {
        if {[catch {llength $text}]} { return none }
        foreach element $text {
            if {[regexp {[^\t\n -~]} $element]} { return outside }
        }
        list {*}$text
    }

    # A line that splits a text and joins the elements.
    proc splits {text elements} {
        if {$elements eq "none"} {
            row "lrange [word $text] 0 end" error E15
        } else {
            row "lrange [word $text] 0 end" ok [joined $elements]
        }
    }
}

session "integers: signs, bases, white space and the range"
foreach text [list 0 -0 007 08 {} + 0x 0X1 0x1g 0xfF {+ 5} --5 {5 6} 9223372036854775807 " \t\n-12\n\t " \
    9223372036854775808 -9223372036854775808 -0x8000000000000000 -9223372036854775809 18446744073709551616 \
    99999999999999999999x] answer {
    {ok 0} {ok 0} {ok 7} {error {E13 08}} {error {E13 }} {error {E13 +}} {error {E13 0x}} {error {E13 0X1}}
    {error {E13 0x1g}} {ok 255} {error {E13 + 5}} {error {E13 --5}} {error {E13 5 6}} {ok 9223372036854775807} {ok -12}
    {error E14} {ok -9223372036854775808} {ok -9223372036854775808} {error E14} {error E14}
    {error {E13 99999999999999999999x}}
} {
    row "set n 0; incr n [rows::word $text]" {*}$answer
}

session "integers as tclsh takes them"
expr {srand(86)}
for {set made 0} {$made < 140} {incr made} {
    set text [rows::drawn_integer]
    row "set n 0; incr n [rows::word $text]" {*}[rows::integer $text]
}

session "lists: elements bare, in braces and in quotes"
foreach {text elements} [list \
    {} {} \
    " \t\n " {} \
    {a {b c} "d e"} {a {b c} {d e}} \
    {a {b {c d}} {}} {a {b {c d}} {}} \
    "{a\\}b} {\\{}" [list "a\\}b" "\\\{"] \
    {a\ b \x41\u0042\1033 \401} {{a b} ABC3 { 1}} \
    "\"a\\\"b\" a\\\n\t  b" {{a"b} {a b}} \
    {a\x \uz \ } [list ax "uz" " "] \
    "a\\x \\uz \\" [list ax uz \\] \
    "a{b c}d \\{ \$x;\[y\]" [list "a\{b" "c\}d" "\{" {$x;[y]}] \
    "{a}b" none  "\"a\"b" none  "{a {b}" none  "\"a b" none  "{a\\}" none  {a\a} none  {"\x7f"} none \
    {{\a}} [list {\a}]] {
    rows::splits $text $elements
}

session "lists as tclsh splits them"
expr {srand(86)}
for {set made 0} {$made < 240} {} {
    set text [rows::drawn_list]
    set elements [rows::elements $text]
    if {$elements ne "outside" && ($elements ne "none" || rand() < 0.15) && ![info exists rows::seen($text)]} {
        set rows::seen($text) 1
        rows::splits $text $elements
        incr made
    }
}

session "lists: how elements are written"
foreach {element text} {
    {} {{}}  a a  a# a#  #a# {{#a#}}  {a b} {{a b}}  a{b}c {{a{b}c}}  \}\{ \\\}\\\{  \{a \\\{a
    {a\b c} {a\\b\ c}  #\{ \\#\\\{  {$x;[y]"} {{$x;[y]"}}  "a\tb\n" "{a\tb\n}"  "\t\n\}" {\t\n\}}
} {
    row "list [rows::word $element]" ok $text
}
row "list # \"\" {a b} c \\}" ok "{#} {} {a b} c \\}"
row {list a {b c} {} #x} ok {a {b c} {} {#x}}
row "list \\\\ \\} \\\$x" ok "\\\\ \\} {\$x}"
row "list" ok
