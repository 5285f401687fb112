# The commands that run no script: drawn ones, which tclsh answers, and this project's own rules.
#
# What tclsh takes otherwise is left out of those that are drawn: the empty name of an array, a backslash at the end of
# `concat`, and bad indices, of which this project tells also on an empty list or text. Only `incr` speaks of n and k,
# since Tcl looks at the increment first where a scalar is an array.

namespace eval rows {
    variable seed 11
    variable texts {a l m(x) {a(x)} {a b} {  a  b } {} "\{" "\{a b\} c" "a \{b c\} d" "a \"b c\" d" "a\\ b c" 12 -3 08 0x1f \
        { 7 } x,y,,z "a\tb\nc" {a ,b, c} {[x] $y} # "\}" "a\\"}
    variable lists {{} a {a b c} {a {b c} d} {{a b} {} c} "a\tb\n c" {a b a b} "\{a" {1 2 3 4 5 6} {{a {b c}} d}}
    variable indices {0 1 2 5 -1 end end-0 end-1 end-2 end-9 end--1 { 1 } {end- 1} {end-1 } 0x1 08 x endd end-x \
        9223372036854775808 end-9223372036854775808 end-+1}
    variable chars {{} , { } ab {, } "\n"}
    variable forms {
        {set V} {set V} {set V T} {set V T} {set V L} {set} {set V T T} {unset V} {unset V}
        {incr N} {incr N T} {incr N 2} {incr N -5} {incr} {incr N 1 2} {set N 7}
        {append A T} {append A T T} {lappend M T} {lappend M T T} {lappend M L}
        {info exists V} {info exists V} {info exists} {info nothing V} {info}
        {list} {list T} {list T L T} {llength L} {llength T} {llength} {lindex L I} {lindex L I} {lindex T I}
        {lrange L I I} {lrange L I I} {lrange T I I} {lrange L I} {lsearch -exact L a} {lsearch -exact L T}
        {concat} {concat T L} {concat L T T} {join L} {join L T} {join L C T} {split T} {split T C} {split L C} {split}
        {string length T} {string length} {string index T I} {string range T I I} {string range T I I} {string equal T T}
        {string equal a} {string} {string foo T} {break} {continue} {break T} {return} {return T} {error T}
    }

    proc drawn {list} {
        variable seed
        set seed [expr {($seed * 1103515245 + 12345) % 2147483648}]
        lindex $list [expr {($seed >> 8) % [llength $list]}]
    }

    # The words of a command from its form: what stands for a word that is drawn, or a word.
    proc drawn_command {} {
        set words {}
        foreach word [drawn $rows::forms] {
            switch -- $word {
                T { lappend words [drawn $rows::texts] }
                L { lappend words [drawn $rows::lists] }
                I { lappend words [drawn $rows::indices] }
                C { lappend words [drawn $rows::chars] }
                A { lappend words [drawn {a b a(x) b(y) (x)}] }
                M { lappend words [drawn {l m l(x) m(y)}] }
                N { lappend words [drawn {n k(x) k(y)}] }
                V { lappend words [drawn {a b a(x) b(y) (x) l m l(x) m(y)}] }
                default { lappend words $word }
            }
        }
        return $words
    }

    # A command as a script; the code of one that ends a script stands in the answer.
    proc command {words} {
        set script {}
        foreach word $words { append script " " [word $word] }
        set script [string range $script 1 end]
        if {[lindex $words 0] in {break continue return error}} { set script "list \[catch {$script} t\] \$t" }
        return $script
    }
}

session "commands as tclsh answers them"
for {set turn 0} {$turn < 420} {incr turn} {
    set words [rows::drawn_command]
    set script [rows::command $words]
    if {"(x)" in $words || ([lindex $words 0] eq "concat" && [string match {*\\} $words])} { continue }
    set answer [rows::given $script]
    if {![string match E19* [lindex $answer 1]]} { row $script {*}$answer }
}

session "commands: indices, and what is looked at first"
foreach {script answer} {
    {lindex a {}} {error {E19 }}  {lindex {} {end- 1}} {error {E19 end- 1}}  {lindex {} end-x} {error {E19 end-x}}
    {lindex {} end+1} {error {E19 end+1}}  {lindex {a b} 9223372036854775808} {error E14}
    {lindex {a b} end-9223372036854775808} {error E14}  {lindex {a b} 9223372036854775807} {ok {}}
    {lindex {a b} end--9223372036854775808} {ok {}}  {string index {} 08} {error {E19 08}}
    {string range {} 0 1+1} {error {E19 1+1}}  {string range abcd 1 2} {ok bc}  {string range abcd end-1 9} {ok cd}
    {string index abcd end} {ok d}  {string index abcd -1} {ok {}}  {lsearch -exact a} {error {E10 lsearch}}
    {lindex {a b c} { 1 }} {ok b}  {lindex {a b c} end--1} {ok {}}  {lrange {a b c} 2 0} {ok {}}  {lrange {a b c} -3 end-1} {ok {a b}}
    {lindex {a b} 1 0} {error {E10 lindex}}  {lindex} {error {E10 lindex}}  {join {a b} { - }} {ok {a - b}}
    {split a.b-c.d .-} {ok {a b c d}}  {split abc {}} {ok {a b c}}  {split {}} {ok {}}  {split { a b}} {ok {{} a b}}
    {string equal a b c} {error {E10 string}}  {string equal ab ab} {ok 1}  {append l} {error {E10 append}}
    {lappend l} {error {E10 lappend}}  {unset} {error {E10 unset}}  {break x} {error {E10 break}}  {error {E11 x}} {error {E11 x}}
    {error} {error {E10 error}}  {return a b} {error {E10 return}}  {concat a\  b} {ok {a b}}
    {info exists} {error {E10 info}}  {foo} {error {E09 foo}}  {{}} {error {E09 }}  {set} {error {E10 set}}  {Set a 1} {error {E09 Set}}
    {lsearch -exact {a b c} c} {ok 2}  {lsearch -exact {a b c} d} {ok -1}  {return} {ok {}}  {return v; error never} {ok v}
    {break} {error E18}  {continue} {error E18}
} {
    row $script {*}$answer
}
row "lindex \\{a x" error E15
row "lsearch -glob \\{a a" error {E34 -glob}
row "concat {a\\ } b" ok "a\\ b"
row "set l \\ta\\n; lappend l {b c} \\$" ok "a {b c} {$}"
row "error [string repeat n 70]" error [string repeat n 70]
row "[string repeat n 70] x" error "E09 [string repeat n 64]"

session "commands: the names that no procedure may have"
set names {append after bind bindtags break button catch checkbutton concat continue destroy entry error eval event expr
    focus for foreach frame global if incr info join label lappend lindex list listbox llength lrange lsearch pack proc
    return set split string text tk_focusNext tk_focusPrev unset while}
foreach {first last} {0 12 13 25 26 99} {
    set some [lrange $names $first $last]
    set faults {}
    foreach name $some { lappend faults "E17 $name" }
    row "set r {}; foreach name {[join $some]} {catch {proc \$name {} {}} m; lappend r \$m}; set r" ok [rows::joined $faults]
}
row {set r {}; foreach name {{} se sets Set update switch tk_focusnext} {lappend r [catch {proc $name {} {}}]}; set r} ok \
    {0 0 0 0 0 0 0}
row {proc .f {} {}} error {E17 .f}
row {proc . {} {}} error {E17 .}
