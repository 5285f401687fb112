# Text widgets, each with two commands and so many more, drawn at random by a seed: `xvfb-run -a wish text.tcl BASE 100 12 4`
# writes BASE.in and BASE.out.
# Each line answers a list: what the command answers (an error is `!`), the text, the marks in the order in which they were
# made, each with its index and its gravity, and the tags, each with its ranges.
#
# What only this project rules is asked of wish in other words: the last newline is neither deleted nor tagged, so a place
# behind it is `end -1c` there; marks stand before it; a line below the first is the first one, with the column kept; white
# space may stand before a base; a base `L.C` goes before a mark of that name; `insert` with tags and `delete` read all
# their words in a disabled text too; a gravity that isn't one is an error about the words; `tag add` makes its tag on an
# empty range too, and `tag remove` makes none. Lines past the last are this project's rule too (they are `end`), and are
# asked as they are, since wish says the same. Abbreviated keywords, counts in octal or hex digits, and a sign or a blank
# within `L.C` are not drawn.
source [file join [file dirname [info script]] sessions.tcl]
lassign $argv base texts commands seed
expr {srand($seed)}
proc one {choices} { lindex $choices [expr {int(rand() * [llength $choices])}] }
proc below {n} { expr {int(rand() * $n)} }

set names {a b {c d} a-b x}
set tags {u v w}

proc number {} { one {0 0 1 1 2 2 3 4 5 6 7 9 100 99999} }
proc base {} {
    switch [one {place place place place line end end insert insert mark mark bad}] {
        place { return [one {0 1 1 1 2 2 2 3 3 4 5 12}].[number] }
        line { return [one {0 1 2 3 4 5 -1}].end }
        end { return end }
        insert { return insert }
        mark { return [one $::names] }
        bad { return [one {nosuch {} 1 . .3 1.x 1.0x x.1 ends - q}] }
    }
}
proc modifier {} {
    switch [one {edge edge count count count count bad}] {
        edge { return [one {linestart lineend}] }
        count {
            set count [one {0 1 1 1 2 2 3 4 5 8 30 -1 -2 +1}]
            return [one {+ + -}][one {{} { }}]$count[one {{} { }}][one {c c char chars l line lines}]
        }
        bad { return [one {+ +1 +c +1x +1cc {+ - 1 c} linestarts lineends {1 c} {+1 c c} x}] }
    }
}
proc index {} {
    set index [base]
    while {[below 3] == 0} {
        set next [modifier]
        append index [expr {[string index $next 0] in {+ -} ? [one {{} { }}] : " "}] $next
    }
    return $index
}
# The index before the last newline, for one behind it.
proc cut {index} {
    if {[.t compare $index >= end]} { return {end -1c} }
    return $index
}
proc chars {} { one {a bc xyz {} \n "p\nq" "\n\n" " " "m n o" "\t" {$x} "1"} }
proc words {} { one [list u v w {u v} {} {v v} {u w v} "\{"] }
proc command {} {
    switch [one {insert insert insert tagged tagged delete delete delete get get index index index set set set unset gravity
            add add add add remove remove names on ranges drop state words}] {
        insert { return [list insert [index] [chars]] }
        tagged { return [list insert [index] [chars] [words]] }
        delete { if {[below 3] == 0} { return [list delete [index]] } else { return [list delete [index] [index]] } }
        get { if {[below 3] == 0} { return [list get [index]] } else { return [list get [index] [index]] } }
        index { return [list index [index]] }
        set { return [list mark set [one [concat insert $::names]] [index]] }
        unset { return [list mark unset [one [concat insert $::names]] {*}[one {{} {a x}}]] }
        gravity { return [list mark gravity [one [concat insert $::names nosuch]] {*}[one {left left right {} up}]] }
        add { if {[below 3] == 0} { return [list tag add [one $::tags] [index]] } else { return [list tag add [one $::tags] [index] [index]] } }
        remove { if {[below 3] == 0} { return [list tag remove [one $::tags] [index]] } else { return [list tag remove [one $::tags] [index] [index]] } }
        names { return [list tag names] }
        on { return [list tag names [index]] }
        ranges { return [list tag ranges [one [concat $::tags nosuch]]] }
        drop { return [list tag delete [one $::tags] {*}[one {{} {} w}]] }
        state { return [list configure -state [one {normal normal normal disabled}]] }
        words { return [one {get insert {insert 1.0} {insert 1.0 a u b} delete {delete 1.0 1.0 1.0} {get 1.0 1.0 1.0} index {index 1.0 1.0} mark
            {mark set} {mark set a} {mark set a 1.0 1.0} {mark unset} {mark names x} {mark gravity} {mark nosuch} {mark gravity a left x} tag {tag add}
            {tag add u} {tag add u 1.0 1.0 1.0} {tag names 1.0 1.0} {tag ranges} {tag ranges u v} {tag delete} {tag nosuch} nosuch}] }
    }
}

# The indices of a command.
proc indices {words} {
    switch [lindex $words 0] {
        insert { return [lrange $words 1 1] }
        delete - get - index { return [lrange $words 1 end] }
        mark { if {[lindex $words 1] eq "set"} { return [lrange $words 3 3] } }
        tag {
            if {[lindex $words 1] in {add remove}} { return [lrange $words 3 end] }
            if {[lindex $words 1] eq "names"} { return [lrange $words 2 end] }
        }
    }
    return {}
}
# Whether an index goes through a line below the first, which this project rules by itself.
proc above {index} {
    set found [regexp -all -inline -indices {[+-] *[+-]?[0-9]+ *l[a-z]*} $index]
    foreach range $found {
        set front [string range $index 0 [expr {[lindex $range 0] - 1}]]
        if {[catch {.t index $front} before]} continue
        regexp {([+-]) *([+-]?[0-9]+)} [string range $index {*}$range] all sign count
        set line [expr [lindex [split $before .] 0] $sign ($count)]
        if {$line < 1} { return 1 }
    }
    return 0
}
# What a command answers in wish, where it is no matter of this project's own rules.
proc answer {words} {
    switch -glob $words {
        {insert * * *} {
            if {[llength $words] == 4} {
                .t index [lindex $words 1]
                llength [lindex $words 3]
            } elseif {[llength $words] > 4} { error words }
        }
        {delete *} {
            if {[llength $words] == 2} { set words [list delete [lindex $words 1] "[.t index [lindex $words 1]] +1c"] }
            if {[llength $words] == 3} {
                lassign $words all first last
                .t index $first
                .t index $last
                return [.t delete [cut $first] [cut $last]]
            }
            error words
        }
        {mark set * *} { if {[llength $words] == 4} { lset words 3 [cut [lindex $words 3]] } }
        {mark unset} - {tag delete} { error words }
        {mark gravity *} { if {[llength $words] == 4 && [lindex $words 3] ni {left right}} { error words } }
        {get *} { if {[llength $words] > 3} { error words } }
        {tag add * *} - {tag remove * *} {
            if {[llength $words] == 4} { lappend words "[.t index [lindex $words 3]] +1c" }
            if {[llength $words] != 5} { error words }
            foreach at {3 4} { lset words $at [cut [lindex $words $at]] }
            .t index [lindex $words 3]
            .t index [lindex $words 4]
            if {[lindex $words 1] eq "add"} { .t tag configure [lindex $words 2] }
            if {[lindex $words 2] ni [.t tag names]} { return {} }
        }
        {tag names*} { return [lsearch -inline -all -not -exact [.t {*}$words] sel] }
    }
    return [.t {*}$words]
}
# The answer as a list, where it is one.
proc told {words answer} {
    set name [lindex $words 0]
    if {$name in {mark tag}} { append name " [lindex $words 1]" }
    if {$name in {{mark names} {tag names} {tag ranges}}} { return [rows::joined $answer] }
    return $answer
}
proc state {made} {
    set marks {}
    foreach name $made { lappend marks [rows::joined [list $name [.t index $name] [.t mark gravity $name]]] }
    set tags {}
    foreach name [lsearch -inline -all -not -exact [.t tag names] sel] { lappend tags [rows::joined [list $name {*}[.t tag ranges $name]]] }
    return [list [.t get 1.0 end] [rows::joined $marks] [rows::joined $tags]]
}

# ---- rows

session "Texts: answers, characters, marks and tags, by tools/rows/text.tcl with wish 8.6.13, which says where there is an error" 1 1
row {proc new {} {destroy .t; text .t}} ok
row {proc marks {} {set l {}; foreach m [.t mark names] {lappend l [list $m [.t index $m] [.t mark gravity $m]]}; set l}} ok
row {proc tags {} {set l {}; foreach g [.t tag names] {lappend l [list $g {*}[.t tag ranges $g]]}; set l}} ok
row {proc does args {if {[catch {.t {*}$args} r]} {set r !}; list $r [.t get 1.0 end] [marks] [tags]}} ok
for {set k 0} {$k < $texts} {incr k} {
    text .t
    row new ok .t
    set made insert
    set drawn [list {insert 1.0 "abc\ndefg\n\nhi"} {tag add u 1.1 2.2}]
    for {set row 0} {$row < $commands} {incr row} { lappend drawn [command] }
    foreach words $drawn {
        set skip 0
        foreach index [indices $words] { if {[above $index]} { set skip 1 } }
        if {$skip} continue
        if {[catch {told $words [answer $words]} answer]} { set answer ! }
        if {[lrange $words 0 1] eq "mark set" && $answer ne "!" && [lindex $words 2] ni $made} { lappend made [lindex $words 2] }
        set made [lmap name $made { if {$name ni [.t mark names]} continue; set name }]
        row "does [join [lmap word $words { rows::word $word }]]" ok [rows::joined [list $answer {*}[state $made]]]
    }
    destroy .t
}
rows::write $base
exit
