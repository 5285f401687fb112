# Listboxes, each with two commands and so many more, drawn at random by a seed: `xvfb-run -a wish listboxes.tcl BASE 60 10 7`
# writes BASE.in and BASE.out.
# Each line answers a list: what the command answers (an error is `!`), the items, the places of the selected ones and the
# place of the active one.
#
# What only this project rules is asked of wish in other words, or isn't drawn: the first items of an empty listbox leave the
# active place 0; `activate` works in a disabled listbox too; `delete` reads both its indices; `insert` has one text at least;
# `nearest` counts in rows; words cut short, `anchor` and `@x,y` are no indices.
source [file join [file dirname [info script]] sessions.tcl]
lassign $argv base listboxes commands seed
expr {srand($seed)}
proc one {choices} { lindex $choices [expr {int(rand() * [llength $choices])}] }

proc index {} { one {0 0 1 1 2 2 3 3 4 5 6 7 8 19 -1 -3 end end end active active 0x2 010 +1 { 2} x 1x {} 2.0} }
proc range {} { if {[one {0 1 1}]} { return [list [index] [index]] } else { return [list [index]] } }
proc command {} {
    switch [one {insert insert insert insert delete delete delete get get size index activate activate
            set set set clear includes all state words}] {
        insert { return [list insert [index] {*}[one {a b {c d} {x y z} {{p q} {}} {{$n} {#k}} {1 2} {{}}}]] }
        delete { return [list delete {*}[range]] }
        get { return [list get {*}[range]] }
        size { return size }
        index { return [list index [index]] }
        activate { return [list activate [index]] }
        set { return [list selection set {*}[range]] }
        clear { return [list selection clear {*}[range]] }
        includes { return [list selection includes [index]] }
        all { return curselection }
        state { return [list configure -state [one {normal normal normal disabled}]] }
        words { return [one {insert delete {delete 0 1 2} get {get 0 1 2} {size x} index {index 0 1} activate {activate 0 1} nearest
            {nearest x} selection {selection set} {selection set 0 1 2} {selection includes} {selection includes 0 1}
            {selection nosuch 0} {curselection x} nosuch}] }
    }
}
# What a command answers in wish, where it is no matter of this project's own rules.
proc answer {words} {
    switch [lindex $words 0] {
        insert {
            set empty [expr {[.l size] == 0}]
            set answer [.l {*}$words]
            if {$empty} { active 0 }
            return $answer
        }
        delete { foreach index [lrange $words 1 end] { .l index $index } }
        activate { if {[llength $words] == 2} { .l index [lindex $words 1]; return [active [lindex $words 1]] } }
    }
    set answer [.l {*}$words]
    if {[lindex $words 0] eq "get" && [llength $words] == 3} { return [rows::joined $answer] }
    return $answer
}
proc active {index} {
    set state [.l cget -state]
    .l configure -state normal
    .l activate $index
    .l configure -state $state
}

# ---- rows

session "Listboxes: answers, items, selection and active place, by tools/rows/listboxes.tcl with wish 8.6.13, which says where there is an error" 1 1
row {proc new {} {destroy .l; listbox .l}} ok
row {proc does args {if {[catch {.l {*}$args} r]} {set r !}; list $r [.l get 0 end] [.l curselection] [.l index active]}} ok
for {set k 0} {$k < $listboxes} {incr k} {
    listbox .l -exportselection 0
    row new ok .l
    set drawn [list {insert 0 a b {c d} e} {selection set 1 2}]
    for {set row 0} {$row < $commands} {incr row} { lappend drawn [command] }
    foreach words $drawn {
        if {[catch {answer $words} answer]} { set answer ! }
        row "does [join [lmap word $words { rows::word $word }]]" ok \
            [rows::joined [list $answer [rows::joined [.l get 0 end]] [.l curselection] [.l index active]]]
    }
    destroy .l
}
rows::write $base
exit
