# Entries, each with two commands and so many more, drawn at random by a seed: `xvfb-run -a wish entries.tcl 14 8 4`.
# Behind a command's answer (an error is `!`) stands what `get` and `index insert` answer.
lassign $argv entries commands seed
expr {srand($seed)}
proc one {choices} { lindex $choices [expr {int(rand() * [llength $choices])}] }
proc index {} { one {0 1 1 2 2 3 3 4 4 5 5 6 7 8 19 -1 end end insert insert insert 0x2 010 +1 { 2} x 1x {} 2.0} }
proc command {} {
    switch [one {insert insert insert insert delete delete delete icursor icursor index index state state words}] {
        insert { return [list insert [index] [one {a bc xyz {} {p q} { }}]] }
        delete { if {[one {0 1}]} { return [list delete [index]] } else { return [list delete [index] [index]] } }
        icursor { return [list icursor [index]] }
        index { return [list index [index]] }
        state { return [list configure -state [one {normal normal disabled readonly}]] }
        words { return [one {{get x} insert {insert x} {insert 0 a b} delete {delete 0 1 2} icursor {index 0 1} {icursor 1 2} nosuch {get}}] }
    }
}
for {set k 0} {$k < $entries} {incr k} {
    entry .e
    set session [list {insert 0 {brown fox}} {icursor 4}]
    for {set row 0} {$row < $commands} {incr row} { lappend session [command] }
    puts "< new entry"
    foreach words $session {
        if {[catch {.e {*}$words} answer]} { set answer ! }
        puts "< .f.w $words\n> $answer|[.e get]|[.e index insert]"
    }
    destroy .e
}
exit
