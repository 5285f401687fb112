# What one input parsed stays parsed for the next ones, and nothing of that shows: texts that are alike, more of them than are
# kept, procedures that are made anew, long ones, scripts that end by an error or are refused, and those of turns.

namespace eval rows {
    # A line that runs a script by itself, which tclsh runs too, and the answer that docs/PROGRAM.md tells.
    proc line {line kind text {script {}}} {
        variable input
        variable child
        append input $line\n
        answer [list $kind $text]
        $child eval $script
    }

    # The line that asks for the faults, of which these are there.
    proc faults args {
        variable input
        variable output
        append input faults\n
        foreach fault $args { append output "fault $fault\n" }
        append output end\n
    }
}

session "parsed: texts that are alike, from one input to the next"
ask {set all {{set a 1} {set a 2} {set b 1} {set a 1;} {set a 12} { set a 1} {set a}}; llength $all} \
    {foreach s $all {lappend r [eval $s]}; set r} {set r {}; foreach s $all {lappend r [eval $s]}; set r} \
    {eval {set a 2}} {eval {set a 1}} {set r {}; foreach s $all {lappend r [eval $s]}; list $r $a $b} \
    {set tests {{$a + 1} {$a + 2} {$a - 1} {$b + 1} {$a + 12} {$a} {$a + 1 }}; llength $tests} \
    {foreach e $tests {lappend q [expr $e]}; set q} {set q {}; foreach e $tests {lappend q [expr $e]}; set q} \
    {set a 7; set q {}; foreach e $tests {lappend q [expr $e]}; set q} {expr {$a + 2}} {expr {$a + 1}} \
    {set q {}; foreach e $tests {if $e {lappend q $e}}; set q} {set a -1; set q {}; foreach e $tests {if $e {lappend q $e}}; set q}

session "parsed: more texts than are kept"
ask {for {set i 0} {$i < 40} {incr i} {eval "set v$i $i"}; set v39} {for {set i 0} {$i < 40} {incr i} {lappend r [expr "\$v$i * 2"]}; set r} \
    {for {set i 0} {$i < 40} {incr i} {eval "incr v$i"}; list $v0 $v7 $v8 $v39} {set r {}; for {set i 39} {$i >= 0} {incr i -1} {lappend r [expr "\$v$i * 2"]}; set r} \
    {eval {set v7 7}; eval {set v8 8}; list [expr {$v7 * 2}] [expr {$v8 * 2}] [expr {$v9 * 2}]} \
    {foreach i {3 33 3 33 1 3} {lappend q [eval "set v$i"]}; set q} {set q {}; foreach i {3 33 3 33 1 3} {lappend q [eval "incr v$i"]}; set q} \
    {set q {}; foreach i {33 3 1 33 3 1 1 1} {lappend q [eval "set v$i"]}; set q}

session "parsed: procedures that are made anew"
ask {proc f x {expr {$x + 1}}; f 1} {f 2} {proc f x {expr {$x + 2}}; f 2} {f 3} {proc f x {expr {$x + 1}}} {f 3} \
    {proc g x {if {$x > 2} {return more} else {return less}}; list [g 1] [g 3]} {list [g 3] [g 1]} \
    {proc g x {if {$x > 2} {return less} else {return more}}; list [g 1] [g 3]} {list [g 3] [g 1]} \
    {proc h x {f [g $x]}; proc g x {set x}; h 4} {h 5} {proc f x {set x}} {h 5} {proc f y {set x}; h 5} {proc f x {set x}; h 6} \
    {proc f x {proc f x {error again}; expr {$x + 1}}; f 1} {f 1} {proc f x {set x}; f 1} \
    {proc down n {if {$n > 0} {down [expr {$n - 1}]} else {set n}}; down 9} {proc down n {if {$n > 0} {down [expr {$n - 2}]} else {set n}}; down 9} {down 8} \
    {proc down n {set n; down 3}; proc down n {set n}; down 8}

session "parsed: procedures of 4,096 bytes, and longer ones"
ask {set s {}; foreach one {1 1 1 1 1 1 1 1 0 0 1 1} {append s $s; if $one {append s { }}}; string length $s} \
    {set body "${s}expr {\$x + 1}"; proc f x $body; string length $body} {list [f 1] [f 2]} {f 3} \
    {proc f x "${s}expr {\$x + 2}"; list [f 1] [f 2]} {f 3} {proc f x "${s}expr {\$x + 1}"; list [f 1] [f 2]} \
    {set test "$s           \$x"; proc g x "if {$test} {return yes}; return no"; string length $test} {list [g 1] [g 0]} {list [g 0] [g 1]} \
    {append s { }; set body "${s}expr {\$x + 1}"; proc f x $body; string length $body} {list [f 1] [f 2]} {f 3} \
    {proc f x "${s}expr {\$x + 2}"; list [f 1] [f 2]} {f 3} {proc f x "${s}expr {\$x + 1}"; list [f 1] [f 2]} \
    {set test "$s           \$x"; proc g x "if {$test} {return yes}; return no"; string length $test} {list [g 1] [g 0]} {list [g 0] [g 1]} \
    {append s $s; append s $s; proc f x "${s}expr {\$x + 1}"; list [f 1] [f 2]} {f 3} \
    {proc f x "${s}expr {\$x + 2}"; list [f 1] [f 2]} {f 3} {proc f x {expr {$x + 1}}; list [f 1] [f 2]} {f 3}

session "parsed: scripts that end by an error"
ask {proc f x {set y $x; error "$x no"; set y 0}; f 1} {f 2} {catch {f 3} m; set m} {catch {f 3} m; set m} \
    {proc f x {set y $x; if {$x > 2} {break}; set y}; f 1} {f 3} {catch {f 3} m; set m} {f 2} \
    "set s \"set a 5; set b \{\"; catch {eval \$s} m; list \$m \$a" "set a 6; eval \$s" {set a} {catch {eval $s} m; list $m $a} \
    "set s \"set a 7; set b \{}\"; eval \$s" {set a} \
    {set e {$a +}; catch {expr $e} m; set m} {expr $e} {set e {$a + 1}; expr $e} {set e {$a +}; catch {expr $e} m; set m} {if $e {set a 9}} {set a} \
    {while {$a > 5} {incr a -1; if {$a == 6} {error six}}} {while {$a > 5} {incr a -1; if {$a == 6} {error six}}; set a} {set a} \
    {proc f {} {g}; proc g {} {set nothing}; f} {proc g {} {return something}; f} {proc g {} {f}; proc f {} {set nothing}; g}

session "parsed: inputs that are refused, which leave nothing but what was parsed"
ask {proc f x {expr {$x + 1}}; set n 0; f 1}
row {proc f x {expr {$x + 2}}; f 1; while 1 {incr n}} refused budget
ask {f 1} {set n} {proc f x {expr {$x + 2}}; f 1} {f 2}
row {set n [f 5]; proc f x {f $x}; f 1} refused depth
ask {f 1} {set n} {proc g x {f $x}; g 1}
row {set a x; while 1 {append a $a; f 1}} refused large
ask {info exists a} {set a y; f 1} {catch {eval {append a $a; f 1}}; set a}
row {proc f x {if {$x > 0} {f [expr {$x - 1}]; f [expr {$x - 1}]}}; f 12} refused budget
ask {f 20} {proc f x {if {$x > 0} {f [expr {$x - 1}]; f [expr {$x - 1}]}}; f 4}

session "parsed: scripts of turns"
ask {proc f x {global r; lappend r $x}; set r {}}
row {after idle {f 1}} ok after#0
rows::line turn ok {idle after#0} {f 1}
ask {set r}
row {after idle {f 2}} ok after#1
row {after idle {f 1}} ok after#2
row {after 5 {f 2}} ok after#3
rows::line turn ok {idle after#1} {f 2}
rows::line turn ok {idle after#2} {f 1}
rows::line {clock 5} ok {}
rows::line turn ok {timer after#3} {f 2}
rows::line turn quiet {}
ask {set r} {proc f x {global r; set r [list $x $r]}; set r {}}
row {after 0 {f 2}} ok after#4
rows::line turn ok {timer after#4} {f 2}
row {after cancel {f 3}; after 0 {f 3}; after cancel {f 3}; after idle {f 4}} ok after#6
rows::line turn ok {idle after#6} {f 4}
ask {set r} {proc tick {} {global ticks; incr ticks}; set ticks 0}
for {set i 7} {$i < 12} {incr i} {
    row {after 0 tick} ok after#$i
    rows::line turn ok "timer after#$i" tick
}
ask {set ticks} {proc tick {} {global ticks; incr ticks 10}}
row {after 0 tick} ok after#12
rows::line turn ok {timer after#12} tick
ask {set ticks} {proc tick {} {while 1 {}}}
row {after 0 tick} ok after#13
rows::line turn refused budget
ask {proc tick {} {global ticks; incr ticks 100}; set ticks}
rows::line turn ok {timer after#13} tick
ask {set ticks} {proc tick {} {error "tick no"}}
row {after 0 tick} ok after#14
rows::line turn ok {timer after#14}
row {after 0 tick} ok after#15
rows::line turn ok {timer after#15}
rows::faults {tick no} {tick no}

session "parsed: scripts of events"
ask {proc typed {key state} {global r; lappend r $key$state}; set r {}}
row {bind . <Key> {typed %K %s}} ok
foreach key {a b a c a} {
    rows::line "key $key" ok {}
    rows::line turn ok {event KeyPress .} "typed $key 0"
}
ask {set r} {proc typed {key state} {global r; if {$key eq {b}} {lappend r B} else {lappend r other}}}
foreach key {a b b a} {
    rows::line "key $key" ok {}
    rows::line turn ok {event KeyPress .} "typed $key 0"
}
ask {set r} {set r {}}
row {bind . <Key> {lappend r %K}} ok
row {bind . <Key-b> {lappend r b, %K}} ok
foreach key {a b a} {
    rows::line "key $key" ok {}
    rows::line turn ok {event KeyPress .} [expr {$key eq {b} ? {lappend r b, b} : "lappend r $key"}]
}
row {bind . <Key-b> {lappend r b; %K}} ok
rows::line {key b} ok {}
rows::line turn ok {event KeyPress .} {lappend r b}
rows::line {key a} ok {}
rows::line turn ok {event KeyPress .} {lappend r a}
rows::faults {E09 b}
ask {set r}
