# Scripts that come to the same however deep they stand, a row each: the script, ` => `, and a list of the code and the result
# that tclsh gives it. The rows stand in crates/tests_parts/src/evaluation.rt. That they come to the same behind up to 21 `eval`
# in one another is tried here too.
#
#     tclsh nested_scripts.tcl
proc nest {levels script} {
    for {set level 0} {$level < $levels} {incr level} {set script [list eval $script]}
    return $script
}
set scripts {
    {list a [list b [list c]]}
    {set k 2; set a($k) 7; expr {$a([list $k]) + [expr {1 + [list 2]}]}}
    {set c(1) x; set b "<$c([list 1])>"; list $b$c(1)}
    {list {*}[list a b] [lindex {x y} 1]}
    {eval list [list a] {[list b]}}
    {if {[list 0]} {list a} elseif {[list 1]} {list [list b]} else {list c}}
    {set r {}; foreach x {1 2 3 4} {if {$x == 2} {continue}; if {[expr {$x == 4}]} {break}; lappend r [list $x]}; set r}
    {set r {}; for {set i [list 0]} {[list $i] < 3} {incr i [list 1]} {lappend r [list $i]}; set r}
    {for {set i 0} 1 {incr i; if {$i == 2} break} {if {$i > 5} {return no}}; set i}
    {set i 0; while {[list $i] < 5} {incr i; if {$i == 3} {return [list $i]}}}
    {proc f {x} {if {[list $x] > 2} {return [list big $x]} else {list small [list $x]}}; list [f 1] [f 3]}
    {proc f {n} {if {$n < 2} {return $n}; expr {[f [expr {$n - 1}]] + [f [expr {$n - 2}]]}}; f 3}
    {list [catch {error [list e]} m] $m [catch {break}]}
    {foreach x {1 2} {error [list at $x]}}
    {set x [catch {foreach y {1 2} {return [list $y]}} m]; list $x $m}
}
foreach script $scripts {
    set wanted [list [catch $script text] $text]
    for {set deep 1} {$deep < 22} {incr deep} {
        set found [list [catch [nest $deep $script] text] $text]
        if {$found ne $wanted} {error "$script at $deep: $found"}
    }
    puts "$script => $wanted"
}
