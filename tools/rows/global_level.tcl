# Scripts at global level, a row each: the script, ` => `, and the code and the result that tclsh gives it. The rows stand in
# crates/tests_parts/src/evaluation.rt. `top` runs its word at global level.
#
#     tclsh global_level.tcl
set scripts {
    {set n 5; proc f {} {set n 1; top {set n}}; f}
    {set n 5; proc f {} {set n 1; top {set n 2}; set n}; list [f] $n}
    {proc f {} {set n 1; top {info exists n}}; f}
    {proc f {} {top {global x; set x 3}; info exists x}; list [f] $x}
    {proc f {} {top {set a(k) 7}; global a; set a(k)}; f}
    {set n 9; proc g {} {set n 1; top {set n}}; proc f {n} {top g}; f 4}
    {proc f {} {set n 1; top {proc g {} {global n; incr n}}; list [g] [g] $n}; set n 6; f}
    {set n 5; proc f {n} {top {top {incr n}}; set n}; list [f 1] $n}
    {proc f {n} {foreach x {1 2 3} {if {$x == 2} {top break}}; list $x $n}; f 4}
    {proc f {} {foreach x {1 2 3} {top continue; lappend r $x}; info exists r}; f}
    {proc f {n} {list [catch {top {set n 8; error e}} m] $m $n}; list [f 1] $n}
    {top {set a 1}; set a}
    {top {}}
}
foreach script $scripts {
    interp create child
    child eval {interp alias {} top {} uplevel #0}
    set code [catch {child eval $script} text]
    interp delete child
    puts "$script => $code $text"
}
