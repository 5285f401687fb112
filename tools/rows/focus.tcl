# The orders of the focus of crates/tests_world/src/tree.rt, and paths that make windows, as rows of a session:
# `xvfb-run -a wish focus.tcl`.

# Random trees: each window stands in one made before it. For each, the order that tk_focusNext gives,
# from `.` round to `.`.
expr {srand(8)}
proc shown {} {
    set made {}
    for {set i 0} {$i < 12} {incr i} {
        set parent [lindex [concat . $made] [expr {int(rand() * ([llength $made] + 1))}]]
        set path [expr {$parent eq "." ? "" : $parent}].[format %c [expr {97 + $i}]]
        frame $path -width 5 -height 5 -takefocus 1
        pack $path
        lappend made $path
    }
    . configure -takefocus 1
    update
    set order {}
    for {set w [tk_focusNext .]} {$w ne "."} {set w [tk_focusNext $w]} {
        lappend order $w
    }
    set back {}
    for {set w [tk_focusPrev .]} {$w ne "."} {set w [tk_focusPrev $w]} {
        set back [linsert $back 0 $w]
    }
    if {$back ne $order} {
        error "not the same backwards"
    }
    puts "(\"$made\", \"$order\"),"
    destroy {*}[winfo children .]
}
for {set n 0} {$n < 4} {incr n} {
    shown
}

# Windows made, and what comes of it; all classes that these rows have in common are frames.
foreach path {.a .a .a.b .A .a.B .b.c a "" .. .a. .a..b .a.b.c .a.b.c.d .1 ._x .x9} {
    set code [catch {frame $path} told]
    puts "< cmd frame $path\n> [lindex {ok error} $code] $told"
}
destroy .a
foreach path {.a .a.b .a.b.c .1} {
    puts "$path [winfo exists $path]"
}
exit
