# The places of crates/tests_world/src/places.rt: `xvfb-run -a wish places.tcl`, where a pixel stands for a cell. A row
# has commands, then the windows that are seen in drawing order, each with its place on the screen.

# All windows, each before those in it.
proc all {w} {
    set list [list $w]
    foreach child [winfo children $w] { lappend list {*}[all $child] }
    return $list
}

wm geometry . 20x10
foreach script {
    "frame .f -width 5 -height 2;frame .f.a -width 9 -height 1;pack .f.a -side left;pack .f"
    "frame .f -width 5 -height 2;frame .f.a -width 9 -height 1;pack .f.a;pack .f;pack propagate .f 0"
    "frame .f;frame .f.a -width 3 -height 1;frame .f.b -width 4 -height 2;pack .f.a -side left;pack .f.b -side right;pack .f -side bottom -anchor e"
    "frame .f;frame .f.g;frame .f.g.h -width 7 -height 3;pack .f.g.h -padx 1;pack .f.g -pady 1;pack .f -expand 1 -fill both"
    "frame .f;frame .f.a -width 3 -height 3;pack .f.a;frame .g -width 2 -height 2;pack .g -side right -anchor s"
    "frame .a -width 4 -height 12;frame .b -width 6 -height 6;pack .a;pack .b"
    "frame .f;frame .f.a -width 30 -height 4;frame .f.b -width 5 -height 5;pack .f.a -side left;pack .f.b -side left;pack .f"
    "frame .f;frame .f.a -width 3 -height 3;frame .f.b -width 2 -height 2;pack .f.a;pack .f.b;pack .f;pack forget .f.a"
    "frame .f;frame .f.a -width 3 -height 3;frame .f.b -width 2 -height 2;pack .f.a;pack .f.b;pack .f -anchor w;destroy .f.b"
    "frame .f;frame .f.a -width 3 -height 3;pack .f.a;pack .f;pack forget .f"
    "frame .b -width 2 -height 2;frame .a -width 3 -height 1;frame .b.c -width 1 -height 1;pack .a;pack .b;pack .b.c -side right"
    "frame .f;frame .f.a -width 3 -height 2;frame .f.a.x -width 8 -height 1;pack .f.a -side bottom;pack .f.a.x -fill y -ipadx 2;pack .f -side left -fill y"
} {
    eval $script
    update
    set row {}
    foreach w [lrange [all .] 1 end] {
        if {[winfo viewable $w]} {
            set x [expr {[winfo rootx $w] - [winfo rootx .]}]
            set y [expr {[winfo rooty $w] - [winfo rooty .]}]
            lappend row "$w $x $y [winfo width $w] [winfo height $w]"
        }
    }
    puts "$script => [join $row ,]"
    destroy {*}[winfo children .]
    update
}
exit
