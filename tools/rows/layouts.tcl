# Layouts drawn by a fixed generator of random numbers, each with what Tk makes of it, a pixel standing for a cell:
# `xvfb-run -a wish layouts.tcl 3000`. crates/rows_parts/src/layout.rt says how a layout and its answer are
# written. Tk has no frame that asks for less than a pixel, so no layout has one.

set seed 11
proc draw {n} {
    global seed
    set seed [expr {($seed * 1103515245 + 12345) % 2147483648}]
    expr {($seed >> 8) % $n}
}
proc pick {list} { lindex $list [draw [llength $list]] }

# One of the values, or, more often than not, none.
proc perhaps {values} {
    if {[draw 5] < 3} { return . }
    pick $values
}

proc digit {n} { string index 0123456789abcdefghijklmnopqrstuvwxyz $n }
proc digits {args} {
    set text {}
    foreach n $args { append text [digit [expr {$n / 36}]] [digit [expr {$n % 36}]] }
    return $text
}

set words {
    t top b bottom l left r right
    fn none fx x fy y fb both
    a1 sw a2 s a3 se a4 w a5 center a6 e a7 nw a8 n a9 ne
}

# A content: its characters in a row, and what `pack` gets.
proc content {} {
    global words
    set side [pick {t b l r}]
    set fill [perhaps {n x y b}]
    set expand [perhaps {0 1 1 1}]
    set anchor [perhaps {1 2 3 4 5 6 7 8 9}]
    set paddings [list [perhaps {0 1 2 5}] [perhaps {0 1 2 3}] [perhaps {0 1 3}] [perhaps {0 1 2}]]
    set options [list -side [dict get $words $side]]
    if {$fill ne "."} { lappend options -fill [dict get $words f$fill] }
    if {$expand ne "."} { lappend options -expand $expand }
    if {$anchor ne "."} { lappend options -anchor [dict get $words a$anchor] }
    foreach option {-padx -pady -ipadx -ipady} value $paddings {
        if {$value ne "."} { lappend options $option $value }
    }
    list $side$fill$expand$anchor[join $paddings {}] $options
}

proc layout {} {
    set width [expr {[draw 60] + 1}]
    set height [expr {[draw 30] + 1}]
    set propagates [expr {[draw 4] == 0}]
    frame .c
    place .c -x 0 -y 0
    set row ----
    if {!$propagates} { set row [digits $width $height] }
    set count [expr {[draw 8] + 1}]
    for {set i 0} {$i < $count} {incr i} {
        set w [expr {[draw 16] + 1}]
        set h [expr {[draw 9] + 1}]
        lassign [content] characters options
        frame .c.$i -width $w -height $h
        pack .c.$i {*}$options
        append row " [digit $w][digit $h]$characters"
    }
    update
    set answer [digits [winfo reqwidth .c] [winfo reqheight .c]]
    if {!$propagates} {
        pack propagate .c 0
        .c configure -width $width -height $height
        update
    }
    for {set i 0} {$i < $count} {incr i} {
        set w .c.$i
        if {[winfo ismapped $w]} {
            append answer " [digits [winfo x $w] [winfo y $w] [winfo width $w] [winfo height $w]]"
        } else {
            append answer " -"
        }
    }
    destroy .c
    puts "< layout $row\n> $answer"
}

wm geometry . 400x200
for {set n 0} {$n < [lindex $argv 0]} {incr n} { layout }
exit
