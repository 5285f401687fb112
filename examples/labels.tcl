# Labels that are printed one by one, on a grid of 40 by 10, by rules 2.
#
# Return takes a name in, F5 prints a label for each name that waits, Escape stops that behind the present one. Behind each
# label `update` does what was typed meanwhile and draws how far it is, so a name that comes in meanwhile is printed too.

set printed 0
set printing 0
set planned 0

frame .name
label .name.what -text Name -width 8 -anchor w
entry .name.field -textvariable name
listbox .names -width 30 -height 4
label .bar -textvariable bar -width 30 -anchor w
label .drawn -textvariable drawn -width 36 -anchor w
label .state -textvariable state -width 36 -anchor w
pack .name -fill x
pack .name.what .name.field -side left
pack .state .drawn -side bottom
pack .names .bar

proc take {} {
    global name
    if {$name ne ""} {
        .names insert end $name
        set name ""
        redraw
    }
}

# The bar is drawn once there is nothing else to do.
proc redraw {} {
    global planned
    if {!$planned} {
        set planned 1
        after idle draw
    }
}

proc draw {} {
    global planned printed bar drawn state
    set planned 0
    set count [.names size]
    set bar ""
    for {set cell 0} {$cell < 30} {incr cell} {
        if {$cell * $count < $printed * 30} {
            append bar #
        }
    }
    lappend drawn $printed/$count
    set state "$printed of $count printed"
}

proc print {} {
    global printed printing
    if {$printing} {
        return
    }
    set printing 1
    while {$printing && $printed < [.names size]} {
        # A command of the application would print the label of [.names get $printed] here.
        incr printed
        redraw
        update
    }
    set printing 0
}

bind .name.field <Return> take
bind all <F5> print
bind all <Escape> {set printing 0}
redraw
focus .name.field
