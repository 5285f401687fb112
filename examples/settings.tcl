# A page of settings, on a grid of 48 by 14.
#
# Tab goes from one to the next, space turns a switch, Up and Down choose. Control-s keeps what is set, Control-z goes
# back to what was kept. A sign stands before what has the focus.

set languages {English Deutsch Francais Polski}
set names {station language beep night notes}

label .title -text Settings
frame .left
frame .right
frame .buttons
label .state -textvariable state -width 48 -anchor w
pack .title
pack .state .buttons -side bottom -anchor w
pack .left .right -side left -anchor n

# A frame with a window of a class, and before it a label that shows a sign while the window has the focus.
proc signed {frame class} {
    frame $frame
    $class $frame.field
    label $frame.sign -textvariable sign($frame.field) -width 1
    bindtags $frame.field [concat [bindtags $frame.field] Signed]
    pack $frame.sign -side left -anchor n
    pack $frame.field -side left
}
bind Signed <FocusIn> {set sign(%W) >}
bind Signed <FocusOut> {set sign(%W) ""}

label .left.name -text " Name of the station"
signed .left.station entry
.left.station.field configure -textvariable station -width 20
label .left.say -textvariable chosen -width 22 -anchor w
signed .left.language listbox
.left.language.field configure -width 20 -height 3
signed .left.beep checkbutton
.left.beep.field configure -text "beep at each key" -variable beep
signed .left.night checkbutton
.left.night.field configure -text "dark at night" -variable night
pack .left.name .left.station .left.say .left.language .left.beep .left.night -anchor w

label .right.label -text " Notes"
signed .right.notes text
.right.notes.field configure -width 22 -height 6
pack .right.label .right.notes -anchor w

signed .buttons.keep button
.buttons.keep.field configure -text "\[Keep ^S\]" -command keep
signed .buttons.back button
.buttons.back.field configure -text "\[Back ^Z\]" -command back
pack .buttons.keep .buttons.back -side left

# What is set, as a list in the order of the names.
proc present {} {
    global station beep night
    list $station [.left.language.field index active] $beep $night [.right.notes.field get 1.0 "end -1c"]
}

proc choose {place} {
    global languages chosen
    .left.language.field activate $place
    .left.language.field selection clear 0 end
    .left.language.field selection set active
    set chosen " Language: [lindex $languages [.left.language.field index active]]"
}

proc set_all {values} {
    global station beep night
    set station [lindex $values 0]
    choose [lindex $values 1]
    set beep [lindex $values 2]
    set night [lindex $values 3]
    .right.notes.field delete 1.0 end
    .right.notes.field insert 1.0 [lindex $values 4]
}

# Tells which settings differ from what was kept.
proc differ {} {
    global kept names state
    set now [present]
    set found {}
    for {set n 0} {$n < [llength $names]} {incr n} {
        if {[lindex $now $n] ne [lindex $kept $n]} {
            lappend found [lindex $names $n]
        }
    }
    if {$found eq ""} {
        set state "All is kept."
    } else {
        set state "Changed: [join $found {, }]."
    }
}

proc keep {} {
    global kept
    set kept [present]
    differ
}

proc back {} {
    global kept
    set_all $kept
    differ
}

foreach name $languages {
    .left.language.field insert end $name
}
set kept {{Desk 1} 0 1 0 {}}
back

# What differs is told behind everything that a key or a click does, so this tag is the last of each.
foreach frame {.left.station .left.language .left.beep .left.night .right.notes .buttons.keep .buttons.back} {
    bindtags $frame.field [concat [bindtags $frame.field] Told]
}
bind Told <KeyPress> differ
bind Told <ButtonRelease> differ
bind .left.language.field <Up> {choose [expr {[%W index active] - 1}]}
bind .left.language.field <Down> {choose [expr {[%W index active] + 1}]}
bind .left.language.field <ButtonRelease-1> {choose active}
bind all <Control-s> keep
bind all <Control-z> back
focus .left.station.field
