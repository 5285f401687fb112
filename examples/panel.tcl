# The panel of a tank with a pump, on a grid of 40 by 12.
#
# The level falls by itself, and rises while the pump runs. F1 switches the pump, F2 acknowledges the alarm. A sign stands
# before what has the focus; Tab moves it, space presses.

set seconds 0
set level 40
set running 0
set alarm 0

frame .head
label .head.title -text "Tank 1"
label .head.clock -textvariable clock
pack .head -fill x
pack .head.title -side left
pack .head.clock -side right

frame .tank
label .tank.bar -textvariable bar -width 27 -anchor w
label .tank.percent -textvariable percent -width 5 -anchor e
pack .tank -pady 1
pack .tank.bar .tank.percent -side left

frame .switches
checkbutton .switches.pump -text "pump F1" -variable running -command pump
button .switches.alarm -text "\[acknowledge F2\]" -command acknowledge -state disabled
pack .switches
bind Signed <FocusIn> {set sign(%W) >}
bind Signed <FocusOut> {set sign(%W) ""}
foreach name {pump alarm} {
    label .switches.sign_$name -textvariable sign(.switches.$name) -width 2
    bindtags .switches.$name [concat [bindtags .switches.$name] Signed]
    pack .switches.sign_$name .switches.$name -side left
}

label .light -textvariable light -width 20
text .log -width 36 -height 4 -state disabled
pack .light
pack .log -side bottom

proc two {number} {
    if {$number < 10} {
        return 0$number
    }
    return $number
}

# A line of the log, which keeps the last twenty.
proc note {what} {
    global clock
    .log configure -state normal
    .log insert end "$clock $what\n"
    if {[lindex [split [.log index end] .] 0] > 22} {
        .log delete 1.0 2.0
    }
    .log mark set insert "end -1 lines"
    .log configure -state disabled
}

proc show {} {
    global seconds clock level bar percent
    set clock [two [expr {$seconds / 3600}]]:[two [expr {$seconds / 60 % 60}]]:[two [expr {$seconds % 60}]]
    set percent $level%
    set bar ""
    for {set cell 0} {$cell < 25} {incr cell} {
        if {$cell * 4 < $level} {
            append bar #
        } else {
            append bar .
        }
    }
}

proc pump {} {
    global running
    if {$running} {
        note "pump on"
    } else {
        note "pump off"
    }
}

proc acknowledge {} {
    global alarm
    set alarm 0
    .switches.alarm configure -state disabled
    note acknowledged
}

# Once in a second.
proc tick {} {
    global seconds level running alarm
    incr seconds
    if {$running} {
        incr level 3
    } else {
        incr level -1
    }
    if {$level < 0} {
        set level 0
    }
    if {$level > 100} {
        set level 100
        set running 0
        note "full: pump off"
    }
    show
    if {!$alarm && ($level < 10 || $level > 90)} {
        set alarm 1
        .switches.alarm configure -state normal
        note "alarm at $level%"
    }
    after 1000 tick
}

# The light goes on and off twice in a second while there is an alarm.
proc blink {} {
    global alarm light
    if {$alarm && $light eq ""} {
        set light "*** ALARM ***"
    } else {
        set light ""
    }
    after 500 blink
}

set light ""
bind all <F1> {.switches.pump invoke}
bind all <F2> {.switches.alarm invoke}
show
note started
after 1000 tick
blink
focus .switches.pump
