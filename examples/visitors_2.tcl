# Visitors, the second version, on a grid of 40 by 12.
#
# As visitors_1.tcl, with a firm for each visitor; F2 takes in, and Return no longer. It can be loaded over a store that has
# the first version: what was typed stays, and who was inside has no firm.

# A store that a later version was loaded into stays as it is.
if {[info exists version] && $version > 2} {
    error "this store has version $version"
}

# What was there before goes: the windows with their bindings, what waits, the bindings of the form's own tag.
set focused [focus]
destroy .all
foreach id [after info] {
    after cancel $id
}
foreach sequence [bind Visitors] {
    bind Visitors $sequence {}
}

# What was typed stays: it stands in variables, and each is set where it isn't there yet.
proc first {name value} {
    global $name
    if {![info exists $name]} {
        set $name $value
    }
}
first version 1
first visitor ""
first firm ""
first inside {}
first chosen 0
first minutes 0

# The first version kept names; this one keeps pairs of a name and a firm.
if {$version < 2} {
    set names $inside
    set inside {}
    foreach one $names {
        lappend inside [list $one ""]
    }
    unset names
    set version 2
}

frame .all
label .all.title -text Visitors
frame .all.name
label .all.name.label -text Name -width 8 -anchor w
entry .all.name.field -textvariable visitor -width 24
frame .all.firm
label .all.firm.label -text Firm -width 8 -anchor w
entry .all.firm.field -textvariable firm -width 24
label .all.head -text "Inside:" -anchor w -width 36
listbox .all.inside -width 30 -height 5
label .all.told -textvariable told -width 36 -anchor w
pack .all -fill both -expand 1
pack .all.title
pack .all.name.label .all.name.field -side left
pack .all.firm.label .all.firm.field -side left
pack .all.name .all.firm .all.head -anchor w -padx 2
pack .all.inside -anchor w -padx 4
pack .all.told -side bottom -anchor w
foreach window {.all.name.field .all.firm.field .all.inside} {
    bindtags $window [concat [bindtags $window] Visitors]
}

# A visitor as the list shows one.
proc name_of {one} {
    if {[lindex $one 1] eq ""} {
        return [lindex $one 0]
    }
    return "[lindex $one 0] ([lindex $one 1])"
}

# Who is inside, as the list shows them.
proc show {} {
    global inside chosen minutes told
    .all.inside delete 0 end
    foreach one $inside {
        .all.inside insert end [name_of $one]
    }
    .all.inside activate $chosen
    set chosen [.all.inside index active]
    set who "nobody"
    if {[llength $inside] > 0} {
        set who [name_of [lindex $inside $chosen]]
    }
    set told "[llength $inside] inside, chosen: $who, open $minutes min"
}

proc take_in {} {
    global inside visitor firm
    if {$visitor ne ""} {
        lappend inside [list $visitor $firm]
        set visitor ""
        set firm ""
    }
    show
}

proc let_out {} {
    global inside chosen
    set inside [concat [lrange $inside 0 [expr {$chosen - 1}]] [lrange $inside [expr {$chosen + 1}] end]]
    show
}

proc choose {step} {
    global chosen
    incr chosen $step
    show
}

proc tick {} {
    global minutes
    incr minutes
    show
    after 60000 tick
}

bind Visitors <F2> take_in
bind Visitors <Up> {choose -1}
bind Visitors <Down> {choose 1}
bind Visitors <Delete> let_out
after 60000 tick
show
.all.name.field icursor end
.all.firm.field icursor end
if {[catch {$focused cget -takefocus} takes] || !$takes} {
    set focused .all.name.field
}
focus $focused
