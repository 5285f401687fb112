# Visitors, the first version, on a grid of 40 by 12.
#
# Return takes the name in, Up and Down choose who is inside, Delete lets one out. It can be loaded again, and over a store
# that has it: what was typed stays. visitors_2.tcl is its next version.

# A store that a later version was loaded into stays as it is.
if {[info exists version] && $version > 1} {
    error "this store has version $version"
}

# What was there before goes: the windows with their bindings, what waits, the bindings of the form's own tag.
set focused [focus]
destroy .all
foreach id [after info] {
    after cancel $id
}
foreach sequence [bind Visitors] {
    bind Visitors $sequence {}
}

# What was typed stays: it stands in variables, and each is set where it isn't there yet.
proc first {name value} {
    global $name
    if {![info exists $name]} {
        set $name $value
    }
}
first version 1
first visitor ""
first inside {}
first chosen 0
first minutes 0

frame .all
label .all.title -text Visitors
frame .all.name
label .all.name.label -text Name -width 8 -anchor w
entry .all.name.field -textvariable visitor -width 24
label .all.head -text "Inside:" -anchor w -width 36
listbox .all.inside -width 30 -height 5
label .all.told -textvariable told -width 36 -anchor w
pack .all -fill both -expand 1
pack .all.title
pack .all.name.label .all.name.field -side left
pack .all.name .all.head -anchor w -padx 2
pack .all.inside -anchor w -padx 4
pack .all.told -side bottom -anchor w
foreach window {.all.name.field .all.inside} {
    bindtags $window [concat [bindtags $window] Visitors]
}

# Who is inside, as the list shows them.
proc show {} {
    global inside chosen minutes told
    .all.inside delete 0 end
    foreach one $inside {
        .all.inside insert end $one
    }
    .all.inside activate $chosen
    set chosen [.all.inside index active]
    set who "nobody"
    if {[llength $inside] > 0} {
        set who [lindex $inside $chosen]
    }
    set told "[llength $inside] inside, chosen: $who, open $minutes min"
}

proc take_in {} {
    global inside visitor
    if {$visitor ne ""} {
        lappend inside $visitor
        set visitor ""
    }
    show
}

proc let_out {} {
    global inside chosen
    set inside [concat [lrange $inside 0 [expr {$chosen - 1}]] [lrange $inside [expr {$chosen + 1}] end]]
    show
}

proc choose {step} {
    global chosen
    incr chosen $step
    show
}

proc tick {} {
    global minutes
    incr minutes
    show
    after 60000 tick
}

bind Visitors <Return> take_in
bind Visitors <Up> {choose -1}
bind Visitors <Down> {choose 1}
bind Visitors <Delete> let_out
after 60000 tick
show
.all.name.field icursor end
if {[catch {$focused cget -takefocus} takes] || !$takes} {
    set focused .all.name.field
}
focus $focused
