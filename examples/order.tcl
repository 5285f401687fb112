# An order form, on a grid of 44 by 15.
#
# Tab goes from field to field, Up and Down through the list, space presses a button. F10 sends, Escape clears.
# A sign stands before what has the focus; behind a field with the focus stands how many characters are before its cursor.

set sent 0
set express 0
set goods {apples pears "sour cherries" quinces}
set prices {12 15 30 45}

label .title -text "New order"
frame .form
frame .choice
frame .buttons
label .state -anchor w -width 44
pack .title
pack .form .choice -anchor w
pack .state .buttons -side bottom -anchor w

# A label that shows a sign while a window has the focus.
proc sign {label window} {
    label $label -textvariable sign($window) -width 1
    bindtags $window [concat [bindtags $window] Signed]
}
bind Signed <FocusIn> {set sign(%W) >}
bind Signed <FocusOut> {set sign(%W) ""}

proc field {name text} {
    frame .form.$name
    label .form.$name.label -text $text -width 9 -anchor w
    entry .form.$name.entry -textvariable $name -width 24
    label .form.$name.at -textvariable at(.form.$name.entry) -width 8
    sign .form.$name.sign .form.$name.entry
    bindtags .form.$name.entry [concat [bindtags .form.$name.entry] Cursor]
    pack .form.$name.label .form.$name.sign .form.$name.entry .form.$name.at -side left
    pack .form.$name -anchor w
}
bind Cursor <KeyPress> {set at(%W) "at [%W index insert]"}
bind Cursor <FocusIn> {set at(%W) "at [%W index insert]"}
bind Cursor <FocusOut> {set at(%W) ""}
field customer Name
field street Street
field town Town

label .choice.label -text Goods -width 9 -anchor w
listbox .choice.goods -width 16 -height 3
sign .choice.sign .choice.goods
frame .choice.more
frame .choice.more.head
label .choice.more.head.label -text "How many"
entry .choice.more.count -textvariable count -width 6
sign .choice.more.head.sign .choice.more.count
label .choice.more.sum -textvariable sum -width 14 -anchor w
label .chosen -textvariable chosen -width 34 -anchor w
pack .choice.label .choice.sign -side left -anchor n
pack .choice.goods -side left
pack .choice.more -side left -padx 2
pack .choice.more.head.sign .choice.more.head.label -side left
pack .choice.more.head .choice.more.count .choice.more.sum -anchor w
pack .chosen -anchor e
foreach name $goods {
    .choice.goods insert end $name
}
.choice.goods selection set 0

checkbutton .buttons.express -text express -variable express -command price
button .buttons.send -text "\[Send F10\]" -command send
button .buttons.clear -text "\[Clear Esc\]" -command clear
foreach name {express send clear} {
    sign .buttons.sign_$name .buttons.$name
    pack .buttons.sign_$name .buttons.$name -side left
}

# What is chosen, and what it costs.
proc price {} {
    global goods prices count express sum chosen
    set chosen "chosen: [lindex $goods [.choice.goods index active]]"
    if {[catch {expr {$count * [lindex $prices [.choice.goods index active]] + 20 * $express}} found]} {
        set sum "a number?"
    } else {
        set sum "= $found crowns"
    }
}

proc choose {step} {
    set list .choice.goods
    $list activate [expr {[$list index active] + $step}]
    $list selection clear 0 end
    $list selection set active
    price
}

proc send {} {
    global sent customer goods count
    if {$customer eq ""} {
        .state configure -text "A name, please."
        focus .form.customer.entry
        return
    }
    incr sent
    .state configure -text "Order $sent: $count [lindex $goods [.choice.goods index active]] for $customer."
}

proc clear {} {
    global customer street town count express
    set customer ""
    set street ""
    set town ""
    set count 1
    .choice.more.count icursor end
    set express 0
    price
    .state configure -text ""
    focus .form.customer.entry
}

# The sum is found behind what a key does to the entry, so its tag stands behind the class.
bindtags .choice.more.count [concat [bindtags .choice.more.count] Sum]
bind Sum <KeyPress> price
bind .choice.goods <Up> {choose -1}
bind .choice.goods <Down> {choose 1}
bind .choice.goods <ButtonRelease-1> price
bind all <F10> send
bind all <Escape> clear
clear
