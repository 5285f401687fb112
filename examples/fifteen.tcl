# Fifteen windows, on a grid of 32 by 9.
#
# Tab goes from field to field, Down through the list, space turns the box on and presses a button. F10 sends.

label .title -text "Order 7"
proc row {name class} {
    frame .$name
    label .$name.label -text $name -width 6 -anchor w
    $class .$name.field -width 14
    pack .$name.label .$name.field -side left -anchor n
}
row name entry
row town entry
row goods listbox
.goods.field configure -height 2
.goods.field insert end apples pears quinces
checkbutton .express -text express
frame .buttons
button .buttons.clear -text Clear -width 7 -command clear
button .buttons.send -text Send -width 6 -command send
label .last -textvariable last
pack .title
pack .name .town .goods .express -anchor w
pack .buttons.clear .buttons.send -side left
pack .buttons -anchor e
pack .last -anchor w
proc send {} {
    global last express
    set last "[.name.field get], [.town.field get]: [.goods.field get active]"
    if {$express} {append last ", express"}
}
proc clear {} {
    .name.field delete 0 end
    .town.field delete 0 end
    .express deselect
    focus .name.field
}
bind .goods.field <Down> {%W activate [expr {[%W index active] + 1}]}
bind . <F10> {.buttons.send invoke}
focus .name.field
