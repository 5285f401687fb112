# What options a class takes, and their defaults: `xvfb-run -a wish options.tcl`. Rows are those on which this
# project's options agree with Tk's.
foreach {class words} {
    frame {-width 5} frame {-width abc} frame {-text x} frame {-height 10000 -width 0x10}
    label {-text x -anchor nw} label {-anchor north} label {-command x} button {-textvariable v} label {-state}
    button {-command x} button {-state active} button {-state readonly} button {-onvalue 1}
    button {-width 08}
    checkbutton {-variable v -onvalue a -offvalue b} checkbutton {-show x}
    entry {-show * -state readonly} entry {-state active} entry {-height 3}
    listbox {-selectmode multiple} listbox {-state active} listbox {-state disabled -height 3}
    listbox {-text x} text {-wrap word -height 3} text {-state readonly} text {-anchor n} text {-selectmode x}
    button {-text a -nosuch b} entry {-bg red -fg blue -bd 3} entry {-wrap char}
} {
    if {[llength $words] % 2} continue
    $class .w
    set came ""
    if {[catch {.w configure {*}$words} told]} {
        set came [expr {[string match "unknown*" $told] ? "E34 [regexp -inline {\-[a-z]+} $told]" : "E35"}]
    }
    puts "< new $class\n< .f.w configure $words\n> $came"
    destroy .w
}
foreach {class options} {
    label -anchor button -state checkbutton -onvalue checkbutton -offvalue entry -width listbox -width
    listbox -height listbox -selectmode text -width text -height text -wrap frame -width frame -height
    frame -takefocus
} {
    $class .w
    puts "< new $class\n< .f.w cget $options\n> [.w cget $options]"
    destroy .w
}
exit
