# Labels and buttons: what `invoke` comes to, and the sizes that they ask for: `xvfb-run -a wish captions.tcl`. Sizes are
# counted in characters and lines of a font of one width. `run SCRIPT` says that the script was run.
proc configure {options} {
    foreach {option value} $options { .w configure $option $value }
}
proc told {line answer} { puts "< [string map {"\n" \\n} $line]\n> $answer" }

foreach options {
    {-command {incr n}} {-command {incr n} -state active} {-command {incr n} -state disabled}
    {-state disabled -command {incr n} -state normal}
} {
    button .w
    configure $options
    set n 0
    set answer [.w invoke]
    puts "< new button\n< .f.w configure $options"
    told ".f.w invoke" [expr {$n == 1 && $answer == 1 ? "run [.w cget -command]" : $answer}]
    destroy .w
}

set font TkFixedFont
proc sizes {class rows} {
    global font
    foreach options $rows {
        $class .w -font $font -borderwidth 0 -highlightthickness 0 -padx 0 -pady 0
        configure $options
        set width [expr {[winfo reqwidth .w] / [font measure $font 0]}]
        set height [expr {[winfo reqheight .w] / [font metrics $font -linespace]}]
        puts "< new $class"
        told ".f.w configure $options\n< ask" "$width $height"
        destroy .w
    }
}
sizes label {
    {-text hi} {-text hello\na} {-text a\nbcd\nef} {-text ab\n} {-text \nab} {-text ab\nc -width 1} {-text ab -width 7}
    {-width 3}
}
sizes button {{-text hi} {-text a\nbcd\nef} {-text ab\nc -width 1} {-text ab -width 7} {-width 3}}
exit
