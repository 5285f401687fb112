# Series of commands drawn at random, each on a new checkbutton: `xvfb-run -a wish checkbuttons.tcl`. Behind a command's
# answer, which is `run ` where the empty script is run and `!` for an error, stands the value of the variable, or `-`
# where there is none. `set` and `unset` are a script's own.
expr {srand(23)}
proc any {words} { lindex $words [expr {int(rand() * [llength $words])}] }
proc drawn {} {
    set value [any {0 1 yes no}]
    any [list select select deselect toggle toggle toggle invoke invoke invoke "configure -state disabled" \
        "configure -state normal" "configure -state active" "configure -onvalue $value" "configure -offvalue $value" \
        "set $value" unset "select x" "deselect on" "toggle a b" "invoke now" "flip"]
}
for {set row 0} {$row < 60} {incr row} {
    unset -nocomplain c
    checkbutton .c
    puts "< new checkbutton"
    .c configure -command {set ran 1}
    for {set steps 0} {$steps < 12} {incr steps} {
        set step [drawn]
        if {![info exists c] && [string match configure* $step]} { incr steps -1; continue }
        set ran 0
        set answer ""
        switch [lindex $step 0] {
            set { set c [lindex $step 1] }
            unset { unset -nocomplain c }
            default { if {[catch {.c {*}$step}]} { set answer ! } elseif {$ran} { set answer "run " } }
        }
        if {[lindex $step 0] in {set unset}} {
            puts "< $step"
        } else {
            puts "< .f.w $step\n> $answer|[expr {[info exists c] ? $c : "-"}]"
        }
    }
    destroy .c
}
exit
