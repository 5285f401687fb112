# Commands on windows, as rows of a session: `xvfb-run -a wish windows.tcl`. Of an error only that it is one is Tk's;
# which error of the table it is was written in by hand.
set commands {
    {frame .f}
    {frame .f}
    {label .f.a -text {a b}}
    {label .f.b -text x -width 5 -anchor w}
    {.f.a cget -text}
    {.f.a configure -text c -anchor ne}
    {.f.a cget -text}
    {.f.a cget -anchor}
    {.f.b cget -width}
    {.f cget -text}
    {.f cget}
    {.f foo}
    {.f configure -foo 1}
    {label .b.c}
    {label .L}
    {frame x}
    {frame}
    {frame .g -width}
    {.g cget -width}
    {frame .g -foo 1}
    {label .g -width bad}
    {pack .f.a .f.b -side left -padx 2}
    {pack slaves .f}
    {pack slaves .f.a}
    {pack .f.b .f.a -fill x}
    {pack slaves .f}
    {pack forget .f.a}
    {pack slaves .f}
    {pack forget .f.a}
    {pack .f.a}
    {pack slaves .f}
    {pack configure .f -expand 1}
    {pack slaves .}
    {pack forget .}
    {pack .}
    {pack slaves .nosuch}
    {pack slaves}
    {pack slaves .f .f}
    {pack .nosuch}
    {pack .f.a .nosuch -side left}
    {pack .f.a -side}
    {pack .f.a -side middle}
    {pack .f.a -foo 1}
    {pack}
    {pack foo}
    {pack propagate .f}
    {pack propagate .f no}
    {pack propagate .f}
    {pack propagate .f maybe}
    {pack propagate .f}
    {pack propagate .f 1}
    {pack propagate .f}
    {pack propagate .nosuch}
    {pack propagate}
    {pack propagate .f 1 2}
    {pack forget .f.a .f.b .f}
    {pack slaves .f}
    {pack slaves .}
    {label .f.c}
    {pack .f.c .f.a .f.b}
    {destroy .f.a .nosuch .f.a}
    {pack slaves .f}
    {.f.a cget -text}
    {pack slaves .f.a}
    {label .f.a -text again}
    {pack slaves .f}
    {.f.a cget -text}
    {frame .f.d}
    {frame .f.d.e}
    {pack .f.d.e}
    {pack .f.d}
    {pack slaves .f}
    {pack slaves .f.d}
    {destroy .f.d .f.b}
    {pack slaves .f}
    {pack slaves .f.d.e}
    {destroy .nosuch}
    {destroy .f}
    {frame .f.x}
    {pack slaves .}
    {frame .f}
    {pack slaves .f}
    {. cget -width}
    {. configure -width 30}
    {. cget -width}
}
foreach command $commands {
    set code [catch {eval $command} answer]
    if {$code} {
        set answer [regsub -all \n $answer /]
    }
    puts "< cmd $command\n> [lindex {ok error} $code] $answer"
}
exit
