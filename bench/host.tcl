# Answers the lines `load N` as the program does, with Tcl's own evaluator.
fconfigure stdin -translation binary
fconfigure stdout -translation binary
set accepted 0
while {[gets stdin line] >= 0} {
    set script [read stdin [lindex $line 1]]
    gets stdin
    set code [catch {uplevel #0 $script} text]
    incr accepted
    set text [string map [list \\ \\\\ \n \\n \t \\t] $text]
    puts [string trimright "[expr {$code == 1 ? "error" : "ok"}] $accepted $text" { }]
    flush stdout
}
exit
