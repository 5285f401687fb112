# Writes rows of crates/rows_parts: what scripts and expressions are read as, and calls on variables.
#
#     tclsh readers.tcl FOLDER
#
# A row is a kind, a space and a text in FOLDER/stdin, and what is read in FOLDER/stdout.
set here [file dirname [info script]]
set input {}
set output {}

proc reads {kind text answer} {
    append ::input "$kind $text\n"
    append ::output $answer\n
}

foreach part {scripts groupings frames} { source $here/$part.tcl }
foreach {side text} [list stdin $input stdout $output] {
    set file [open [lindex $argv 0]/$side w]
    puts -nonewline $file $text
    close $file
}
