# Writes the rows of the script language, in the order of docs/LANGUAGE.md: sessions into BASE.in, and what the program
# has to answer into BASE.out.
#
#     tclsh language.tcl BASE
set here [file dirname [info script]]
foreach part {sessions lists substitution operators expressions variables commands evaluation parsed} {
    if {[file exists $here/$part.tcl]} { source $here/$part.tcl }
}
rows::write [lindex $argv 0]
