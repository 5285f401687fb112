# What the scripts of this folder share: sessions, their lines, and the answers that tclsh gives.
#
# A session begins with a line `== WIDTH HEIGHT TITLE`. What stands behind it are lines for the program, on the one
# side, and its answers, on the other. Each session has an interpreter of its own, which answers its scripts. Lists are
# spelled there as docs/LANGUAGE.md says, and what Tcl says of an error is told by this project's text for it.

namespace eval rows {
    variable input {}
    variable output {}
    variable accepted 0
    variable child asked
    # how Tcl's messages are told; `%` stands for the name in the message's first quotes, `@` for the first word there
    variable errors {
        {missing close-brace for variable name} E08 {missing )} E08
        {missing close-brace*} E01 {missing "} E02 {missing close-bracket} E03
        {extra characters after close-quote} E04 {extra characters after close-brace} E05
        {invalid command name "*"} {E09 %} {wrong # args: should be "*} {E10 @}
        {unknown or ambiguous subcommand *bytelength*} {E10 string} {unknown or ambiguous subcommand *body*} {E10 info}
        {can't * "*": no such *} {E11 %} {can't * "*": variable is* array} {E12 %}
        {expected integer but got "*"*} {E13 %} {expected boolean value but got "*"} {E13 %}
        {bad index "*"*} {E19 %} {divide by zero} E16
        {negative shift argument} E14 {integer value too large*} E14
        {unmatched*in list} E15 {list element in*} E15
        {variable "*" already exists} {E17 %}
        {invoked "*" outside of a loop} E18
        {invalid bareword*} E20 {missing op*} E20 {empty expression*} E20 {invalid character*} E20
        {unbalanced*} E20 {unexpected*} E20
    }
}

# An element as it stands in a list.
proc rows::spelled {element} {
    if {$element eq {}} { return "{}" }
    if {![regexp {^#|[\s"$;\[\]\\{}]} $element]} { return $element }
    if {![string match {*\\*} $element] && [balances $element]} { return "{$element}" }
    backslashed $element
}

# An element with a backslash before what would mean something.
proc rows::backslashed {element} {
    set text [string map {\n \\n \t \\t " " {\ } \" \\\" $ \\$ ; \\; \[ \\\[ \] \\\] \\ \\\\ \{ \\\{ \} \\\}} $element]
    regsub {^#} $text {\\#}
}

# Whether no front has more closing than opening braces, and the whole as many.
proc rows::balances {element} {
    set open 0
    foreach sign [regexp -all -inline {[{}]} $element] {
        incr open [expr {$sign eq "\{" ? 1 : -1}]
        if {$open < 0} { return 0 }
    }
    expr {$open == 0}
}

# The text of a list.
proc rows::joined {elements} {
    set text {}
    foreach element $elements { lappend text [spelled $element] }
    join $text
}

# A text as a word of a script: bare, in braces, or with backslashes where white space or braces need it.
proc rows::word {text} {
    if {[regexp {[\n\t]} $text] || [regexp {^\{\*\}} $text]} { return [backslashed $text] }
    spelled $text
}

# What a message of Tcl's is told as; one that an `error` of the script raised is told as it is.
proc rows::told {message} {
    variable errors
    foreach {pattern text} $errors {
        if {[string match $pattern $message]} {
            if {![regexp {"(.*?)"(: |,| \(|$| o| a)} $message all name]} { set name {} }
            set first [regsub {^tcl_} [lindex [split $name] 0] {}]
            return [string map [list % [string range $name 0 63] @ $first] $text]
        }
    }
    return $message
}

# An interpreter for the scripts of a session.
proc rows::begin {} {
    variable child
    if {[interp exists $child]} { interp delete $child }
    interp create $child
    interp alias $child tcl_joined {} rows::joined
    interp alias $child tcl_told {} rows::told
    $child eval {
        foreach name {list lrange split lappend catch} { rename $name tcl_$name }
        proc list args { tcl_joined $args }
        proc lrange args { tcl_joined [tcl_lrange {*}$args] }
        proc split args { tcl_joined [tcl_split {*}$args] }
        proc lappend args {
            uplevel 1 [tcl_list tcl_lappend {*}$args]
            if {[llength $args] == 1} { error {wrong # args: should be "lappend varName value ?value ...?"} }
            set name [lindex $args 0]
            uplevel 1 [tcl_list set $name [tcl_joined [uplevel 1 [tcl_list set $name]]]]
        }
        proc catch args {
            if {[llength $args] ni {1 2}} { error {wrong # args: should be "catch script ?name?"} }
            set code [tcl_catch { uplevel 1 [lindex $args 0] } text]
            if {$code == 1} { set text [tcl_told $text] }
            if {[llength $args] == 2} { uplevel 1 [tcl_list set [lindex $args 1] $text] }
            return $code
        }
    }
}

# A line of a session's answers.
proc rows::answer {answer} {
    variable output
    variable accepted
    set text [string map {\\ \\\\ \n \\n \t \\t} [lindex $answer 1]]
    set line [lindex $answer 0]
    if {$line in {ok error}} { append line " [incr accepted]" }
    if {$text ne {}} { append line " $text" }
    append output $line\n
}

# A script as a line: `cmd`, or `load` where it has newlines.
proc rows::script_line {script} {
    variable input
    if {[string match *\n* $script]} {
        append input "load [string length $script]\n$script\n"
    } elseif {$script eq {}} {
        append input "cmd\n"
    } else {
        append input "cmd $script\n"
    }
}

# Begins a session, with a grid of this size.
proc session {title {width 20} {height 3}} {
    append rows::input "== $width $height $title\n"
    append rows::output "== $width $height $title\n"
    set rows::accepted 0
    rows::begin
}

# A script, and the answer that is wanted: `ok`, `error` or `refused`, and a text.
proc row {script kind {text {}}} {
    rows::script_line $script
    rows::answer [list $kind $text]
}

# Scripts, and the answers that tclsh gives.
proc ask args {
    foreach script $args {
        rows::script_line $script
        rows::answer [rows::given $script]
    }
}

# What tclsh makes of a script.
proc rows::given {script} {
    set code [catch {$rows::child eval $script} text]
    switch $code {
        0 - 2 { return [list ok $text] }
        1 { return [list error [told $text]] }
        3 - 4 { return [list error E18] }
    }
}

# Draws one of a list.
proc pick {list} {
    lindex $list [expr {int(rand() * [llength $list])}]
}

# Writes the sessions into BASE.in, and what the program has to answer into BASE.out.
proc rows::write {base} {
    variable input
    variable output
    foreach {side text} [::list in $input out $output] {
        set file [open $base.$side w]
        puts -nonewline $file $text
        close $file
    }
}
