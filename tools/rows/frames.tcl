# Calls on variables in a chain of frames: drawn ones, each with what Tcl answers, and this project's own rules.
# readers.tcl reads this file.

namespace eval gen {
    variable seed 7
    variable left 360
    variable names {a b a(x) a(y) b(x) b() a(x)(y) a( c) {}}
    variable calls {
        set set set get get exists unset global global {set global} {get global} push {push global} pop pop
    }

    proc pick {list} {
        variable seed
        set seed [expr {($seed * 1103515245 + 12345) % 2147483648}]
        lindex $list [expr {($seed >> 8) % [llength $list]}]
    }

    # The number of an error by its message. A link to an element is E17 whatever the global is; Tcl asks first
    # whether that is an array.
    proc error_of {message} {
        switch -glob $message {
            "can't access *" { return E17 }
            "*no such variable" - "*no such element in array" { return E11 }
            "*variable is array" - "*variable isn't array" { return E12 }
            "*already exists*" - "*bad variable name*" { return E17 }
        }
        error "another error: $message"
    }

    # Draws the next call.
    proc next {} {
        variable left
        variable names
        variable calls
        incr left -1
        variable call [pick $calls]
        variable name [pick $names]
        variable value [pick {1 2 3}]
    }

    # Writes a call and its answer.
    proc show {failed answer} {
        variable call
        variable name
        variable value
        if {$failed} {
            set answer "[error_of $answer] $name"
        }
        if {$call in {push {push global} pop}} {
            reads vars $call|| {}
        } else {
            # a call that changes nothing has no value, and one that changes the variables answers its value
            if {!$failed && $call in {unset global}} { set answer $value }
            reads vars $call|$name|$value $answer
        }
    }
}

# The script of the call that was drawn, for the frame that runs it.
proc gen::script {} {
    variable call
    variable name
    variable value
    switch $call {
        set { list set $name $value }
        get { list set $name }
        {set global} { list uplevel #0 [list set $name $value] }
        {get global} { list uplevel #0 [list set $name] }
        exists { list info exists $name }
        unset { list unset $name }
        global { list global $name }
    }
}

# A frame: runs calls until one ends it.
proc frame {} {
    while {$::gen::left > 0} {
        gen::next
        if {$::gen::call eq "pop"} {
            gen::show 0 {}
            return
        }
        if {$::gen::call in {push {push global}}} {
            gen::show 0 {}
            gen::begun $::gen::call
            continue
        }
        set ::gen::failed [catch [gen::script] ::gen::answer]
        gen::show $::gen::failed $::gen::answer
    }
}

# Begins a frame: a procedure's, or the globals.
proc gen::begun {call} {
    if {$call eq "push"} {
        ::frame
    } else {
        uplevel #0 [info body ::frame]
    }
}

# The globals, where no frame ends.
while {$gen::left > 0} {
    gen::next
    if {$gen::call eq "pop"} {
        continue
    }
    if {$gen::call in {push {push global}}} {
        gen::show 0 {}
        gen::begun $gen::call
        continue
    }
    set gen::failed [catch [gen::script] gen::answer]
    gen::show $gen::failed $gen::answer
}

# Names that have nothing before the parenthesis; procedures; how much a list holds that would grow.
reads vars new|| {}
foreach {call answer} {
    {set|(x)|1} {E17 (x)}
    {get|(x)|} {E17 (x)}
    {exists|(x)|} {E17 (x)}
    {unset|(x)|} {E17 (x)}
    {global|(x)|} {}
    {push||} {}
    {global|(x)|} {E17 (x)}
    {pop||} {}
    {procedure|f|} {}
    {define|f|one} {one}
    {procedure|f|} {1one}
    {define|f|two} {two}
    {procedure|f|} {1two}
    {procedures||} {1}
    {set|s|1} {1}
    {set|a(x)|1} {1}
    {set|a(y)|1} {1}
    {push||} {}
    {grown by link|a|} {0}
    {global|a|} {}
    {grown by value|a(x)|} {}
    {grown by link|a(x)|} {}
    {grown by value|a(z)|} {2}
    {grown by link|a(z)|} {}
    {grown by value|a|} {}
    {grown by link|a|} {}
    {grown by value|s|} {1}
    {grown by link|s|} {1}
    {grown by value|b(x)|} {1}
    {grown by link|b(x)|} {}
    {grown by value|(x)|} {}
    {grown by link|(x)|} {}
    {set|t|1} {1}
    {grown by value|t|} {}
    {grown by global value|t|} {2}
    {grown by global value|s|} {}
    {grown by global value|a(z)|} {2}
    {grown by global value|a(x)|} {}
    {grown by global value|(x)|} {}
    {push||} {}
    {push global||} {}
    {grown by value|t|} {2}
    {grown by link|t|} {}
    {depth||} {3}
    {pop||} {}
    {pop||} {}
    {get global|(x)|} {E17 (x)}
    {set global|(x)|1} {E17 (x)}
    {get global|t|} {E11 t}
    {pop||} {}
    {grown by value|b|} {2}
    {grown by link|b|} {}
} {
    reads vars $call $answer
}

# A copy stays as it was when it was made.
reads vars new|| {}
foreach {call answer} {
    {define|s|body} {body}
    {set|s|1} {1}
    {push global||} {}
    {push||} {}
    {global|s|} {}
    {set|a(x)|1} {1}
    {length||} {2}
    {copy||} {}
    {set|s|2} {2}
    {set|a(x)|2} {2}
    {define|s|other} {other}
    {get|s|} {2}
    {get|a(x)|} {2}
    {back||} {}
    {get|s|} {1}
    {get|a(x)|} {1}
    {procedure|s|} {1body}
    {depth||} {2}
    {pop||} {}
    {exists|a(x)|} {0}
    {pop||} {}
    {depth||} {0}
    {length||} {1}
    {pop||} {}
    {depth||} {0}
} {
    reads vars $call $answer
}
