# What scripts are read as: hand rows, and random texts with what a real Tcl makes of each. readers.tcl reads this file.
#
# A tree is the commands of a text in their order, those in brackets before the command around them: each word behind a
# bar, and a bar at the end; `*` before a word that is split. A fault comes last. A variable's value is its name in `<>`, a
# command's result is `r`. `~` stands for a newline, `^` for a tab.
#
# The random texts are those for which this project's rules are Tcl's: no bytes outside the texts, no word that is split, no
# array without a name.
expr {srand(8613)}

set tokens [list \
    y z q 1 " " " " " " "\t" "\n" "\n" ";" "#" "\"" "\"" "\"" "\{" "\{" "\}" "\}" "\[" "\[" "\]" "\]" "(" ")" \
    "\\" "\\" "\\\n" "\$" "\$y" "\$\{y\}" "\$z(" "\$\{" "\{*\}" \
    "\\n" "\\t" "\\x41" "\\x4a1" "\\101" "\\1012" "\\u0041" "\\x" "\\\\" "\\\{" "\\\"" "\\q" "\"y z\"" "\{y z\}"]

# The commands of the texts run in an interpreter of their own, where none of their names is one of Tcl's.
interp create child
child alias called called
child eval {
    proc unknown args { called $args }
    proc read_scalar {name index op} { upvar #0 y value; set value <y> }
    proc read_element {name index op} { upvar #0 z elements; set elements($index) <z($index)> }
    trace add variable y read read_scalar
    trace add variable z read read_element
}

proc called words {
    foreach word $words { append ::trace | $word }
    append ::trace |
    return r
}

proc fault_of message {
    switch -glob -- $message {
        "missing close-brace for variable name" - "missing )" { return E08 }
        "missing close-brace*" { return E01 }
        "missing \"" { return E02 }
        "missing close-bracket" { return E03 }
        "extra characters after close-quote" { return E04 }
        "extra characters after close-brace" { return E05 }
    }
    return ""
}

proc is_text text { regexp {^[\t\n\x20-\x7e]*$} $text }

# Whether this project's rules are Tcl's for a text.
proc agrees text {
    if {[regexp {\$\(|\\[abfrv]|\{\*\}[^\s;]|[=~^]} $text]} { return 0 }
    foreach escape [regexp -all -inline {\\x[[:xdigit:]]{1,2}|\\u[[:xdigit:]]{1,4}|\\[0-7]{1,3}} $text] {
        if {![is_text [subst -nocommands -novariables $escape]]} { return 0 }
    }
    return 1
}

proc coded text { string map {\n ~ \t ^} $text }

set rows {}
array set count {E01 0 E02 0 E03 0 E04 0 E05 0 E08 0 {} 0}
array set most {E01 45 E02 45 E03 45 E04 30 E05 30 E08 45 {} 260}
set waiting 500
while {$waiting > 0} {
    set text ""
    for {set n [expr {2 + int(rand() * 9)}]} {$n > 0} {incr n -1} {
        append text [lindex $tokens [expr {int(rand() * [llength $tokens])}]]
    }
    if {![agrees $text] || [dict exists $rows $text]} { continue }
    set trace ""
    set fault ""
    if {[catch { child eval $text } message]} {
        set fault [fault_of $message]
        if {$fault eq ""} { continue }
    }
    if {![is_text $trace] || ($trace eq "" && $fault eq "") || $count($fault) >= $most($fault)} { continue }
    incr count($fault)
    incr waiting -1
    dict set rows $text $trace$fault
}

# Texts and their trees, by the rules.
foreach {text tree} [list \
    "set x 5; set y \"\$x \$x\"" "|set|x|5||set|y|<x> <x>|" \
    "set y \"a\[set x\]b\$x\\x41\"" "|set|x||set|y|arb<x>A|" \
    "" "" \
    " ^;; ~;" "" \
    "a\"b c\{d" "|a\"b|c\{d|" \
    "list \{*\}\{a \{b c\}\} \"\" #x" "|list|*a \{b c\}||#x|" \
    "\{*\} \{*\}; \{*\}~\[\{*\}\]" "|*|*||*||*||r|" \
    "a \{b \{c\} \\\{ d\} \{\}" "|a|b \{c\} \\\{ d||" \
    "a \{b\\~ ^ c\} \"d\\~ e\" f\\~ g" "|a|b c|d e|f|g|" \
    "# a \\~ b ; c~d # e" "|d|#|e|" \
    "\[# \]~ x\] y" "|x||r|y|" \
    "\$ \$a\$b_1.c \$\{d e\}f \$(g) \$" "|\$|<a><b_1>.c|<d e>f|\$(g)|\$|" \
    "\$a(b \$c \\x41\[d\]) \$e()" "|d||<a(b <c> Ar)>|<e()>|" \
    "\\t\\n\\101\\x41\\u0041\\x\\u\\q\\\\" "|^~AAAxuq\\|" \
    "\\1011 \\x411 \\u00411 \\400" "|A1|A1|A1| 0|" \
    "a\\ b\\;c \\" "|a b;c|\\|" \
    "a\]b \[c \{\]\} \"\]\" \$d(\]) e\] f" "|c|\]|\]|<d(\])>|e||a\]b|r|f|" \
    "a\\" "|a\\|" \
    "set a 1; set b \{" "|set|a|1|E01" \
    "set a \"b\"c" "E04" \
    "set x 5;set y \"abc" "|set|x|5|E02" \
    "set a \[" "E03" \
    "a \{b\}c; d \"" "E05" \
    "a \\a \"b" "E06" \
    "\\b" "E06" \
    "\\x7f" "E06" \
    "\\u1041" "E06" \
    "\\0" "E06" \
    "a \$\{b c" "E08" \
    "a \$b(c d" "E08" \
    "a \[b \"c\"d" "E04" \
    "a \[b \{c\]\}" "E03" \
    "a \$b(\[c \{" "E01" \
    "a \{b\\\}" "E01" \
    "a \{*\}\{*\}b" "E05" \
    "a \"b\"\]" "E04" \
    "\[a \"b\"\]" "|a|b||r|" \
] {
    reads script $text $tree
}

# Brackets and parentheses, 32 and more of them open in one another.
foreach {front back times tree} [list \
    \[ \] 32 ||[string repeat |r| 31] \[ \] 33 E07 \
    \$a( ) 32 |[string repeat <a( 32][string repeat )> 32]| \$a( ) 33 E07 \
    \[\$a( )\] 16 |<a()>|[string repeat |<a(r)>| 15]|r| \[\$a( )\] 17 E07 \
    \[ {} 32 E03 \$a( {} 40 E07] {
    reads script [string repeat $front $times][string repeat $back $times] $tree
}

# Random texts and what Tcl makes of them.
dict for {text tree} $rows { reads script [coded $text] [coded $tree] }
