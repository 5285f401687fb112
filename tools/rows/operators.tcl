# The operators: what they give for drawn operands, by tclsh, and by this project's rules where these differ.
#
# Integers beyond 64 bits are errors here, where Tcl goes on with large ones; so is the operand that is no integer, which
# Tcl 8.6.13 doesn't name.

namespace eval rows {
    variable small {0 0 1 1 -1 -1 2 -2 3 -3 5 +5 7 -7 8 10 62 63 64 65 -64 100 -100 07 010 0x10 0xfF -0x1f +0x2 " 7 " "3 " " -4"}
    variable large {
        9223372036854775807 -9223372036854775808 9223372036854775806 -9223372036854775807 0x7fffffffffffffff
        -0x8000000000000000 4611686018427387904 -4611686018427387904 3037000499 3037000500 -3037000500 4294967295 4294967296
        -4294967296 2147483648 -2147483649 1000000007 -998244353 0x5555555555555555 -0x0123456789abcdef
        0777777777777777777777
    }
    variable beyond {9223372036854775808 -9223372036854775809 18446744073709551616 0xffffffffffffffff -99999999999999999999}
    variable texts {{} " " a b A ab abc "a b" "ab " true yes on off no 08 -08 "- 5" --5 5x x5 0x "1 2" + 9a}

    # An integer of up to 63 bits with a sign.
    proc any_integer {} {
        set magnitude 0
        for {set bits [expr {1 + int(rand() * 63)}]} {$bits > 0} {incr bits -1} {
            set magnitude [expr {$magnitude * 2 + int(rand() * 2)}]
        }
        expr {rand() < 0.5 ? $magnitude : -$magnitude}
    }

    proc operand {} {
        variable small
        variable large
        variable beyond
        variable texts
        set drawn [expr {rand()}]
        if {$drawn < 0.40} { return [pick $small] }
        if {$drawn < 0.65} { return [pick $large] }
        if {$drawn < 0.85} { return [any_integer] }
        if {$drawn < 0.89} { return [pick $beyond] }
        pick $texts
    }

    # An operand on the right: a small one more often for a shift, and the left one again now and then.
    proc right_operand {operator left} {
        if {$operator in {<< >>} && rand() < 0.8} { return [pick $rows::small] }
        if {rand() < 0.15} { return $left }
        operand
    }

    proc is_integer {text} { string is entier -strict $text }

    proc in_range {integer} { expr {-0x8000000000000000 <= $integer && $integer <= 0x7fffffffffffffff} }

    # What an operator on integers gives.
    proc calculated {operator a b} {
        set failed [catch {expr "\$a $operator \$b"} value]
        foreach operand [list $a $b] {
            if {![is_integer $operand]} {
                if {!$failed} { error "Tcl takes $operand" }
                return "E13 $operand"
            }
            if {![in_range $operand]} { return E14 }
        }
        if {$failed} { return [told $value] }
        expr {[in_range $value] ? $value : "E14"}
    }

    # What a comparison gives.
    proc compared {operator a b} {
        if {[is_integer $a] && [is_integer $b] && !([in_range $a] && [in_range $b])} { return E14 }
        expr "\$a $operator \$b"
    }

    proc value_of {operator a b} {
        switch -- $operator {
            eq - ne { return [expr "\$a $operator \$b"] }
            < - > - <= - >= - == - != { return [compared $operator $a $b] }
        }
        calculated $operator $a $b
    }

    # Lines of some of these calls each, and the list of what they give.
    proc calls {pairs} {
        set line {}
        set values {}
        foreach {call value} $pairs {
            if {[string length $line$call] > 170} {
                row "list$line" ok [joined $values]
                set line {}
                set values {}
            }
            append line " \[$call\]"
            lappend values $value
        }
        if {$values ne {}} { row "list$line" ok [joined $values] }
    }
}

# The rows of each operator call `t`, which gives the value or the error's text.
expr {srand(8613)}
foreach operator {* / % + - << >> < > <= >= == != eq ne & ^ |} {
    session "operator $operator at operands as tclsh takes them"
    row {proc t {a operator b} {catch {expr "\$a $operator \$b"} m; set m}} ok
    set drawn {}
    while {[dict size $drawn] < 150} {
        set a [rows::operand]
        set b [rows::right_operand $operator $a]
        dict set drawn "t [rows::word $a] $operator [rows::word $b]" [rows::value_of $operator $a $b]
    }
    rows::calls $drawn
}

session "operators: rounding, ranges, and which operand is told of"
row {expr {-7 / 2}} ok -4
row {expr {-7 % 2}} ok 1
row {expr {9223372036854775807 + 1}} error E14
row {catch {expr {1 / 0}} m} ok 1
row {set m} ok E16
row {proc t {a operator b} {catch {expr "\$a $operator \$b"} m; set m}} ok
foreach {operator triples} {
    / {-7 2 -4 7 -2 -4 -7 -2 3 -9223372036854775808 -1 E14 1 0 E16 a 0 {E13 a} -9223372036854775808 2 -4611686018427387904}
    % {-7 2 1 7 -2 -1 -7 -2 -1 -9223372036854775808 -1 0 0 -5 0 1 0 E16}
    + {9223372036854775807 1 E14 a 99999999999999999999 {E13 a} 99999999999999999999 a E14 { 08 } 1 {E13  08 }}
    << {-1 63 -9223372036854775808 1 63 E14 0 99999999 0 1 -1 E14 0 -1 E14 1 62 4611686018427387904}
    >> {-1 64 -1 -5 1 -3 5 9223372036854775807 0 1 -1 E14 -9223372036854775808 63 -1}
    < {10 9 0 10 9a 1 ab b 1 b ab 0 a ab 1}
    == {0x10 16 1 { 7 } 7 1 a {a } 0 99999999999999999999 a 0 99999999999999999999 1 E14}
    eq {0x10 16 0 99999999999999999999 99999999999999999999 1}
} {
    set calls {}
    foreach {a b value} $triples { lappend calls "t [rows::word $a] $operator [rows::word $b]" $value }
    rows::calls $calls
}

session "operators of one operand, and results"
row {proc u {operator a} {catch {expr "$operator \$a"} m; set m}} ok
set calls {}
foreach {operator operand value} {
    - -9223372036854775808 E14  - 0x10 -16  - true {E13 true}  + { 010 } 8  ~ -1 0
    ~ 9223372036854775807 -9223372036854775808  ! 0x0 1  ! -3 0  ! true 0  ! yes 0  ! on 0  ! false 1  ! no 1  ! off 1
    ! True {E13 True}  ! 99999999999999999999 E14
    {} 0x1F 31  {} { 07 } 7  {} 08 08  {} {a b} {a b}  {} 9223372036854775808 E14
} {
    lappend calls "u {$operator} [rows::word $operand]" $value
}
rows::calls $calls
set calls {}
foreach word {true yes on false no off True tru 1 0 {} { 2 } 0x0 08} {
    set value [expr {$word in {true yes on} ? "a" : $word in {false no off} ? "b" : $word in {1 { 2 }} ? "a"
        : $word in {0 0x0} ? "b" : "E13 $word"}]
    lappend calls "c [rows::word $word]" $value
}
row {proc c {word} {catch {if {$word} {list a} else {list b}} m; set m}} ok
rows::calls $calls
