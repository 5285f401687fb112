# Expressions: what is calculated, what is passed over, faults, and how deep and long they may be.

session "expressions: values, and what is passed over"
ask {expr 1 + 2 * 3} {expr {(1 + 2) * 3}} {set a 7; expr {$a % 3 - -$a}} {expr {-7 / 2}} {expr {-~!0}} \
    {expr {1 < 2 && 2 < 3 || [error never]}} {expr {0 && [error never]}} {expr {1 || [error never]}} \
    {expr {1 ? "yes" : [error never]}} {expr {0 ? [error never] : 0x10}} \
    {set n 0; expr {[incr n] + [incr n] * [incr n]}} {set x a; expr {$x eq "a" ? [string length $x] : 0}} \
    {expr {"a b" eq {a b}}} {expr {1 << 4 | 1 << 2 ^ 4}} \
    {set b(k) 5; set k k; expr {$b($k) * $b([set k])}} {catch {expr {[error inner] + 1}} m; set m} \
    {list [catch {expr {[return 3] + 1}} m] $m} {expr {[catch {error x}] == 1}} \
    {expr {1 - 2 - 3}} {expr {1 - (2 - 3)}} {expr {- + ! ~1}} {expr {1 + -2 * 3}} {expr {!$a == 3}} {expr {3eq2}} \
    {expr {3 eq true}} {expr {1 || 0 && 2 | 3}} {expr {1 ? 2 : 3 ? 4 : 5}} {expr {0 ? 2 : 0 ? 4 : 5}} \
    {expr {1 ? 2 ? 3 : 4 : 5}} {expr {1 || 0 ? 2 + 3 : 4}} {expr {0x1F+017}} {set {a b} 3; expr {${a b}}} \
    {expr {$a < [set n] + "$n$a" * {2}}} "expr {  7\t\n}" {expr "1 +" 2} {expr {"$x"}} {expr {{$x}}} {expr {[set x]}} \
    {expr {yes ? 3 : 4}} {expr {off ? 3 : 4}} {expr {([])}}

session "expressions: what Tcl's manual groups otherwise than tclsh"
row {expr {1 <= 2 >= 3 != 4 ne 5 >> 6}} ok 1
row {expr {2 == 2 eq 2}} ok 0
row {expr {2 eq 2 == 1}} ok 0
row {expr {"a" eq 1 == 1}} ok 0

session "expressions: faults of the form, and those of scripts in brackets"
foreach text {
    a 08 0x 0xg {1 2} {} () True tru truex {3 eqtrue} {1 ? 2} {1 ? 2 : } $ $( {1 ** 2} {1 = 2} (1 1) {"a} {"\a"} {$a(\a)} $a(
    {1 2 [x}
} {
    row "expr [rows::word $text]" error E20
}
row "expr \\{a" error E20
row "expr \\$\\{a" error E20
foreach {text answer} {
    {[\a]} E06 {"[\a]"} E06 {$a([\a])} E06 {$a([b $c)} E03 {[x} E03 {(1 + [x} E03 {["x"y] 2} E04 {1 ? [a "} E02 {1 + [a $b(} E08
} {
    row "expr [rows::word $text]" error $answer
}
row "expr 1\\ +\\ \\\[a\\ \\{" error E01
row {expr} error {E10 expr}
row {expr 1 +} error E20
row {expr {1 / 0}} error E16
row {expr 9223372036854775808} error E14
row {expr {"a" + 1}} error {E13 a}
row {expr {!"a"}} error {E13 a}
row {expr {"a" ? 1 : 2}} error {E13 a}
row {expr {"a" || 1}} error {E13 a}
row {expr {1 && "b"}} error {E13 b}
row {if + {}} error E20
row {if {"a"} {}} error {E13 a}
row {while + {}} error E20
row {while {"a"} {}} error {E13 a}

session "expressions: a backslash before a newline is white space"
ask {set c "1 +\\\n2"; expr $c} {set c "\\\n-\\\n(2\\\n) \\\n* 3\\\n"; expr $c} {set c "1\\\n? \\\n\t4 :\\\n5"; expr $c} \
    {set c "\\\n0\\\n"; if $c {set x yes} else {set x no}} {set c "\"a\"\\\neq {a}\\\n"; expr $c}
foreach text {{1 \\} {1 +\\\n} {\\\n} {1 \\\\\n} {1 \\ \n} {\\} {-\\}} {
    row "set c \"$text\"; expr \$c" error E20
}

session "expressions: how deep they may be"
row {set a(1) 1} ok 1
foreach {front middle back count answer} {
    ( 1 ) 32 {ok 1} ( 1 ) 33 {error E07} 1?1: 1 {} 32 {ok 1} 1?1: 1 {} 33 {error E07} 1? 1 :1 32 {ok 1} 1? 1 :1 33 {error E07}
    $a( {[set a(1)]} ) 31 {ok 1} $a( {[set a(1)]} ) 32 {error E07} 1?( {[set a(1)]} ):1 15 {ok 1} 1?( {[set a(1)]} ):1 16 {error E07}
} {
    row "expr {[string repeat $front $count]$middle[string repeat $back $count]}" {*}$answer
}
row {expr {(1?$a([set a(1)]):1)}} ok 1

session "expressions: how long they may be"
row {set s 1+; for {set i 0} {$i < 14} {incr i} {append s $s}; string length $s} ok 32768
row {set t [string range $s$s 2 end]; string length $t} ok 65534
row {expr [set t]1} ok 32768
row {expr $t} error E20
row {set s --; for {set i 0} {$i < 14} {incr i} {append s $s}; string length $s} ok 32768
row {set t [string range $s$s 1 end]; string length $t} ok 65535
row {expr [set t]1} ok -1
row {expr $t} error E20
row {expr [set t]11} refused large
