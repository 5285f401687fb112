# Evaluation: `catch`, `eval`, `foreach`, procedures, branches and loops, and the limits of one input.

namespace eval rows {
    # Scripts that answer as each does in a session of its own: a session goes on as long as what the earlier ones left
    # changes no answer.
    proc ask_fresh {title scripts} {
        variable child
        session $title
        foreach script $scripts {
            set child other
            begin
            set fresh [given $script]
            set child asked
            if {[given $script] ne $fresh} {
                session "$title, further"
                if {[given $script] ne $fresh} { error "not the same: $script" }
            }
            row $script {*}$fresh
        }
    }
}

rows::ask_fresh "catch, eval, foreach and procedures" {
    {set x 5; set y "a[set x]b$x\x41"}
    {list {*}{a {b c}} "" x}
    {set a(1) x; set i 1; set b $a($i)}
    {set a(xy) 3; set t y; list $a(x$t) $a([append u x]y)}
    {set x [list [list a b] [list c]]}
    {list a[list b c]d [list]{e}}
    {catch {error boom} m; list $m}
    {list [catch {error boom}] [catch {return x}] [catch break] [catch continue] [catch {set a 1}]}
    {catch {set a 1; error b; set a 2}; set a}
    {list [catch {return 5} m] $m}
    {catch {catch {error x} m; error y} n; list $m $n}
    {eval {set a 1}; set a}
    {eval set a 5}
    {eval list {a b} {c}}
    {eval "set a" 5}
    {eval {break}}
    {foreach x {a b c} {append r $x-}; set r}
    {foreach x {} {error never}}
    {foreach x {1 2 3} {break}; set x}
    {foreach x {1 2 3} {continue; error never}; set x}
    {foreach x {1 2} {foreach y {a b} {lappend r $x$y}}; set r}
    {foreach x {1 2 3} {lappend r $x; set x q}; list $r $x}
    {set l {a b}; foreach x $l {lappend l $x$x}; set l}
    {foreach x {1 2} {foreach y {a b} {break}; lappend r $x$y}; set r}
    {catch {foreach x {1 2} {error $x}} m; list $x $m}
    {proc f {} {return 3}; f}
    {proc f {} {set a 1}; f}
    {proc f {a b} {list $b $a}; f 1 2}
    {proc f {a {b 2} args} {list $a $b $args}; list [f 1] [f 1 5] [f 1 5 x y]}
    {proc f {args} {llength $args}; list [f] [f a {b c}]}
    {proc f {args b} {list $args $b}; f 1 2}
    {proc f {{args 5}} {set args}; f}
    {proc f {a a} {set a}; f 1 2}
    {proc f {a(b} {set a(b}; f 1}
    {proc {} {} {return 4}; {}}
    {proc f {} {global n; incr n}; f; f; set n}
    {set n 7; proc f {} {set n 1; list $n}; list [f] $n}
    {proc f {x} {global r; lappend r $x; eval $x}; f {f {f {set y 1}}}; set r}
    {proc f {} {catch {error e} m; return $m}; f}
    {proc f {} {foreach x {1 2} {return $x}}; f}
    {proc f {} {proc g {} {return inner}; g}; list [f] [g]}
    {proc f {} {error deep}; proc g {} {f}; catch g m; set m}
    {proc f {} {return [list a b]}; list [f] {*}[f]}
    {proc f {l} {foreach x $l {lappend r <$x>}; join $r ,}; f {a {b c} d}}
    {proc f {} {set a(1) x; set a(2) y; list $a(1)$a(2)}; f}
    {set x a; set $x b; set a}
    {{*}{set x} 3}
    {{*}{}}
    {set a 1; # set a 2}
}

rows::ask_fresh "branches and loops" {
    {if 1 {set r a} else {set r b}}
    {if 0 {set r a} else {set r b}}
    {if 0 {set r a} {set r b}}
    {if 0 {set r a}}
    {if 0 {set r a} elseif 1 {set r b} else {set r c}}
    {if 0 then {set r a} elseif 0 then {set r b} else {set r c}}
    {if 0 {set r a} elseif 0 {set r b} {set r c}}
    {if {[set n 1]} then {set n 2}; set n}
    {set n 5; if {$n < 3} {set r small} elseif {$n < 10} {set r middle} else {set r large}}
    {if yes {list a} else {list b}}
    {if {" 0x0 "} {list a} else {list b}}
    {catch {if 1 {error e}} m; set m}
    {catch {if {[error c]} {error e}} m; set m}
    {foreach x {1 2 3} {if {$x == 2} continue; lappend r $x}; set r}
    {foreach x {1 2 3} {if {$x == 2} break; lappend r $x}; set r}
    {proc f n {if {$n > 0} {return more}; list none}; list [f 0] [f 1]}
    {set i 0; while {$i < 3} {incr i}; set i}
    {set i 0; while {$i < 3} {incr i}}
    {while 0 {error never}}
    {set i 0; while 1 {if {[incr i] > 4} break}; set i}
    {set i 0; while {$i < 5} {incr i; if {$i % 2} continue; lappend r $i}; set r}
    {proc f {} {while 1 {return done}}; f}
    {list [catch {while 1 {error e}} m] $m}
    {list [catch {while 1 {return r}} m] $m}
    {for {set i 0} {$i < 3} {incr i} {lappend r $i}; list $i $r}
    {for {} 0 {} {error never}}
    {for {set i 0} {$i < 9} {incr i} {if {$i == 2} continue; if {$i == 4} break; lappend r $i}; list $i $r}
    {for {set i 0} 1 {if {[incr i] > 3} break} {lappend r $i}; list $i $r}
    {for {set i 3} {$i} {incr i -1} {for {set j 0} {$j < $i} {incr j} {append r $i$j,}}; set r}
    {list [catch {for {error s} 1 {} {}} m] $m}
    {list [catch {for {} 1 {error n} {}} m] $m}
    {proc f {} {for {set i 0} {$i < 5} {incr i} {if {$i == 3} {return $i}}}; f}
    {proc fact n {if {$n < 2} {return 1}; expr {$n * [fact [expr {$n - 1}]]}}; fact 10}
    {proc fib n {if {$n < 2} {return $n}; expr {[fib [expr {$n - 1}]] + [fib [expr {$n - 2}]]}}; fib 8}
    {proc gcd {a b} {while {$b} {set t $b; set b [expr {$a % $b}]; set a $t}; set a}; gcd 1071 462}
    {proc rev l {for {set i [llength $l]} {[incr i -1] >= 0} {} {lappend r [lindex $l $i]}; set r}; rev {a {b c} d}}
    {proc isprime n {for {set i 2} {$i * $i <= $n} {incr i} {if {$n % $i == 0} {return 0}}; return 1}; for {set n 2} {$n < 20} {incr n} {if {[isprime $n]} {lappend r $n}}; set r}
    {set s ""; foreach c [split hello {}] {set s $c$s}; set s}
    {foreach w {b a c} {if {![info exists best] || $w < $best} {set best $w}}; set best}
    {proc count {l x} {set n 0; foreach y $l {if {$x eq $y} {incr n}}; set n}; count {a b a c a} a}
    {set n 0; foreach {x} {1 2 3} {set n [expr {$n + $x}]}; set n}
    {set l {3 1 2}; foreach x $l {set i 0; while {$i < [llength $l] && [lindex $l $i] < $x} {incr i}; lappend r $i}; set r}
}

rows::ask_fresh "lists in variables, and what runs where it stands" {
    {set l "one two {three four} five six seven eight"; list [lindex $l 2] [llength $l] [lindex $l end] [lindex $l 9]}
    {set l "one two {three four} five six seven eight"; for {set i 0} {$i < 8} {incr i} {lappend r [lindex $l $i]}; set r}
    {set l "one two {three four} five six seven eight"; for {set i 0} {$i < 3} {incr i} {lindex $l $i}; lappend l nine; list [lindex $l end] [llength $l]}
    {set l "one two {three four} five six seven eight"; lindex $l 0; append l " nine"; list [lindex $l end] [llength $l]}
    {set l "one two {three four} five six seven eight"; llength $l; append l een; list [lindex $l end] [llength $l]}
    {set l "one two {three four} five six seven eight"; llength $l; set l "a b c d e f g h i j k l m n o p q r"; list [llength $l] [lindex $l 3]}
    {set l "one two {three four} five six seven eight"; set m $l; llength $m; lappend m nine; list [llength $l] [llength $m] [lindex $l end] [lindex $m end]}
    {set a(x) "one two {three four} five six seven eight"; set n [llength $a(x)]; lappend a(x) nine; list $n [lindex $a(x) end] [llength $a(x)]}
    {set l "one two {three four} five six seven eight"; proc f {} {global l; list [lindex $l 1] [llength $l]}; proc g {} {global l; lappend l nine; lindex $l end}; list [f] [g] [f] [llength $l]}
    {proc f {l} {set n 0; while {$n < [llength $l]} {append r <[lindex $l $n]>; incr n}; set r}; f "one two {three four} five six seven eight"}
    {set l "a {b c} \"d e\" f\\ g {} h i j k l m n o p q r s t"; list [llength $l] [lindex $l 1] [lindex $l 2] [lindex $l 3] [lindex $l 4]}
    {set l {}; for {set i 0} {$i < 12} {incr i} {lappend l "e $i"}; list [llength $l] [lindex $l 7] [lindex $l end]}
    {set l "one two three four five six seven { }"; for {set i 0} {$i < 3} {incr i} {lappend l $i; llength $l; lindex $l end}; set l}
    {set l "one two three four five six seven eight"; foreach i {0 1 2} {set n [llength $l]; lappend l [lindex $l $i]$n}; set l}
    {set l " one  two\tthree four five six seven eight "; list [llength $l] [lindex $l 0] [lindex $l 2] [lindex $l end]}
    {set i 4; set l "one two three four five six seven eight"; list [lindex $l $i] [lindex $l [expr {$i + 1}]] [lindex $l end-$i]}
    {proc f {a b c d e f g h i {j 10} args} {set k 11; unset c; set c 3; list $a $b $c $d $e $f $g $h $i $j $k $args}; f 1 2 0 4 5 6 7 8 9}
    {proc f {a b c d e f g h i j} {set a x; set j y; foreach v {k l m} {set $v $v}; list $a $j $k $l $m [info exists b] [info exists z]}; f 1 2 3 4 5 6 7 8 9 10}
    {proc f {a b c d e f g h i j} {unset a j; set a 1; incr j; list $a $b $i $j}; f 0 2 3 4 5 6 7 8 9 10}
    {proc f {n} {if {$n == 0} {return end}; set x $n; set y [f [expr {$n - 1}]]; list $x $y}; f 5}
    {foreach x {1 2 3} {if {$x == 2} {set y two; lappend r $y} else {lappend r $x}}; set r}
    {set x 1; set y [incr x]a[incr x]; list $x $y}
    {set x 0; list [incr x] [incr x 5] $x [set x] [append x 0]}
    {foreach i {1 2 3} {append s "<$i>"}; set s}
    {for {set i 0} {$i < 3} {incr i} {set x $i}; list $x $i}
    {for {set i 0} {$i < 3} {incr i} {continue}; set i}
    {for {set i 0} {$i < 5} {set i [expr {$i + 2}]} {lappend r $i}; set r}
    {set i 0; while {$i < 3} {incr i; if {$i == 2} {set j $i}}; list $i $j}
    {set i 0; while {$i < 3} {set s [expr {$i * 2}]; incr i}; list $i $s}
    {if {[set n 3] > 2} {set r [incr n]}; list $n $r}
}

rows::ask_fresh "last calls, and words that are lent" {
    {proc f n {if {$n < 2} {return $n}; expr {[f [expr {$n - 1}]] + [f [expr {$n - 2}]]}}; f 8}
    {proc f n {if {$n == 0} {return end}; f [expr {$n - 1}]}; list [f 3] [f 0]}
    {proc f {} {return [g]}; proc g {} {return [h]}; proc h {} {error deep}; list [catch f m] $m}
    {proc f {} {g}; proc g {} {break}; list [catch {foreach x {1 2} {f}} m] $m}
    {proc f {args} {llength $args}; list [f] [f a] [f {a b} c]}
    {proc f {l} {if {[llength $l] == 0} {return {}}; concat [f [lrange $l 1 end]] [lrange $l 0 0]}; f {a b {c d} e}}
    {proc f {x} {g $x; g [g $x]}; proc g {x} {incr x}; list [f 1] [f 5]}
    {proc f {x} {if {$x} {g $x} else {list none}}; proc g {x} {list some $x}; list [f 0] [f 1]}
    {proc f {x} {expr {[g $x] * [g [expr {$x + 1}]] - [g 0]}}; proc g {x} {expr {$x * $x}}; f 3}
    {proc e {} {}; proc k {} {e; e}; for {set n 0} {$n < 40} {incr n} {k}; list $n [k]}
    {set l {a {b c} d}; list [lrange $l 0 1] [lrange $l 1 end] [lrange $l end end] [lrange $l 2 0] [lrange $l 0 9] [lrange $l end-1 end]}
    {set l {a b c}; set i 1; list [lrange $l $i end] [lrange $l 0 $i] [lindex $l $i] [llength $l]}
    {set l "a \{b"; list [catch {lrange $l 0 0} m] $m}
    {set l {a b c}; list [catch {lrange $l x 1} m] $m [catch {lrange $l 0} n] $n}
    {set l "one two {three four} five six seven eight"; list [lrange $l 1 2] [lrange $l end-1 end]}
    {set x 5; list [catch {return $x} r] $r [catch {return} s] $s}
    {proc f {} {set x 1; return $x$x}; proc g {} {return "a b"}; proc h {} {return}; list [f] [g] [h]}
    {list [expr {[set x 3] + 4}] [expr {1 + [set y 5]}] [expr {[set x] * [set y] - [set x]}]}
    {list [expr {-[llength {a b}]}] [expr {![llength {}]}] [expr {[llength {a}] ? [string length ab] : [nope]}]}
    {list [expr {"[string length abc]" + 1}] [expr {[list 0x10] + 0}] [expr {[list 12]}] [expr {[list 0x1F]}]}
    {list [expr {999999999999999999}] [expr {[list 1000000000000000000]}] [expr {[list -12]}] [expr {[list abc]}] [expr {[list 0]}]}
    {foreach x {} {error never}; foreach x {1 2} {set y $x}; set y}
    {list [catch {foreach} a] $a [catch {foreach x} b] $b [catch {foreach x {1 2}} c] $c}
    {proc f {l} {foreach x $l {if {$x > 1} {return $x}}; list none}; list [f {0 1 2 3}] [f {0 1}]}
    {proc f {} {foreach x {1 2 3} {g $x}; g end}; proc g {x} {global r; lappend r $x}; f; set r}
}

session "evaluation: wrong words, and bad names of procedures"
foreach {script answer} {
    foo {E09 foo}  {list [set q]} {E11 q}  {set a(1) x; set b $a} {E12 a}  catch {E10 catch}  {catch a b c} {E10 catch}
    {foreach x {1 2}} {E10 foreach}  {foreach (x) a {}} {E17 (x)}  {proc f {}} {E10 proc}  {proc set {} {}} {E17 set}
    {proc while {} {}} {E17 while}  {proc f {{a b c}} {}} {E17 f}  {proc f {{}} {}} {E17 f}  {proc f {a(b)} {}} {E17 f}
    {proc f {a b} {}; f 1} {E10 f}  {f 1 2 3} {E10 f}  {proc f {} {set v 1}; f; set v} {E11 v}
    if {E10 if}  {if 1} {E10 if}  {if 1 then} {E10 if}  {if 0 a else} {E10 if}  {if 0 a elseif} {E10 if}  {if 0 a b c} {E10 if}
    {if 0 a else b c} {E10 if}  {if then {}} {E10 if}  {if 1 then else b} {E10 if}  {if 0 a else then} {E10 if}
    {if [set w 1] a else} {E10 if}  {while 1} {E10 while}  {for 1 2 3} {E10 for}  {while {[break]} {}} E18
    {for {break} 1 {} {}} E18  {for {} 1 {continue} {}} E18  {eval {break}} E18  {proc f {} {break}; f} E18
    {proc f {} {continue}; f} E18  {list [break]} E18  {set a {b}c} E05
} {
    row $script error {*}[list $answer]
}
row {eval} ok
row "list {*}\"\{\"" error E15
row "foreach x \"\{\" {}" error E15
row "proc f \"\{\" {}" error E15
foreach {script text} {
    {proc f {} {break}; catch f m; set m} E18  {proc f {} {error [set x]}; catch f m; set m} {E11 x}  {return 1; error never} 1
    {foreach x {1 2} {return $x}} 1  {info exists w} 1  {list [catch {list [break]}] [catch {while {[continue]} {}}]} {3 4}
    {list [catch {for {break} 1 {} {}}] [catch {for {} 1 {continue} {}}] [catch {for {} {[break]} {} {}}]} {3 4 3}
    {proc f {a {b 2} args} {return [expr {$a + $b + [llength $args]}]}; list [f 1] [f 1 5 x y]} {3 8}
    {proc g {} {global n; incr n}; g; g} 2  {catch {incr x 08} m; set m} {E13 08}  {catch foo m; set m} {E09 foo}
} {
    row $script ok $text
}

session "a fault behind commands, and errors, keep what was done before"
row {set a 1; error b} error b
row {set a} ok 1
row {set a 2; foo; set a 3} error {E09 foo}
row {set a} ok 2
row {proc f {} {global a; set a 4; foo}; catch f m; list $a $m} ok {4 {E09 foo}}
row {while 1 {append s 0123456789abcdef}} refused large
row {info exists s} ok 0
row {set a 5; while 1 {}} refused budget
row {set a} ok 4

session "limits: steps"
row {for {set i 0} {$i < 4998} {incr i} {}; set i} ok 4998
row {for {set i 0} {$i < 4998} {incr i} {}; set i; set i} refused budget
row {while 1 {}} refused budget
row {catch {while 1 {}}} refused budget
row {catch {catch {while 1 {}}}; set never 1} refused budget
row {info exists never} ok 0
row {set i 0; while {$i < 3332} {incr i; set i}; set i} ok 3332
row {set i 0; while {$i < 3332} {incr i; set i}; set i; set i} refused budget
row {set l 1; for {set i 0} {$i < 11} {incr i} {append l " $l"}; llength $l} ok 2048
row {foreach x $l {set y $x; set z $x; set u $x}; list $u} ok 1
row {foreach x $l {set y $x; set z $x; set u $x; set v $x}} refused budget
row {foreach x $l {expr 1}; list [info exists v] $y} ok {0 1}
row {proc f n {if {$n} {f [expr {$n - 1}]}}; set i 0; while {$i < 900} {incr i; f 1}; set i} ok 900
row {set i 0; while {$i < 1200} {incr i; f 1}; set i} refused budget

# A command that runs itself so often, and `list a` at last.
proc rows::opened {command count} {
    return [string repeat "$command \{" $count]list\ a[string repeat \} $count]
}

session "limits: scripts open in one another"
row {proc f {} {f}} ok
row {f} refused depth
row {catch f} refused depth
row {proc g n {if {$n} {g [expr {$n - 1}]}; list}; g 14} ok
row {g 15} ok
row {g 16} refused depth
row "proc h n {if \$n {return \[h \[expr {\$n - 1}\]\]}; list e}; h 9" ok e
row {h 12} refused depth
row [rows::opened {eval} 31] ok a
row [rows::opened {eval} 32] refused depth
row [rows::opened {catch} 32] refused depth
row [rows::opened {if 1} 31] ok a
row [rows::opened {if 1} 32] refused depth

session "limits: bytes of one text"
row {set s x; for {set i 0} {$i < 16} {incr i} {append s $s}; string length $s} ok 65536
row {append s y} refused large
row {set t "${s}y"} refused large
row {set t [string range $s 1 end]; string length "${t}y"} ok 65536
row {lappend t y} refused large
row {list $s y} refused large
row {llength [list $s]} ok 1
row {eval {set r [string length $s]}} ok 65536
row {eval set u $s; string length $u} refused large
row {eval set u [string range $s 6 end]; string length $u} ok 65530
row {catch {error ${s}y}} refused large
row {proc p x {return "$x$x"}; p $s} refused large
row {string length [join [list $t y] {}]} refused large
row {concat $t y} refused large
row {expr {[string length $s] == 65536}} ok 1

session "limits: members of one list"
row {for {set i 0} {$i < 3000} {incr i} {set v$i 1}} ok
row {while {$i < 4095} {set v$i 1; incr i}; info exists v4094} ok 1
row {set one 1} refused large
row {set v0 2; set i} ok 4095
row {incr one} refused large
row {append one x} refused large
row {unset v0; set one 1; info exists v0} ok 0
row {set two(1) 1} refused large
row {for {set i 0} {$i < 3000} {incr i} {proc p$i {} {}}} ok
row {while {$i < 4096} {proc p$i {} {}; incr i}; p4095} ok
row {proc q {} {}} refused large
row {proc p0 {} {list new}; p0} ok new
row {unset v1; for {set i 0} {$i < 3000} {incr i} {set a($i) 1}} ok
row {while {$i < 4096} {set a($i) 1; incr i}; info exists a(4095)} ok 1
row {set a(x) 1} refused large
row {set a(0) 2; unset a(0); set a(x) 3} ok 3

session "procedures: a parameter for each word, defaults, and the words that are left"
row {proc f {a {b 2} args} {list $a $b $args}} ok
row {f} error {E10 f}
row {f 1} ok {1 2 {}}
row {f 1 5} ok {1 5 {}}
row {f 1 5 x {y z}} ok {1 5 {x {y z}}}
row {proc g {{a 1} b} {list $a $b}; g 5} error {E10 g}
row {g 5 6} ok {5 6}
row {proc g {a a} {list $a}; g 1 2} ok 1
