# Variables and arrays, and those of procedures.

session "variables: scalars, arrays, and what stands already"
ask {set x 5} {set x} {set y} {set x(1) 2} {set x(1)} {set a(1) x} {set a(2)} {set a} {set a 1} {list $a(1)} {list $x(1)} \
    {set {} 4; set {}} {set a() 5; set a()} {set c) 6; set c)} {set c( 7; set c(} {set {a(x)(y)} 8; set {a(x)(y)}} \
    {set (} {info exists a} {info exists a(1)} {info exists a(9)} {info exists x(1)} {info exists nothing} \
    {unset a(1); info exists a(1)} {unset a(1)} {unset x(1)} {unset x; set x} {unset x} {unset a; info exists a} \
    {set a now; set a} {incr v} {incr v 5} {incr v -10} {incr e(1)} \
    {incr e} {append w a b c} {append w d} {append e x} {lappend l a {b c} {}} {lappend l {$}} {lappend e x} {lappend x {a b}} \
    {set n 08; incr n} {incr v 08} {incr v x} "set l \\{; lappend l x" {set l}
foreach {script answer} {
    {set (x) 1} {error {E17 (x)}}  {set (x)} {error {E17 (x)}}  {info exists (x)} {error {E17 (x)}}
    {unset (x)} {error {E17 (x)}}  {incr (x)} {error {E17 (x)}}  {append (x) y} {error {E17 (x)}}
    {set i 9223372036854775807} {ok 9223372036854775807}  {incr i} {error E14}  {set i} {ok 9223372036854775807}
    {incr i -1} {ok 9223372036854775806}  {set i -9223372036854775809} {ok -9223372036854775809}  {incr i y} {error E14}
    {set p 1; unset p q} {error {E11 q}}  {set p} {ok 1}  {unset p p} {error {E11 p}}  {set p} {ok 1}
    {incr nothing 08} {error {E13 08}}  {info exists nothing} {ok 0}
    {set nothing; set after 1} {error {E11 nothing}}  {info exists after} {ok 0}
} {
    row $script {*}$answer
}

session "variables of procedures, and globals in them"
ask {set n 7; proc f {} {set n 1; list $n}; list [f] $n} {proc f {} {info exists n}; f} {proc f {} {global n; incr n}; f; f; set n} \
    {proc f {} {global n; unset n; info exists n}; f} {info exists n} {proc f {} {global n; set n 3}; f; set n} \
    {proc f {} {global q; info exists q}; list [f] [info exists q]} {proc f {} {global q; global q; set q 4}; f; set q} \
    {proc f {} {set n 1; catch {global n} m; set m}; f} {proc f {} {global n m; set m 2; incr n $m}; list [f] $n $m} \
    {set a(1) x; proc f {} {global a; set a(2) y; info exists a(1)}; list [f] $a(2)} {proc f {} {global a; set a}; f} \
    {proc f {} {global a; unset a(1) a(2); info exists a}; f} {proc f {} {set z 1; proc g {} {info exists z}; g}; f} \
    {proc f {} {set n 5; proc g {} {global n; set n}; g}; f} {proc f {x} {global x; set x}; catch {f 1} m; set m} \
    {set b 2; set c 3; proc f {} {global b c d; list $b $c [info exists d]}; f} {global b c; list $b $c} \
    {proc f {} {global b c b; incr b; list $b $c}; list [f] $b} \
    {proc f {} {global b; global c b d; set d 9; list $b $c $d}; list [f] $d} \
    {proc f {p q r s t} {global b c h i j; set j $p; list $b $c $j $t}; list [f 1 2 3 4 5] $j} \
    {proc f {} {global k1 k2 k3 k4 k5 k6 k7 k8 k9; set k9 1; set k1 2; list $k1 $k9}; list [f] $k1 $k9} \
    {proc f {} {global k1 k9 u; set u $k1$k9; unset k1 k9; list $u [info exists k1]}; list [f] [info exists k1] [info exists k9]} \
    {proc f {p} {set q $p; unset p q; list [info exists p] [info exists q]}; f 1} \
    {set {} 5; proc f {} {global b {} c; list [set {}] $b $c}; f} {proc f {b args} {global c d; list $b $args $c}; f 7 8 9} \
    {proc f {} {global b c; unset b; list [info exists b] [set b 8]}; list [f] $b} {global b k(1) b; list $b}
foreach {script answer} {
    {global (x)} {ok {}}  {proc f {} {global (x)}; f} {error {E17 (x)}}  {proc f {} {global k(x)}; f} {error {E17 k(x)}}
    {global} {error {E10 global}}  {proc f {} {catch {global n k(x)}; info exists n}; f} {ok 0}
    {proc f {} {set c 1; catch {global b c d}; list [info exists b] [info exists d] $c}; f} {ok {0 0 1}}
    {proc f {} {list [catch {global b k(1) c}] [info exists b] [info exists c]}; f} {ok {1 0 0}}
    {proc f {} {global n; set n 1; unset n; global n; incr n}; f} {ok 1}  {set n} {ok 1}  {global n; set n} {ok 1}
} {
    row $script {*}$answer
}
