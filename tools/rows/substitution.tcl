# Words, what is substituted in them, and the faults of a script's form.

session "words and substitution"
ask {set x 5; set y "$x $x"} \
    {set y "a[set x]b$x\x41"} \
    {} \
    { 	;; ;} \
    "set a\"b c\{d" \
    {set a"b} \
    {list a#b "#" x} \
    {list {*}{a {b c}} "" x} \
    {list {*} {*}; list {*}} \
    {list [list {*}]} \
    {{*}{set x} 3} \
    {{*}{}} \
    "list a {b {c} \\{ d} {}" \
    "list a {b\\\n \t c} \"d\\\n e\" f\\\n g" \
    "# a \\\n b ; error b\nlist d # e" \
    "list \[# \]\n list x\] y" \
    {set a 1; set b_1 2; set {d e} 3; list $ $a$b_1.c ${d e}f $.g $} \
    {set {h(b 5 Ar)} 6; set c 5; proc d {} {return r}; list $h(b $c \x41[d])} \
    {set e() 7; list $e()} \
    {set d(]) 8; list a]b [list {]} "]" $d(]) e] f} \
    {list \t\n\101\x41\u0041\x\u\q\\} \
    {list \1011 \u00411} \
    {list a\ b\;c \ } \
    {list "a{b}c" "d;e" "h]i" {j;k}} \
    "list \"a\nb\" {c\nd}\nlist e; list f" \
    {list a[list b c]d [list]{e}} \
    {set a(1) x} {unset a; set a(1) x; set i 1; set b $a($i)} \
    {set t y; set a(xy) 3; list $a(x$t) $a([append u x]y)} \
    {set n v; set $n b} {set v} \
    {set m a; set $m(b) 1} \
    "set w 1; # set w 2\n" \
    {list [set i 2]; # [set i 3]} {set i}
row "list a\\" ok "a\\\\"
row "list c \\" ok "c \\\\"
row {list \1011 \x414 \400} ok {A1 A4 { 0}}

session "escapes: the character, and how far it reaches"
foreach escape {{} \\ n tx qx 1010 401 118 8 xg u00415 u7Eg u x 9 \{ \" $ \[ \;} {
    ask "set e \"\\$escape\""
}
row {set e \U1} ok U1
row {set e \x414} ok A4
row {set e \x9g} ok \tg
row "set e \"a\\\n \t x\"" ok {a x}
row "set e \"a\\\n\nx\"" ok "a \nx"
foreach escape {a b f r v 0 177 377 x7f xff u80 u1041 u1234} {
    row "set e \\$escape" error E06
}

session "faults: where they are raised, and which counts"
ask "set a 1; set b \{" {set a} {set a "b"c} {set x 5;set y "abc} {set x} "set a \[" "list \{b\}c; list \"" \
    "set a \$\{b c" {set a $b(c d} {set a [list "c"d} "set a \[list \{c\]\}" "set a \$b(\[list \{" "set a \{b\\\}" \
    {set a "b"]} {list [list "b"]} {list "$x} {list "[list "} {list {a}{b}} {list "a""b"} "\{" {"a} {[list} \
    "set q 1\nset q \[" {set q} "\{a\}\}" "list \[set q 2; list \{\]" {set q} {list [set q 3] "a"b} {set q} \
    "eval {set q 4; set r \\\{}; eval \"set q 5; set r \\\{\"" {set q} {catch "set r \[" m; set m} \
    "proc f \{\} \"set q 6; set r \\\{\"; catch f m; list \$q \$m"
row {set a \b} error E06
row {set a \x7f} error E06
row {set q 6; set a "\a} error E06
row {set q} ok 6
row {set a {*}{*}b} error E05
row {list [error never] \a} error E06

session "depth: brackets and parentheses in one another"
proc rows::nested {front count middle back} { return [string repeat $front $count]$middle[string repeat $back $count] }
row "list [rows::nested {[list } 31 a \]]" ok a
row "list [rows::nested {[list } 32 a \]]" refused depth
row "list [rows::nested {[list } 33 a \]]" error E07
row "set a(1) 1; list [rows::nested {$a(} 32 1 )]" ok 1
row "list [rows::nested {$a(} 33 1 )]" error E07
row "list [rows::nested {[list $a(} 16 1 )\]]" ok 1
row "list [rows::nested {[list $a(} 17 1 )\]]" error E07
row "list [string repeat {[} 32]" error E03
row "list [string repeat {$a(} 40]" error E07
