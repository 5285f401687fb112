# What expressions are read as, with all their parentheses. readers.tcl reads this file.
#
# For each pair of levels, how a text `a x b y c` is grouped: for each pair it looks for operands at which the two groupings
# differ, and asks tclsh which one it takes. Tcl 8.6 gives `== != eq ne` one level, where expr(n) has two: for these pairs,
# and where no operands tell the two, as of % and ==, the level of expr(n) is written. Behind them stand texts and their trees or faults, by the rules.
set levels {{* / %} {+ -} {<< >>} {< > <= >=} {== !=} {eq ne} & ^ | && ||}
set operands {0 1 2 3 5 7 -2}

proc value {text} {
    if {[catch {expr $text} value]} {return fault}
    return $value
}

# 1 where tclsh groups x first, 0 where y, and -1 where no operands tell
proc groups {x y} {
    global operands
    foreach a $operands {
        foreach b $operands {
            foreach c $operands {
                set left [value "($a $x $b) $y $c"]
                set right [value "$a $x ($b $y $c)"]
                if {$left ne $right && $left ne "fault" && $right ne "fault"} {
                    return [expr {[value "$a $x $b $y $c"] eq $left}]
                }
            }
        }
    }
    return -1
}

foreach xs $levels i {1 2 3 4 5 6 7 8 9 10 11} {
    foreach ys $levels j {1 2 3 4 5 6 7 8 9 10 11} {
        set x [lindex $xs end]
        set y [lindex $ys 0]
        set left [groups $x $y]
        if {($i in {5 6} && $j in {5 6}) || $left < 0} { set left [expr {$i <= $j}] }
        reads expr "1 $x 2 $y 3" [expr {$left ? "((1${x}2)${y}3)" : "(1${x}(2${y}3))"}]
    }
}

foreach {text tree} [list \
    "1" "1" \
    "  7\t " "7" \
    "a" "E20" \
    "0x1F+017" "(0x1F+017)" \
    "08" "E20" \
    "0x" "E20" \
    "0xg" "E20" \
    "1 2" "E20" \
    "" "E20" \
    "()" "E20" \
    "true && no" "(true&&no)" \
    "True" "E20" \
    "tru" "E20" \
    "truex" "E20" \
    "3eq2" "(3eq2)" \
    "3 eqtrue" "E20" \
    "3 eq true" "(3eqtrue)" \
    "1 - 2 - 3" "((1-2)-3)" \
    "1 - (2 - 3)" "(1-(2-3))" \
    "-7 % 2" "(-7%2)" \
    "!\$a == 3" "(!\{\$a\}==3)" \
    "- + ! ~1" "-+!~1" \
    "1 + -2 * 3" "(1+(-2*3))" \
    "1 || 0 && 2 | 3" "(1||(0&&(2|3)))" \
    "1 ? 2 : 3 ? 4 : 5" "(1?(2:(3?(4:5))))" \
    "1 ? 2 ? 3 : 4 : 5" "(1?((2?(3:4)):5))" \
    "1 || 0 ? 2 + 3 : 4" "((1||0)?((2+3):4))" \
    "1 ? 2" "E20" \
    "1 ? 2 : " "E20" \
    "\$a(1) < \[x\] + \"b\$c\" * \{d\[\}" "(\{\$a()\}<(\{\[\]\}+(\{b\$c\}*\{d\[\})))" \
    "\$\{a b\}" "\{\$a b\}" \
    "\$" "E20" \
    "\$(" "E20" \
    "1 ** 2" "E20" \
    "1 = 2" "E20" \
    "1 <= 2 >= 3 != 4 ne 5 >> 6" "((((1<=2)>=3)!=4)ne(5>>6))" \
    "(1" "E20" \
    "1)" "E20" \
    "\"a" "E20" \
    "\{a" "E20" \
    "\"\\a\"" "E20" \
    "\$a(\\a)" "E20" \
    "\$a(" "E20" \
    "\$\{a" "E20" \
    "\[\\a\]" "E06" \
    "\"\[\\a\]\"" "E06" \
    "\$a(\[\\a\])" "E06" \
    "\$a(\[b \$c)" "E03" \
    "\[x" "E03" \
    "(1 + \[x" "E03" \
    "1 2 \[x" "E20" \
    "\[\"x\"y\] 2" "E04" \
    "1 + \[a \{" "E01" \
    "1 ? \[a \"" "E02" \
    "1 + \[a \$b(" "E08" \
] {
    reads expr $text $tree
}
