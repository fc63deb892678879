#!/bin/sh
# Runs the host of examples/embedding over accepted and damaged bundles and compares the number that it prints with the
# one that docs/SPECIFICATION.md asks, worked out by hand. Where cargo is installed, tools/reference is asked too.
#
#     tests/embedding.sh
#
# It needs a C compiler, and `rt` if the archive is to be made, and installs nothing. The host is built twice, the second
# time with the address and undefined behaviour sanitizers, if they link. The last line says how many bundles passed; a
# failure ends it with status 1.
set -eu
cd "$(dirname "$0")/.."
archive=$(tools/archive.sh spinebriar)
out=target/embedding_test
bundle=$out/bundle
mkdir -p $out

build() { # NAME FLAG..
    name=$1
    shift
    cc -Wall -Wextra -Werror "$@" -Iinclude -o "$out/$name" examples/embedding/host.c "$archive"
}

build host -O2
hosts=$out/host
if build sanitized -g -fsanitize=address,undefined -fno-sanitize-recover=all 2>$out/sanitized.log; then
    hosts="$hosts $out/sanitized"
else
    echo "without sanitizers: they don't link ($out/sanitized.log)"
fi
reference=
if command -v cargo >/dev/null; then
    cargo build --release --quiet --manifest-path tools/reference/Cargo.toml
    reference=tools/reference/target/release/reference
fi

tried=0 failed=0 compared=0

differs() { # WHO NUMBER EXPECTED WHAT
    echo "FAILED: $4: $1 answers $2, expected $3"
    wrong=1
}

# The bundle must be answered with NUMBER.
answers() { # NUMBER WHAT
    wrong=0
    for host in $hosts; do
        number=$($host $bundle 2>$out/said) || number="status $?: $(head -n 1 $out/said)"
        [ "$number" = "$1" ] || differs "$host" "$number" "$1" "$2"
    done
    # audit takes no more bytes than these
    if [ -n "$reference" ] && [ "$(wc -c <$bundle)" -le 65536 ]; then
        number=$($reference audit <$bundle | sed -n '2s/ .*//p')
        [ "$number" = "$1" ] || differs reference "$number" "$1" "$2"
        compared=$((compared + 1))
    fi
    tried=$((tried + 1)) failed=$((failed + wrong))
}

# The same for a text with printf's escapes.
text() { # NUMBER WHAT TEXT
    # shellcheck disable=SC2059
    printf "$3" >$bundle
    answers "$1" "$2"
}

T='kind a b c\n'
S='rule left right first second\n'
# child::2 and descendant::*, and the step that one is below the other
R='2 1 0 2\n2 3 1 0\n'
E=${T}${R}${S}'8 0 1 0 0\n'

# Rows from the FIRST to the LAST name, all different.
rows() { seq -f '2 1 0 %.0f' "$1" "$2"; } # FIRST LAST
# true, and LAST times not.
nested() { echo 6 0 0 0; seq -f '8 %.0f 0 0' 0 $(($1 - 1)); } # LAST
lines() { yes "$2" | head -n "$1"; } # COUNT LINE
terms() { printf %b "$T"; }
steps() { printf %b "$S"; }

# Accepted
text 0 'the example' "$E"
text 0 'names lines alone' "$T$S"
text 0 'rows without steps' "$T$R$S"
text 0 'largest number' "${T}2 1 0 65535\n$S"
text 0 'every kind of row' "${T}0 0 0 0\n1 0 0 0\n2 10 5 0\n3 0 1 0\n4 1 2 0\n6 0 0 0\n5 4 5 0\n7 0 0 0\n8 5 0 0\n9 5 7 0\n10 5 7 0\n11 0 1 0\n$S"
text 0 'two premises' "$T${R}2 5 2 0\n${S}8 0 1 0 0\n8 1 2 0 0\n3 0 2 1 2\n"
text 0 'one step twice, and as both premises' "$T${R}3 0 0 0\n${S}8 0 1 0 0\n8 0 1 0 0\n6 2 1 1 1\n"
text 0 'implications' "${T}7 0 0 0\n6 0 0 0\n${S}14 0 1 0 0\n15 0 1 0 0\n2 1 1 0 0\n"
text 0 'an equation from either side' "${T}2 1 2 0\n6 0 0 0\n5 0 1 0\n${S}27 0 2 0 0\n27 2 0 0 0\n"
text 0 'rule 25' "${T}0 0 0 0\n6 0 0 0\n8 1 0 0\n7 0 0 0\n9 3 1 0\n2 1 2 0\n5 5 4 0\n${S}15 3 2 0 0\n25 6 0 1 0\n"
text 0 'rule 54' "${T}2 9 2 0\n2 6 2 0\n2 7 2 0\n4 1 2 0\n2 5 2 0\n4 3 4 0\n${S}54 5 0 0 0\n"
{ terms; rows 1 1024; steps; } >$bundle
answers 0 '1,024 rows'
{ terms; nested 31; steps; } >$bundle
answers 0 'nesting 32'
{ terms; rows 1 1; steps; lines 2048 '2 0 0 0 0'; } >$bundle
answers 0 '2,048 steps'

# 1: kind
text 1 'kind 12' "${T}12 0 0 0\n$S"
text 1 'kind 65535 with bad fields' "${T}65535 1 1 1\n$S"
# 2: operand, axis, test, name, unused field
text 0 'axis 11' "${T}2 11 0 2\n$S"
text 2 'axis 12' "${T}2 12 0 2\n$S"
text 2 'test 6' "${T}2 1 6 0\n$S"
text 2 'name 0' "${T}2 1 0 0\n$S"
text 2 'a name beside *' "${T}2 1 1 2\n$S"
text 2 'unused field' "${T}0 0 0 1\n$S"
text 2 'operand that is the row itself' "${T}3 0 0 0\n$S"
text 2 'second operand not held' "${T}0 0 0 0\n4 0 1 0\n$S"
text 2 'a qualifier in a union' "${T}0 0 0 0\n6 0 0 0\n3 0 1 0\n$S"
text 2 'a path under not' "${T}0 0 0 0\n8 0 0 0\n$S"
text 2 'a path for a qualifier in a filter' "${T}0 0 0 0\n5 0 0 0\n$S"
# 3: nesting
{ terms; nested 32; steps; } >$bundle
answers 3 'nesting 33'
# 12 comes before 11
text 12 'row twice' "${T}2 1 0 2\n2 1 0 2\n$S"
{ terms; rows 1 1024; rows 5 5; steps; } >$bundle
answers 12 'row twice where the terms are full'
{ terms; rows 1 1025; steps; } >$bundle
answers 11 '1,025 rows'
{ terms; rows 1 1024; echo 12 0 0 0; steps; } >$bundle
answers 1 'kind 12 where the terms are full'
# 4: rule
text 4 'rule 0' "$T$R${S}0 0 1 0 0\n"
text 4 'rule 60 with rows not held' "$T$R${S}60 7 7 7 7\n"
# 5: sides
text 5 'left not held' "$T$R${S}8 2 1 0 0\n"
text 5 'right not held' "$T$R${S}8 0 2 0 0\n"
text 5 'right of the other sort' "$T${R}6 0 0 0\n${S}2 0 2 0 0\n"
text 5 'no row held' "${T}${S}1 0 0 0 0\n"
text 5 'right not held and bad premise' "$T$R${S}8 0 2 9 9\n"
# 6: premises
text 6 'first premise is the step itself' "$T$R${S}3 0 0 1 1\n"
text 6 'second premise not held' "$T$R${S}2 0 0 0 0\n3 0 0 1 2\n"
text 6 'first premise missing' "$T$R${S}2 0 0 0 0\n3 0 0 0 1\n"
text 6 'premise of a rule without' "$T$R${S}2 0 0 0 0\n2 0 0 1 0\n"
text 6 'second premise of a rule with one' "$T${R}3 0 1 0\n${S}2 0 0 0 0\n4 0 2 1 1\n"
# 7: not yielded
text 7 'rule 8 backwards' "$T$R${S}8 1 0 0 0\n"
text 7 'rule 2 on two rows' "$T$R${S}2 0 1 0 0\n"
text 7 'premises in another order' "$T${R}2 5 2 0\n${S}8 0 1 0 0\n8 1 2 0 0\n3 0 2 2 1\n"
text 7 'not f => g in rule 25' "${T}0 0 0 0\n6 0 0 0\n8 1 0 0\n9 1 1 0\n2 1 2 0\n5 4 3 0\n${S}14 2 1 0 0\n25 5 0 1 0\n"
text 7 'rule 54 the other way' "${T}2 9 2 0\n2 6 2 0\n2 7 2 0\n4 1 2 0\n2 5 2 0\n4 3 4 0\n${S}54 0 5 0 0\n"
text 7 '* for node() in rule 54' "${T}2 9 2 0\n2 6 1 0\n2 7 1 0\n4 1 2 0\n2 5 2 0\n4 3 4 0\n${S}54 5 0 0 0\n"
# 7 comes before 13
{ terms; rows 1 2; steps; lines 2049 '2 0 0 0 0'; } >$bundle
answers 13 '2,049 steps'
{ terms; rows 1 2; steps; lines 2048 '2 0 0 0 0'; echo 2 0 1 0 0; } >$bundle
answers 7 'not yielded where the steps are full'

# 10: the names lines
text 10 'empty file' ''
text 10 'one newline' '\n'
text 10 'no first names line' "$R$S"
text 10 'second names line first' "$S"
text 10 'first names line alone' "$T"
text 10 'first names line without newline' 'kind a b c'
text 10 'first names line twice' "$T$T$S"
text 10 'no second names line' "$T$R"
text 10 'steps without their names line' "$T${R}8 0 1 0 0\n"
text 10 'second names line without newline' "$T${R}rule left right first second"
text 10 'second names line twice' "$E$S"
text 10 'names in capitals' "Kind a b c\n$S"
text 10 'names with a space more' "kind a b c \n$S"
text 10 'byte order mark' "\357\273\277$E"
# 10: numbers
text 10 'leading zero' "${T}2 01 0 2\n$S"
text 10 'two zeros' "${T}2 1 00 2\n$S"
text 10 'leading zero in a step' "$T$R${S}08 0 1 0 0\n"
text 10 '65536' "${T}2 1 0 65536\n$S"
text 10 '65536 + 2, 2 in 16 bits' "${T}2 1 0 65538\n$S"
text 10 '2^32 + 2, 2 in 32 bits' "${T}2 1 0 4294967298\n$S"
text 10 '2^64 + 2, 2 in 64 bits' "${T}2 1 0 18446744073709551618\n$S"
text 10 '65536 in a step' "$T$R${S}8 0 1 0 65536\n"
text 10 'sign' "${T}2 +1 0 2\n$S"
text 10 'minus' "${T}2 -1 0 2\n$S"
text 10 'letter' "${T}2 1 0 a\n$S"
text 10 'point' "${T}2 1 0 2.0\n$S"
text 10 'the byte before 0' "${T}2 1 0 1/\n$S"
text 10 'the byte after 9' "${T}2 1 0 1:\n$S"
text 10 'byte 0' "${T}2 1 0 2\000\n$S"
text 10 'byte 255' "${T}2 1 0 2\377\n$S"
# 10: lines
text 10 'carriage returns' 'kind a b c\r\n2 1 0 2\r\nrule left right first second\r\n'
text 10 'carriage return in a row' "${T}2 1 0 2\r\n$S"
text 10 'carriage return in a step' "$T$R${S}8 0 1 0 0\r\n"
text 10 'no newline after a row' "${T}2 1 0 2"
text 10 'no newline after the last step' "$T$R${S}8 0 1 0 0"
text 10 'two spaces' "${T}2  1 0 2\n$S"
text 10 'tab' "${T}2\t1 0 2\n$S"
text 10 'space before' "${T} 2 1 0 2\n$S"
text 10 'space after' "${T}2 1 0 2 \n$S"
text 10 'three numbers' "${T}2 1 0\n$S"
text 10 'five numbers' "${T}2 1 0 2 0\n$S"
text 10 'four numbers in a step' "$T$R${S}8 0 1 0\n"
text 10 'six numbers in a step' "$T$R${S}8 0 1 0 0 0\n"
text 10 'a line over two' "${T}2 1\n0 2\n$S"
text 10 'empty line among the rows' "${T}\n$S"
text 10 'empty line at the end' "$E\n"
# An earlier refused line decides.
text 1 'kind 12 before a bad form' "${T}12 0 0 0\n2 01 0 2\n$S"
text 10 'bad form before kind 12' "${T}2 01 0 2\n12 0 0 0\n$S"
text 7 'step not yielded before a bad form' "$T$R${S}8 1 0 0 0\n8\n"

# More than 65,536 bytes: read has no limit of its own, and no bundle so long is accepted.
{ terms; rows 1 60000; steps; } >$bundle
answers 11 '60,000 rows'
{ terms; rows 1 1; steps; lines 100000 '2 0 0 0 0'; } >$bundle
answers 13 '100,000 steps'
{ terms; rows 1 1; steps; lines 2048 '2 0 0 0 0'; lines 100000 '60 0 0 0 0'; } >$bundle
answers 4 '100,000 steps of rule 60 after the last'
lines 100000 'kind a b c' >$bundle
answers 10 '100,000 names lines'
{ terms; lines 1000000 1 | tr -d '\n'; echo; } >$bundle
answers 10 'a number of 1,000,000 digits'
head -c 1000000 /dev/zero >$bundle
answers 10 '1,000,000 bytes 0'

echo "$(echo "$hosts" | wc -w) builds of the host, $compared bundles compared with the reference"
echo "$((tried - failed)) passed, $failed failed"
[ $failed -eq 0 ]
