#!/bin/sh
# Tests the command spinebriar: what each subcommand prints, and its exit status; the examples of the pages, the tables
# of docs/FORMAT.md and docs/SPECIFICATION.md, and what pages cite.
#
#     tests/command/run.sh
#
# It needs the Rattle kit, gcc, make, python3, expat and libxml2 with its command xmllint; it installs nothing, and names
# what is missing. Everything runs twice, the second time with the address and undefined behaviour sanitizers. The last
# line says how many tests passed; a failure ends it with status 1.
set -eu
cd "$(dirname "$0")/../.."
. tools/need.sh
need cc=gcc /usr/include/stdio.h=libc6-dev make=make python3=python3 /usr/include/expat.h=libexpat1-dev \
    xml2-config=libxml2-dev xmllint=libxml2-utils
programs='audit prove replay tally limits'
for program in $programs; do
    # shellcheck disable=SC2086
    [ -x target/bin/$program ] || tools/programs.sh $programs
done

out=$PWD/target/command_tests
rm -rf "$out"
mkdir -p "$out/plain" "$out/sanitized"
make -s -C host OUT="$out/plain/spinebriar"
make -s -C host OUT="$out/sanitized/spinebriar" CFLAGS='-g -fsanitize=address,undefined -fno-sanitize-recover=all'
# shellcheck disable=SC2046
cc -O2 -Wall -Wextra -Werror $(xml2-config --cflags) -o "$out/rows_by_libxml2" tests/command/rows_by_libxml2.c -lxml2
make -s -C host limits stack LIMITS="$out/limits" STACK="$out/stack"
names=examples/bundles/names
tried=0 failed=0

# The last command printed this, its messages were this, and its status was that. $out/stdout, $out/stderr and
# $status are what it did.
verdict() { # WHAT STATUS STDOUT STDERR
    tried=$((tried + 1))
    printf %b "$3" >"$out/wanted"
    printf %b "$4" >"$out/wanted_messages"
    if [ "$status" != "$2" ] || ! cmp -s "$out/wanted" "$out/stdout" || ! cmp -s "$out/wanted_messages" \
        "$out/stderr"; then
        failed=$((failed + 1))
        echo "FAILED: $1: status $status, expected $2"
        diff "$out/wanted" "$out/stdout" || true
        diff "$out/wanted_messages" "$out/stderr" || true
    fi
}

# Runs spinebriar with the words after the fourth.
runs() { # WHAT STATUS STDOUT STDERR WORD..
    what=$1 wanted=$2 wanted_out=$3 wanted_err=$4
    shift 4
    status=0
    "$bin/spinebriar" "$@" >"$out/stdout" 2>"$out/stderr" </dev/null || status=$?
    verdict "$what" "$wanted" "$wanted_out" "$wanted_err"
}

T='kind a b c\n'
S='rule left right first second\n'
R='2 1 0 2\n2 3 1 0\n'
bundle=$out/bundle
# shellcheck disable=SC2034
list=$out/list
# shellcheck disable=SC2034
xml=$out/file.xml

# A bundle with printf's escapes is refused so; the message is the header's.
refused() { # WHAT TEXT STDOUT
    # shellcheck disable=SC2059
    printf "$2" >"$bundle"
    runs "$1" 1 "$3" '' check "$bundle" --names $names
}

uses() {
    help=$(sed -n '/HELP\[\] =/,/;$/p' host/main.c | sed -n 's/^    "\(.*\)";*$/\1/p' | tr -d '\n')
    runs 'help' 0 "$help" '' --help
    runs 'help with a word' 0 "$help" '' --help check
    runs 'help of a command' 0 "$help" '' check --help
    runs 'and after other words' 0 "$help" '' select a b --names c --help
    runs 'a file named --help' 2 '' 'spinebriar: --help: No such file or directory\n' check -- --help
    runs 'version' 0 "spinebriar $(sed -n 's/.*SPINEBRIAR_VERSION "\(.*\)"/\1/p' include/spinebriar.h)\n" '' --version
    runs 'no command' 2 '' 'spinebriar: no command (spinebriar --help)\n'
    runs 'another command' 2 '' 'spinebriar: no command jump (spinebriar --help)\n' jump
    runs 'no file' 2 '' 'spinebriar: too few words for check (spinebriar --help)\n' check
    runs 'two files' 2 '' 'spinebriar: too many words for check (spinebriar --help)\n' check a b
    runs 'another option' 2 '' 'spinebriar: wrong option --jump (spinebriar --help)\n' check a --jump
    runs 'letters' 2 '' 'spinebriar: wrong option -xy (spinebriar --help)\n' check --names a -xy b
    runs 'one letter' 2 '' 'spinebriar: wrong option -n (spinebriar --help)\n' check --names a -n b
    runs 'a word for --add' 2 '' 'spinebriar: wrong option --add=1 (spinebriar --help)\n' rows --add=1 b
    runs 'option of rows' 2 '' 'spinebriar: check has no option --add (spinebriar --help)\n' check a --add
    runs 'names without a list' 2 '' 'spinebriar: no word after --names (spinebriar --help)\n' check a --names
    runs 'explain without names' 2 '' 'spinebriar: no --names LIST for explain (spinebriar --help)\n' explain a
    runs 'rows without names' 2 '' 'spinebriar: no --names LIST for rows (spinebriar --help)\n' rows a
    runs 'names from standard input' 2 '' \
        "spinebriar: a list of names can't be standard input (spinebriar --help)\n" rows a --names -
    runs 'select without a file' 2 '' 'spinebriar: too few words for select (spinebriar --help)\n' select a
    runs 'select with three words' 2 '' 'spinebriar: too many words for select (spinebriar --help)\n' select a b c
    runs 'select without names' 2 '' 'spinebriar: no --names LIST for select (spinebriar --help)\n' select a b
    runs 'file with names' 2 '' 'spinebriar: file has no option --names (spinebriar --help)\n' file a --names list
    runs 'the same with =' 2 '' 'spinebriar: file has no option --names (spinebriar --help)\n' file a --names=list
    runs 'claim without NEW' 2 '' 'spinebriar: no NEW for --claim x (spinebriar --help)\n' check a --claim x
    runs 'claim without names' 2 '' 'spinebriar: no --names LIST for check (spinebriar --help)\n' check a --claim x y
    runs 'claim of explain' 2 '' 'spinebriar: explain has no option --claim (spinebriar --help)\n' \
        explain a --claim x y
    for number in 65536 -1 1x '' 99999999999999999999; do
        runs "--from $number" 2 '' "spinebriar: wrong number $number (spinebriar --help)\n" select a b --from "$number"
        runs "--from=$number" 2 '' "spinebriar: wrong number $number (spinebriar --help)\n" select a b --from="$number"
    done
    for number in 4294967296 +1 '1 '; do
        runs "--limit $number" 2 '' "spinebriar: wrong number $number (spinebriar --help)\n" select a b --limit \
            "$number"
    done
    runs 'file: missing file' 2 '' "spinebriar: $out/none: No such file or directory\n" file "$out/none"
    runs 'file: a directory' 2 '' "spinebriar: $out: Is a directory\n" file "$out"
    runs 'select: missing file' 2 '' "spinebriar: $out/none: No such file or directory\n" select mark "$out/none" \
        --names $names
    runs 'select: a directory' 2 '' "spinebriar: $out: Is a directory\n" select mark "$out" --names $names
    runs 'select: missing list' 2 '' "spinebriar: $out/none: No such file or directory\n" select mark \
        examples/log.xml --names "$out/none"
    for command in check explain rows; do
        runs "$command: missing file" 2 '' "spinebriar: $out/none: No such file or directory\n" $command \
            "$out/none" --names $names
        runs "$command: a directory" 2 '' "spinebriar: $out: Is a directory\n" $command "$out" --names $names
        runs "$command: missing list" 2 '' "spinebriar: $out/none: No such file or directory\n" $command \
            examples/log.xml --names "$out/none"
        runs "$command: list is a directory" 2 '' "spinebriar: $out: Is a directory\n" $command examples/log.xml \
            --names "$out"
    done
    runs 'an endless list' 2 '' 'spinebriar: /dev/zero: a list of names has at most 16777216 bytes\n' rows \
        examples/log.xml --names /dev/zero
}

streams() {
    for command in '--help' '--version' "check examples/bundles/descendant.bundle" "check $out/none_such_rule" \
        "explain examples/bundles/descendant.bundle --names $names" "rows examples/log.xml --names $names" \
        "check examples/bundles/descendant.bundle --names $names --claim //mark /descendant::mark" \
        "select //mark examples/log.xml --names $names" "file $out/calls"; do
        printf "$T$R$S"'60 0 1 0 0\n' >"$out/none_such_rule"
        printf 'term 2 1 0 2\n' >"$out/calls"
        : >"$out/stdout"
        status=0
        # shellcheck disable=SC2086
        "$bin/spinebriar" $command >/dev/full 2>"$out/stderr" || status=$?
        verdict "$command on a full disk" 2 '' 'spinebriar: standard output: No space left on device\n'
        # shellcheck disable=SC2086
        { sleep 0.2; status=0; "$bin/spinebriar" $command 2>"$out/stderr" || status=$?; echo $status \
            >"$out/status"; } | true
        sleep 0.4
        while [ ! -s "$out/status" ]; do sleep 0.1; done
        status=$(cat "$out/status")
        rm "$out/status"
        verdict "$command into a closed pipe" 2 '' ''
        status=0
        # shellcheck disable=SC2086
        "$bin/spinebriar" $command 2>"$out/stderr" >&- || status=$?
        verdict "$command with standard output closed" 2 '' ''
        status=0
        # shellcheck disable=SC2086
        "$bin/spinebriar" $command >/dev/null 2>&- || status=$?
        wanted=0
        [ "$command" = "check $out/none_such_rule" ] && wanted=1
        : >"$out/stderr"
        verdict "$command with standard error closed" $wanted '' ''
    done
    status=0
    "$bin/spinebriar" check - <examples/bundles/descendant.bundle >"$out/stdout" 2>"$out/stderr" || status=$?
    verdict 'a bundle from standard input' 0 \
        'accepted: rows 7, steps 1\nstep 1: R/descendant-or-self::node()/child::#2 <= R/descendant::#2\n' ''
    status=0
    "$bin/spinebriar" rows - --names $names <examples/log.xml >"$out/stdout" 2>"$out/stderr" || status=$?
    verdict 'XML from standard input' 0 "$LOG" ''
    status=0
    "$bin/spinebriar" select //zero - --names $names <examples/log.xml >"$out/stdout" 2>"$out/stderr" || status=$?
    verdict 'the same for select' 0 '4 1 /log/zero\n' ''
    status=0
    printf 'term 0 0 0 0\n' | "$bin/spinebriar" file - >"$out/stdout" 2>"$out/stderr" || status=$?
    verdict 'calls from standard input' 0 "${T}0 0 0 0\n$S" ''
}

checks() {
    runs 'an accepted bundle' 0 'accepted: rows 2, steps 1\nstep 1: child::#2 <= descendant::*\n' '' check \
        crates/audit/stdin
    runs 'the same with names' 0 'accepted: rows 2, steps 1\nstep 1: child::mark <= descendant::*\n' '' check \
        crates/audit/stdin --names $names
    printf "$T$S" >"$bundle"
    runs 'no steps' 0 'accepted: rows 0, steps 0\n' '' check "$bundle"
    runs 'explain: no steps' 0 '' '' explain "$bundle" --names $names
    head -c 65537 /dev/zero >"$bundle"
    runs 'more than 65,536 bytes' 1 'refused: more than 65536 bytes, and no bundle is so long\n' '' check "$bundle"
    runs 'endless' 1 'refused: more than 65536 bytes, and no bundle is so long\n' '' check /dev/zero
    refused 'refusal 1' "$T${R}12 0 0 0\n$S" \
        'refused at line 4: 1, the kind of the row is above 11\nline 4: 12 0 0 0\n'
    refused 'refusal 2' "${T}2 12 0 2\n$S" \
        'refused at line 2: 2, a bad operand, axis, test, name or unused field\nline 2: 2 12 0 2\n'
    { printf "$T"'6 0 0 0\n'; seq -f '8 %.0f 0 0' 0 31; printf "$S"; } >"$bundle"
    runs 'refusal 3' 1 'refused at line 34: 3, the term is nested deeper than 32\nline 34: 8 31 0 0\n' '' check \
        "$bundle"
    refused 'refusal 4' "$T$R${S}60 0 1 0 0\n" \
        'refused at line 5: 4, there is no rule of this number\nline 5: 60 0 1 0 0\n'
    refused 'refusal 5' "$T$R${S}8 0 1 0 0\n8 0 2 0 0\n" \
        'refused at line 6: 5, the left or the right row is not held, or the two are of different sorts
line 6: 8 0 2 0 0\n'
    refused 'refusal 6' "$T$R${S}8 0 1 1 0\n" \
        'refused at line 5: 6, a premise is not a held step, or the rule takes none there\nline 5: 8 0 1 1 0\n'
    refused 'refusal 7' "$T$R${S}8 1 0 0 0\n" 'refused at line 5: 7, the rule does not yield the step
line 5: 8 1 0 0 0\nstep 1: descendant::* <= child::mark\nrule 8: a::N <= b::M if a is below b, N below M\n'
    refused 'refusal 7 with premises' "$T${R}2 5 2 0\n${S}8 0 1 0 0\n8 1 2 0 0\n3 0 2 2 1\n8 0 0 0 0\n" \
        'refused at line 8: 7, the rule does not yield the step\nline 8: 3 0 2 2 1
step 3: child::mark <= descendant-or-self::node()\nfrom step 2: descendant::* <= descendant-or-self::node()
from step 1: child::mark <= descendant::*\nrule 3: p <= r from p <= q, q <= r; f => h from f => g, g => h\n'
    refused 'refusal 7 of rule 50' "$T$R${S}50 0 1 0 0\n" \
        'refused at line 5: 7, the rule does not yield the step\nline 5: 50 0 1 0 0
step 1: child::mark <= descendant::*\nrule 50: withdrawn: it yields nothing\n'
    refused 'refusal 10' "$T${R}2 01 0 2\n$S" 'refused at line 4: 10, a line of the wrong form\nline 4: 2 01 0 2\n'
    refused 'an empty file' '' 'refused at line 1: 10, a line of the wrong form\nline 1: missing\n'
    refused 'no second names line' "$T$R" 'refused at line 4: 10, a line of the wrong form\nline 4: missing\n'
    refused 'no newline at the end' "$T$R${S}8 0 1 0 0" \
        'refused at line 5: 10, a line of the wrong form\nline 5: 8 0 1 0 0 (its newline is missing)\n'
    refused 'a carriage return' "$T${R}2 1 0 3\r\n$S" \
        'refused at line 4: 10, a line of the wrong form\nline 4: 2 1 0 3? (a carriage return)\n'
    refused 'names with one' 'kind a b c\r\n' \
        'refused at line 1: 10, a line of the wrong form\nline 1: kind a b c? (a carriage return)\n'
    refused 'no newline where the form is right' "$T${R}2 1 0 2" \
        'refused at line 4: 10, a line of the wrong form\nline 4: 2 1 0 2 (its newline is missing)\n'
    refused 'bytes that no terminal should see' "$T"'\033[2J\377\n' \
        'refused at line 2: 10, a line of the wrong form\nline 2: ?[2J?\n'
    refused 'a long line' "${T}$(seq -s ' ' 1 60)\n" 'refused at line 2: 10, a line of the wrong form
line 2: 1 2 3 4 5 6 7 8 9 10 11 12 13 14 15 16 17 18 19 20 21 22 23 24 25 26 27 28 29 30..\n'
    { printf "$T"; seq -f '2 1 0 %.0f' 1 1025; printf "$S"; } >"$bundle"
    runs 'refusal 11' 1 "refused at line 1026: 11, the new rows do not fit in a session's 1,024
line 1026: 2 1 0 1025\n" '' check "$bundle"
    refused 'refusal 12' "$T${R}2 1 0 2\n$S" 'refused at line 4: 12, the row is held already\nline 4: 2 1 0 2\n'
    { printf "$T$R$S"; yes '2 0 0 0 0' | head -n 2049; } >"$bundle"
    runs 'refusal 13' 1 'refused at line 2053: 13, the session holds 2,048 steps already\nline 2053: 2 0 0 0 0\n' \
        '' check "$bundle"
    runs 'explain of a refused bundle' 1 \
        'refused at line 2053: 13, the session holds 2,048 steps already\nline 2053: 2 0 0 0 0\n' '' \
        explain "$bundle" --names $names
}

explains() {
    for file in examples/bundles/*.bundle; do
        runs "explain $file" 0 "$(cat "${file%.bundle}.txt")\n" '' explain "$file" --names $names
    done
    # 32 rows, the last of which has 2^31 leaves
    { printf "$T"'2 1 0 2\n'; seq -f '%.0f' 0 30 | sed 's/.*/3 & & 0/'; printf "$S"'2 31 31 0 0\n'; } >"$bundle"
    status=0
    timeout 10 "$bin/spinebriar" explain "$bundle" --names $names >"$out/stdout" 2>"$out/stderr" || status=$?
    lines=$(wc -l <"$out/stdout")
    tail -n 1 "$out/stdout" >"$out/last" && mv "$out/last" "$out/stdout"
    verdict 'shared terms are printed once' 0 'step 1: {31} <= {31}, by rule 2\n' ''
    echo "$lines" >"$out/stdout"
    verdict 'and in few lines' 0 '9\n' ''
    # every kind and every place for parentheses
    runs 'every sign' 0 "$(cat tests/command/signs.txt)\n" '' explain tests/command/signs.bundle --names $names
}

. tests/command/xml.sh
. tests/command/calls.sh

# Runs a program that holds the command against something else, and prints what it did.
passes() { # COMMAND WORD..
    tried=$((tried + 1))
    "$@" || { failed=$((failed + 1)); echo "FAILED: $*"; }
}

# A step of rule 59 with a path nested 28 deep, which takes the most stack.
deep() {
    python3 -c "
path, back = '/'.join(['child::log'] * 28), 'self::log/parent::node()'
for _ in range(27):
    back = '(self::log/parent::node())/(%s)' % back
print('step 1: %s <= (%s)[some (%s)], by rule 59' % (path, path, back))" | python3 tools/bundle.py $names
}

LOG='0 0 0\n1 0 1\n1 1 2\n2 2 0\n1 1 3\n1 1 4\n1 5 2\n'
for build in plain sanitized; do
    bin=$out/$build
    uses
    streams
    checks
    explains
    documents
    no_lists
    shared_lists
    namespaces
    bad_xml
    claims
    selects
    lines_and_paths
    files
    passes python3 tests/command/against_audit.py "$bin/spinebriar" 200
    passes python3 tests/command/against_libxml2.py "$bin/spinebriar" "$out/rows_by_libxml2" 200
    passes python3 tests/command/against_replay.py "$bin/spinebriar" 100
    passes python3 tests/command/coverage.py "$bin/spinebriar"
    passes python3 tools/compare/xmllint.py --spinebriar "$bin/spinebriar"
    PATH=$bin:$PATH passes python3 tests/examples.py
done
deep >"$out/deep"
python3 tools/compare/cases.py full-bundle 1 >"$out/full"
passes "$out/stack" "$out/deep" "$out/full"
passes python3 tools/format_check.py
passes python3 tools/format_check.py --selftest
passes python3 tests/examples.py --selftest
passes python3 tools/rule_table.py
passes python3 tools/crates_page.py --check
passes python3 tools/names_check.py
echo "$((tried - failed)) passed, $failed failed"
[ "$failed" = 0 ]
