# shellcheck shell=sh disable=SC2154,SC2059
# The tests of check --claim, select and file, for run.sh.

claims() {
    runs 'a claim' 0 'accepted: rows 7, steps 1
step 1: R/descendant-or-self::node()/child::mark <= R/descendant::mark
yes: step 1 says that OLD is contained in NEW\n' '' \
        check examples/bundles/descendant.bundle --names $names --claim //mark /descendant::mark
    runs 'the words first' 0 'accepted: rows 7, steps 1
step 1: R/descendant-or-self::node()/child::mark <= R/descendant::mark
yes: step 1 says that OLD is contained in NEW\n' '' \
        check --claim //mark /descendant::mark --names $names examples/bundles/descendant.bundle
    runs 'the other direction' 1 'accepted: rows 7, steps 1\nno step says that OLD is contained in NEW\n' '' \
        check examples/bundles/descendant.bundle --names $names --claim /descendant::mark //mark
    runs 'another name' 1 'accepted: rows 7, steps 1\nno step says that OLD is contained in NEW\n' '' \
        check examples/bundles/descendant.bundle --names $names --claim //mark /descendant::zero
    runs 'a step among others' 0 'accepted: rows 11, steps 9
step 1: R/descendant-or-self::node()/child::run <= R/descendant::run
yes: step 1 says that OLD is contained in NEW\n' '' check \
        examples/bundles/middle_step_dropped.bundle --names $names --claim //run /descendant::run
    printf "$T${R}6 0 0 0\n${S}2 0 0 0 0\n14 2 2 0 0\n8 0 1 0 0\n8 0 1 0 0\n" >"$bundle"
    runs 'the first of two steps' 0 'accepted: rows 3, steps 4\nstep 3: child::mark <= descendant::*
yes: step 3 says that OLD is contained in NEW\n' '' check "$bundle" --names $names --claim mark 'descendant::*'
    runs 'no steps that say it' 1 'accepted: rows 3, steps 4\nno step says that OLD is contained in NEW\n' '' check \
        "$bundle" --names $names --claim 'descendant::*' 'descendant::*'
    printf "$T$R${S}8 1 0 0 0\n" >"$bundle"
    runs 'a claim of a refused bundle' 1 'refused at line 5: 7, the rule does not yield the step\nline 5: 8 1 0 0 0
step 1: descendant::* <= child::mark\nrule 8: a::N <= b::M if a is below b, N below M\n' '' check "$bundle" \
        --names $names --claim 'mark[' 'nix'
    head -c 65537 /dev/zero >"$bundle"
    runs 'of one too long' 1 'refused: more than 65536 bytes, and no bundle is so long\n' '' check "$bundle" \
        --names $names --claim mark mark
    printf "$T$R${S}8 0 1 0 0\n" >"$bundle"
    place='18, the text is outside the grammar of selectors'
    runs 'OLD outside the grammar' 1 '' "spinebriar: OLD is refused\nspinebriar: selector refused at place 5: $place
spinebriar: mark[1]\nspinebriar:      ^\n" check "$bundle" --names $names --claim 'mark[1]' nix
    runs 'a name of NEW that the list lacks' 1 '' "spinebriar: NEW is refused
spinebriar: selector refused at place 2: 19, a name of the text is not in the list
spinebriar: //nix\nspinebriar:   ^\n" check "$bundle" --names $names --claim mark //nix
    none='no row of the bundle, and no step says that OLD is contained in NEW'
    runs 'NEW too deep' 1 '' "spinebriar: NEW is refused
spinebriar: selector refused: 3, the term is nested deeper than 32\nspinebriar: so NEW is $none\n" check "$bundle" \
        --names $names --claim mark "$(yes mark | head -n 33 | paste -s -d /)"
    { printf "$T"; seq -f '2 1 0 %.0f' 101 1123; printf "$S"; } >"$bundle"
    full="spinebriar: selector refused: 11, the new rows do not fit in a session's 1,024"
    runs 'OLD that does not fit' 1 '' "spinebriar: OLD is refused\n$full\nspinebriar: so OLD is $none\n" check \
        "$bundle" --names $names --claim mark/zero mark
    runs 'NEW that does not fit beside OLD' 1 '' "spinebriar: NEW is refused\n$full\nspinebriar: so NEW is $none\n" \
        check "$bundle" --names $names --claim mark zero
    runs 'both in one row' 1 'accepted: rows 1023, steps 0\nno step says that OLD is contained in NEW\n' '' check \
        "$bundle" --names $names --claim mark mark
}

selects() {
    runs 'two marks' 0 '2 1 /log/mark\n6 1 /log/run/mark\n' '' select //mark examples/log.xml --names $names
    runs 'the root' 0 '0 1 /\n' '' select / examples/log.xml --names $names
    runs 'no nodes' 0 '' '' select //serial examples/log.xml --names $names
    runs 'from a node' 0 '6 1 /log/run/mark\n' '' select mark examples/log.xml --names $names --from 5
    runs 'a node that is not there' 1 '' \
        'spinebriar: refused: 9, the context node 7 is outside the document, which has rows 0 to 6\n' \
        select mark examples/log.xml --names $names --from 7
    runs 'a limit that is passed' 1 '' \
        'spinebriar: refused: 15, more visits are needed than the limit, 10 (--limit N sets it)\n' \
        select //mark examples/log.xml --names $names --limit 10
    runs 'one that is just enough' 0 '2 1 /log/mark\n6 1 /log/run/mark\n' '' select //mark examples/log.xml --names \
        $names --limit 11
    runs 'the largest' 0 '2 1 /log/mark\n' '' select log/mark examples/log.xml --names $names --limit 4294967295
    runs 'outside the grammar' 1 '' \
        'spinebriar: selector refused at place 6: 18, the text is outside the grammar of selectors
spinebriar: //mark]\nspinebriar:       ^\n' select //mark] examples/log.xml --names $names
    runs 'an empty selector' 1 '' \
        'spinebriar: selector refused at place 0: 18, the text is outside the grammar of selectors
spinebriar: \nspinebriar: ^\n' select '' examples/log.xml --names $names
    runs 'bytes that no terminal should see' 1 '' \
        'spinebriar: selector refused at place 0: 18, the text is outside the grammar of selectors\n' \
        select "$(printf '\033[2J')" examples/log.xml --names $names
    runs 'a name that the list lacks' 1 '' \
        'spinebriar: selector refused at place 0: 19, a name of the text is not in the list
spinebriar: nix/mark\nspinebriar: ^\n' select nix/mark examples/log.xml --names $names
    runs 'too deep' 1 '' 'spinebriar: selector refused: 3, the term is nested deeper than 32\n' \
        select "$(yes mark | head -n 33 | paste -s -d /)" examples/log.xml --names $names
    runs 'too many rows' 1 '' "spinebriar: selector refused: 11, the new rows do not fit in a session's 1,024\n" \
        select "$(wide)" examples/log.xml --names "$out/wide"
    printf '<log><x/></log>' >"$xml"
    cp $names "$list"
    runs 'a name of the file that the list lacks' 1 '' \
        "spinebriar: $xml: line 1: the name x is not in the list (--add adds it)\n" select mark "$xml" --names "$list"
    runs 'and with --add' 0 '2 1 /log/x\n' "spinebriar: $list: added x, number 6\n" select //x "$xml" --names "$list" \
        --add
    runs 'once more' 0 '2 1 /log/x\n' '' select //x "$xml" --names "$list" --add
    printf '<log><x/><y/></log>' >"$xml"
    cp "$list" "$out/before"
    runs 'a refused selector adds nothing' 1 '' \
        'spinebriar: selector refused at place 3: 18, the text is outside the grammar of selectors
spinebriar: //x]\nspinebriar:    ^\n' select '//x]' "$xml" --names "$list" --add
    runs 'nor does a limit that is passed' 1 '' \
        'spinebriar: refused: 15, more visits are needed than the limit, 0 (--limit N sets it)\n' select //x "$xml" \
        --names "$list" --add --limit 0
    passes cmp "$list" "$out/before"
    runs 'the selector may have the added name' 0 '3 1 /log/y\n' "spinebriar: $list: added y, number 7\n" select //y \
        "$xml" --names "$list" --add
    printf '\nlog\n1a\nma rk\nlog\na:b\nmark' >"$list"
    printf '<log><mark/></log>' >"$xml"
    runs 'a list with repeated and odd lines' 0 '2 1 /log/mark\n' '' select //mark "$xml" --names "$list"
    printf '<a:log xmlns:a="u"><mark/></a:log>' >"$xml"
    runs 'a prefix' 1 '' \
        "spinebriar: $xml: line 1: the name a:log has a prefix (--local-names takes the part after it)\n" select mark \
        "$xml" --names $names
    runs 'local names' 0 '2 1 /log/mark\n' '' select log/mark "$xml" --names $names --local-names
    printf '<log><mark>' >"$xml"
    runs 'XML that is cut off' 2 '' "spinebriar: $xml: line 1: no element found\n" select mark "$xml" --names $names
    laughs 9
    runs 'a thousand million laughs' 2 '' \
        "spinebriar: $xml: line 3: limit on input amplification factor (from DTD and entities) breached\n" \
        select mark "$xml" --names $names
    { printf '<log>'; yes '<mark/>' | head -n 511 | tr -d '\n'; printf '</log>'; } >"$xml"
    runs '513 nodes' 1 '' "spinebriar: $xml: 513 nodes; a document has at most 512\n" select mark[ "$xml" --names \
        $names
    { printf '<log>'; yes '<mark/>' | head -n 510 | tr -d '\n'; printf '</log>'; } >"$xml"
    status=0
    "$bin/spinebriar" select '*/*' "$xml" --names $names >"$out/stdout" 2>"$out/stderr" || status=$?
    tail -n 1 "$out/stdout" >"$out/last" && mv "$out/last" "$out/stdout"
    verdict '512 nodes' 0 '511 1 /log/mark[510]\n' ''
}

# A predicate of 512 names, joined in pairs, which needs more than 2,000 rows; the list of names goes to $out/wide.
wide() {
    { cat $names; seq -f 'n%.0f' 0 511; } >"$out/wide"
    python3 -c "
def joined(a, b):
    middle = (a + b) // 2
    return 'n%d' % a if b - a == 1 else '(%s and %s)' % (joined(a, middle), joined(middle, b))
print('mark[%s]' % joined(0, 512))"
}

lines_and_paths() {
    cat >"$xml" <<'END2'
<?xml version="1.0"?>
<?run before?>
<!--one-->
<log
  serial="1">a
  <mark serial="2"/><mark/><?run x?>
  <!--two--><?run y?><![CDATA[
]]><zero
/>
  <run><mark>b</mark>
  </run>
</log>
<!--three-->
END2
    runs 'every node with its line and path' 0 "1 2 /processing-instruction('run')
2 3 /comment()[1]
3 4 /log
4 4 /log/@serial
5 5 /log/text()[1]
6 6 /log/mark[1]
7 6 /log/mark[1]/@serial
8 6 /log/mark[2]
9 6 /log/processing-instruction('run')[1]
10 6 /log/text()[2]
11 7 /log/comment()
12 7 /log/processing-instruction('run')[2]
13 7 /log/text()[3]
14 8 /log/zero
15 9 /log/text()[4]
16 10 /log/run
17 10 /log/run/mark
18 10 /log/run/mark/text()
19 10 /log/run/text()
20 11 /log/text()[5]
21 13 /comment()[2]\n" '' select '//node()|//@*' "$xml" --names $names
    runs 'a target' 0 "1 2 /processing-instruction('run')\n" '' select "/processing-instruction('run')" "$xml" \
        --names $names
    runs 'an attribute from its element' 0 '7 6 /log/mark[1]/@serial\n' '' select @serial "$xml" --names $names \
        --from 6
    passes "$out/limits"
}

# Calls with printf's escapes are refused so.
not_filed() { # WHAT CALLS LINE NUMBER, TEXT SHOWN
    printf "$2" >"$out/calls"
    runs "file: $1" 1 '' "spinebriar: $out/calls: refused at line $3: $4\nspinebriar: $out/calls: line $3: $5\n" file \
        "$out/calls"
}

files() {
    printf 'term 2 1 0 2\npoint 1\nterm 2 3 1 0\nterm 6 0 0 0\nstep 8 0 1 0 0\nreturn 1\nterm 2 3 1 0\nstep 2 0 0 0 0
point 65535\nterm 2 1 0 3\nstep 8 0 1 0 0\nreturn 1\nterm 2 3 1 0\nstep 8 0 1 0 0\npoint 65535\n' >"$out/calls"
    runs 'calls filed' 0 "$T$R${S}8 0 1 0 0\n" '' file "$out/calls"
    printf 'term 2 1 0 2\nterm 2 3 1 0\nstep 8 0 1 0 0\nterm 2 1 0 3\nstep 8 2 1 0 0\nterm 0 0 0 0\nstep 1 3 0 0 0\n' \
        >"$out/calls"
    runs 'rows after steps' 0 "$T${R}2 1 0 3\n0 0 0 0\n${S}8 0 1 0 0\n8 2 1 0 0\n1 3 0 0 0\n" '' file "$out/calls"
    : >"$out/calls"
    runs 'no calls' 0 "$T$S" '' file "$out/calls"
    "$bin/spinebriar" file "$out/calls" >"$bundle"
    runs 'what is filed is accepted' 0 'accepted: rows 0, steps 0\n' '' check "$bundle"
    not_filed 'refusal 1' 'term 2 1 0 2\nterm 12 0 0 0\n' 2 '1, the kind of the row is above 11' 'term 12 0 0 0'
    not_filed 'refusal 2' 'term 2 12 0 2\n' 1 '2, a bad operand, axis, test, name or unused field' 'term 2 12 0 2'
    deep="term 6 0 0 0\n$(seq -f 'term 8 %.0f 0 0\n' 0 31 | tr -d '\n')"
    not_filed 'refusal 3' "$deep" 33 '3, the term is nested deeper than 32' 'term 8 31 0 0'
    two='term 2 1 0 2\nterm 2 3 1 0\n'
    not_filed 'refusal 4' "${two}step 60 0 1 0 0\n" 3 '4, there is no rule of this number' 'step 60 0 1 0 0'
    not_filed 'refusal 5' "${two}step 8 0 2 0 0\n" 3 \
        '5, the left or the right row is not held, or the two are of different sorts' 'step 8 0 2 0 0'
    not_filed 'refusal 6' "${two}step 8 0 1 1 0\n" 3 \
        '6, a premise is not a held step, or the rule takes none there' 'step 8 0 1 1 0'
    not_filed 'refusal 7' "${two}step 8 1 0 0 0\n" 3 '7, the rule does not yield the step' 'step 8 1 0 0 0'
    not_filed 'a row that comes later' "${two}step 8 2 1 0 0\nterm 2 1 0 3\n" 3 \
        '5, the left or the right row is not held, or the two are of different sorts' 'step 8 2 1 0 0'
    not_filed 'a row that was dropped' "point 1\n${two}return 1\nstep 8 0 1 0 0\n" 5 \
        '5, the left or the right row is not held, or the two are of different sorts' 'step 8 0 1 0 0'
    not_filed 'the first of two refused calls' "${two}step 8 1 0 0 0\nterm 12 0 0 0\n" 3 \
        '7, the rule does not yield the step' 'step 8 1 0 0 0'
    not_filed 'names for a row' 'term rule left right first second\n' 1 '10, a line of the wrong form' \
        'term rule left right first second'
    not_filed 'leading zero' 'term 2 01 0 2\n' 1 '10, a line of the wrong form' 'term 2 01 0 2'
    not_filed 'leading zero of a point' 'point 01\n' 1 '10, a line of the wrong form' 'point 01'
    not_filed 'a point above 65535' 'point 65536\n' 1 '10, a line of the wrong form' 'point 65536'
    not_filed 'two points' 'point 1 2\n' 1 '10, a line of the wrong form' 'point 1 2'
    not_filed 'no point' 'point \n' 1 '10, a line of the wrong form' 'point '
    others='10, a line of the wrong form (file takes term, step, names, text, point and return alone)'
    not_filed 'an empty line' '\n' 1 "$others" ''
    not_filed 'byte 0' 'term 2 1 0 \0002\n' 1 '10, a line of the wrong form' 'term 2 1 0 ?2'
    not_filed 'refusal 10' "${two}jump\n" 3 "$others" 'jump'
    not_filed 'a call that leaves nothing held' "${two}select 0 0 1 1\n" 3 "$others" 'select 0 0 1 1'
    printf 'names log mark\ntext mark\nnames\ntext *\nstep 8 0 1 0 0\n' >"$out/calls"
    runs 'selectors as text' 0 "${T}2 1 0 2\n2 1 1 0\n${S}8 0 1 0 0\n" '' file "$out/calls"
    not_filed 'refusal 18' "${two}text mark]\n" 3 '18, the text is outside the grammar of selectors' 'text mark]'
    not_filed 'refusal 19' "names mark\nnames zero\ntext mark\n" 3 '19, a name of the text is not in the list' \
        'text mark'
    not_filed 'names forgotten' "names mark\nnames\ntext mark\n" 3 '19, a name of the text is not in the list' \
        'text mark'
    not_filed 'no newline at the end' "${two}point 1" 3 '10, a line of the wrong form' \
        'point 1 (its newline is missing)'
    not_filed 'a carriage return' "${two}point 1\r\n" 3 '10, a line of the wrong form' 'point 1? (a carriage return)'
    not_filed 'bytes that no terminal should see' 'term \033[2J\n' 1 '10, a line of the wrong form' 'term ?[2J'
    not_filed 'refusal 11' "$(seq -f 'term 2 1 0 %.0f\n' 1 1025 | tr -d '\n')" 1025 \
        "11, the new rows do not fit in a session's 1,024" 'term 2 1 0 1025'
    not_filed 'refusal 12' "${two}term 2 1 0 2\n" 3 '12, the row is held already' 'term 2 1 0 2'
    not_filed 'refusal 13' "$two$(yes 'step 2 0 0 0 0\n' | head -n 2049 | tr -d '\n')" 2051 \
        '13, the session holds 2,048 steps already' 'step 2 0 0 0 0'
    not_filed 'refusal 20' 'return 1\n' 1 \
        '20, no point has the name, or a point to be set has the name 0 or one in use' 'return 1'
    not_filed 'refusal 21' "$(seq -f 'point %.0f\n' 1 9 | tr -d '\n')" 9 '21, the session holds eight points already' \
        'point 9'
    not_filed 'points in use' 'point 1\npoint 2\nreturn 1\npoint 2\npoint 1\n' 5 \
        '20, no point has the name, or a point to be set has the name 0 or one in use' 'point 1'
    not_filed 'point 0' 'point 0\n' 1 \
        '20, no point has the name, or a point to be set has the name 0 or one in use' 'point 0'
    not_filed 'a forgotten point' 'point 1\npoint 2\nreturn 1\nreturn 2\n' 4 \
        '20, no point has the name, or a point to be set has the name 0 or one in use' 'return 2'
    long="term $(seq -s ' ' 1 60)"
    not_filed 'a long line' "$long\n" 1 '10, a line of the wrong form' "$(printf '%.80s' "$long").."
    just="$(printf '%.80s' "$long")"
    not_filed 'one of just 80 bytes' "$just\n" 1 '10, a line of the wrong form' "$just"
    yes 'point 1' | head -c 65537 >"$out/calls"
    runs 'more than 65,536 bytes of calls' 1 '' "spinebriar: $out/calls: more than 65536 bytes of calls\n" file \
        "$out/calls"
    runs 'endless calls' 1 '' 'spinebriar: /dev/zero: more than 65536 bytes of calls\n' file /dev/zero
}
