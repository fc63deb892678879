# shellcheck shell=sh disable=SC2154,SC2059
# The tests of rows, and of lists of names, for run.sh.

documents() {
    runs 'the log' 0 "$LOG" '' rows examples/log.xml --names $names
    cp $names "$list"
    # text in pieces, CDATA, comments, targets, attributes, a default from the DTD, and what of the DTD is no node
    cat >"$xml" <<'END'
<?xml version="1.0"?><?run before?>
<!DOCTYPE log [<!-- no --><?run no?><!ENTITY two "1 &amp; <mark/>2"><!ATTLIST zero serial CDATA "7">]>
<!--one--><log serial="1">a<![CDATA[b]]>&#99;<mark serial='2'/><zero/>&two;<![CDATA[]]><?mark x?><run>
</run></log><!--two-->
END
    runs 'every kind of node' 0 \
        '0 0 0\n4 0 4\n3 0 0\n1 0 1\n5 3 5\n2 3 0\n1 3 2\n5 6 5\n1 3 3\n5 8 5\n2 3 0\n1 3 2
2 3 0\n4 3 2\n1 3 4\n2 14 0\n3 0 0\n' '' rows "$xml" --names $names
    printf '<log><mark/><new/></log>' >"$xml"
    runs 'a name that the list lacks' 1 '' \
        "spinebriar: $xml: line 1: the name new is not in the list (--add adds it)\n" rows "$xml" --names "$list"
    printf '<log><new a="1" b="2"/><new/><?t?></log>' >"$xml"
    added="spinebriar: $list: added "
    runs 'names added' 0 '0 0 0\n1 0 1\n1 1 6\n5 2 7\n5 2 8\n1 1 6\n4 1 9\n' \
        "${added}new, number 6\n${added}a, number 7\n${added}b, number 8\n${added}t, number 9\n" \
        rows "$xml" --names "$list" --add
    status=0
    cp "$list" "$out/stdout"
    : >"$out/stderr"
    verdict 'the list after that' 0 'log\nmark\nzero\nrun\nserial\nnew\na\nb\nt\n' ''
    runs 'nothing to add' 0 '0 0 0\n1 0 1\n1 1 6\n5 2 7\n5 2 8\n1 1 6\n4 1 9\n' '' rows "$xml" --names "$list" --add
    # of two equal lines the first counts, a line that is no name takes up its number, the last may lack its newline
    printf '\nlog\n1a\nma rk\nlog\na:b\nmark' >"$list"
    printf '<log><mark/></log>' >"$xml"
    runs 'numbers of a list' 0 '0 0 0\n1 0 2\n1 1 7\n' '' rows "$xml" --names "$list"
    printf '<log><mark/><x/></log>' >"$xml"
    runs 'added after a line without newline' 0 '0 0 0\n1 0 2\n1 1 7\n1 1 8\n' \
        "spinebriar: $list: added x, number 8\n" rows "$xml" --names "$list" --add
    cp "$list" "$out/stdout"
    : >"$out/stderr"
    verdict 'the list after that' 0 '\nlog\n1a\nma rk\nlog\na:b\nmark\nx\n' ''
    printf "$T"'2 1 0 2\n2 1 0 5\n2 1 0 3\n2 1 0 9\n'"$S"'2 0 0 0 0\n2 1 1 0 0\n2 2 2 0 0\n2 3 3 0 0\n' >"$bundle"
    runs 'numbers without a name' 0 'step 1: child::log <= child::log, by rule 2
step 2: child::#5 <= child::#5, by rule 2\nstep 3: child::#3 <= child::#3, by rule 2
step 4: child::#9 <= child::#9, by rule 2\n' '' explain "$bundle" --names "$list"
    { yes '' | head -n 65534; echo log; echo y; echo x; } >"$list"
    printf '<log/>' >"$xml"
    runs 'number 65535' 0 '0 0 0\n1 0 65535\n' '' rows "$xml" --names "$list"
    printf '<x/>' >"$xml"
    runs 'a name on line 65537' 1 '' "spinebriar: $xml: line 1: the name x finds no number up to 65535\n" rows \
        "$xml" --names "$list" --add
    cp $names "$list"
    printf '<log><x/></log>' >"$xml"
    (
        trap '' XFSZ
        ulimit -f 0
        { status=0; "$bin/spinebriar" rows "$xml" --names "$list" --add 2>&1 || status=$?; echo $status; } | cat
    ) | cat >"$out/stdout"
    status=0
    : >"$out/stderr"
    verdict 'a list that cannot be written' 0 "spinebriar: $list: File too large\n2\n" ''
    passes cmp "$list" $names
    : >"$list"
    runs 'an empty list' 0 '0 0 0\n1 0 1\n1 1 2\n' \
        "spinebriar: $list: added log, number 1\nspinebriar: $list: added x, number 2\n" rows "$xml" --names "$list" \
        --add
    # 2,000,000 lines, of which only the first 65,535 have a number
    { echo log; echo x; yes '' | head -n 2000000; } >"$list"
    runs 'a list of many lines' 0 '0 0 0\n1 0 1\n1 1 2\n' '' rows "$xml" --names "$list"
}

# A file with printf's escapes is no list, and --add leaves it as it was.
no_list() { # WHAT TEXT LINE WHY
    printf "$2" >"$list"
    cp "$list" "$out/before"
    printf '<log><x/></log>' >"$xml"
    runs "$1" 2 '' "spinebriar: $list: line $3 $4\n" rows "$xml" --names "$list" --add
    runs "$1, of check" 2 '' "spinebriar: $list: line $3 $4\n" check crates/audit/stdin --names "$list"
    passes cmp "$list" "$out/before"
    status=0
    python3 tools/bundle.py "$list" </dev/null >"$out/stdout" 2>"$out/stderr" || status=$?
    verdict "$1, of bundle.py" 1 '' "$list: line $3 has a mark, a blank at its end or bytes that no list has\n"
}

# Files whose names would silently have other numbers, or none.
no_lists() {
    returned='has a carriage return; lines end in a newline alone'
    no_list 'a list with carriage returns' 'log\r\nmark\r\n' 1 "$returned"
    no_list 'one at the end' 'log\nmark\r' 2 "$returned"
    no_list 'one within a line' 'log\nmark\nze\rro\n' 3 "$returned"
    no_list 'a byte order mark' '\357\273\277log\nmark\n' 1 'begins with a byte order mark'
    no_list 'a blank at a line'"'"'s end' 'log\nmark \nzero\n' 2 'ends in a blank'
    no_list 'a tab at the end' 'log\nmark\t' 2 'ends in a blank'
    no_list 'a line that is a blank' 'log\n\n \n' 3 'ends in a blank'
    no_list 'UTF-16' '\377\376l\0o\0g\0' 1 'has bytes that are no text'
    no_list 'byte 0' 'log\nma\0rk\n' 2 'has bytes that are no text'
    no_list 'a control character' 'log\nmark\n\033[2J\n' 3 'has bytes that are no text'
    no_list 'byte 127' 'log\177\n' 1 'has bytes that are no text'
    no_list 'ISO-8859-1' 'log\nl\366g\n' 2 'has bytes that are no text'
    no_list 'a character that is cut off' 'log\nl\303' 2 'has bytes that are no text'
    no_list 'one at a newline' 'log\nl\342\202\nmark\n' 2 'has bytes that are no text'
    no_list 'a long form of /' 'log\nl\300\257\n' 2 'has bytes that are no text'
    no_list 'half of a pair' 'log\nl\355\240\200\n' 2 'has bytes that are no text'
    no_list 'a program' '\177ELF\002\001\001\000\n' 1 'has bytes that are no text'
    # lines that are no names take up their numbers, in any letters
    printf 'l\303\266g\n\342\202\254 \360\237\230\200\n\356\200\200\tx\nlog\n' >"$list"
    printf '<log/>' >"$xml"
    runs 'lines in other letters' 0 '0 0 0\n1 0 4\n' '' rows "$xml" --names "$list"
}

# Lists that others change, or that can't be added to.
shared_lists() {
    cp $names "$list"
    printf '<log><x/></log>' >"$xml"
    (
        exec 9<"$list"
        flock 9
        { status=0; "$bin/spinebriar" rows "$xml" --names "$list" --add 9<&- 2>&1 || status=$?; echo $status; } \
            >"$out/stdout" 9<&- &
        sleep 0.7
        echo y >>"$list"
        exec 9<&-
        wait
    )
    status=0
    : >"$out/stderr"
    verdict 'a list that changes meanwhile' 0 \
        "spinebriar: $list: changed meanwhile, and nothing is added to it\n2\n" ''
    { cat $names; echo y; } >"$out/wanted_list"
    passes cmp "$list" "$out/wanted_list"
    passes at_once
    mkfifo "$out/pipe"
    cat $names >"$out/pipe" &
    runs 'a list that is a pipe' 2 '' "spinebriar: $out/pipe: no file to which names can be added\n" rows "$xml" \
        --names "$out/pipe" --add
    rm "$out/pipe"
}

# Twelve runs, four at a time, each of which adds a name: one that succeeds has the number of its line, one that fails
# says that the list has changed.
at_once() {
    cp $names "$list"
    for i in $(seq 1 12); do
        printf "<log><n$i/></log>" >"$out/$i.xml"
    done
    # shellcheck disable=SC2016
    seq 1 12 | xargs -P 4 -I % sh -c '"$1" rows "$3/%.xml" --names "$2" --add >"$3/%.rows" 2>"$3/%.said"
        echo $? >"$3/%.status"' sh "$bin/spinebriar" "$list" "$out"
    for i in $(seq 1 12); do
        line=$(grep -n "^n$i\$" "$list" | cut -d : -f 1)
        case $(cat "$out/$i.status") in
        0) [ "$(tail -n 1 "$out/$i.rows")" = "1 1 $line" ] || return 1 ;;
        2) [ -z "$line" ] && grep -q 'changed meanwhile' "$out/$i.said" || return 1 ;;
        *) return 1 ;;
        esac
    done
    [ "$(sort "$list" | uniq -d | wc -l)" = 0 ]
}

namespaces() {
    printf '<a:log xmlns:a="u"><mark/></a:log>' >"$xml"
    runs 'a prefix' 1 '' \
        "spinebriar: $xml: line 1: the name a:log has a prefix (--local-names takes the part after it)\n" rows \
        "$xml" --names $names
    runs 'local names' 0 '0 0 0\n1 0 1\n1 1 2\n' '' rows "$xml" --names $names --local-names
    printf '<log xmlns="u"/>' >"$xml"
    runs 'a namespace by default' 1 '' \
        "spinebriar: $xml: line 1: the name xmlns declares a namespace (--local-names leaves it out)\n" \
        rows "$xml" --names $names
    runs 'the same by local names' 0 '0 0 0\n1 0 1\n' '' rows "$xml" --names $names --local-names
    printf '<log xml:serial="1"/>' >"$xml"
    runs 'xml:serial' 0 '0 0 0\n1 0 1\n5 1 5\n' '' rows "$xml" --names $names --local-names
    printf '<log>\n<?a:b?></log>' >"$xml"
    runs 'a target with a colon' 1 '' "spinebriar: $xml: line 2: the name a:b has a colon\n" rows "$xml" --names \
        $names --local-names
    printf '<l\303\266g/>' >"$xml"
    runs 'a name beyond ASCII' 1 '' \
        "spinebriar: $xml: line 1: the name l\303\266g is not of ASCII letters, digits, _, - and .\n" rows "$xml" \
        --names $names --add
}

bad_xml() {
    printf '<log><mark>' >"$xml"
    runs 'XML that is cut off' 2 '' "spinebriar: $xml: line 1: no element found\n" rows "$xml" --names $names
    printf '<log>\n<mark></log>' >"$xml"
    runs 'a wrong end' 2 '' "spinebriar: $xml: line 2: mismatched tag\n" rows "$xml" --names $names
    : >"$xml"
    runs 'an empty file' 2 '' "spinebriar: $xml: line 1: no element found\n" rows "$xml" --names $names
    { echo '<log>'; yes '<x/>' | head -n 600; echo '</log>'; } >"$xml"
    runs 'too many nodes, before their names' 1 '' "spinebriar: $xml: 1203 nodes; a document has at most 512\n" \
        rows "$xml" --names $names
    { printf '<log>'; yes '<mark/>' | head -n 510 | tr -d '\n'; printf '</log>'; } >"$xml"
    status=0
    "$bin/spinebriar" rows "$xml" --names $names 2>"$out/stderr" | wc -l >"$out/stdout"
    verdict '512 nodes' 0 '512\n' ''
    { printf '<log>'; yes '<mark/>' | head -n 511 | tr -d '\n'; printf '</log>'; } >"$xml"
    runs '513 nodes' 1 '' "spinebriar: $xml: 513 nodes; a document has at most 512\n" rows "$xml" --names $names
    { yes '<run>' | head -n 100000; yes '</run>' | head -n 100000; } >"$xml"
    runs '100,000 levels' 1 '' "spinebriar: $xml: 300000 nodes; a document has at most 512\n" rows "$xml" --names \
        $names
    laughs 6
    runs 'a million laughs' 0 '0 0 0\n1 0 1\n2 1 0\n' '' rows "$xml" --names $names
    laughs 9
    runs 'a thousand million' 2 '' \
        "spinebriar: $xml: line 3: limit on input amplification factor (from DTD and entities) breached\n" \
        rows "$xml" --names $names
    printf '<!DOCTYPE log [<!ENTITY a SYSTEM "/etc/passwd">]>\n<log>&a;</log>' >"$xml"
    runs 'an entity in another file' 2 '' \
        "spinebriar: $xml: line 2: an entity of another file, which is not read\n" rows "$xml" --names $names
    printf '<!DOCTYPE log SYSTEM "none.dtd">\n<log>&a;</log>' >"$xml"
    runs 'an entity of another DTD' 2 '' \
        "spinebriar: $xml: line 2: an entity of another file, which is not read\n" rows "$xml" --names $names
    printf '<!DOCTYPE log SYSTEM "none.dtd"><log/>' >"$xml"
    runs 'a DTD that is not read' 0 '0 0 0\n1 0 1\n' '' rows "$xml" --names $names
}

# A text of 10^N times `lol`, by N entities.
laughs() { # N
    {
        printf '<!DOCTYPE log [<!ENTITY e0 "lol">'
        for i in $(seq 1 "$1"); do
            printf "<!ENTITY e$i \""
            for _ in 1 2 3 4 5 6 7 8 9 10; do printf "&e$((i - 1));"; done
            printf '">'
        done
        printf "]>\n\n<log>&e$1;</log>"
    } >"$xml"
}
