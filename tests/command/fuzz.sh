#!/bin/sh
# Fuzzes host/ with libFuzzer under the address and undefined behaviour sanitizers, a fifth of the time each with
# bundles, XML, selectors, lists of names and calls:
#
#     tests/command/fuzz.sh MINUTES
#
# It needs the Rattle kit, clang and expat; it installs nothing, and names what is missing. The inputs found stay in
# target/fuzz. A failure ends it with status 1 and leaves the input there.
set -eu
cd "$(dirname "$0")/../.."
seconds=$((${1:?usage: tests/command/fuzz.sh MINUTES} * 12))
. tools/need.sh
need clang=clang /usr/include/expat.h=libexpat1-dev
archive=${ARCHIVE:-$(tools/archive.sh spinebriar)}
sources='tests/command/fuzz.c host/check.c host/claim.c host/select.c host/file.c host/rows.c host/document.c
    host/paths.c host/limit.c host/terms.c host/rules.c host/bundle.c host/names.c host/bytes.c'
for what in BUNDLE XML SELECTOR NAMES CALLS; do
    out=target/fuzz/$what
    most=20000
    mkdir -p $out/inputs
    # shellcheck disable=SC2086
    clang -g -O1 -std=c11 -D_POSIX_C_SOURCE=200809L -Wall -Wextra -Werror -DFUZZ_$what \
        -fsanitize=fuzzer,address,undefined \
        -fno-sanitize-recover=all -Iinclude -Ihost -o $out/fuzz $sources "$archive" -lexpat
    case $what in
    BUNDLE)
        cp examples/bundles/*.bundle crates/audit/stdin $out/inputs
        most=70000
        ;;
    XML) cp examples/log.xml tools/compare/xml/*.xml $out/inputs ;;
    SELECTOR) printf '//mark[@serial and not(../zero)]|log' >$out/inputs/selector ;;
    NAMES) cp examples/bundles/names $out/inputs ;;
    CALLS) printf 'point 1\nterm 2 1 0 2\nreturn 1\nterm 2 3 1 0\nstep 2 0 0 0 0\n' >$out/inputs/calls ;;
    esac
    {
        printf '"%s"\n' '<?' '<!--' '-->' '<![CDATA[' ']]>' '<!DOCTYPE log [' '<!ENTITY a ' '<!ATTLIST log ' 'xmlns:' \
            '&a;' '::' 'child::' 'self::' 'ancestor-or-self::' 'preceding::' 'node()' 'not(' ' and ' '..' '//' '/@'
        printf '"%s\\x0a"\n' 'kind a b c' 'rule left right first second' 'point 1' 'return 1' 'term 6 0 0 0' \
            'step 2 0 0 0 0'
    } >$out/words
    $out/fuzz -max_total_time=$seconds -max_len=$most -timeout=10 -dict=$out/words -artifact_prefix=$out/ \
        -close_fd_mask=1 $out/inputs 2>$out/log || { tail -n 40 $out/log; exit 1; }
    grep -E '^Done|stat::' $out/log | sed "s/^/$what: /"
done
