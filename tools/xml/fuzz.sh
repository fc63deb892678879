#!/bin/sh
# Fuzzes the reader of XML, for so many minutes:
#
#     tools/xml/fuzz.sh MINUTES
#
# Each round is compare.py with another seed: 20,000 mutations of its files, read by the program xml_rows, by expat and
# by libxml2. A round ends with status 1 where the program ends without an
# answer to each document, and where an answer differs from another reader's and no rule explains it; that document is
# then in target/xml/unexplained. The seeds are counted from the second of the start, and printed, so that a round can be
# made again. Where afl-fuzz with its QEMU mode is installed, half of the time goes to it, on the same files: it looks
# for a fault and for a hang.
#
# It needs what compare.py needs, and installs nothing.
set -eu
cd "$(dirname "$0")/../.."
minutes=${1:?usage: tools/xml/fuzz.sh MINUTES}
start=$(date +%s)
end=$((start + minutes * 60))
program=target/bin/xml_rows
if command -v afl-fuzz >/dev/null && command -v afl-qemu-trace >/dev/null; then
    [ -x "$program" ] || tools/programs.sh xml_rows
    inputs=target/xml/afl/inputs
    mkdir -p $inputs
    for file in tools/xml/cases/*.xml; do
        { wc -c <"$file"; cat "$file"; } >"$inputs/$(basename "$file")"
    done
    afl-fuzz -Q -V $((minutes * 30)) -i $inputs -o target/xml/afl/found -- "$program" sums
    find target/xml/afl/found -path '*crashes/id*' -o -path '*hangs/id*' | grep . && exit 1
fi
seed=$start
rounds=0
while [ "$(date +%s)" -lt "$end" ]; do
    python3 tools/xml/compare.py --mutations 20000 --seed "$seed" --no-log >target/xml/fuzz.log ||
        { cat target/xml/fuzz.log; echo "seed $seed"; exit 1; }
    tail -n 1 target/xml/fuzz.log
    seed=$((seed + 1))
    rounds=$((rounds + 1))
done
echo "$rounds rounds"
