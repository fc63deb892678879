#!/bin/sh
# Times read on bundles that are made to take long, and prints the slowest, accepted and refused.
#
#     tools/bench/worst.sh
#
# It needs rt, cargo, Python 3 and a C compiler; it installs nothing, and names what is missing.
set -eu
cd "$(dirname "$0")/../.."
out=target/bench
. tools/need.sh
need cargo=cargo cc=gcc python3=python3

session=$(tools/archive.sh spinebriar)
mkdir -p $out
cargo build --release --quiet --manifest-path tools/reference/Cargo.toml
cc -O2 -Wall -Wextra -Werror -Iinclude tools/bench/reading.c "$session" \
    tools/reference/target/release/libreference.a -lpthread -ldl -lm -o $out/reading
rm -rf $out/worst
python3 tools/bench/worst.py $out/worst
$out/reading $out/worst/* > $out/worst.md
head -2 $out/worst.md
tail -n +3 $out/worst.md | sort -t'|' -k6 -n -r
