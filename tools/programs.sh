#!/bin/sh
# Proves and compiles programs, and copies them to target/bin:
#
#     tools/programs.sh NAME..
#
# It needs the Rattle kit, and installs nothing.
set -eu
cd "$(dirname "$0")/.."
mkdir -p target/bin
for name in "$@"; do
    log=$PWD/target/bin/$name.log
    program=crates/$name/out/$name
    rm -f "$program"
    # `rt run` runs it too, on nothing; what it says of nothing is no matter
    (cd "crates/$name" && rt run </dev/null) >"$log" 2>&1 || true
    [ -x "$program" ] || { tail -n 20 "$log" >&2; exit 1; }
    cp "$program" target/bin/
done
