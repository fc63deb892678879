#!/bin/sh
# Makes target/staticlib/libNAME.a where it is missing or older than a source file, and prints its path. It is that of
# the static library NAME, or of NAME_c where NAME is a library for other crates.
#
#     tools/archive.sh NAME
#
# It needs the Rattle kit, and installs nothing.
set -eu
cd "$(dirname "$0")/.."
archive=target/staticlib/lib$1.a
log=target/staticlib/$1.log
crate=$1
[ ! -d "crates/$1_c" ] || crate=$1_c
newer() {
    find crates crates.txt -name out -prune -o \
        -newer "$archive" \( -name '*.rt' -o -name '*.antt' -o -name crates.txt \) -print
}
if [ ! -e "$archive" ] || [ -n "$(newer)" ]; then
    echo "rt lib $crate .." >&2
    mkdir -p target/staticlib
    (cd "crates/$crate" && rt lib) >"$log" 2>&1 || { tail -n 20 "$log" >&2; exit 1; }
    cp "crates/$crate/out/lib$crate.a" "$archive"
fi
echo "$archive"
