#!/bin/sh
# The benchmark: the proved read and write against tools/reference on a full bundle, the proved selection against
# libxml2. Prints tables; a ratio above 1 says that ours is slower.
#
#     tools/bench/run.sh [SEED [OLD]]
#
# OLD is a clone of the repository at an older commit; the calls of its archives, its selections and its program replay
# are measured beside ours.
#
# It needs rt, cargo, Python 3, a C compiler and libxml2; it installs nothing, and names what is missing.
set -eu
cd "$(dirname "$0")/../.."
out=target/bench

. tools/need.sh
need cargo=cargo cc=gcc python3=python3 xml2-config=libxml2-dev
session=$(tools/archive.sh spinebriar)
selection=$(tools/archive.sh bench_select)
tools/programs.sh replay
old=${2:-}
flags=
replays=target/bin/replay

mkdir -p $out
if [ -n "$old" ]; then
    "$old/tools/programs.sh" replay
    old_names=
    for name in read read_line claim select file; do
        old_names="$old_names --redefine-sym spinebriar_$name=old_spinebriar_$name"
    done
    # shellcheck disable=SC2086
    old_name=exports
    [ ! -d "$old/crates/spinebriar_c" ] || old_name=spinebriar
    objcopy $old_names "$old/$("$old/tools/archive.sh" $old_name)" $out/old.a
    old_names=
    for name in select write order bundle_order text; do
        old_names="$old_names --redefine-sym bench_$name=old_bench_$name"
    done
    # shellcheck disable=SC2086
    objcopy $old_names "$old/$("$old/tools/archive.sh" bench_select)" $out/old_select.a
    flags="-DOLD_ARCHIVE $out/old.a $out/old_select.a"
    replays="$replays $old/target/bin/replay"
fi
cargo build --release --quiet --manifest-path tools/reference/Cargo.toml
python3 tools/compare/cases.py full-bundle "${1:-1}" > $out/bundle

# shellcheck disable=SC2046,SC2086
cc -O2 -Wall -Wextra -Werror -Iinclude tools/bench/bench.c "$session" "$selection" \
    tools/reference/target/release/libreference.a $(xml2-config --cflags --libs) $flags -lpthread -ldl -lm -o $out/bench

echo "$(sed -n 's/^model name[^:]*: //p' /proc/cpuinfo | head -1), libxml2 $(xml2-config --version), $(rustc --version), $(cc --version | head -1), $(rt version)"
echo "load average $(cut -d' ' -f1-3 /proc/loadavg) on $(nproc) processors"
echo
# shellcheck disable=SC2086
exec $out/bench $out/bundle $out/calls $replays
