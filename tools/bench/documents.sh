#!/bin/sh
# The benchmark of selections on documents of any size: ours against libxml2 and, where its header is there, pugixml.
# Prints a table; a ratio above 1 says that ours is slower.
#
#     tools/bench/documents.sh [MOST_NODES]
#
# It needs rt, a C compiler and libxml2, and takes pugixml (libpugixml-dev, g++) where it is; it installs nothing, and
# names what is missing.
set -eu
cd "$(dirname "$0")/../.."
out=target/bench

. tools/need.sh
need cc=gcc xml2-config=libxml2-dev
session=$(tools/archive.sh spinebriar)
selection=$(tools/archive.sh bench_documents)
mkdir -p $out
flags=
if [ -e /usr/include/pugixml.hpp ] && command -v g++ >/dev/null; then
    g++ -O2 -Wall -Wextra -c tools/bench/pugixml.cpp -o $out/pugixml.o
    flags="-DPUGIXML $out/pugixml.o -lpugixml -lstdc++"
fi

# shellcheck disable=SC2046,SC2086
cc -O2 -Wall -Wextra -Werror -Iinclude tools/bench/documents.c "$session" "$selection" \
    $(xml2-config --cflags --libs) $flags -lpthread -ldl -lm -o $out/documents

echo "$(sed -n 's/^model name[^:]*: //p' /proc/cpuinfo | head -1), libxml2 $(xml2-config --version), $(cc --version | head -1), $(rt version)"
echo "load average $(cut -d' ' -f1-3 /proc/loadavg) on $(nproc) processors"
echo
exec $out/documents "$@"
