#!/usr/bin/env bash
# How the time and the memory of `elements check` grow with the book: books of 1, 2 and 4 MiB of accepted theorems.
# The program is the first word, or release/elements. The ratio is that of processor times a doubling.
set -eu
here="$(cd "$(dirname "$0")" && pwd)"
program="${1:-$here/../release/elements}"
room="$(mktemp -d)"
trap 'rm -rf "$room"' EXIT
for size in 1048576 2097152 4194304; do
    python3 "$here/books.py" "$size" > "$room/$size.book"
done
echo "machine: $(sed -n 's/^model name[^:]*: //p' /proc/cpuinfo | head -1), $(nproc) processors, load $(cut -d' ' -f1 /proc/loadavg)"
python3 "$here/measure.py" "$program" "$room/1048576.book" "$room/2097152.book" "$room/4194304.book"
