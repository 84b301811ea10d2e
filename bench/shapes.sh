#!/usr/bin/env bash
# Instructions and user seconds on the shapes that long proofs have, in one table to be compared between programs and machines. The
# program is the first word, or release/elements; the second one writes the texts that it verifies, if that is another.
set -eu
here="$(cd "$(dirname "$0")" && pwd)"
program="${1:-$here/../release/elements}"
echo "machine: $(sed -n 's/^model name[^:]*: //p' /proc/cpuinfo | head -1), $(nproc) processors, load $(cut -d' ' -f1 /proc/loadavg)"
python3 "$here/shapes.py" "$program" "${2:-$program}"
