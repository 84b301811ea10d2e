#!/usr/bin/env bash
# How fast derivation texts are verified, beside Metamath on a database of about the same size, and whether time is linear in the text.
# The program is the first word, or release/elements.
set -eu
here="$(cd "$(dirname "$0")" && pwd)"
program="${1:-$here/../release/elements}"
echo "machine: $(sed -n 's/^model name[^:]*: //p' /proc/cpuinfo | head -1), $(nproc) processors, load $(cut -d' ' -f1 /proc/loadavg)"
python3 "$here/verifying.py" "$program"
