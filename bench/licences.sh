#!/usr/bin/env bash
# How long one `hence` takes, licensed and refused, by arithmetic and by transfer rules, and how many linear questions it asks: the
# program is the first word, or release/elements.
set -eu
here="$(cd "$(dirname "$0")" && pwd)"
program="${1:-$here/../release/elements}"
echo "machine: $(sed -n 's/^model name[^:]*: //p' /proc/cpuinfo | head -1), $(nproc) processors, load $(cut -d' ' -f1 /proc/loadavg)"
python3 "$here/licences.py" "$program"
