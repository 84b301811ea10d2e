#!/usr/bin/env bash
# How long `elements suggest` takes before each step of Book I, one run each, and whether it answers what is stored: the program is the
# first word, or release/elements; the second one is another program, if its answers are to be compared place by place.
set -eu
here="$(cd "$(dirname "$0")" && pwd)"
program="${1:-$here/../release/elements}"
echo "machine: $(sed -n 's/^model name[^:]*: //p' /proc/cpuinfo | head -1), $(nproc) processors, load $(cut -d' ' -f1 /proc/loadavg)"
python3 "$here/suggesting.py" "$program" "${@:2}"
