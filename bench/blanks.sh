#!/usr/bin/env bash
# How long an application with blanks takes, and how many licences it asks: the program is the first word, or
# release/elements.
set -eu
here="$(cd "$(dirname "$0")" && pwd)"
program="${1:-$here/../release/elements}"
echo "machine: $(sed -n 's/^model name[^:]*: //p' /proc/cpuinfo | head -1), $(nproc) processors, load $(cut -d' ' -f1 /proc/loadavg)"
python3 "$here/blanks.py" "$program"
