#!/usr/bin/env bash
# Processor time of `elements trial N`: the generated book of N theorems is checked, and its derivations are verified.
# The program is the first word, or release/elements.
set -eu
here="$(cd "$(dirname "$0")" && pwd)"
program="${1:-$here/../release/elements}"
echo "machine: $(sed -n 's/^model name[^:]*: //p' /proc/cpuinfo | head -1), $(nproc) processors, load $(cut -d' ' -f1 /proc/loadavg)"
TIMEFORMAT='%3U s  %3S s in the system'
for count in 1 6 60 125 250 500; do
    time "$program" trial "$count"
done
