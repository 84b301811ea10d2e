#!/usr/bin/env bash
# How long the linear decision takes on systems like those of proofs: the program is the first word, or
# crates/linear_bench/out/linear_bench (built by `(cd crates/linear_bench && rt run)`).
set -eu
here="$(cd "$(dirname "$0")" && pwd)"
program="${1:-$here/../crates/linear_bench/out/linear_bench}"
echo "machine: $(sed -n 's/^model name[^:]*: //p' /proc/cpuinfo | head -1), $(nproc) processors, load $(cut -d' ' -f1 /proc/loadavg)"
python3 "$here/linear.py" "$program"
