#!/usr/bin/env bash
# All measures, one after another. The program is the first word, or release/elements; the linear core is measured by
# its own program, crates/linear_bench/out/linear_bench.
set -eu
here="$(cd "$(dirname "$0")" && pwd)"
program="${1:-$here/../release/elements}"
for measure in reading verifying trial licences blanks suggesting shapes; do
    printf '\n== %s\n' "$measure"
    "$here/$measure.sh" "$program"
done
printf '\n== linear\n'
"$here/linear.sh"
