#!/usr/bin/env bash
# Builds the proved program without the tests and edits of the gate, and leaves it as crates/elements/out/elements.
#
#     bash tools/build.sh
#
# It is `rt ci`, as in the gate, in a copy of the tree that has only `elements` and the crates below it, without the edits that
# have to fail. The kit has to be on the path. How long it takes is told in docs/gate.md.
set -euo pipefail
cd "$(dirname "$0")/.."
command -v rt >/dev/null || {
    echo "build: no kit: rt is not on the path" >&2
    exit 2
}
copy=$(mktemp -d)
trap 'rm -rf "$copy"' EXIT

# The crates below `elements`, each once; libraries of the kit have no line in crates.txt
needed=(elements)
for ((at = 0; at < ${#needed[@]}; at++)); do
    for below in $(sed -n "s/^${needed[at]}://p" crates.txt); do
        if grep -q "^$below:" crates.txt && [[ " ${needed[*]} " != *" $below "* ]]; then
            needed+=("$below")
        fi
    done
done

mkdir "$copy/crates"
cp HANDLES "$copy"
for name in "${needed[@]}"; do
    mkdir "$copy/crates/$name"
    find "crates/$name" -mindepth 1 -maxdepth 1 ! -name out ! -name must-fail -exec cp -r {} "$copy/crates/$name" \;
    grep "^$name:" crates.txt >>"$copy/crates.txt"
done

echo "build: ${#needed[@]} crates"
(cd "$copy" && rt ci)
mkdir -p crates/elements/out
cp "$copy/crates/elements/out/elements" crates/elements/out/elements.new
mv crates/elements/out/elements.new crates/elements/out/elements
echo "build: crates/elements/out/elements, after $((SECONDS / 60)) minutes"
