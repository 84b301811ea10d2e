#!/usr/bin/env bash
# Puts the program that was built here into release/, with its checksum and version.
#
#     bash tools/release.sh [VERSION]    copies crates/elements/out/elements and writes the sums
#     bash tools/release.sh --check      says whether release/ has that very program
#
# Without a VERSION a program whose bytes are the same keeps its version, and another is `unreleased`.
# The status is 1 where the check fails, and 2 where there is no program or the words are others.
set -u
cd "$(dirname "$0")/.." || exit 2
built=crates/elements/out/elements
sums=release/SHA256SUMS
if [ $# -gt 1 ] || [[ ${1:-} == -* && $1 != --check ]]; then
    sed -n '4,5s/^# *//p' "$0" >&2
    exit 2
fi
if [ ! -f "$built" ]; then
    echo "no program at $built: bash tools/build.sh makes it" >&2
    exit 2
fi

if [ "${1:-}" = --check ]; then
    if cmp release/elements "$built" && [ -x release/elements ] && (cd release && sha256sum --check --quiet --strict SHA256SUMS); then
        echo "release/elements is the program that was built here"
        exit 0
    fi
    echo "release/ has not the program that was built here. To mend it:  bash tools/release.sh"
    exit 1
fi

sum=$(sha256sum <"$built" | cut -d ' ' -f 1)
version=${1:-unreleased}
if [ $# = 0 ] && grep -qxF "$sum  elements" "$sums" 2>/dev/null; then
    version=$(sed -n 's/^# elements //p' "$sums")
fi
# A new file takes the place of the old one, which may be running.
cp "$built" release/elements.new && chmod 755 release/elements.new && mv release/elements.new release/elements || exit 2
printf '# elements %s\n%s  elements\n' "$version" "$sum" >"$sums" || exit 2
echo "release/elements: $version, $(wc -c <release/elements) bytes, sha256 $sum"
