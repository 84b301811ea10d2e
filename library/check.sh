#!/usr/bin/env bash
# Checks the libraries: Euclid's Books I to IV, and the one that needs all of them. First `euclid check`, which tells by file
# and line what is wrong, and where a sketch has parted from its book; and the layout. Of each library: book.toml lists each
# file of the folder once; the joined text is accepted, with all its theorems; what `check` wrote is verified by the program
# and by tools/verify.py. Of all of them: what is trimmed and what is upgraded is verified again, and docs/trimming.md has the
# numbers. Of Book I: so it has, and book-1/uses.out the lines of `uses`.
#
#     bash library/check.sh
#
# The program is release/elements, or the one that the variable ELEMENTS names. The last line is
# `N passed, M failed`; the exit status is 0 only where nothing failed.
set -u
here=$(cd "$(dirname "$0")" && pwd) || exit 1
tools=$here/../tools
program=${ELEMENTS:-$here/../release/elements}
if [ ! -x "$program" ]; then
    echo "no program at $program" >&2
    echo "0 passed, 1 failed"
    exit 1
fi
work=$(mktemp -d) || exit 1
trap 'rm -rf "$work"' EXIT
passed=0
failed=0

# same WHAT WANTED FOUND: one test, and one line for people where it fails
same() {
    if [ "$2" = "$3" ]; then
        passed=$((passed + 1))
    else
        failed=$((failed + 1))
        echo "FAILED $1: wanted '$2', found '$3'"
    fi
}

cd "$here/.." || exit 1
export ELEMENTS=$program
same "library: euclid check" "$(python3 tools/join.py library | grep -c '^theorem ') accepted" "$(bin/euclid check --quiet library 2>&1 | head -n 1)"
same "library: euclid fmt --check" "" "$(bin/euclid fmt --check library library/*/ 2>&1 | head -n 1)"

# try_library FOLDER: its text stays in $work/book, its derivation in $work/text
try_library() {
    python3 "$tools/join.py" "$1" >"$work/book"
    files=$(cd "$1" && find . -maxdepth 1 -name '*.book' -printf '%f\n' | LC_ALL=C sort)
    listed=$(python3 "$tools/join.py" "$1" --files | grep "^$1/[^/]*$" | sed 's:.*/::' | LC_ALL=C sort)
    same "$2: the files of book.toml" "$files" "$listed"
    number=$(grep -c '^theorem ' "$work/book")
    "$program" check <"$work/book" >"$work/text" 2>"$work/errors"
    status=$?
    same "$2" "accepted $number, status 0" "$(tail -n 1 "$work/text"), status $status"
    same "$2: verify" "verified $number" "$("$program" verify <"$work/text" 2>"$work/errors")"
    same "$2: tools/verify.py" "verified $number" "$(python3 "$tools/verify.py" <"$work/text" 2>"$work/errors" | tail -n 1)"
}

for folder in "$here"/*/; do
    try_library "${folder%/}" "library/$(basename "$folder")"
done
try_library "$here" library

for word in trim upgrade; do
    "$program" $word <"$work/text" >"$work/$word" 2>"$work/errors"
    same "library, $word: verify" "verified $number" "$("$program" verify <"$work/$word" 2>"$work/errors")"
    same "library, $word: tools/verify.py" "verified $number" "$(python3 "$tools/verify.py" <"$work/$word" | tail -n 1)"
done

# told TEXT WHAT: docs/trimming.md has the numbers of steps and of bytes of a derivation
step='^ *(by|hence|let|apply|claim|superpose|qed|contradiction|cases)( |$)'
told() {
    row="| $(grep -cE "$step" "$work/$1") | $(wc -c <"$work/$1") |"
    same "docs/trimming.md, $2" "$row" "$(tr -d , <docs/trimming.md | grep -oF "$row")"
}

told text library
told trim "library, trimmed"
python3 "$tools/join.py" "$here/book-1" >"$work/book"
"$program" check <"$work/book" >"$work/text" 2>"$work/errors"
"$program" trim <"$work/text" >"$work/trim" 2>"$work/errors"
told text "Book I"
told trim "Book I, trimmed"
for text in text trim; do
    same "book-1/uses.out, of the $text" "" "$("$program" uses <"$work/$text" | diff - "$here/book-1/uses.out" | head -n 1)"
done

echo "$passed passed, $failed failed"
[ "$failed" = 0 ]
