#!/usr/bin/env bash
# Checks every example book and figure against its stored answer: NAME.out has the last lines that the
# program writes for NAME.book. The exit status has to be that of the answer, and where a book is
# accepted, `verify` has to accept what `check` wrote of it.
#
#     bash examples/check.sh
#
# The program is release/elements, or the one that the variable ELEMENTS names. The
# last line is `N passed, M failed`; the exit status is 0 only where nothing failed.
set -u
here=$(cd "$(dirname "$0")" && pwd) || exit 1
program=${ELEMENTS:-$here/../release/elements}
if [ ! -x "$program" ]; then
    echo "no program at $program" >&2
    echo "0 passed, 1 failed"
    exit 1
fi
work=$(mktemp -d) || exit 1
trap 'rm -rf "$work"' EXIT
passed=0
failed=0

pass() { passed=$((passed + 1)); }
# fail WHAT: one line for people
fail() {
    failed=$((failed + 1))
    echo "FAILED $1"
}

# status_of ANSWER: the exit status that goes with the first line of an answer
status_of() {
    case $1 in
        accepted*) echo 0 ;;
        unlicensed*) echo 1 ;;
        fault*) echo 2 ;;
        too-wide*) echo 8 ;;
        *) echo none ;;
    esac
}

# try_book NAME BOOK ANSWER: checks one book, and verifies what was written of it
try_book() {
    if [ ! -s "$3" ]; then
        fail "$1: it has no stored answer $3"
        return
    fi
    "$program" check <"$2" >"$work/text" 2>"$work/errors"
    status=$?
    wanted=$(cat "$3")
    lines=$(printf '%s\n' "$wanted" | wc -l)
    found=$(tail -n "$lines" "$work/text")
    if [ "$found" != "$wanted" ]; then
        fail "$1: wanted"
        printf '%s\n' "$wanted" | sed 's/^/    /'
        echo "  found, with status $status"
        printf '%s\n' "$found" | sed 's/^/    /'
        return
    fi
    if [ "$status" != "$(status_of "$wanted")" ]; then
        fail "$1: the answer is as stored, but the exit status is $status"
        return
    fi
    pass
    case $wanted in
        accepted*) ;;
        *) return ;;
    esac
    answer=$("$program" verify <"$work/text" 2>"$work/errors")
    status=$?
    if [ "$answer" = "verified ${wanted#accepted }" ] && [ "$status" = 0 ]; then
        pass
    else
        fail "$1: verify answers '$answer', with status $status"
    fi
}

for book in "$here"/*.book "$here"/refused/*.book "$here"/pitfalls/*.book "$here"/tutorial/*.book; do
    try_book "${book#"$here"/}" "$book" "${book%.book}.out"
done

# The answers of suggest: the first line has the words, the others what is written
for asked in "$here"/tutorial/*.suggest; do
    read -r title_and_step <"$asked"
    # shellcheck disable=SC2086  # the words are to be split
    found=$("$program" $title_and_step <"${asked%.suggest}.book" 2>"$work/errors")
    status=$?
    if [ "$found" = "$(tail -n +2 "$asked")" ] && [ "$status" = 0 ]; then
        pass
    else
        fail "${asked#"$here"/}: found, with status $status"
        printf '%s\n' "$found" | sed 's/^/    /'
    fi
done

# try_figure NAME FIGURE ANSWER: checks one figure text; all that is written is its answer
try_figure() {
    found=$("$program" figure <"$2" 2>"$work/errors")
    status=$?
    case $found in
        fault*) wanted=2 ;;
        *) wanted=0 ;;
    esac
    if [ "$found" = "$(cat "$3")" ] && [ "$status" = "$wanted" ]; then
        pass
    else
        fail "$1: found, with status $status"
        printf '%s\n' "$found" | sed 's/^/    /'
    fi
}

for figure in "$here"/figures/*.figure "$here"/figures/refused/*.figure; do
    try_figure "${figure#"$here"/}" "$figure" "${figure%.figure}.out"
done

echo "$passed passed, $failed failed"
[ "$failed" = 0 ]
