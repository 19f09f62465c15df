#!/bin/sh
# What the programs of crates/graphs, crates/rounds and crates/verdicts must write was worked out by the second program, never by
# themselves: this holds the file stdout of each against what the second program says of its file stdin today.
# The lines of verdicts are the calls A to L of tests/second/cases.txt and 439 of the calls of `second gen-calls 2026 4000`:
# each outcome with 64 jobs, sizes between, each refusal from 1 to 7 (8 cannot be met), and short calls as they come.
#
#   sh tests/cases.sh           compares
#   sh tests/cases.sh --write   writes the three files stdout anew
set -eu
CDPATH= cd -- "$(dirname -- "$0")/.."
folder=$(mktemp -d)
trap 'rm -rf "$folder"' EXIT
trap 'exit 1' HUP INT TERM
"${CC:-cc}" -std=c11 -O2 -o "$folder/second" tests/second/*.c
write=${1:-}
differ=

# hold PROGRAM MODE: the second program's answers to the lines of that program, in its small digits.
hold() {
    "$folder/second" "$2" < "crates/$1/stdin" > "$folder/answers"
    tr A-Z a-z < "$folder/answers" > "$folder/stdout"
    if [ "$write" = --write ]; then
        cp "$folder/stdout" "crates/$1/stdout"
    elif ! diff "$folder/stdout" "crates/$1/stdout"; then
        echo "crates/$1/stdout is not what the second program says" >&2
        differ=yes
    fi
}

hold graphs graph
hold rounds flows
hold verdicts calls
[ -z "$differ" ]
