#!/bin/sh
# Builds and runs the differential run of the C entry against the second program, and measures the stack that a call takes.
#
#   sh tests/calls.sh [COUNT [SEED]]     20000 calls with seed 1 unless given
set -eu
CDPATH= cd -- "$(dirname -- "$0")/.."
folder=$(mktemp -d)
trap 'rm -rf "$folder"' EXIT
trap 'exit 1' HUP INT TERM
second=tests/second
sh tests/link.sh "$folder/calls" tests/calls.c $second/second.c $second/rounds.c $second/victims.c $second/reader.c $second/dice.c $second/generate_calls.c $second/damage_calls.c
"$folder/calls" "$@"
sh tests/link.sh "$folder/stack" tests/stack.c
"$folder/stack"
