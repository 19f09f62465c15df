#!/bin/sh
# Bytes of all kinds over both functions of the C entry, under valgrind where it is there. Run by hand; the tests never run it.
#
#   sh tests/fuzz.sh [COUNT [SEED]]     20000 calls and as many texts with seed 1 unless given, some minutes under valgrind
set -eu
CDPATH= cd -- "$(dirname -- "$0")/.."
folder=$(mktemp -d)
trap 'rm -rf "$folder"' EXIT
trap 'exit 1' HUP INT TERM
second=tests/second
sh tests/link.sh "$folder/fuzz" tests/fuzz.c $second/second.c $second/rounds.c $second/victims.c $second/reader.c $second/dice.c $second/generate_calls.c $second/damage_calls.c $second/generate_fields.c $second/generate_texts.c
if command -v valgrind >/dev/null 2>&1; then
    valgrind --quiet --error-exitcode=1 "$folder/fuzz" "${1:-20000}" "${2:-1}"
    echo "fuzz: valgrind found nothing"
else
    "$folder/fuzz" "${1:-20000}" "${2:-1}"
fi
