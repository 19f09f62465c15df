#!/bin/sh
# Texts beside the second program: snapshots of all sizes, damaged ones, random bytes. Every text must get the same one line,
# from the program on standard input and from the text function for C.
#
#   sh tests/texts.sh [PROGRAM_TEXTS [ENTRY_TEXTS [SEED]]]
set -eu
CDPATH= cd -- "$(dirname -- "$0")/.."
count=${1:-500}
seed=${3:-1}
folder=$(mktemp -d)
trap 'rm -rf "$folder"' EXIT
trap 'exit 1' HUP INT TERM
second=tests/second
"${CC:-cc}" -std=c11 -O2 -o "$folder/second" $second/*.c
mkdir "$folder/texts"
"$folder/second" gen-texts "$seed" "$count" "$folder/texts"

done=0
for text in "$folder"/texts/* examples/*.txt; do
    sh program/run.sh build/answer < "$text" > "$folder/found"
    "$folder/second" answer < "$text" > "$folder/expected"
    if ! cmp -s "$folder/expected" "$folder/found" || [ "$(wc -l < "$folder/found")" -ne 1 ]; then
        printf 'texts: they differ, seed %s:\n' "$seed"
        od -c "$text" | head -n 20
        printf 'expected %s\nfound    %s\n' "$(cat "$folder/expected")" "$(cat "$folder/found")"
        exit 1
    fi
    done=$((done + 1))
    [ $((done % 10000)) -ne 0 ] || echo "texts: $done through the program"
done
echo "texts: $done through the program, all alike"

sh tests/link.sh "$folder/entry" tests/texts.c $second/second.c $second/rounds.c $second/victims.c $second/reader.c $second/dice.c \
    $second/generate_fields.c $second/generate_texts.c
"$folder/entry" "${2:-6000}" "$seed"
