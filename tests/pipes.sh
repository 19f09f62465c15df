#!/bin/sh
# Texts through pipes that deliver in pieces, as another program or a network does: the proved program and program/answer.c must answer
# as the second program does. Every cut of small texts into two pieces, random cuts of larger ones into many.
#
#   sh tests/pipes.sh [TEXTS [SEED]]
set -eu
CDPATH= cd -- "$(dirname -- "$0")/.."
count=${1:-120}
seed=${2:-1}
folder=$(mktemp -d)
trap 'rm -rf "$folder"' EXIT
trap 'exit 1' HUP INT TERM
"${CC:-cc}" -std=c11 -O2 -o "$folder/second" tests/second/*.c
"${CC:-cc}" -std=c11 -O2 -Wall -Wextra -Werror -o "$folder/pipes" tests/pipes.c
sh tests/link.sh "$folder/program" program/answer.c
./pasagumdil answer examples/document.txt >/dev/null
mkdir "$folder/texts"
"$folder/second" gen-texts "$seed" "$count" "$folder/texts"

# deliver TEXT HOW: to both programs.
deliver() {
    "$folder/second" answer < "$1" > "$folder/expected"
    "$folder/pipes" "$1" "$folder/expected" "$2" sh program/run.sh build/answer || exit 1
    "$folder/pipes" "$1" "$folder/expected" "$2" "$folder/program" || exit 1
    done=$((done + 1))
}

# The document's text; the same with a further line, which is 11, not an answer; one that is cut short.
done=0
cp examples/document.txt "$folder/document"
{ cat examples/document.txt && echo 01; } > "$folder/further"
sed 2q examples/document.txt > "$folder/short"
for text in document further short; do deliver "$folder/$text" every; done
small=$done

# The longest texts there are, and one byte more; then what the second program makes up, where there is something to cut.
printf '%04096d' 0 > "$folder/longest"
printf '%04097d' 0 > "$folder/too-long"
for text in "$folder/longest" "$folder/too-long" "$folder"/texts/*; do
    [ "$(wc -c < "$text")" -lt 100 ] || deliver "$text" $((seed + done))
done
echo "pipes: $small texts in every two pieces, $((done - small)) in many, all alike"
