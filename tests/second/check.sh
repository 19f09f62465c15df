#!/bin/sh
# Builds the second program and holds it against what was worked out by hand:
# the cases A to L, the example text, the ages, the limits, several refusals;
# then lets it check itself. Prints "second: all well" and ends with 0, or tells
# what differs and ends with 1.
#
#   sh check.sh [SEED [COUNT]]
set -eu
here=$(CDPATH= cd -- "$(dirname -- "$0")" && pwd)
seed=${1:-1}
count=${2:-1000}
folder=$(mktemp -d)
trap 'rm -rf "$folder"' EXIT
trap 'exit 1' HUP INT TERM
second=$folder/second
faults=0

"${CC:-cc}" -std=c11 -O2 -Wall -Wextra -Werror -o "$second" "$here"/*.c

# same NAME EXPECTED FOUND
same() {
    if [ "$2" != "$3" ]; then
        printf '%s\n  expected %s\n  found    %s\n' "$1" "$2" "$3"
        faults=$((faults + 1))
    fi
}

# text NAME EXPECTED TEXT: the answer to a text given as printf takes it.
text() {
    same "$1" "$2" "$(printf "$3" | "$second" answer)"
}

# The cases A to L: outcome, price, rounds and victims, without the digest.
cut -d ' ' -f 2- "$here/cases.expected" > "$folder/expected"
"$second" calls < "$here/cases.txt" | cut -d ' ' -f 1-4 > "$folder/found"
if ! diff "$folder/expected" "$folder/found"; then
    echo "the cases A to L differ"
    faults=$((faults + 1))
fi
same "the flows of case K" "rounds 1 left YES 0>1:2 1>3:2 3>0:2" \
    "$(sed -n 11p "$here/cases.txt" | "$second" flows)"
same "the flows of case J, one taken back" \
    "rounds 2 left NO 0>1:1 0>2:1 1>4:1 2>3:1 3>0:1 4>0:1" \
    "$(sed -n 10p "$here/cases.txt" | "$second" flows)"
same "the graph of case I" "reach 7 x 1 ring no" \
    "$(echo '3 0 2 4 2' | "$second" graph)"
same "the graph of case F" "reach F x F ring yes" \
    "$(echo '4 0 6 8 8 1' | "$second" graph)"

# The example text.
head='01000000100001000102020000000040\n'
job0='0200FFFFFFF0000000030102\n'
job1='020100000008000000050201\n'
text "the example" 0302000000000000000D000000010000000000000002 \
    "$head$job0$job1"

# Ages, seen as the price of job 1: a 1, N 1, b 1, so that the cost is 1 + age.
# Job 0 is T and has waited for 2^31 - 1 ticks.
# age NAME PRESENT ISSUED0 ISSUED1 EXPECTED
age() {
    text "$1" "$5" "01${2}00010001020200FFFFFFFF\n0200${3}000000010102\n0201${4}000000010201\n"
}
age "age 32 across the wrap" 00000010 80000011 FFFFFFF0 \
    03020000000000000021000000010000000000000002
age "equal ticks" 00000010 80000011 00000010 \
    03020000000000000001000000010000000000000002
age "age 2^31 - 1 twice: equal cost, T stays" 00000010 80000011 80000011 \
    03020000000080000000000000010000000000000002
age "age 2^31 of job 1" 00000010 80000011 80000010 0F0F0003
age "age 2^31 of job 0" 00000010 80000010 80000010 0F0F0002

# Limits of a call: cost 2^42 and 2^42 + 1, T far above, 64 and 65 rows.
call() {
    same "$1" "$2" "$(echo "$3" | "$second" calls | cut -d ' ' -f "$4")"
}
call "cost 2^42" "abort-others 40000000000 1 2" \
    "2 2 4 0 64 2 1 40000000000 40000000000" 1-4
call "cost 2^42 + 1" "refused 7" "2 2 4 0 64 2 1 5 40000000001" 1-2
call "cost 2^64 - 1" "refused 7" "2 2 4 0 64 2 1 FFFFFFFFFFFFFFFF 5" 1-2
call "cost 0" "refused 7" "2 2 4 0 64 2 1 5 0" 1-2
call "T 256" "refused 6" "2 2 4 100 64 2 1 5 3" 1-2
call "a job waits for itself" "refused 5" "2 2 4 100 64 2 2 5 3" 1-2
call "a row names job 2" "refused 4" "2 2 4 100 64 2 6 5 3" 1-2
call "three places of work" "refused 3" "2 2 3 0 64 2 6 5 3" 1-2
call "one cost" "refused 2" "2 1 3 0 64 2 1 5" 1-2
call "no rows" "refused 1" "0 1 0 0 64 5" 1-2
zeros() { i=0; while [ "$i" -lt "$1" ]; do printf ' %s' "$2"; i=$((i + 1)); done; }
call "64 rows" "wait 0 0 0" "40 40 1000 3F 0$(zeros 64 0)$(zeros 64 1)" 1-4
call "65 rows" "refused 1" "41 41 1081 3F 0$(zeros 65 0)$(zeros 65 1)" 1-2

# Refusals of the reader, with their lines.
text "empty text" 0F0B0001 ''
text "an empty line" 0F0B0001 '\n'
text "the text ends early" 0F0B0003 "$head$job0"
text "no line feed" 0F0A0003 "$head${job0}020100000008000000050201"
text "a carriage return" 0F0A0001 "01000000100001000102020000000040\r\n"
text "a lower-case digit" 0F0A0002 "${head}0200fFFFFFF0000000030102\n$job1"
text "one digit too many" 0F0A0002 "${head}0200FFFFFFF00000000301020\n$job1"
text "two digits too many" 0F0B0002 "${head}0200FFFFFFF000000003010200\n$job1"
text "a further line" 0F0B0004 "$head$job0$job1$job1"
text "a further empty line" 0F0B0004 "$head$job0$job1\n"
text "a further line without feed" 0F0A0004 "$head$job0${job1}00"
text "weight 0" 0F0C0001 "01000000100000000102020000000040\n$job0$job1"
text "65 jobs" 0F0C0001 "01000000100001000141020000000040\n$job0$job1"
text "T is n" 0F0C0001 "01000000100001000102020200000040\n$job0$job1"
text "a job number twice" 0F0D0003 "$head$job0$job0"
text "N 0" 0F0E0003 "$head${job0}020100000008000000000201\n"
text "N 2^20 + 1" 0F0E0003 "$head${job0}020100000008001000010201\n"
text "age before N" 0F0F0003 "$head${job0}020100000011000000000303\n"
text "a pool state 03" 0F100003 "$head${job0}020100000008000000050203\n"
text "waiting at two pools" 0F110003 "$head${job0}020100000008000000050202\n"
text "T waits nowhere" 0F120002 "${head}0200FFFFFFF0000000030101\n$job1"
text "a further line before 18" 0F0B0004 \
    "${head}0200FFFFFFF0000000030101\n$job1\n"
same "4,097 bytes" 0F090000 \
    "$(printf '%04097d' 0 | "$second" answer)"
same "4,096 bytes" 0F0A0001 \
    "$(printf '%04096d' 0 | "$second" answer)"

# The self-check.
same "the self-check" "ok $count" "$("$second" self "$seed" "$count")"

if [ "$faults" -ne 0 ]; then
    echo "second: $faults differences"
    exit 1
fi
echo "second: all well"
