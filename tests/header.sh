#!/bin/sh
# What include/pasagumdil.h says that no theorem settles: that it compiles by itself as C99 and as C++17, what the library needs
# from the C library, that it has no data that can be written, the version, the refusal numbers, and null pointers for empty lists.
# And the snapshots of docs/FORMAT.md, worked out by hand there, through the text function.
set -eu
CDPATH= cd -- "$(dirname -- "$0")/.."
folder=$(mktemp -d)
trap 'rm -rf "$folder"' EXIT
trap 'exit 1' HUP INT TERM
header=include/pasagumdil.h

fail() {
    echo "header: $*" >&2
    exit 1
}

strict="-Wall -Wextra -pedantic -Werror -Iinclude -fsyntax-only"
"${CC:-cc}" -std=c99 $strict tests/header.c || fail "it does not compile as C99"
"${CXX:-g++}" -x c++ -std=c++17 $strict tests/header.c || fail "it does not compile as C++17"

sh tests/link.sh "$folder/header" tests/header.c
status=0
"$folder/header" || status=$?
[ "$status" -eq 0 ] || fail "sentence $status of tests/header.c does not hold"

# "It needs memset() from the C library, and nothing else."
library=build/libentry.a
sed 's/^ \* *//' "$header" | tr '\n' ' ' | sed -n 's/.*It needs \([^.]*\) from the C library, and nothing else\..*/\1/p' |
    grep -o '[a-z_0-9]*()' | tr -d '()' | sort > "$folder/said"
nm -u "$library" | awk '$1 == "U" { print $2 }' | sort -u > "$folder/needed"
[ -s "$folder/said" ] || fail "it does not say what the library needs from the C library"
diff "$folder/said" "$folder/needed" || fail "< is what it says that the library needs from the C library, > what nm finds"

# A call allocates nothing, shares nothing and keeps nothing: the library calls nothing else than that, and has no data that can be written.
nm "$library" | awk 'NF == 3 && $2 ~ /[BbCDdGgSs]/' > "$folder/writable"
[ ! -s "$folder/writable" ] || fail "the library has data that can be written: $(cat "$folder/writable")"
size -t "$library" | awk 'END { exit !($2 == 0 && $3 == 0) }' || fail "the library has data that can be written"

# number NAME: the value of a macro of the header.
number() { sed -n "s/^#define PASAGUMDIL_$1 //p" "$header"; }
version=$(number VERSION | tr -d '"')
[ "$version" = "$(number VERSION_MAJOR).$(number VERSION_MINOR).$(number VERSION_PATCH)" ] || fail "PASAGUMDIL_VERSION is not made of its parts"
[ "$version" = "$(cat VERSION)" ] || fail "PASAGUMDIL_VERSION is $version, and the file VERSION says $(cat VERSION)"

# Each refusal from 1 to 18 has one constant, and one row of the desk card.
seq 1 18 > "$folder/numbers"
sed -n '/^enum pasagumdil_refusal/,/^};/s/.* = \([0-9]*\),\{0,1\}$/\1/p' "$header" | sed 1d > "$folder/constants"
cmp -s "$folder/numbers" "$folder/constants" || fail "enum pasagumdil_refusal does not have 1 to 18, each once and in order"
awk '/^[|] No[.] [|]/ { on = 1 } !/^[|]/ { on = 0 } on && $2 ~ /^[0-9]+$/ { print $2 }' docs/DESK-CARD.md | sort -n > "$folder/rows"
cmp -s "$folder/numbers" "$folder/rows" || fail "docs/DESK-CARD.md does not have a row for each refusal from 1 to 18"

# The snapshot that docs/FORMAT.md writes by hand, and the same with one line changed, as its last table has it.
sh tests/link.sh "$folder/line" tests/header_line.c
awk '/^```/ { on = $0 == "```snapshot"; next } on' docs/FORMAT.md > "$folder/snapshot"
tried=0
# hold LINE: the line that the page gives for the text on standard input.
hold() {
    found=$("$folder/line")
    [ "$found" = "$1" ] || fail "docs/FORMAT.md gives $1, and the text function $found"
    tried=$((tried + 1))
}
hold "$(awk '/^```/ { on = $0 == "```answer"; next } on' docs/FORMAT.md)" < "$folder/snapshot"
sed -n 's/^| \([0-9]*\) | `\([0-9A-F]*\)` | `\([0-9A-F]*\)` | .*/\1 \2 \3/p' docs/FORMAT.md > "$folder/changed"
while read -r place becomes answer; do
    sed "${place}s/.*/$becomes/" "$folder/snapshot" > "$folder/text"
    hold "$answer" < "$folder/text"
done < "$folder/changed"
[ "$tried" -eq 9 ] || fail "docs/FORMAT.md has $tried snapshots with their answers, and not 9"

echo "header: all well"
