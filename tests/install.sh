#!/bin/sh
# Installs into a fresh prefix with a space in its name, and holds what is there against what was asked: C programs built by
# pkg-config alone, static and shared, the names that are exported, the program's line and its statuses, the man pages.
# The lines expected are document 01's.
set -eu
CDPATH= cd -- "$(dirname -- "$0")/.."
if [ "$(uname -m)" != x86_64 ]; then
    said=$(./pasagumdil install /nowhere 2>&1) && status=0 || status=$?
    case $status:$said in
    1:*"for x86-64, so it cannot be installed"*) echo "install: it is refused here, as it must be" ;;
    *) echo "install: it should be refused here with a sentence, and said: $said" && exit 1 ;;
    esac
    exit
fi
folder=$(mktemp -d)
trap 'rm -rf "$folder"' EXIT
trap 'exit 1' HUP INT TERM
line=0302000000000000000D000000010000000000000002
top=$(pwd)

# same WHAT EXPECTED FOUND
same() {
    [ "$2" = "$3" ] || {
        printf 'install: %s\n  expected %s\n  found    %s\n' "$1" "$2" "$3"
        exit 1
    }
}

# status_of COMMAND ..: how it ends; what it says is in the file said.
status_of() { if "$@" >"$folder/said" 2>&1; then echo 0; else echo $?; fi; }

# A prefix is given from the caller's folder, and one that cannot be written is a sentence and 1.
mkdir "$folder/a b"
(cd "$folder/a b" && "$top/pasagumdil" install pre/fix) >"$folder/said"
prefix="$folder/a b/pre/fix"
same "what install says" "pasagumdil $(cat VERSION) is installed below $prefix" "$(cat "$folder/said")"
same "the files" "bin/pasagumdil-answer include/pasagumdil.h lib/libpasagumdil.a lib/libpasagumdil.so lib/libpasagumdil.so.1 \
lib/libpasagumdil.so.$(cat VERSION) lib/pkgconfig/pasagumdil.pc share/man/man1/pasagumdil-answer.1 share/man/man3/pasagumdil.3" \
    "$(cd "$prefix" && find . ! -type d | sed 's,^\./,,' | LC_ALL=C sort | tr '\n' ' ' | sed 's/ $//')"
same "the status where the prefix cannot be written" 1 "$(status_of ./pasagumdil install /dev/null/below)"
grep -q '^pasagumdil: /dev/null/below.* could not be written' "$folder/said" || same "a sentence about the prefix" "one" "$(cat "$folder/said")"
same "the status without a prefix" 1 "$(status_of ./pasagumdil install)"
DESTDIR=$folder/staged ./pasagumdil install /usr >/dev/null
same "the prefix below DESTDIR" "prefix=/usr" "$(grep '^prefix=' "$folder/staged/usr/lib/pkgconfig/pasagumdil.pc")"

# A C program that is told of nothing but what pkg-config says.
cat > "$folder/use.c" <<'TEXT'
#include <pasagumdil.h>
#include <stdio.h>

int main(void)
{
    static const char text[] = "01000000100001000102020000000040\n"
                               "0200FFFFFFF0000000030102\n"
                               "020100000008000000050201\n";
    static const uint8_t rows[16] = {[7] = 2, [15] = 1}, costs[16] = {[7] = 5, [15] = 3};
    uint8_t line[PASAGUMDIL_LINE_BYTES], work[32], answer[PASAGUMDIL_ANSWER_BYTES];
    size_t length = pasagumdil_answer((const uint8_t *)text, sizeof text - 1, line, sizeof line);
    fwrite(line, 1, length, stdout);
    printf("%d", pasagumdil_verdict(rows, sizeof rows, costs, sizeof costs, 0, 100, work, sizeof work, answer, sizeof answer));
    printf(" outcome %d price %d rounds %d victims %d\n", answer[1], answer[9], answer[13], answer[21]);
    return 0;
}
TEXT
expected="$line
0 outcome 2 price 3 rounds 1 victims 2"
export PKG_CONFIG_PATH="$prefix/lib/pkgconfig"
same "the version that pkg-config tells" "$(cat VERSION)" "$(pkg-config --modversion pasagumdil)"

# build PROGRAM WORDS: with the words of pkg-config, which keeps spaces from ending a word for a shell to read.
build() { eval "\"\${CC:-cc}\" -std=c99 -Wall -Wextra -Werror -o \"\$folder/$1\" \"\$folder/use.c\" $2"; }

build static "-static $(pkg-config --static --cflags --libs pasagumdil)"
build shared "$(pkg-config --cflags --libs pasagumdil)"
same "what the static program says" "$expected" "$("$folder/static")"
same "what the shared program says" "$expected" "$(LD_LIBRARY_PATH="$prefix/lib" "$folder/shared")"
same "how the shared program ends without the library" 127 "$(status_of "$folder/shared")"
same "the names exported" "pasagumdil_answer pasagumdil_verdict " \
    "$(nm -D --defined-only "$prefix/lib/libpasagumdil.so" | sed 's/.* //' | LC_ALL=C sort | tr '\n' ' ')"
same "the names exported by the archive" "pasagumdil_answer pasagumdil_verdict " \
    "$(nm -g --defined-only "$prefix/lib/libpasagumdil.a" | sed -n 's/^[0-9a-f]* [A-Z] //p' | LC_ALL=C sort | tr '\n' ' ')"
same "the library that the program asks for" 1 "$(readelf -d "$folder/shared" | grep -c 'NEEDED.*\[libpasagumdil\.so\.1\]')"

# The program.
program=$prefix/bin/pasagumdil-answer
same "the program on standard input" "$line" "$("$program" < examples/document.txt)"
same "the program on a file" "$line" "$("$program" examples/document.txt)"
same "the program on no text" 0F0B0001 "$("$program" </dev/null)"
same "its status after a refusal" 0 "$(status_of "$program" /dev/null)"
same "its version" "pasagumdil-answer $(cat VERSION)" "$("$program" --version)"
same "its status without such a file" 1 "$(status_of "$program" "$folder/none")"
same "its status on a folder" 1 "$(status_of "$program" "$folder")"
same "its status with two files" 1 "$(status_of "$program" examples/document.txt examples/document.txt)"
said=$("$program" examples/document.txt 2>&1 >/dev/full) && status=0 || status=$?
same "standard output full" "1 pasagumdil: the line could not be written: No space left on device" "$status $said"
said=$("$program" examples/document.txt 2>&1 >&-) && status=0 || status=$?
same "standard output closed" "1 pasagumdil: the line could not be written: Bad file descriptor" "$status $said"
{ sleep 1; status=0; "$program" examples/document.txt || status=$?; echo "$status" >"$folder/status"; } 2>"$folder/said" | true
same "a closed pipe" "1 pasagumdil: the line could not be written: Broken pipe" "$(cat "$folder/status" "$folder/said" | tr '\n' ' ' | sed 's/ $//')"

# The man pages: each refusal of a call by the header's name for it, each of a text by its number.
for number in 1 2 3 4 5 6 7 8; do
    name=$(sed -n "/^enum pasagumdil_refusal/,/^};/s/^ *\(PASAGUMDIL_[A-Z_]*\) = $number,*\$/\1/p" include/pasagumdil.h)
    same "refusal $number in pasagumdil.3" "$number $name" "$(awk -v name="$name:" 'last == ".B" && $1 == name { print number, $1 } { last = $1; number = $2 }' man/pasagumdil.3 | tr -d :)"
done
for number in 9 10 11 12 13 14 15 16 17 18; do
    same "refusal $number in pasagumdil-answer.1" 1 "$(grep -cx "\.B $number ($(printf %02X "$number"))" man/pasagumdil-answer.1)"
done
for page in pasagumdil-answer.1 pasagumdil.3; do
    grep -q "^\.TH .* \"pasagumdil $(cat VERSION)\"" "man/$page" || same "the version of $page" "$(cat VERSION)" "$(sed 1q "man/$page")"
    if command -v groff >/dev/null 2>&1; then same "what groff says of $page" "" "$(groff -man -Tascii -ww -z "man/$page" 2>&1)"; fi
done
echo "install: all well"
