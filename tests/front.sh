#!/bin/sh
# The front door, on a copy of this tree at a path with a space: links, CDPATH, statuses, runs at once, locks, what is said.
# The lines expected are document 01's. It takes the crates as they are proved in crates/*/out, and proves again only the last of them.
set -eu
CDPATH= cd -- "$(dirname -- "$0")/.."
folder=$(mktemp -d)
started=
trap 'for each in $started; do kill "$each" 2>/dev/null || :; done; rm -rf "$folder"' EXIT
trap 'exit 1' HUP INT TERM
line=0302000000000000000D000000010000000000000002
tree="$folder/a b/tree"
front=$tree/pasagumdil
text=$tree/examples/document.txt

# same WHAT EXPECTED FOUND
same() {
    [ "$2" = "$3" ] || {
        printf 'front: %s\n  expected %s\n  found    %s\n' "$1" "$2" "$3"
        exit 1
    }
}

# says WHAT FILE PATTERN: the file has a line of that pattern.
says() {
    grep -q -- "$3" "$2" || same "$1" "a line with $3" "$(cat "$2")"
}

# result COMMAND ..: its status, what it writes and a word on whether it says something, in 300 seconds.
result() {
    status=0
    timeout 300 "$@" >"$folder/out" 2>"$folder/err" || status=$?
    if [ -s "$folder/err" ]; then word=word; else word=quiet; fi
    echo $status $(cat "$folder/out") $word
}

# until_true COMMAND ..: waits for it, for 300 seconds at most.
until_true() {
    tries=0
    until "$@"; do
        tries=$((tries + 1))
        [ "$tries" -lt 3000 ] || same "waiting for: $*" "it comes" "it does not"
        sleep 0.1
    done
}

# path_without COMMAND: a folder with links to all commands on the path but that one.
path_without() (
    mkdir "$folder/without-$1"
    IFS=:
    for place in $PATH; do ln -s "$place"/* "$folder/without-$1/" 2>/dev/null || :; done
    rm -f "$folder/without-$1/$1"
    echo "$folder/without-$1"
)

# ---- The copy ----

./pasagumdil answer examples/document.txt >/dev/null
./pasagumdil library >/dev/null
mkdir -p "$tree/build" "$tree/crates"
for each in * .gitignore; do
    case $each in
    crates | build) ;;
    *) cp -Rp -- "$each" "$tree/" ;;
    esac
done
for each in crates/*/*; do
    case $each in
    */out) ;;
    *) mkdir -p "$tree/$(dirname "$each")" && cp -Rp -- "$each" "$tree/$each" ;;
    esac
done
cp -p build/answer build/libentry.a "$tree/build/"
kitless=$(path_without rt)
flockless=$(path_without flock)
# Where the program is emulated, the kit does it.
answering=$kitless
[ "$(uname -m)" = x86_64 ] || answering=$PATH

# ---- Links, CDPATH, a space, no kit ----

ln -s "$front" "$folder/link"
ln -s ../link "$folder/a b/link to link"
export CDPATH="$folder:$folder/a b:/"
same "through links, from another folder" "0 $line quiet" "$(cd "$folder/a b" && PATH=$answering result "./link to link" answer tree/examples/document.txt)"
same "by a name that CDPATH leads to" "0 $line quiet" "$(cd "$folder/a b" && PATH=$answering result tree/pasagumdil answer tree/examples/document.txt)"
same "by its name in its own folder" "0 $line quiet" "$(cd "$tree" && PATH=$answering result sh pasagumdil answer examples/document.txt)"
same "the coordinator, built where a path has a space" "0 coordinator: all well quiet" "$(cd "$folder" && TMPDIR="$folder/a b" result sh "a b/tree/tests/coordinator.sh")"
unset CDPATH
same "what stands beside the copy" "link to link tree" "$(ls "$folder/a b" | tr '\n' ' ' | sed 's/ $//')"
same "what a fresh program leaves to do" "answer libentry.a" "$(ls "$tree/build" | tr '\n' ' ' | sed 's/ $//')"
same "the status of a fresh library, without a kit" 0 "$(PATH=$kitless result "$front" library | cut -d ' ' -f 1)"
says "how to link a fresh library, without a kit" "$folder/out" 'build/libentry\.a'

# ---- Input and statuses ----

same "a file" "0 $line quiet" "$(result "$front" answer "$text")"
same "standard input" "0 $line quiet" "$(result "$front" answer <"$text")"
same "standard input by its name" "0 $line quiet" "$(result "$front" answer - <"$text")"
same "no text: a refusal" "0 0F0B0001 quiet" "$(result "$front" answer </dev/null)"
same "standard input closed" "0 0F0B0001 quiet" "$(result "$front" answer <&-)"
same "no such file" "1 word" "$(result "$front" answer "$folder/none")"
same "an empty name" "1 word" "$(result "$front" answer "" <"$text")"
same "a folder" "1 word" "$(result "$front" answer "$folder")"
same "two files" "1 word" "$(result "$front" answer "$text" "$text")"
same "an option that is none" "1 word" "$(result "$front" answer --none)"
same "a command that is none" "1 word" "$(result "$front" none)"
status=0
"$front" answer "$text" >/dev/full 2>"$folder/err" || status=$?
same "the status where standard output is full" 1 "$status"
says "standard output is full" "$folder/err" 'could not be written'
status=0
"$front" answer "$text" >&- 2>"$folder/err" || status=$?
same "the status where standard output is closed" 1 "$status"
says "standard output is closed" "$folder/err" 'could not be written'
{ sleep 1; status=0; "$front" answer "$text" || status=$?; echo "$status" >"$folder/status"; } 2>"$folder/err" | true
same "the status where nobody reads the pipe" 1 "$(cat "$folder/status")"
says "nobody reads the pipe" "$folder/err" 'could not be written'
sh program/run.sh build/answer <"$text" >/dev/full 2>"$folder/err"
says "the program's own word" "$folder/err" 'could not be written'
for word in help -h --help; do
    same "the status of $word" 0 "$(result "$front" "$word" | cut -d ' ' -f 1)"
    says "the statuses in $word" "$folder/out" '1    no line was written'
done
same "the version, without a kit" "0 pasagumdil $(cat VERSION) last proved with $(cat KIT) no kit is on the path quiet" "$(PATH=$kitless result "$front" --version)"
same "the version" "0 pasagumdil $(cat VERSION) last proved with $(cat KIT) the kit here is $(rt version) quiet" "$(result "$front" --version)"

# ---- Tests that are left running ----

# The first test is a process of a process, which counts as long as it lives; the second fails.
cat > "$tree/tests/second/check.sh" <<TEXT
(count=0; while [ \$count -lt 300 ]; do count=\$((count + 1)); echo \$count >"$folder/alive" || exit; sleep 0.1; done) &
wait
TEXT
cat > "$tree/tests/cases.sh" <<TEXT
until [ -s "$folder/alive" ]; do sleep 0.1; done
exit 1
TEXT
same "the status of a test that fails" "1 word" "$(result "$front" test)"
says "which test failed" "$folder/err" 'failed: sh tests/cases\.sh'
counted=$(cat "$folder/alive")
sleep 1
same "the other test, which has ended with it" "$counted" "$(cat "$folder/alive")"

# ---- Runs at once ----

# Only the last crate and one below it are to be proved again. One run proves them, and says so as it goes; the other waits, and has nothing left to do.
[ -d crates/reply/out/rlib ] || same "the proved crates in crates/*/out" "there, as './pasagumdil test' leaves them" "none"
for each in crates/*/out/rlib; do
    mkdir -p "$tree/$(dirname "$each")"
    cp -R "$each" "$tree/$each"
done
echo '// proved again' >> "$tree/crates/input/src/lib.rt"
echo '// proved again' >> "$tree/crates/answer/src/main.rt"
count=$(($(sed -n 's/^answer: //p' crates.txt | wc -w) + 1))
timeout 300 "$front" answer "$text" >"$folder/out1" 2>"$folder/err1" &
one=$!
timeout 300 "$front" answer "$text" >"$folder/out2" 2>"$folder/err2" &
two=$!
started="$one $two"
until_true grep -q "1 of at most $count: input proved" "$folder/err1" "$folder/err2"
kill -0 $one && kill -0 $two || same "progress" "line by line" "all at the end"
wait $one || same "the status of the first run" 0 $?
wait $two || same "the status of the second run" 0 $?
started=
same "the lines of two runs at once" "$line $line" "$(cat "$folder/out1" "$folder/out2" | tr '\n' ' ' | sed 's/ $//')"
same "how many waited" 1 "$(cat "$folder/err1" "$folder/err2" | grep -c 'another run is building; waiting')"
same "how many proved" 1 "$(cat "$folder/err1" "$folder/err2" | grep -c "2 of at most $count: answer proved")"

# hold: somebody builds, and the lock of that kind is held.
hold() {
    if [ "$1" = flock ]; then
        (exec 9>>"$tree/build/lock" && flock 9 && exec sleep 300) &
    else
        sleep 300 &
        mkdir "$tree/build/lock.held"
        echo $! >"$tree/build/lock.held/owner"
    fi
    started=$!
    [ "$1" = folder ] || until_true is_held
}

# Whether somebody has the lock of flock.
is_held() { ! flock -n "$tree/build/lock" true; }

# While another run builds, a fresh program answers at once, what the kit left gone; one that is not fresh waits, and answers once that run has ended,
# however it ended. With flock and without. Another kit than the last gets a word.
waiting() {
    hold "$1"
    rm -rf "$tree/crates.away"
    mkdir "$tree/crates.away"
    for each in "$tree"/crates/*/out; do mv "$each" "$tree/crates.away/$(basename "$(dirname "$each")")"; done
    same "a fresh program while another run builds" "0 $line quiet" "$(result "$front" answer "$text")"
    for each in "$tree"/crates.away/*; do mv "$each" "$tree/crates/$(basename "$each")/out"; done
    touch "$tree/crates/answer/src/main.rt"
    : >"$folder/err1"
    timeout 300 "$front" answer "$text" >"$folder/out1" 2>"$folder/err1" &
    one=$!
    until_true grep -q 'another run is building; waiting' "$folder/err1"
    sleep 1
    kill -0 $one || same "a program that is not fresh" "waits for its turn" "$(cat "$folder/err1")"
    kill -s KILL "$started"
    wait "$started" 2>/dev/null || :
    started=$one
    wait $one || same "the status after waiting" 0 $?
    started=
    same "the line after waiting" "$line" "$(cat "$folder/out1")"
    same "how often it is said" 1 "$(grep -c 'waiting' "$folder/err1")"
    same "how often another kit is named" 1 "$(grep -c "last proved with 'another kit'" "$folder/err1")"
    [ ! -e "$tree/build/lock.held" ] || same "the lock afterwards" "free" "held"
}

echo "another kit" >"$tree/KIT"
if command -v flock >/dev/null 2>&1; then waiting flock; fi
(PATH=$flockless && waiting folder)
echo "front: all well"
