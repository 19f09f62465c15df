#!/bin/sh
# Document 01's five slips and five cheats, run without proof: each is an edit of must-fail/, which the proofs refuse, and here is seen to give a wrong answer.
#
#   sh tests/slips.sh
#
# In a copy of the tree outside the repository a snapshot whose answer the document gives is answered first by the code as it is, which must give that answer,
# then by the edited code, which must give the wrong answer written here: `rt try` runs both, on the interpreter and compiled.
# A line for each: what is wrong, the edit, the right answer, the wrong answer seen. Ends with 1 where one of them is another.
# Answers are as the programs write them. verdicts: outcome, price, rounds, victims (job k as 2^k), all hexadecimal, and a digest of the work list.
# rounds: rounds, whether a path is left, and each flow above 0. answer: a frame.
set -eu
CDPATH= cd -- "$(dirname -- "$0")/.."
folder=$(mktemp -d)
trap 'rm -rf "$folder"' EXIT
trap 'exit 130' INT TERM
cp crates.txt "$folder"
mkdir "$folder/crates"

# fresh CRATE: its files in the copy, as they are in the tree.
fresh() {
    rm -rf "$folder/crates/$1"
    mkdir "$folder/crates/$1"
    for each in crates/"$1"/*; do
        [ "$each" = "crates/$1/out" ] || cp -R "$each" "$folder/crates/$1"
    done
}

for crate in crates/*/; do fresh "$(basename "$crate")"; done

# edit CRATE LABEL: makes the replacements of an edit in the copy. As for `rt must-fail`, each old text must stand in its file exactly once.
edit() {
    file='' old=''
    while IFS= read -r line || [ -n "$line" ]; do
        case $line in
        'file: '*) file=$folder/crates/$1/${line#file: } ;;
        'old: '*) old=${line#old: } ;;
        'new:'*)
            new=${line#new:}
            OLD=$old NEW=${new# } awk '
                { text = text $0 "\n" }
                END {
                    old = ENVIRON["OLD"]
                    at = index(text, old)
                    rest = substr(text, at + length(old))
                    if (old == "" || !at || index(rest, old)) exit 1
                    printf "%s%s%s", substr(text, 1, at - 1), ENVIRON["NEW"], rest
                }' "$file" > "$folder/edited" || {
                echo "slips: an old text of $1/$2 is not in its file exactly once" >&2
                exit 2
            }
            mv "$folder/edited" "$file"
            ;;
        esac
    done < "crates/$1/must-fail/$2.edit"
}

# writes PROGRAM LINE: whether the program of the copy writes this line, however it is run.
writes() {
    (cd "$folder/crates/$1" && rt try < stdin) > "$folder/written" 2> "$folder/said" && echo "$2" | cmp -s - "$folder/written"
}

# see WHAT CRATE LABEL PROGRAM INPUT RIGHT WRONG
wrong=
see() {
    if [ -f "$5" ]; then cp "$5" "$folder/crates/$4/stdin"; else echo "$5" > "$folder/crates/$4/stdin"; fi
    result="right: $6; seen: $7"
    if ! writes "$4" "$6"; then
        result="NOT SEEN: the code as it is does not write $6"
        wrong=yes
        cat "$folder/written" "$folder/said" >&2
    else
        edit "$2" "$3"
        if ! writes "$4" "$7"; then
            result="NOT SEEN: the edited code does not write $7"
            wrong=yes
            cat "$folder/written" "$folder/said" >&2
        fi
        fresh "$2"
    fi
    echo "$1: $2/must-fail/$3.edit; $result"
}

# The document's cases, as the programs read them.
B='2 2 4 0 64 2 1 5 3'
D='2 2 4 0 64 2 1 4 4'
E='3 3 9 0 64 2 4 1 9 4 4'
F='4 4 10 0 64 6 8 8 1 14 2 3 9'
I='3 3 9 0 64 2 4 2 1 1 1'
J='5 5 19 0 64 6 18 8 1 1 9 1 1 1 1'
K='4 4 10 0 1 6 8 8 1 14 2 3 9'

see 'slip 1, flow never taken back: J stops at price 1' push never_taken_back verdicts "$J" \
    'abort-others 2 2 18 c417644987e7cd3d' 'abort-others 1 1 a 7ed57ea7a113fe26'
see 'slip 2, the cut read from the source: E gives {1}' side source_side verdicts "$E" \
    'abort-others 4 1 4 8526d2d869487d46' 'abort-others 4 1 2 8526d2d869487d46'
see 'slip 3, T on equal cost: D gives {0}' verdict itself_on_equal_cost verdicts "$D" \
    'abort-others 4 1 2 fe19c0a852bbc1d6' 'abort-t 4 1 1 fe19c0a852bbc1d6'
see 'slip 4, age 0 where the present tick is the smaller: the program case aborts job 0' ticks age_0_when_smaller answer examples/document.txt \
    0302000000000000000D000000010000000000000002 03010000000000000003000000010000000000000001
see 'slip 5, any ring: I does not wait' graph any_ring verdicts "$I" \
    'wait 0 0 0 0638edb1822d2cd5' 'abort-others 0 0 0 0638edb1822d2cd5'
see 'refuses everything: B is refused' checks refuses_everything verdicts "$B" \
    'abort-others 3 1 2 27cfa1a7ac7c740d' 'refused 1 581eb26807eb8238'
see 'one fixed verdict: B waits' verdict one_fixed_verdict verdicts "$B" \
    'abort-others 3 1 2 27cfa1a7ac7c740d' 'wait 0 1 0 27cfa1a7ac7c740d'
see 'writes no flow: K has none' push no_flow_written rounds "$K" \
    'rounds 1 left yes 0>1:2 1>3:2 3>0:2' 'rounds 1 left yes'
see 'makes the first round and feigns the rest: F has price 2 and 1 round' flow rest_feigned verdicts "$F" \
    'abort-others 5 2 6 2ac532180f236775' 'abort-others 2 1 0 44868577ba11655a'
see 'an invented count: B has 2 rounds' flow invented_count verdicts "$B" \
    'abort-others 3 1 2 27cfa1a7ac7c740d' 'abort-others 3 2 2 27cfa1a7ac7c740d'
[ -z "$wrong" ]
