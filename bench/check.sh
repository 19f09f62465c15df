#!/bin/sh
# Holds the reference against the independent second program on seeded calls.
#
#   sh check.sh [SEED [COUNT [SECOND]]]
#
# SECOND is the folder of the second program; by default tests/second beside this
# folder. 20,000 calls take about a minute. The last line says how many calls there
# were and that none differs; otherwise it names the first that does.
set -eu
here=$(CDPATH= cd -- "$(dirname -- "$0")" && pwd)
seed=${1:-1}
count=${2:-20000}
second=${3:-$here/../tests/second}
build=$(mktemp -d)
trap 'rm -rf "$build"' EXIT

set -- "$here/check.c" "$here/reference.c"
for source in "$second"/*.c; do
    case $(basename "$source") in
    main.c | self.c) ;; # they have the second program's own modes
    *) set -- "$@" "$source" ;;
    esac
done
"${CC:-cc}" -std=c11 -O2 -Wall -Wextra -Werror -I"$second" -o "$build/check" "$@"
"$build/check" "$seed" "$count"
