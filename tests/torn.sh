#!/bin/sh
# Calls on a text that another thread changes: no line may say abort for it.
#
#   sh tests/torn.sh [CALLS]     2000000 unless given
set -eu
CDPATH= cd -- "$(dirname -- "$0")/.."
folder=$(mktemp -d)
trap 'rm -rf "$folder"' EXIT
trap 'exit 1' HUP INT TERM
sh tests/link.sh "$folder/torn" tests/torn.c
"$folder/torn" "$@"
