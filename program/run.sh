#!/bin/sh
# Runs a program that was built for x86-64: on x86-64 as it is, on Arm under the kit's emulator, with the kit's loader and C library.
#
#   sh program/run.sh PROGRAM [WORD ..]
set -eu
machine=$(uname -m)
if [ "$machine" = x86_64 ] && [ -x /lib64/ld-linux-x86-64.so.2 ]; then
    exec "$@"
fi
if ! command -v rt >/dev/null 2>&1; then
    echo "pasagumdil: the program is for x86-64, and on $machine the Rattle kit runs it, whose command 'rt' is not on the path" >&2
    exit 1
fi
tools=$(dirname "$(dirname "$(rt doc)")")/on/$machine/toolchain
emulator=$tools/bin/qemu-x86_64
[ -x "$emulator" ] || emulator=
exec ${emulator:+"$emulator"} "$tools/lib/ld-linux-x86-64.so.2" --library-path "$tools/lib" "$@"
