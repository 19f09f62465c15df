#!/bin/sh
# Builds a C program over the static library of the C entry.
#
#   sh tests/link.sh PROGRAM FILE.c ..
#
# PROGRAM is then run by its name. The library is for x86-64: there the machine's own compiler does it. On Arm the kit's
# compiler and linker build PROGRAM.x86-64, and PROGRAM is a line of shell that runs it under the kit's emulator; the
# machine's own C headers serve. KIT_LINK=1 takes the kit's compiler and linker on x86-64 too.
set -eu
program=$1
shift
top=$(CDPATH= cd -- "$(dirname -- "$0")/.." && pwd)
sh "$top/pasagumdil" library >/dev/null
library=$top/build/libentry.a

# compile COMPILER WORD ..: with the flags that all files get.
compile() {
    "$@" -std=c11 -O2 -Wall -Wextra -Werror "-I$top/include" "-I$top/tests/second"
}

if [ "$(uname -m)" = x86_64 ] && [ "${KIT_LINK:-0}" = 0 ]; then
    compile "${CC:-cc}" -o "$program" "$@" "$library"
    exit
fi

tools=$(dirname "$(dirname "$(rt doc)")")/on/$(uname -m)/toolchain
lib=$tools/lib
cc=${CC:-cc}
count=0
for file in "$@"; do
    shift
    count=$((count + 1))
    object=$program.$count.o
    compile "$tools/bin/clang" --target=x86_64-linux-gnu -nostdinc -isystem "$("$cc" -print-file-name=include)" \
        -isystem "/usr/include/$("$cc" -print-multiarch)" -isystem /usr/include -c "$file" -o "$object"
    set -- "$@" "$object"
done
"$tools/bin/ld.lld" -pie -dynamic-linker /lib64/ld-linux-x86-64.so.2 -o "$program.x86-64" "$lib/Scrt1.o" "$lib/crti.o" "$lib/crtbeginS.o" \
    "$@" "$library" "$lib/libc.so.6" "$lib/libc_nonshared.a" "$lib/libgcc.a" "$lib/crtendS.o" "$lib/crtn.o"
cat > "$program" <<TEXT
#!/bin/sh
exec sh "$top/program/run.sh" "$program.x86-64" "\$@"
TEXT
chmod +x "$program"
