#!/bin/sh
# Builds and runs the benchmark, prints its table, and writes RESULTS.md and
# pools.svg beside this script.
#
#   sh run.sh [ARCHIVE [PROGRAM]]
#
#   ARCHIVE  the proved static library, with `pasagumdil_verdict`; where none is
#            given, or `-`, a stub stands in for it that calls the reference
#   PROGRAM  the proved program, whose start-up is then measured
#
# In the environment: TURNS, turns of each timing (20); KIT, the kit's folder
# where the command `rt` does not tell it; LEVEL, the optimisation level (-O2).
#
# All is built for x86-64. On an Arm machine it is run by the kit's emulator.
set -eu
here=$(CDPATH= cd -- "$(dirname -- "$0")" && pwd)
archive=${1:--}
program=${2:--}
turns=${TURNS:-20}
level=${LEVEL:--O2}
machine=$(uname -m)
build=$(mktemp -d)
trap 'rm -rf "$build"' EXIT
data=$build/data

say() { printf 'bench: %s\n' "$*" >&2; }
die() {
    say "$*"
    exit 1
}

# ---- What is needed ----

# found THING: whether it is a file that is there or a command on the path.
found() {
    case $1 in
    /*) [ -e "$1" ] ;;
    *) command -v "$1" >/dev/null 2>&1 ;;
    esac
}

# need THING PACKAGE PURPOSE: installs the package where the thing is missing and
# this runs as root; otherwise names it. False where the thing stays missing.
need() {
    if ! found "$1" && [ "$(id -u)" -eq 0 ] && found apt-get; then
        say "installing Debian's package $2"
        apt-get -qq update >&2 || true
        apt-get -qq -y --no-install-recommends install "$2" >&2 || true
    fi
    found "$1" || {
        say "Debian's package $2 is missing: $3"
        return 1
    }
}

[ "$archive" = - ] || [ -f "$archive" ] || die "there is no archive $archive"
[ "$program" = - ] || [ -x "$program" ] || die "there is no program $program"
need cc gcc "nothing can be built" || exit 1
kit=${KIT:-}
if [ -z "$kit" ] && found rt; then
    kit=$(dirname "$(dirname "$(rt doc)")")
fi
tools=$kit/on/$machine/toolchain

# ---- Compilers ----

# The kit's clang brings no headers: the compiler's own ones come from cc.
own_headers=$(cc -print-file-name=include)
if [ -n "$kit" ] && [ -x "$tools/bin/clang" ]; then
    compiler=clang
elif [ "$machine" = x86_64 ]; then
    compiler=cc
else
    die "the kit is needed to build for x86-64 on $machine: set KIT"
fi

# compiled WORD ..: the compiler for x86-64, with those words.
compiled() {
    if [ $compiler = cc ]; then
        cc "$@"
    elif [ "$machine" != x86_64 ] && [ -d /usr/x86_64-linux-gnu/include ]; then
        "$tools/bin/clang" --target=x86_64-linux-gnu -nostdinc -isystem "$own_headers" -isystem /usr/x86_64-linux-gnu/include "$@"
    else
        "$tools/bin/clang" --target=x86_64-linux-gnu -nostdinc -isystem "$own_headers" \
            -isystem "/usr/include/$machine-linux-gnu" -isystem /usr/include "$@"
    fi
}
cc_name=$(compiled --version | head -n 1)

# compile NAME [FLAG ..]: NAME.c to an object for x86-64.
compile() {
    name=$1
    shift
    compiled -std=c11 -D_POSIX_C_SOURCE=200809L "$level" -Wall -Wextra "$@" \
        -c "$here/$name.c" -o "$build/$name.o"
}

# link_with_kit OUT OBJECT ..: with the kit's linker and C library.
link_with_kit() {
    out=$1
    shift
    lib=$tools/lib
    "$tools/bin/ld.lld" -pie -dynamic-linker /lib64/ld-linux-x86-64.so.2 \
        -o "$out" "$lib/Scrt1.o" "$lib/crti.o" "$lib/crtbeginS.o" "$@" \
        "$lib/libc.so.6" "$lib/libc_nonshared.a" "$lib/libgcc.a" \
        "$lib/crtendS.o" "$lib/crtn.o"
}

# Where instructions are emulated or counted, the C library is kept from clearing
# memory by a string instruction, which would count, and take its time, once a byte.
plain=GLIBC_TUNABLES=glibc.cpu.x86_rep_stosb_threshold=10000000:glibc.cpu.x86_rep_movsb_threshold=10000000
# Both stand unquoted, as words; only paths of the kit stand in them.
if [ "$machine" = x86_64 ]; then
    emulator='' loader=''
else
    emulator="$tools/bin/qemu-x86_64 -E $plain"
    loader="$tools/lib/ld-linux-x86-64.so.2 --library-path $tools/lib"
fi

# ---- The libraries ----

cxx=x86_64-linux-gnu-g++ libraries=yes
if [ "$machine" = x86_64 ]; then cxx_package=g++; else cxx_package=g++-x86-64-linux-gnu; fi
need "$cxx" "$cxx_package" "the libraries are left out" || libraries=no
need /usr/include/lemon/preflow.h liblemon-dev "the libraries are left out" || libraries=no
need /usr/include/boost/graph/boykov_kolmogorov_max_flow.hpp libboost-dev \
    "the libraries are left out" || libraries=no
if [ "$libraries" = yes ] && ! "$cxx" -std=c++17 "$level" -DNDEBUG \
    -DLEMON_ONLY_TEMPLATES -c "$here/libraries.cc" -o "$build/libraries.o"; then
    say "the libraries did not build and are left out"
    libraries=no
fi

# ---- The benchmark ----

contenders="reference proved"
flag=-DALONE
if [ "$libraries" = yes ]; then
    contenders="$contenders lemon boost"
    flag=-DLIBRARIES
fi
for name in bench contenders reference workloads hardest; do
    compile $name $flag
done
if [ "$archive" = - ]; then
    compile stub
    proved=$build/stub.o
else
    proved=$archive
fi
set -- "$build/bench.o" "$build/contenders.o" "$build/reference.o" \
    "$build/workloads.o" "$build/hardest.o" "$proved"
bench_loader=
if [ "$libraries" = yes ]; then
    "$cxx" -static -o "$build/bench" "$@" "$build/libraries.o"
elif [ "$machine" = x86_64 ]; then
    cc -static -o "$build/bench" "$@"
else
    link_with_kit "$build/bench" "$@"
    bench_loader=$loader
fi

say "comparing results"
$emulator $bench_loader "$build/bench" equal > "$data" || die "$(tail -n 1 "$data")"
say "timing"
$emulator $bench_loader "$build/bench" time "$turns" >> "$data"
say "looking at the stack"
$emulator $bench_loader "$build/bench" stack >> "$data"

# ---- Instructions ----

counter=none
if need qemu-x86_64 qemu-user "instructions are counted otherwise"; then
    version=$(qemu-x86_64 --version | sed -n 's/.*version \([0-9]*\).*/\1/p' | head -n 1)
    interface=1
    [ "$version" -lt 9 ] || interface=2
    if cc -O2 -shared -fPIC -DINTERFACE=$interface "$here/icount.c" \
        -o "$build/icount.so" -Wl,--unresolved-symbols=ignore-all; then
        counter=qemu
    fi
fi

# instructions CONTENDER WORKLOAD PASSES
instructions() {
    case $counter in
    qemu)
        qemu-x86_64 -E $plain -plugin "file=$build/icount.so" \
            $bench_loader "$build/bench" once "$1" "$2" "$3" 2>&1 >/dev/null | sed -n 's/^instructions //p'
        ;;
    valgrind)
        env $plain valgrind --tool=callgrind --callgrind-out-file=/dev/null \
            $bench_loader "$build/bench" once "$1" "$2" "$3" 2>&1 >/dev/null | sed -n 's/.*Collected : //p'
        ;;
    esac
}

# A counter that does not count here makes room for the next.
if [ $counter = qemu ] && [ -z "$(instructions reference desk 1)" ]; then
    counter=none
fi
if [ $counter = none ] && [ "$machine" = x86_64 ] && found valgrind; then
    counter=valgrind
    [ -n "$(instructions reference desk 1)" ] || counter=none
fi
if [ $counter != none ]; then
    say "counting instructions by $counter"
    sed -n 's/^calls \([^ ]*\) all /\1 /p' "$data" > "$build/calls"
    while read -r workload calls; do
        case $workload in
        pools-*) counted="reference proved" ;;
        *) counted=$contenders ;;
        esac
        for contender in $counted; do
            one=$(instructions "$contender" "$workload" 1 </dev/null)
            three=$(instructions "$contender" "$workload" 3 </dev/null)
            echo "count $workload $contender $(((three - one) / 2 / calls))" >> "$data"
        done
    done < "$build/calls"
fi

# ---- Start-up ----

if [ "$program" != - ]; then
    say "measuring the start-up"
    printf '%s\n' 01000000100001000102020000000040 0200FFFFFFF0000000030102 \
        020100000008000000050201 > "$build/snapshot"
    compile trivial
    if [ "$machine" = x86_64 ]; then
        cc -o "$build/trivial" "$build/trivial.o"
    else
        link_with_kit "$build/trivial" "$build/trivial.o"
    fi
    cc -std=c11 -O2 -o "$build/startup" "$here/startup.c"
    echo "startup program both $("$build/startup" 200 "$build/snapshot" $emulator $loader "$program")" >> "$data"
    echo "startup trivial both $("$build/startup" 200 "$build/snapshot" $emulator $loader "$build/trivial")" >> "$data"
fi

# ---- Results ----

{
    echo "fact date $(date -u +%Y-%m-%d)"
    echo "fact machine $machine"
    echo "fact processor $(sed -n 's/^model name[^:]*: //p' /proc/cpuinfo | head -n 1)"
    echo "fact load $(cut -d ' ' -f 1 /proc/loadavg) on $(getconf _NPROCESSORS_ONLN)"
    echo "fact compiler $cc_name"
    echo "fact level $level"
    echo "fact turns $turns"
    echo "fact counter $counter"
    [ "$libraries" = no ] || echo "fact libraries $("$cxx" --version | head -n 1)"
    if [ "$archive" != - ]; then
        echo "fact archive $(wc -c < "$archive")"
        if found size; then
            echo "fact code $(size -t "$archive" | awk 'END { print $1 }')"
        fi
    fi
} >> "$data"
awk -f "$here/table.awk" "$data" > "$build/RESULTS.md"
awk -f "$here/plot.awk" "$data" > "$build/pools.svg"
cp "$build/RESULTS.md" "$here/RESULTS.md"
cp "$build/pools.svg" "$here/pools.svg"
cat "$here/RESULTS.md"
