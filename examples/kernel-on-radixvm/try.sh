#!/usr/bin/env bash
# Builds the kernel over libradixvm-kernel.a, runs it on 1, 2 and 4 processors of QEMU, and judges what they record by `radixvm audit --overlapping`:
# every history has to be legal, and each error of the glue that is planted has to give `no order`, by one of three seeds.
# Usage: examples/kernel-on-radixvm/try.sh [CALLS]: so many calls of each of the 4 processors, 8000 if none is given. RADIXVM_LIBRARY, RADIXVM_INCLUDE and
# RADIXVM_PROGRAM name the library's folder, that of its headers, and the program; else they are those that are built or installed here. Status: 0 if each verdict is
# as asked, and where something that it needs isn't here.
set -euo pipefail
top=$(cd "$(dirname "$0")/../.." && pwd)
here=$top/examples/kernel-on-radixvm
library=${RADIXVM_LIBRARY:-$top/crates/radixvm_c/out}
[ -f "$library/libradixvm-kernel.a" ] || library=$top/../../lib # where these examples are installed
include=${RADIXVM_INCLUDE:-$top/include}
program=$("$top/examples/program.sh" 2> /dev/null || true)
calls=${1:-8000}

# Ends where something isn't here.
needs() { # WHAT COMMAND..
    local what=$1
    shift
    "$@" > /dev/null 2>&1 && return
    echo "examples/kernel-on-radixvm: not tried, for $what isn't here"
    exit 0
}
needs "qemu-system-x86_64 (apt-get install qemu-system-x86)" command -v qemu-system-x86_64
needs "$library/libradixvm-kernel.a (./radixvm --build-library)" test -f "$library/libradixvm-kernel.a"
needs "the program (./radixvm --build)" test -n "$program"
needs "a compiler for x86-64" test "$(uname -m)" = x86_64
work=$(mktemp -d)
trap 'rm -rf "$work"' EXIT
flags="-std=gnu11 -O2 -ffreestanding -fno-pic -fno-pie -mno-red-zone -mgeneral-regs-only -fno-stack-protector -fcf-protection=none"
warnings="-Wall -Wextra -Wconversion -Wshadow -Werror"
${CC:-cc} $flags $warnings -I "$include" -c "$here/kernel.c" -o "$work/kernel.o"
${CC:-cc} -c "$here/boot.S" -o "$work/boot.o"
quiet=$(ld --help | grep -o -m 1 -- --no-warn-rwx-segments || true)
ld -n -static $quiet -Ttext-segment=0x100000 -e start -o "$work/kernel" "$work/boot.o" "$work/kernel.o" "$library/libradixvm-kernel.a"

# What audit says of the kernel's history: its first line. QEMU ends with 1 where the kernel ends with 0.
judge() { # PROCESSORS CALLS SEED BUG
    local status=0
    rm -f "$work/history"
    timeout "${SECONDS_EACH:-200}" qemu-system-x86_64 -m 512 -smp "$1" -display none -no-reboot -serial none -monitor none -debugcon "file:$work/history" \
        -device isa-debug-exit,iobase=0xf4,iosize=1 -kernel "$work/kernel" -append "$2 $3 $4" || status=$?
    if [ $status != 1 ]; then
        echo "status $status of QEMU: $(head -n 2 "$work/history" 2> /dev/null | xargs)"
        return
    fi
    "$program" audit --overlapping "$work/history" > "$work/said" 2> /dev/null || true
    head -n 1 "$work/said"
}

must_be_legal() { # PROCESSORS CALLS SEED
    local said
    said=$(judge "$@" 0)
    [ "$said" = "legal $(($1 * $2))" ] && return
    echo "examples/kernel-on-radixvm: $* 0: $said" >&2
    exit 1
}

must_be_found() { # BUG PROCESSORS CALLS
    local seed
    for seed in 1 2 3; do
        case $(judge "$2" "$3" $seed "$1") in "no order"*) return ;; esac
    done
    echo "examples/kernel-on-radixvm: error $1 wasn't found" >&2
    exit 1
}

for processors in 1 2; do must_be_legal $processors $((calls / 4)) $processors; done
must_be_legal 4 "$calls" 4
echo "examples/kernel-on-radixvm: histories of 1, 2 and 4 processors are legal, the last with $((calls * 4)) calls"
for bug in 1 2 3 4 6 7; do must_be_found $bug 2 400; done
must_be_found 5 2 7
echo "examples/kernel-on-radixvm: each of 7 planted errors was found"
