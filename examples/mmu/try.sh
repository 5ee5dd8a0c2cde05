#!/usr/bin/env bash
# Builds mmu.c over libradixvm.a, and judges what 1, 2, 4 and 3 processes record by `radixvm audit --overlapping`. Every history has to be legal, and no
# call may lack a frame, for the library brings frames back. Each planted error of the glue has to give `no order`, by one of three seeds. At last an
# ordinary program sorts in the space.
# Usage: examples/mmu/try.sh [CALLS]: so many calls of each of the 3 processes, 20000 if none is given. RADIXVM_LIBRARY, RADIXVM_INCLUDE and RADIXVM_PROGRAM
# name the library's folder, that of its headers, and the program; else they are those that are built or installed here. Status: 0 if each verdict is as asked.
set -euo pipefail
top=$(cd "$(dirname "$0")/../.." && pwd)
library=${RADIXVM_LIBRARY:-$top/crates/radixvm_c/out}
[ -f "$library/libradixvm.a" ] || library=$top/../../lib # where these examples are installed
include=${RADIXVM_INCLUDE:-$top/include}
program=$("$top/examples/program.sh")
calls=${1:-20000}
if [ "$(uname -sm)" != "Linux x86_64" ]; then
    echo "examples/mmu: not tried, for this isn't Linux on x86-64"
    exit 0
fi
work=$(mktemp -d)
trap 'rm -rf "$work"' EXIT
${CC:-cc} -std=c11 -O2 -Wall -Wextra -Wpedantic -Wconversion -Wshadow -Werror -I "$include" "$top/examples/mmu/mmu.c" "$library/libradixvm.a" -o "$work/mmu"

# What audit says of the words' history: its first line.
judge() { # WORDS..
    timeout 120 "$work/mmu" "$@" > "$work/history"
    "$program" audit --overlapping "$work/history" > "$work/said" 2> /dev/null || true
    head -n 1 "$work/said"
}

must_be_legal() { # WORDS..
    local said
    said=$(judge "$@")
    case $said in
        legal\ *) grep -q noframe "$work/history" || return 0 ;;
    esac
    echo "examples/mmu: mmu $*: $said, $(grep -c noframe "$work/history") without a frame" >&2
    exit 1
}

must_be_found() { # BUG WORDS..
    local bug=$1 seed
    shift
    for seed in 1 2 3; do
        case $(judge "$@" "$seed" "$bug") in "no order"*) return ;; esac
    done
    echo "examples/mmu: error $bug wasn't found" >&2
    exit 1
}

if [ -x "$program" ]; then
    for cores in 1 2 4; do
        for seed in 1 2 3; do
            must_be_legal files $cores 2000 "$seed"
            must_be_legal zeros $cores 2000 "$seed"
            must_be_legal copies $cores 200 "$seed"
        done
    done
    must_be_legal files 3 "$calls" 1
    echo "examples/mmu: histories of 1, 2 and 4 processes are legal, and so is one of 3 with $((calls * 3)) calls"
    for bug in 1 2 3 4 6 7; do must_be_found $bug zeros 3 2000; done
    must_be_found 5 copies 2 30
    echo "examples/mmu: each of 7 planted errors was found"
else
    echo "examples/mmu: no history was judged, since the program isn't built ($program)"
fi
echo "examples/mmu: $("$work/mmu" sort 262144)"
