#!/bin/sh
# Prints the path of the program that the scripts here use: what RADIXVM or RADIXVM_PROGRAM names; else what `./radixvm --build` made, what is
# installed with these examples, or `radixvm` on the PATH.
top=$(cd "$(dirname "$0")/.." && pwd)
for program in "${RADIXVM:-${RADIXVM_PROGRAM:-}}" "$top/crates/radixvm/out/radixvm" "$top/../../bin/radixvm" "$(command -v radixvm)"; do
    if [ -f "$program" ] && [ -x "$program" ]; then
        (cd "$(dirname "$program")" && echo "$(pwd)/$(basename "$program")")
        exit
    fi
    if [ -n "${RADIXVM:-${RADIXVM_PROGRAM:-}}" ]; then
        echo "radixvm: RADIXVM names no program: $program" >&2
        exit 3
    fi
done
echo "radixvm: no program: build it (./radixvm --build), or let RADIXVM name it" >&2
exit 3
