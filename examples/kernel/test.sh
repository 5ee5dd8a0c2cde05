#!/usr/bin/env bash
# Tests the recorder's header include/radixvm_record.h. It is compiled by gcc and clang as C11 and as C++17, with all warnings as errors, with the
# counter and with time stamps. It runs optimised, and with the sanitizers of addresses, of undefined behaviour and of threads. Each reply is made once, a
# ring is filled, and what one thread recorded of the kernel here is judged by `audit`, which knows no stamps. Then 4 threads are recorded, and judged by
# `audit --overlapping`; a record in a file gives the same text, and that of a program that is killed half-way is judged, too.
# Usage: examples/kernel/test.sh [CALLS]: so many calls of each thread, 20000 if none is given
set -euo pipefail
top=$(cd "$(dirname "$0")/../.." && pwd)
program=$("$top/examples/program.sh")
calls=${1:-20000}
work=$(mktemp -d)
trap 'rm -rf "$work"' EXIT
warnings="-Wall -Wextra -Wpedantic -Wconversion -Wshadow -Werror"

# The calls of core 0 in their order, without stamps.
in_order() { sed -e '/ c0! .*errno/d' -e 's/^[0-9]* [0-9]* c0!/c0!/' -e '/^[0-9]/d' "$1"; }

printf '#define RV_FREESTANDING\n#include "radixvm_record.h"\nint main(void) { return 0; }\n' > "$work/bare.c"
for compiler in "gcc -std=c11" "clang -std=c11" "g++ -std=c++17 -x c++" "clang++ -std=c++17 -x c++"; do
    command -v "${compiler%% *}" > /dev/null || continue
    for stamps in "" -DRV_TSC; do
        $compiler $warnings $stamps -I "$top/include" "$work/bare.c" -o "$work/bare"
        for flags in -O0 "-O2 -flto" "-O1 -g -fsanitize=address,undefined -fno-sanitize-recover=all" "-O1 -g -fsanitize=thread"; do
            for source in replies kernel; do
                $compiler $flags $warnings $stamps -pthread -I "$top/include" "$top/examples/kernel/$source.c" -o "$work/$source"
            done
            "$work/replies" > "$work/history"
            in_order "$work/history" > "$work/replies.text"
            "$program" audit "$work/replies.text" > "$work/out" || { cat "$work/out"; exit 1; }
            "$work/kernel" 1 "$calls" 8 1 > "$work/history"
            in_order "$work/history" > "$work/kernel.text"
            echo "$compiler $stamps $flags: replies $(cat "$work/out"), kernel $("$program" audit "$work/kernel.text")"
        done
    done
done
gcc -std=c11 -O2 $warnings -pthread -I "$top/include" "$top/examples/kernel/kernel.c" -o "$work/kernel"
gcc -std=c11 -O2 $warnings -I "$top/include" "$top/bindings/radixvm-record.c" -o "$work/read"
"$work/kernel" 4 "$calls" 8 0 1 "$work/ring" > "$work/history"
"$program" audit --overlapping "$work/history"
"$work/read" "$work/ring" | sort | diff - <(sort "$work/history")
echo "a record in a file: the same text"
for seed in 1 2 3; do
    "$work/kernel" 4 1000000 8 0 "$seed" "$work/ring" > /dev/null &
    until [ "$("$work/read" "$work/ring" 2> /dev/null | wc -l)" -gt 1000 ]; do sleep 0.2; done
    kill -KILL $!
    wait $! 2> /dev/null || true
    "$work/read" "$work/ring" > "$work/history"
    echo "killed: $("$program" audit --overlapping "$work/history"), $(grep -c 'under way' "$work/history") has calls that were under way"
done
