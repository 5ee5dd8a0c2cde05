#!/usr/bin/env bash
# Compiles the header and the examples of bindings/ over libradixvm.a (`./radixvm --build-library`), the C side with the
# sanitizers of addresses and of undefined behaviour, by gcc and by clang, and runs them: a page-table walker, whose entries the library tells,
# beside batches, kept machines beside batches, logs beside what was told, what is out of range and memory that is refused, entries that change as told, cores whose MMU obeys the library (random ones, examples/mmu, and
# examples/kernel-on-radixvm where QEMU is),
# how much stack a call takes, the worked rows of crates/test_words, examples/, random traces and their logs beside the program where it
# is built, and the Rust crate's tests and its walkers where there is cargo. 1 to 64 threads share a machine: each one's notes beside the log,
# the log beside a new machine and beside `audit`, with memory refused, under valgrind where that is here, and under ThreadSanitizer where
# bindings/tsan.py left an instrumented library. A program is recorded by bindings/preload.c, also one that is killed half-way. SEEDS, 20 where it isn't given, is how many walks, and how many random traces of each kind,
# are made.
# Usage: bindings/test.sh [--skip-without-compiler] [SEEDS]
set -euo pipefail
top=$(cd "$(dirname "$0")/.." && pwd)
library=${RADIXVM_LIBRARY:-$top/crates/radixvm_c/out}
program=${RADIXVM_PROGRAM:-$top/crates/radixvm/out/radixvm}
include=${RADIXVM_INCLUDE:-$top/include}
skip=
if [ "${1:-}" = --skip-without-compiler ]; then
    skip=yes
    shift
fi
seeds=${1:-20}
if ! command -v "${CC:-cc}" > /dev/null; then
    echo "bindings/test.sh: no C compiler (${CC:-cc}) is here" >&2
    [ "$skip" ] && exit 0
    exit 1
fi
if [ ! -f "$library/libradixvm.a" ]; then
    echo "bindings/test.sh: there is no $library/libradixvm.a; ./radixvm --build-library makes it" >&2
    exit 1
fi
work=$(mktemp -d)
trap 'rm -rf "$work"' EXIT
warnings="-Wall -Wextra -Wpedantic -Wconversion -Wshadow -Werror"

# the header by itself, in both languages
printf '#include "radixvm.h"\nint main(void) { return radixvm_version() != RADIXVM_VERSION; }\n' > "$work/header.c"
cp "$work/header.c" "$work/header.cpp"
for compiler in gcc clang; do
    command -v $compiler > /dev/null || continue
    $compiler -std=c11 $warnings -I "$include" "$work/header.c" "$library/libradixvm.a" -o "$work/header" && "$work/header"
    $compiler -std=c11 -ffreestanding $warnings -I "$include" -c "$work/header.c" -o "$work/header.o"
    echo "header, C11: $compiler"
done
for compiler in g++ clang++; do
    command -v $compiler > /dev/null || continue
    $compiler -std=c++17 $warnings -I "$include" "$work/header.cpp" "$library/libradixvm.a" -o "$work/header" && "$work/header"
    echo "header, C++17: $compiler"
done

compile() { # COMPILER NAME OUT FLAGS..
    local compiler=$1 name=$2 out=$3
    shift 3
    $compiler -std=c11 -O1 -g -pthread -fsanitize=address,undefined -fno-sanitize-recover=all $warnings "$@" -I "$include" \
        "$top/bindings/c/$name.c" "$library/libradixvm.a" -o "$work/$out"
}

# Runs the program NAME with each seed.
walk() { # NAME
    for seed in $(seq "$seeds"); do "$work/$1" "$seed" > "$work/out" || { cat "$work/out"; exit 1; }; done
    echo "$1: $seeds seeds, $(cat "$work/out") in each"
}

try_with() { # COMPILER
    echo "-- C programs by $1"
    for name in walker kept log bad trace seats threads outside driven; do compile "$1" $name $name; done
    compile "$1" bad refused -DREFUSE -Wno-pedantic -Wl,--wrap=malloc,--wrap=realloc
    compile "$1" refused_threads refused_threads -Wno-pedantic -Wl,--wrap=malloc,--wrap=realloc
    walk walker
    walk kept
    walk log
    walk outside
    walk driven
    for bug in 1 2 3; do
        if "$work/outside" 1 $bug > "$work/out"; then
            echo "bindings/test.sh: error $bug of a real MMU's handler wasn't found" >&2
            exit 1
        fi
    done
    echo "outside: each of 3 errors of a handler was found"
    echo "out of range: $("$work/bad")"
    "$work/refused"
    "$work/seats"
    share threads
    "$work/refused_threads"
}

# Runs the program NAME with each seed, as 1 to 64 threads, and as four times as many as there are processors.
share() { # NAME
    for seed in $(seq "$seeds"); do
        for threads in 1 2 4 16 64 $(($(nproc) > 16 ? 64 : $(nproc) * 4)); do
            "$work/$1" "$seed" $threads 300 > "$work/out" || { cat "$work/out"; exit 1; }
        done
    done
    "$work/$1" 1 8 20000
    echo "$1: $seeds seeds, 1 to 64 threads of 300 calls; each log has what the threads noted, and is replied again"
}
# How much stack a call takes, which is that of the library without a sanitizer.
${CC:-cc} -std=c11 -O1 -pthread -I "$include" "$top/bindings/c/stack.c" "$library/libradixvm.a" -o "$work/stack"
"$work/stack"
compilers=${CC:-$(for compiler in clang gcc; do command -v $compiler > /dev/null && echo $compiler; done)}
for compiler in ${compilers:-cc}; do try_with $compiler; done
for way in "" kept; do
    python3 "$top/bindings/rows.py" "$work/trace" $way
done
examples="copy files first place race reuse rights shootdown steps"
for name in $examples; do
    for way in "" kept; do
        "$work/trace" $way < "$top/examples/$name.trace" > "$work/out"
        diff "$top/examples/$name.out" "$work/out"
    done
done
echo "examples: the same text as in examples/ for $examples"
if [ -x "$program" ]; then
    for seed in $(seq "$seeds"); do
        "$work/threads" "$seed" 8 1000 echo > "$work/log"
        [ "$("$program" audit "$work/log")" = "legal 8000" ] || { echo "bindings/test.sh: a log of threads isn't legal, seed $seed" >&2; exit 1; }
    done
    echo "audit: $seeds logs of 8 threads, 8000 calls each, are a plain page map's"
    for way in "" steps kept "kept steps" log "log steps"; do python3 "$top/bindings/lists.py" "$seeds" "$program" "$work/trace" $way; done
else
    echo "random traces: not compared, since the program isn't built ($program)"
fi
# The preload recorder: a program of threads that forks, and one that is killed. What isn't true of it isn't legal.
for compiler in ${compilers:-cc}; do
    $compiler -std=c11 -O2 -fPIC -shared -fvisibility=hidden -ftls-model=initial-exec ${warnings/-Wpedantic/} -I "$include" \
        "$top/bindings/preload.c" -o "$work/recorder.so"
    $compiler -std=c11 -O2 $warnings -I "$include" "$top/bindings/radixvm-record.c" -o "$work/read"
    $compiler -std=c11 -O2 -pthread $warnings "$top/bindings/c/recorded.c" -o "$work/recorded"
done
LD_PRELOAD=$work/recorder.so RADIXVM_RECORD=$work/calls "$work/recorded" 1 100 300 > "$work/number"
LD_PRELOAD=$work/recorder.so RADIXVM_RECORD=$work/killed "$work/recorded" 2 0 300 &
until [ "$(cat "$work"/killed.* 2> /dev/null | wc -c)" -gt 2000000 ]; do sleep 0.1; done
kill -KILL $!
wait $! 2> /dev/null || true
for record in "$work"/calls.* "$work"/killed.*; do "$work/read" "$record" > "$record.text"; done
[ "$(ls "$work"/calls.*.text "$work"/killed.*.text | wc -l)" = 3 ] || { echo "bindings/test.sh: not three records" >&2; exit 1; }
if [ -x "$program" ]; then
    for text in "$work"/*.text; do "$program" audit --overlapping --any-place "$text" > "$work/out" || { cat "$work/out"; exit 1; }; done
    # its first mapping is mapped a second time
    text=$(ls "$work"/calls.*.text | head -n 1)
    sed -n '/! mmap/{h;s/^[0-9]* [0-9]*/98 99/p;g;s/^[0-9]* [0-9]*/96 97/p;q}' "$text" | cat <(echo "vm 64 16") - > "$work/twice"
    if "$program" audit --overlapping --any-place "$work/twice" > "$work/out"; then
        echo "bindings/test.sh: an address that is given twice is legal" >&2
        exit 1
    fi
fi
echo "recorder: threads, a fork, and a program that was killed"
RADIXVM_LIBRARY=$library RADIXVM_PROGRAM=$program RADIXVM_INCLUDE=$include "$top/examples/mmu/try.sh" 5000
RADIXVM_LIBRARY=$library RADIXVM_PROGRAM=$program RADIXVM_INCLUDE=$include "$top/examples/kernel-on-radixvm/try.sh" 1000
if command -v valgrind > /dev/null; then
    ${CC:-cc} -std=c11 -O1 -g -pthread -I "$include" "$top/bindings/c/threads.c" "$library/libradixvm.a" -o "$work/plain"
    valgrind -q --error-exitcode=1 --leak-check=full --fair-sched=yes "$work/plain" 1 8 200
    echo "valgrind: no fault and no leak"
else
    echo "valgrind: it isn't here"
fi
if [ -f "$library/tsan/libradixvm.a" ]; then
    for kind in tsan relaxed; do
        gcc -std=c11 -O1 -g -fno-builtin -fsanitize=thread -I "$include" "$top/bindings/c/threads.c" "$top/bindings/c/tsan.c" \
            "$library/$kind/libradixvm.a" -o "$work/$kind"
    done
    setarch -R "$work/tsan" 1 8 20000
    if setarch -R "$work/relaxed" 1 8 2000 > "$work/out" 2>&1 || ! grep -q "data race" "$work/out"; then
        echo "bindings/test.sh: ThreadSanitizer sees no race where the word is relaxed" >&2
        exit 1
    fi
    echo "ThreadSanitizer: no race, and one where the word's two steps are relaxed"
else
    echo "ThreadSanitizer: bindings/tsan.py wasn't run"
fi
if command -v cargo > /dev/null; then
    (
        cd "$top/bindings/rust"
        export RADIXVM_LIBRARY=$library CARGO_TARGET_DIR=$work/rust
        cargo test --offline -q
        for name in walker beside; do
            for seed in $(seq "$seeds"); do cargo run --offline -q --example $name "$seed" > "$work/out" || { cat "$work/out"; exit 1; }; done
            echo "Rust, $name: $seeds seeds, $(cat "$work/out") in each"
        done
        for threads in 1 2 4 16 64; do cargo run --offline -q --example threads 1 $threads 300; done
    )
    echo "Rust: the crate's tests and those of its documentation passed"
else
    echo "Rust: no cargo is here, so its tests were not run"
fi
