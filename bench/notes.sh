#!/usr/bin/env bash
# Measures how long `radixvm certify` takes to read and certify notes, beside the plain Rust program of bench/baseline.rs that reads the
# same notes and does the same calls (it takes a call's plain steps at their word): five runs each (or RUNS, if set), in turn, medians
# of the processor time; both must write the same line. And the most memory that each has at once. Then how long `bench_live rewrite` takes to
# read the notes and write them in order of their tickets, as `live` writes those of its threads, beside the plain program: both must
# write the same text. Aim of both: 1.5. The notes are those of the trace of four cores that share pages (bench/make_notes.py; it takes
# about a minute for a million); those that are rewritten stand in another order.
# Usage: bench/notes.sh [NOTES], a million where left out
# LIVE_PROGRAM names a program `bench_live` that was built already, which is then measured as it is.
set -euo pipefail
cd "$(dirname "$0")/.."
. bench/common.sh
runs=${RUNS:-5} wanted=${1:-1000000} notes=$work/notes
live=${LIVE_PROGRAM:-crates/bench_live/out/bench_live}
if [ -z "${LIVE_PROGRAM:-}" ]; then
    (cd crates/bench_live && rt run) > "$work/log" 2>&1 || { cat "$work/log" >&2; exit 3; } # proves and builds the program first
fi
bench/make_trace_four.sh > "$work/trace"
bench/make_notes.py "$program" "$wanted" < "$work/trace" > "$notes"
count=$(grep -c ' = ' "$notes")

# The most memory that a command has at once, in KiB.
memory() {
    local input=$1
    shift
    /usr/bin/time -f %M -o "$work/memory" "$@" < "$input" > /dev/null
    cat "$work/memory"
}

read -r ours theirs <<< "$(bench/measure.py "$runs" "$notes" "$program" certify -- "$plain" certify)"
echo "$("$program" certify < "$notes"), of $count notes in $(wc -c < "$notes") bytes"
head -n 1000 "$notes" > "$work/few"
few=$(memory "$work/few" "$program" certify)
all=$(memory "$notes" "$program" certify)
awk -v ours="$ours" -v plain="$theirs" 'BEGIN { printf "ours %s ms, plain %s ms, ratio %.2f\n", ours, plain, ours / plain }'
awk -v few="$few" -v all="$all" -v count="$count" -v plain="$(memory "$notes" "$plain" certify)" 'BEGIN {
    printf "memory: ours %d KiB for all notes, %d KiB for the first 1,000 lines, so %.1f bytes a note; plain %d KiB\n", all, few, (all - few) * 1024 / count, plain
}'
# Four seats, one after another: each has every fourth note.
head -n 1 "$notes" > "$work/seats"
for seat in 0 1 2 3; do awk -v seat="$seat" 'NR > 1 && NR % 4 == seat' "$notes"; done >> "$work/seats"
read -r ours theirs <<< "$(bench/measure.py "$runs" "$work/seats" "$live" rewrite -- "$plain" rewrite)"
echo "rewritten: $("$live" rewrite < "$work/seats" | wc -c) bytes"
awk -v ours="$ours" -v plain="$theirs" 'BEGIN { printf "ours %s ms, plain %s ms, ratio %.2f\n", ours, plain, ours / plain }'
describe_machine
