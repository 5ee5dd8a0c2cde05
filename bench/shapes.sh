#!/usr/bin/env bash
# Measures each shape of trace (bench/make_shape.sh) on the program and on the plain Rust program of bench/baseline.rs: eleven runs
# each (or RUNS, if set), alternating, the least processor time of each. Both must write the same text, byte for byte. Prints a table in
# Markdown, and writes it to docs/shapes.csv where all shapes are measured in full.
# Usage: bench/shapes.sh [--tenth] [NAME]..; --tenth takes a tenth of the lines and one run.
set -euo pipefail
cd "$(dirname "$0")/.."
. bench/common.sh
runs=${RUNS:-11} part=1
if [ "${1:-}" = --tenth ]; then runs=1 part=10; shift; fi
table=$work/shapes.csv
echo shape,lines,ours_ms,plain_ms,ratio,what > "$table"
echo '| Shape | Lines | Ours (ms) | Plain (ms) | Ratio |'
echo '|---|--:|--:|--:|--:|'
[ $# -gt 0 ] || all=yes
while read -r name lines what; do
    [ $# -eq 0 ] || [[ " $* " = *" $name "* ]] || continue
    bench/make_shape.sh "$name" $((lines / part)) > "$work/trace"
    times=$(bench/measure.py --least "$runs" "$work/trace" "$program" run -- "$plain")
    read -r ours theirs <<< "$times"
    ratio=$(awk -v a="$ours" -v b="$theirs" 'BEGIN { printf "%.2f", a / b }')
    lines=$(wc -l < "$work/trace")
    echo "| $name: $what | $lines | $ours | $theirs | $ratio |"
    echo "$name,$lines,$ours,$theirs,$ratio,\"$what\"" >> "$table"
done < <(bench/make_shape.sh)
echo
echo "$(describe_machine); bench/shapes.sh, the least of $runs runs"
if [ -n "${all:-}" ] && [ "$part" = 1 ]; then cp "$table" docs/shapes.csv; fi
