#!/usr/bin/env bash
# Measures how time and memory grow: the time of a line over the number of slots; time and memory over the number of lines; the memory
# of sparse pages; what the log costs; the list of mappings; and their lives. The program and the plain one of bench/baseline.rs run in turn, five
# times each (or RUNS, if set; ten million lines once), and must write the same text. Writes docs/growth-slots.csv, docs/growth-lines.csv
# and docs/growth-rest.csv, and prints them. Usage: bench/growth.sh [--tenth]; --tenth takes fewer lines and one run, and writes no file.
set -euo pipefail
cd "$(dirname "$0")/.."
. bench/common.sh
runs=${RUNS:-5} lines=400000 counts='100000 1000000 10000000'
if [ "${1:-}" = --tenth ]; then runs=1 lines=40000 counts='100000 300000'; fi
trace=$work/trace

# Medians of both, on the trace that the words give to bench/make_growth.sh.
both() {
    bench/make_growth.sh "$@" > "$trace"
    bench/measure.py "$runs" "$trace" "$program" run -- "$plain"
}

# The most memory that a command has at once, in KiB, on the present trace.
memory() { /usr/bin/time -f %M -o "$work/memory" "$@" < "$trace" > /dev/null; cat "$work/memory"; }

ratio() { awk -v a="$1" -v b="$2" 'BEGIN { printf "%.2f", a / b }'; }

# Nanoseconds of a line: the trace with the lines, less that with the slots alone.
over_slots() {
    echo kind,slots,ours_ns,plain_ns,ratio
    for kind in load map; do
        for slots in 10 1000 100000; do
            echo "$kind $slots $(both "$kind" "$slots" "$lines") $(both "$kind" "$slots" 0)"
        done
    done | awk -v lines="$lines" '{
        ours = ($3 - $5) * 1e6 / lines; plain = ($4 - $6) * 1e6 / lines
        printf "%s,%d,%.0f,%.0f,%.2f\n", $1, $2, ours, plain, ours / plain
    }'
}

over_lines() {
    local runs=$runs
    echo lines,ours_ms,plain_ms,ratio,ours_kib,plain_kib
    for count in $counts; do
        [ "$count" -lt 10000000 ] || runs=1 # which both reads
        read -r ours theirs <<< "$(both lines "$count")"
        echo "$count,$ours,$theirs,$(ratio "$ours" "$theirs"),$(memory "$program" run),$(memory "$plain")"
    done
}

row() { echo "\"$1\",$2,$3,$4,$(ratio "$3" "$4"),$5"; }

rest() {
    echo figure,unit,ours,other,ratio,aim
    bench/make_shape.sh sparse > "$trace"
    row 'memory of 10,000 pages 1,000 apart, over plain Rust' KiB "$(memory "$program" run)" "$(memory "$plain")" ''

    bench/make_trace_four.sh $((lines * 5 / 2)) > "$trace"
    "$program" run < "$trace" > "$work/replies"
    "$program" run --log < "$trace" > "$work/logged"
    cmp -n "$(wc -c < "$work/replies")" "$work/logged" "$work/replies"
    read -r logged shown <<< "$(bench/measure.py --own-texts "$runs" "$trace" "$program" run --log -- "$program" run)"
    row 'run --log of the four-core trace, over run' ms "$logged" "$shown" 1.2

    bench/make_growth.sh map 100000 > "$trace"
    read -r ours theirs <<< "$(bench/measure.py "$runs" "$trace" "$program" maps -- "$plain" maps)"
    row 'maps of 100,000 slots, over plain Rust' ms "$ours" "$theirs" 0.8
    read -r ours theirs <<< "$(bench/measure.py "$runs" "$trace" "$program" run -- "$plain")"
    row 'run of the same trace, over plain Rust' ms "$ours" "$theirs" ''

    local runs=$runs
    for count in $counts; do
        [ "$count" -lt 10000000 ] || runs=1
        bench/make_growth.sh map $((count / 10)) $((count * 9 / 10)) > "$trace"
        read -r ours theirs <<< "$(bench/measure.py --own-texts "$runs" "$trace" "$program" picture --lives -- "$program" run --long)"
        row "lives of $count requests, over run --long" ms "$ours" "$theirs" ''
    done
}

over_slots > "$work/growth-slots.csv"
over_lines > "$work/growth-lines.csv"
rest > "$work/growth-rest.csv"
tail -n +1 "$work"/growth-*.csv
echo
echo "$(describe_machine); bench/growth.sh, medians of $runs runs"
if [ "${1:-}" != --tenth ]; then cp "$work"/growth-*.csv docs/; fi
