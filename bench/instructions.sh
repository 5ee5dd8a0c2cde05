#!/usr/bin/env bash
# Counts the instructions of the program and of the plain Rust program on a tenth of each shape's lines (callgrind), and how many of the
# machine's steps a line takes (by the step of the log's last entry): figures that what else runs on the computer can't change.
# Prints a table, and writes it to docs/instructions.csv where all shapes are counted. Usage: bench/instructions.sh [NAME]..
set -euo pipefail
cd "$(dirname "$0")/.."
. bench/common.sh
instructions() {
    valgrind --tool=callgrind --callgrind-out-file=/dev/null "$@" 2>&1 < "$work/trace" > /dev/null \
        | awk '/Collected/ { print $NF }'
}
steps() { # of a line, on the average
    local lines
    lines=$(wc -l < "$work/trace")
    "$program" run --log < "$work/trace" | awk -v lines="$lines" '$1 == "log" { last = $2 } END { print last / lines }'
}
table=$work/instructions.csv
echo shape,ours,plain,ratio,steps | tee "$table"
while read -r name lines _; do
    [ $# -eq 0 ] || [[ " $* " = *" $name "* ]] || continue
    bench/make_shape.sh "$name" $((lines / 10)) > "$work/trace"
    echo "$name $(instructions "$program" run) $(instructions "$plain") $(steps)" \
        | awk '{ printf "%s,%s,%s,%.2f,%.1f\n", $1, $2, $3, $2 / $3, $4 }' | tee -a "$table"
done < <(bench/make_shape.sh)
[ $# -gt 0 ] || cp "$table" docs/instructions.csv
