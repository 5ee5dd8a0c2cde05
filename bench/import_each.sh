#!/usr/bin/env bash
# Whether `radixvm import --all DIR` writes for each process what `import --pid` writes of it, and tells of it what that tells; and whether a
# log that is cut into one file for each thread, as `strace -ff` would write it, gives the same trace. Of each log that is named, or of those
# of crates/test_import/data. Prints how many traces were the same.
# Usage: bench/import_each.sh [LOG..]
set -euo pipefail
cd "$(dirname "$0")/.."
. bench/common.sh
[ $# -gt 0 ] || set -- crates/test_import/data/{gcc,heap,ls,node,python}.log
same=0
for log; do
    rm -rf "$work/each" "$work/cut"
    "$program" import --all "$work/each" "$log" 2> "$work/told" || [ $? = 2 ]
    sed -n 's/^process \([0-9]*\).*/\1/p' "$work/told" > "$work/numbers"
    while read -r number; do
        status=0
        "$program" import --pid "$number" "$log" > "$work/one" 2> "$work/one.told" || status=$?
        if [ $status = 0 ]; then cmp "$work/one" "$work/each/$number.trace"; else [ ! -e "$work/each/$number.trace" ]; fi
        grep -v '^radixvm: nothing was kept$' "$work/one.told" | grep -A99 '^import: [0-9]* lines kept' > "$work/one.counts"
        sed -n "/^process $number[ :]/,/^process /p" "$work/told" | grep -v '^process ' | cmp - "$work/one.counts"
        same=$((same + 1))
    done < "$work/numbers"
    # Calls that stand in two lines are of no such file, and their logs aren't cut.
    grep -q 'unfinished' "$log" && continue
    mkdir "$work/cut"
    awk -v cut="$work/cut/log." '/^[0-9]+ /{ number = $1; sub(/^[0-9]+ +/, ""); printf "17%08d.%06d %s\n", 0, NR, $0 > (cut number) }' "$log"
    "$program" import "$log" > "$work/whole" 2> "$work/whole.told"
    "$program" import "$work"/cut/log.* > "$work/joined" 2> "$work/joined.told"
    cmp "$work/whole" "$work/joined"
    cmp "$work/whole.told" "$work/joined.told"
    same=$((same + 1))
done
echo "$same traces are the same"
