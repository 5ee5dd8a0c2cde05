#!/usr/bin/env bash
# Measures how fast `radixvm import` reads a log of strace: the log of examples/real/heap.log again and again, each time with other
# threads, 20,000,000 bytes or as many as are asked for; and a log of valgrind's lackey (--lackey), of all accesses of examples/real/heap.c,
# again and again, as long. Five runs each (or RUNS, if set), the median of the real time. Aim: 20 MB a second. It needs valgrind.
# Usage: bench/import.sh [BYTES]
set -euo pipefail
cd "$(dirname "$0")/.."
. bench/common.sh
runs=${RUNS:-5} wanted=${1:-20000000}
python3 -c '
import sys
lines = [line for line in open("examples/real/heap.log") if "execve" not in line]
size, turn, wanted = 0, 0, int(sys.argv[1])
while size < wanted:
    for line in lines:
        number = int(line[:4])
        text = line if number == 3864 else line.replace("%d " % number, "%d " % (number + 2 * turn), 1)
        text = text.replace("= 3865\n", "= %d\n" % (3865 + 2 * turn)).replace("= 3866\n", "= %d\n" % (3866 + 2 * turn))
        sys.stdout.write(text)
        size += len(text)
    turn = (turn + 1) % 30
' "$wanted" > "$work/log"
cc -pthread -o "$work/heap" examples/real/heap.c
valgrind --tool=lackey --trace-mem=yes --trace-syscalls=yes --log-file="$work/once" "$work/heap" > /dev/null
size=0
while [ "$size" -lt "$wanted" ]; do
    cat "$work/once"
    size=$((size + $(wc -c < "$work/once")))
done > "$work/accesses"
# How fast this log is read, with these words.
measure() {
    local log=$1
    shift
    for _ in $(seq "$runs"); do
        /usr/bin/time -f "%e %M" -o "$work/time" "$program" import "$@" "$log" > "$work/trace" 2> "$work/told"
        cat "$work/time"
    done | sort -n > "$work/times"
    head -n 1 "$work/told"
    awk -v bytes="$(wc -c < "$log")" -v lines="$(wc -l < "$log")" '{ time[NR] = $1; memory = $2 } END {
        middle = time[int((NR + 1) / 2)]
        printf "%d bytes in %d lines: %.2f s, %.1f MB a second, at most %d KiB\n", bytes, lines, middle, bytes / middle / 1e6, memory
    }' "$work/times"
}
measure "$work/log"
measure "$work/accesses" --lackey
describe_machine
