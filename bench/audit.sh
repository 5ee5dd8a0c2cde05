#!/usr/bin/env bash
# Judges the replies of random traces (1,000 where left out) by `audit`, beside bench/plain_map.py (bench/audit_traces.py says how), and then
# measures `audit` beside `run` on the same million lines: the median of five, one after the other in turn. At last bench/overlapping.py
# judges histories of 4 and of 8 threads, and says how many calls a second.
# Usage: bench/audit.sh [TRACES [SEED]]
set -euo pipefail
cd "$(dirname "$0")/.."
. bench/common.sh
python3 bench/audit_traces.py "$program" "${1:-1000}" "${2:-0}"
bench/make_trace.sh 1000000 > "$work/trace"
"$program" run --long --echo "$work/trace" > "$work/replies"
seconds() { # WORD..
    /usr/bin/time -f %e -o "$work/seconds" "$program" "$@" > "$work/out"
    cat "$work/seconds"
}
for _ in 1 2 3 4 5; do
    echo "$(seconds run --long "$work/trace") $(seconds audit "$work/replies")"
done > "$work/all"
cat "$work/out"
median() { cut -d " " -f "$1" "$work/all" | sort -n | sed -n 3p; }
echo "$(median 1) $(median 2)" | awk '{ printf "a million lines: run %.2f s, audit %.2f s, %.2f of it\n", $1, $2, $2 / $1 }'
RADIXVM_PROGRAM=$program python3 bench/overlapping.py 100000 1
describe_machine
