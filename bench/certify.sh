#!/usr/bin/env bash
# Measures how long it takes to certify some million notes of four threads that share pages, as four seats', beside a run of the same
# events on a new machine: five runs, in nanoseconds a note, and the ratio of their medians, which is to be at most 1.3; and the same
# beside the histories of the slots, at most 2.0. The threads do the loads, stores, calls, flushes and reviews of the trace of four cores
# that share pages. Usage: bench/certify.sh [LINES], of the trace, 200,000 where left out
# LIVE_PROGRAM names a program `bench_live` that was built already, which is then measured as it is.
set -eu
cd "$(dirname "$0")/.."
work=$(mktemp -d)
trap 'rm -rf "$work"' EXIT
program=${LIVE_PROGRAM:-crates/bench_live/out/bench_live}
if [ -z "${LIVE_PROGRAM:-}" ]; then
    (cd crates/bench_live && rt run) > "$work/log" 2>&1 || { cat "$work/log" >&2; exit 3; } # proves and builds the program first
fi
bench/make_trace_four.sh "${1:-200000}" | grep -E '^(vm|c[0-3]!|c[0-3] (flush|review)$)' > "$work/script"
median() { printf '%s\n' "$@" | sort -n | sed -n 3p; }
runs=() certified=() beside=()
for _ in 1 2 3 4 5; do
    mapfile -t times < <("$program" notes < "$work/script")
    runs+=("${times[0]}") certified+=("${times[1]}") beside+=("${times[2]}")
    echo "run ${runs[-1]} ns, certify ${certified[-1]} ns, with histories ${beside[-1]} ns"
done
awk -v run="$(median "${runs[@]}")" -v certify="$(median "${certified[@]}")" -v beside="$(median "${beside[@]}")" \
    'BEGIN { printf "medians %s ns, %s ns and %s ns, ratios %.2f and %.2f\n", run, certify, beside, certify / run, beside / run }'
