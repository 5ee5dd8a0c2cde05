#!/usr/bin/env bash
# Sixteen threads of 10,000 loads, stores, fetches, changes, flushes and reviews each, in one space: their notes are certified beside the histories of
# its slots. Prints how long it took, from the drawing of the script to the certificate, and how much memory it had at the most. It proves and builds
# the tests of `test_live` first, on a copy of the repository, over the libraries that an `rt ci` on this machine proved (without one that takes as
# long as it does), and then wants a machine with nothing else to do.
# Usage: bench/sixteen_threads.sh [REQUESTS], 10000 where left out.
set -eu
cd "$(dirname "$0")/.."
asks=${1:-10000}
work=$(mktemp -d)
trap 'rm -rf "$work"' EXIT
# The lines of the crate and of all below it: crates.txt has each crate behind those that it uses.
tac crates.txt | awk -F'[ :]+' 'BEGIN { needed["test_live"] = 1 }
    needed[$1] { for (at = 2; at <= NF; at++) needed[$at] = 1; print }' | tac > "$work/crates.txt"
for crate in $(cut -d: -f1 "$work/crates.txt"); do
    tar cf - --exclude=out --exclude=must-fail "crates/$crate" | tar xf - -C "$work"
done
cp HANDLES "$work"
cd "$work"
# The other tests stay as they are: their spaces have fewer calls.
sed -i "/^fn sixteen_threads/,/^}/ { s/count: ASKS/count: $asks/; s/, SEEDS)/, 1)/ }" crates/test_live/src/thread_tests.rt
rt ci > log 2>&1 || { cat log >&2; exit 3; }
/usr/bin/time -f "%e s, %M KiB" crates/test_live/out/test_live_tests thread_tests::sixteen_threads
