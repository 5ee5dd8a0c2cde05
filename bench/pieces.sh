#!/usr/bin/env bash
# Measures the parts against the plain Rust programs of bench/pieces.rs: three runs of each, alternating, in nanoseconds a
# round. Each ratio is that of the sums. Usage: bench/pieces.sh [WORD]..
#   slots, look, tree, scan, edit         a list of slots; the radix tree: a look-up, a change, ranges looked through and changed
#   room, gaps                            room found after 100,000 pages of one mapping, and after as many with one free page between
#                                         two, beside a map of runs
#   hit, oldest, newest                   hits of a TLB whose 64 pages share no set, anywhere and at its ends; a set is the translations
#                                         of one hash, which are looked through one after another
#   shared, one_set                       hits anywhere of a TLB whose 64 pages have eight sets, and one
#   miss, thousand                        misses that fill it, of 65 pages in turn, and of 1,000
#   clear                                 table entries dropped
#   byte, fill, copy                      frames: a byte set and one read, a frame filled, a frame copied
#   count, flush                          Refcache: an object counted up and down; that, a flush and a review
# PARTS_PROGRAM names a program `bench_parts` that was built already, which is then measured as it is.
set -eu
cd "$(dirname "$0")/.."
work=$(mktemp -d)
trap 'rm -rf "$work"' EXIT
rustc --edition 2021 -C opt-level=3 -o "$work/pieces" bench/pieces.rs
program=${PARTS_PROGRAM:-crates/bench_parts/out/bench_parts}
if [ -z "${PARTS_PROGRAM:-}" ]; then
    (cd crates/bench_parts && rt run) > "$work/log" 2>&1 || { cat "$work/log" >&2; exit 3; } # proves and builds the program first
fi
for part in ${@:-slots look tree scan edit room gaps hit oldest newest shared one_set miss thousand clear byte fill copy count flush}; do
    for _ in 1 2 3; do
        echo "$part: $("$program" "$part") $("$work/pieces" "$part")"
    done | awk '{ printf "%s ours %s ns, plain %s ns\n", $1, $2, $3; ours += $2; plain += $3 }
        END { printf "%s ratio %.2f\n", $1, ours / plain }'
done
