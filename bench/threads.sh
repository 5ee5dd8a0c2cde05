#!/usr/bin/env bash
# Measures what four threads cost one another: five runs each, alternating, in nanoseconds a round, those of the slowest of four. Each ratio
# is that of the medians. It wants four processors with nothing else to do, and takes a minute or two once the programs are built.
# Usage: bench/threads.sh [KIND]..
#   tree       each locks, reads and unlocks a page of its own, on nodes of its own, in the tree that threads share, and counts
#              its two steps a round for itself: at most 1.1 of one thread alone
#   tickets    the same, where each of the two steps draws a ticket from the one word that all threads share
#   mutex      all lock, read and unlock one mutex
#   own        each a mutex of its own: the threads share nothing, so this is what the machine itself costs
#   calls_1, calls_64, calls_512
#              each maps so many pages of its own window with MAP_FIXED, and unmaps them, in one space: one thread, four, four with a space
#              each (and so a word each), four processes with one thread each, four that draw as many tickets as the calls' steps and do
#              nothing else, and the machine by itself. Four with a word each are to take at most 1.11 of one, four with one word at most
#              1.5 of the larger of one thread and the draws alone, and one thread at most 3 times the machine
#   calls_four the same, where each stores a byte to each of 64 mapped pages, its first access, before it unmaps them
#   hits       the same, where each loads a byte of a page of its own, which its TLB has; of these ratios none has an aim
# LIVE_PROGRAM names a program `bench_live` that was built already, which is then measured as it is.
set -eu
cd "$(dirname "$0")/.."
work=$(mktemp -d)
trap 'rm -rf "$work"' EXIT
program=${LIVE_PROGRAM:-crates/bench_live/out/bench_live}
if [ -z "${LIVE_PROGRAM:-}" ]; then
    (cd crates/bench_live && rt run) > "$work/log" 2>&1 || { cat "$work/log" >&2; exit 3; } # proves and builds the program first
fi
median() { printf '%s\n' "$@" | sort -n | sed -n 3p; }
compare() { # a part, and how many rounds
    ones=() fours=()
    for _ in 1 2 3 4 5; do
        ones+=("$("$program" "$1" 1 "$2")")
        fours+=("$("$program" "$1" 4 "$2")")
        echo "$1 one thread ${ones[-1]} ns, slowest of four ${fours[-1]} ns"
    done
    awk -v name="$1" -v one="$(median "${ones[@]}")" -v four="$(median "${fours[@]}")" \
        'BEGIN { printf "%s medians %s ns and %s ns, ratio %.2f\n", name, one, four, four / one }'
}
script() { # of the work of a round, of how many pages, how many rounds, and how many cores: each from the 17th page of its window on
    awk -v work="$1" -v pages="$2" -v rounds="$3" -v cores="$4" 'BEGIN {
        frames = work == "maps" ? 1 : work == "hits" ? cores : cores * pages * rounds
        print "vm", cores, frames, 1048576
        for (core = 0; core < cores; core++) {
            first = sprintf("%.0f", ((core + 1) * 134217728 + 17) * 4096)
            map = "c" core "! mmap " first " " pages * 4096 " rw- pfa"
            if (work == "hits") print map
            for (round = 0; round < rounds; round++) {
                if (work == "hits") { print "c" core "! load " first; continue }
                print map
                for (page = 0; page < pages && work == "stores"; page++) printf "c%d! store %.0f 7\n", core, first + page * 4096
                print "c" core "! munmap " first " " pages * 4096
            }
        } }'
}
processes() { # the slowest of four programs that each do a script of one core, of so many rounds
    for i in 1 2 3 4; do "$program" shared 1 "$1" < "$work/one" > "$work/time$i" & done
    wait
    sort -n "$work"/time[1-4] | tail -n 1
}
compare_calls() { # the work of a round, of how many pages, how many rounds, and how many steps a round makes
    script "$1" "$2" "$3" 1 > "$work/one"
    script "$1" "$2" "$3" 4 > "$work/four"
    ones=() fours=() aparts=() others=() draws=() machines=()
    for _ in 1 2 3 4 5; do
        ones+=("$("$program" shared 1 "$3" < "$work/one")")
        fours+=("$("$program" shared 4 "$3" < "$work/four")")
        aparts+=("$("$program" apart 4 "$3" < "$work/one")")
        others+=("$(processes "$3")")
        draws+=("$("$program" draws 4 $(($3 * $4)) | awk -v steps="$4" '{ print $1 * steps }')")
        machines+=("$("$program" machine 1 "$3" < "$work/one")")
        echo "$1 of $2 pages: one thread ${ones[-1]} ns, four ${fours[-1]} ns, a space each ${aparts[-1]} ns, four processes ${others[-1]} ns," \
            "draws alone ${draws[-1]} ns, machine ${machines[-1]} ns"
    done
    awk -v name="$1 of $2 pages" -v one="$(median "${ones[@]}")" -v four="$(median "${fours[@]}")" -v apart="$(median "${aparts[@]}")" \
        -v other="$(median "${others[@]}")" -v draw="$(median "${draws[@]}")" -v machine="$(median "${machines[@]}")" 'BEGIN {
            most = one > draw ? one : draw
            printf "%s: medians %s, %s, %s, %s, %s and %s ns; four of one %.2f, ", name, one, four, apart, other, draw, machine, four / one
            printf "a space each of one %.2f, four processes of one %.2f, ", apart / one, other / one
            printf "four of the larger of one and the draws %.2f, one of the machine %.2f\n", four / most, one / machine }'
}
# Steps of a round where each page is a slot of its own: of a change two for a page, and six more; of a page's first access eleven; of
# another one four.
for kind in ${@:-own tree tickets mutex calls_1 calls_64 calls_512 calls_four hits}; do
    case $kind in
        tree | tickets) compare "$kind" 5000000 ;;
        mutex) compare mutex 1000000 ;;
        own) compare own 20000000 ;;
        calls_1) compare_calls maps 1 20000 16 ;;
        calls_64) compare_calls maps 64 2000 268 ;;
        calls_512) compare_calls maps 512 400 2060 ;;
        calls_four) compare_calls stores 64 200 972 ;;
        hits) compare_calls hits 1 200000 4 ;;
        *) echo "bench/threads.sh: no $kind" >&2; exit 2 ;;
    esac
done
