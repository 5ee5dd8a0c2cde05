#!/usr/bin/env bash
# Records what the kernel that it runs on replies to calls of 4 threads that overlap, and judges it by `radixvm audit --overlapping`: RUNS histories
# of each of three sorts of calls, by two rules. It shows the shortest explanation of a "no order", and ends with two sentences on what was found.
# Usage: examples/kernel/judge-this-kernel.sh [RUNS [CALLS]], 5 and 2000 (of each thread) if left out: a minute at most. The program is the one that
# ../program.sh finds. If none is built, ./radixvm compiles one without proofs, which takes some minutes, and one history is judged by it.
# Status: 0 if it has judged, whatever it found.
set -euo pipefail
top=$(cd "$(dirname "$0")/../.." && pwd)
runs=${1:-5} calls=${2:-2000}
work=$(mktemp -d)
trap 'rm -rf "$work"' EXIT
cc -O2 -pthread -I "$top/include" -o "$work/kernel" "$top/examples/kernel/kernel.c"
system=$(uname -sr)

# Without a built program: one history.
if ! program=$("$top/examples/program.sh" 2> /dev/null); then
    "$work/kernel" 4 "$calls" 2 1 1 > "$work/history"
    "$top/radixvm" audit --overlapping "$work/history" > "$work/said" || [ $? != 2 ]
    cat "$work/said"
    case $(head -n 1 "$work/said") in
        legal*) printf '\nThe calls of 4 threads on single pages of %s are those of a plain page map, in which each call takes effect at a moment.\n' "$system" ;;
        "no order "*) printf '\nThe calls of 4 threads on single pages of %s are those of no plain page map: the calls above show it.\n' "$system" ;;
        undecided*) printf '\nWhether the calls of 4 threads on single pages of %s are those of a plain page map was not decided.\n' "$system" ;;
        *) exit 3 ;;
    esac
    echo "After ./radixvm --build this script judges more histories, of calls on ranges, too."
    exit
fi

# Whether the history is legal by a rule. Keeps the shortest explanation of a "no order" by each.
is_legal() { # [OPTION]
    local shortest=$work/shortest$*
    "$program" audit --overlapping "$@" "$work/history" > "$work/said" 2> /dev/null && return
    case $(head -n 1 "$work/said") in
        "no order "*)
            if [ ! -s "$shortest" ] || [ "$(wc -c < "$work/said")" -lt "$(wc -c < "$shortest")" ]; then cp "$work/said" "$shortest"; fi ;;
        undecided*) ;;
        *) exit 3 ;;
    esac
    return 1
}

# Judges histories of one sort: PAGES and MOST as kernel.c has them. Leaves how many are legal by each rule.
judge() { # WHAT PAGES MOST
    legal=0 kernel=0
    for seed in $(seq "$runs"); do
        "$work/kernel" 4 "$calls" "$2" "$3" "$seed" > "$work/history"
        if is_legal; then legal=$((legal + 1)); fi
        if is_legal --kernel; then kernel=$((kernel + 1)); fi
    done
    printf '%-27s %12s %12s\n' "$1" "$legal of $runs" "$kernel of $runs"
}

printf '%-27s %12s %12s\n' "histories that are legal" "at a moment" --kernel
judge "single pages, not unmapped" 8 0 && kept=$legal
judge "single pages, unmapped too" 2 1 && single=$legal
judge "ranges of up to 8 pages" 8 8
if [ -s "$work/shortest--kernel" ]; then
    printf '\nThe shortest explanation of a history that not even the rule of kernels allows:\n'
    cat "$work/shortest--kernel"
elif [ -s "$work/shortest" ]; then
    printf '\nThe shortest explanation of a history without an order. Refused calls are left out of it, since in a plain page map they\n'
    printf 'change nothing. POSIX lets a refused mprotect change some of its pages: --kernel does so, too.\n'
    cat "$work/shortest"
fi
printf '\nOn single pages %s of %s histories of %s are those of a plain page map, in which each call takes effect at a moment.\n' \
    "$((kept + single))" "$((2 * runs))" "$system"
printf 'On ranges %s of %s are, and %s by the rule that kernels keep (--kernel).\n' "$legal" "$runs" "$kernel"
