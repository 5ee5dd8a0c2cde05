#!/usr/bin/env bash
# Records how the kernel of this machine answers requests that look random (bench/kernel_replies.c, 100,000 where left out), and judges the replies by
# `radixvm audit --any-place`: they have to be legal, and with the reply to one load changed illegal at just that line.
# Usage: bench/kernel_replies.sh [REQUESTS [SEED]]
set -euo pipefail
cd "$(dirname "$0")/.."
requests=${1:-100000}
seed=${2:-1}
. bench/common.sh
cc -std=gnu11 -O2 -Wall -Wextra -pthread -o "$work/kernel_replies" bench/kernel_replies.c
"$work/kernel_replies" "$requests" "$seed" > "$work/replies"
expect() { # WHAT TEXT WORD
    local said
    said=$("$program" audit --any-place "$2" | head -n 1) || true
    [ "$said" = "$3" ] && echo "$1: $said" && return
    echo "$1: $said, expected: $3" >&2
    exit 1
}
expect "Linux $(uname -r), seed $seed" "$work/replies" "legal $requests"
# a load in the last tenth, where much is mapped
changed=$(grep -n 'load .* = [0-9]*$' "$work/replies" | awk -F: -v from=$((requests * 9 / 10)) '$1 > from && !found { print $1; found = 1 }')
due=$(sed -n "${changed}s/.* = //p" "$work/replies")
other=$(((due + 1) % 256))
sed "${changed}s/ = .*/ = $other/" "$work/replies" > "$work/changed"
expect "with one reply changed" "$work/changed" "illegal $changed: replied $other, due $due"
