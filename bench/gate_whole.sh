#!/usr/bin/env bash
# Prints what `rt ci` from nothing costs in a clean clone: how many edits it tries, real minutes, processor minutes (user and system), and
# for each crate its processor seconds. With --every-edit the edits that are tried by hand, those of edits/, stand in the gate too: the same
# tree as if none had left it. With --at COMMIT it is that commit's gate, else HEAD's; with crates it is that of these and of those below
# them: all other crates are taken out of the clone. Nothing else should run beside it, but another one: two at once, each with RT_JOBS=2, compare
# two commits under the same load.
# Usage: bench/gate_whole.sh [--every-edit] [--at COMMIT] [CRATE..]
set -euo pipefail
top=$(cd "$(dirname "$0")/.." && pwd)
work=$(mktemp -d)
trap 'rm -rf "$work"' EXIT
git clone -q "$top" "$work/clone"
cd "$work/clone"
every=
while [[ "${1:-}" = --* ]]; do
    case $1 in
        --every-edit) every=yes && shift ;;
        --at) git checkout -q "$2" && shift 2 ;;
        *) echo "gate_whole: unknown argument '$1'; usage: bench/gate_whole.sh [--every-edit] [--at COMMIT] [CRATE..]" >&2 && exit 2 ;;
    esac
done
for folder in ${every:+edits/*/}; do
    mkdir -p "crates/$(basename "$folder")/must-fail"
    mv "$folder"*.edit "crates/$(basename "$folder")/must-fail/"
done
# The crates asked for and those below them alone, in crates.txt and on the disk.
keep_these() {
    tac crates.txt | awk -F'[: ]+' -v asked=" $* " '
        index(asked, " " $1 " ") || needed[$1] { print; for (i = 2; i <= NF; i++) needed[$i] = 1 }' | tac > "$work/kept"
    mv "$work/kept" crates.txt
    for folder in crates/*/; do
        grep -q "^$(basename "$folder")[: ]" crates.txt || rm -r "$folder"
    done
}
if [ $# != 0 ]; then keep_these "$@"; fi
edits=$(find crates -name '*.edit' | wc -l)
"$top/bench/gate_crates.py" $$ > "$work/table" &
sampler=$!
TIMEFORMAT='%R %U %S'
status=0
# Where rt keeps what an earlier gate proved, it is to prove all anew.
anew=$(rt help 2>&1 | grep -o -m 1 -e --anew || true)
{ time rt ci $anew > "$work/log" 2>&1; } 2> "$work/time" || status=$?
kill "$sampler" && wait "$sampler" || true
tail -n 2 "$work/log"
awk -v edits="$edits" 'END { printf "edits %d, real minutes %.0f, processor minutes %.0f\n", edits, $1 / 60, ($2 + $3) / 60 }' "$work/time"
cat "$work/table"
exit $status
