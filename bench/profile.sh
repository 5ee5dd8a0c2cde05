#!/usr/bin/env bash
# Prints for the six shapes whose ratio in docs/shapes.csv is the highest (or for those named) the five functions in which the program spends
# most of its time, by their share of samples (perf, 8,000 samples a second of processor time), and the same of the plain program.
# Then the shares of text, machine and kernel. With names left out it does so too for loads among 100,000 slots and for their list of
# mappings, and writes all to docs/profile.csv and docs/parts.csv.
# Usage: bench/profile.sh [NAME]..
set -euo pipefail
cd "$(dirname "$0")/.."
. bench/common.sh

# Share and name of each function of a command on the trace, without hashes: the kernel's begin with "kernel ".
sample() {
    perf record -q -e cpu-clock -F 8000 -o "$work/samples" "$@" < "$work/trace" 2>&1 > /dev/null | { grep -v '^\[' >&2 || true; }
    perf report -i "$work/samples" --stdio --no-children --no-inline -F overhead,symbol 2> /dev/null | awk '/^ +[0-9]/ {
        share = $1; where = $2; $1 = $2 = ""; sub(/^ +/, ""); sub(/::(<#[0-9a-f]+>|h[0-9a-f]+)$/, "")
        print share, (where == "[k]" ? "kernel " : "") $0
    }'
}

# The five dearest functions.
dearest() { awk 'NR <= 5 { share = $1; $1 = ""; sub(/^ +(kernel )?/, ""); print share ",\"" $0 "\"" }' "$work/functions"; }

# The shares of the kernel, of text (lines read, words and numbers, texts written) and of the machine with all else.
parts() {
    local ours='^(trace_text|trace_io|radixvm|command_line|word_runs|trace::(replay|outcome_text|shown))'
    local theirs='baseline::(main|baseline::(request|maps))' both='memchr|std::io|core::(fmt|str|num)|fmt::'
    awk -v text_names="$ours|$theirs|$both" '{ share = $1 + 0; all += share; $1 = ""; sub(/^ +/, "") }
        /^kernel / { kernel += share; next }
        $0 ~ text_names { text += share }
        END { printf "%.1f,%.1f,%.1f\n", 100 * text / all, 100 * (all - text - kernel) / all, 100 * kernel / all }' "$work/functions"
}

# Both programs on the trace, each with the word.
profile() { # NAME WORD
    sample "$program" "$2" > "$work/functions"
    dearest | sed "s/^/$1,ours,/" >> "$table"
    parts | sed "s/^/$1,ours,/" >> "$shares"
    sample "$plain" "$2" > "$work/functions"
    dearest | sed "s/^/$1,plain,/" >> "$table"
    parts | sed "s/^/$1,plain,/" >> "$shares"
}

names=("$@")
[ $# -gt 0 ] || mapfile -t names < <(tail -n +2 docs/shapes.csv | sort -t, -k5,5 -nr | head -n 6 | cut -d, -f1)
table=$work/profile.csv shares=$work/parts.csv
echo shape,program,text,machine,kernel > "$shares"
echo shape,program,share,function > "$table"
for name in "${names[@]}"; do
    bench/make_shape.sh "$name" > "$work/trace"
    profile "$name" run
done
if [ $# -eq 0 ]; then
    bench/make_growth.sh load 100000 400000 > "$work/trace"
    profile 'load among 100000 slots' run
    bench/make_growth.sh map 100000 > "$work/trace"
    profile 'maps of 100000 slots' maps
    cp "$table" "$shares" docs/
fi
cat "$table" "$shares"
