#!/usr/bin/env bash
# Writes a trace of so many loads (100,000 where left out) through 16 mapped files of 1 MiB to standard output. Two cores: the
# one maps the files shared, the other privately; each load is of a page and byte drawn by a generator of fixed seed (Lehmer's),
# so the text is always the same.
set -eu
loads=${1:-100000}
awk -v loads="$loads" '
function draw(n) { seed = (seed * 16807) % 2147483647; return int(seed / 8) % n }
BEGIN {
    seed = 20131
    print "vm 2 4096 1048576"
    for (file = 0; file < 16; file++) print "file " file " rw 1048576 " file * 7
    for (core = 0; core < 2; core++) for (file = 0; file < 16; file++)
        printf "c%d! mmap 0x%x 1048576 r-- %s %d 0\n", core, (1 + core * 16 + file) * 1048576, core ? "pf" : "sf", file
    for (n = 0; n < loads; n++) {
        core = draw(2)
        printf "c%d! load 0x%x\n", core, (1 + core * 16) * 1048576 + draw(4096) * 4096 + draw(4096)
    }
}'
