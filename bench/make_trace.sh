#!/usr/bin/env bash
# Writes a trace of so many lines (one million where left out) to standard output: one core maps 1,000 pages, and then
# stores to them and loads from them, now and then mapping one page anew.
set -eu
lines=${1:-1000000}
awk -v lines="$lines" 'BEGIN {
    # Each page that is mapped anew takes a new frame at its next access. 97 has no factor in common with the number of pages, so
    # each page has its turn to be mapped anew, and is met again.
    print "vm 1 65536 1048576"
    for (i = 0; i < lines - 1; i++) {
        page = 16 + (i * 7919) % 1000
        address = sprintf("0x%x", page * 4096 + i % 4096)
        if (i < 1000) printf "c0! mmap 0x%x 4096 rw- pfa\n", (16 + i) * 4096
        else if (i % 97 == 0) printf "c0! mmap 0x%x 4096 rw- pfa\n", page * 4096
        else if (i % 3 == 0) printf "c0! store %s %d\n", address, i % 256
        else printf "c0! load %s\n", address
    }
}'
