#!/usr/bin/env bash
# Writes to standard output a trace to see how the program grows. All is drawn from one generator of fixed seed (Lehmer's), so the text
# is always the same. Usage: bench/make_growth.sh KIND SIZE [LINES]
#   load SLOTS LINES   one core maps so many pages, each a mapping of its own with a free page behind it, and loads once from the first
#                      50,000 of them; then so many loads from these, in random order
#   map SLOTS LINES    the same pages mapped; then so many times one of them is mapped anew, in random order
#   lines LINES        four cores share 384 pages; of ten lines one is a call (a load or a store), and the others are walks, evictions,
#                      flushes and reviews: a machine begins at most 1,048,576 calls, so a trace of ten million lines can't have more
set -eu
awk -v kind="$1" -v size="$2" -v lines="${3:-0}" '
function draw(n) { seed = (seed * 16807) % 2147483647; return int(seed / 8) % n }
function at(page, offset) { return sprintf("0x%x%03x", 16 + page, offset) }
function map(page) { print "c0! mmap " at(2 * page, 0) " 4096 rw- pfa" }
function load(page) { print "c0! load " at(2 * page, draw(4096)) }

function slots(    i, touched) {
    print "vm 1 65536 " (size + lines > 1048576 ? size + lines : 1048576)
    for (i = 0; i < size; i++) map(i)
    touched = size < 50000 ? size : 50000
    for (i = 0; i < touched && kind == "load"; i++) load(i)
    for (i = 0; i < lines; i++) if (kind == "load") load(draw(touched)); else map(draw(size))
}
function access(core, page) {
    if (draw(3)) print "c" core "! load " at(page, draw(4096)); else print "c" core "! store " at(page, draw(4096)) " " draw(256)
}
function mixed(    i, core) {
    print "vm 4 1024 1048576"
    print "c0! mmap " at(0, 0) " 1572864 rw- pfa"
    for (i = 2; i < size; i++) {
        core = draw(4)
        if (i % 10 == 0) access(core, draw(384))
        else if (i % 10 < 5) print "c" core " walk " at(draw(384), 0)
        else if (i % 10 < 8) print "c" core " evict " at(draw(384), 0)
        else if (i % 10 == 8) print "c" core " flush"
        else print "c" core " review"
    }
}
BEGIN { seed = 20131; if (kind == "lines") mixed(); else slots() }'
