#!/usr/bin/env bash
# Writes a trace of so many lines (one million where left out) to standard output. Four cores share 384 pages in 24 blocks of
# 16, and have few frames more than that. A round: loads and stores of all cores, seven of eight in two blocks; walks and
# evictions; one core changes some pages (munmap, mprotect, or mmap over them), the other cores that used these pages take
# its message twice each, and it finishes; flushes and reviews, by which the frames of lost pages come back. All is drawn
# from one generator of fixed seed (Lehmer's), so the text is always the same.
set -eu
lines=${1:-1000000}
awk -v lines="$lines" '
function draw(n) { seed = (seed * 16807) % 2147483647; return int(seed / 8) % n }
function emit(line) { print line; if (++count >= lines) exit }
function address(page) { return sprintf("0x%x", (16 + page) * 4096) }
# A page of the two blocks in use, or now and then any page.
function some_page() { return draw(8) ? (draw(2) ? block : before) * 16 + draw(16) : draw(384) }
function access(core, page,    at) {
    at = sprintf("0x%x", (16 + page) * 4096 + draw(4096))
    if (draw(3) == 0) { emit("c" core "! store " at " " draw(256)); if (rights[page] == "rw-") used[page, core] = 1 }
    else { emit("c" core "! load " at); if (rights[page] != "") used[page, core] = 1 }
}
function map(core, first, pages,    p) {
    emit("c" core "! mmap " address(first) " " pages * 4096 " rw- pfa")
    for (p = first; p < first + pages; p++) rights[p] = "rw-"
}
# A core changes pages that others may have used: they are awaited, and one of them tries the first page meanwhile.
function change(core, kind, first, pages,    c, p, to, probe, awaited) {
    if (kind == "munmap") { to = ""; emit("c" core "! munmap " address(first) " " pages * 4096) }
    else if (kind == "mmap") { to = "rw-"; map(core, first, pages) }
    else { to = kind; emit("c" core "! mprotect " address(first) " " pages * 4096 " " kind) }
    probe = -1; awaited = 0
    for (c = 0; c < 4; c++) for (p = first; p < first + pages && c != core; p++) if (used[p, c]) {
        emit("c" c " take")
        if (probe < 0) { probe = c; emit("c" c "! load " address(first)) }
        emit("c" c " take"); awaited = 1
        break
    }
    if (awaited) emit("c" core " finish")
    for (p = first; p < first + pages; p++) {
        rights[p] = to
        for (c = 0; c < 4; c++) delete used[p, c]
    }
    if (probe >= 0) { emit("c" probe " finish"); if (to != "") used[first, probe] = 1 }
}
function round(r,    i, c, core, first) {
    before = block; block = (r * 7) % 24; core = r % 4
    for (i = 0; i < 160; i++) access(draw(4), some_page())
    for (i = 0; i < 8; i++) { emit("c" draw(4) " evict " address(some_page())); emit("c" draw(4) " walk " address(some_page())) }
    for (i = 0; i < 40; i++) access(draw(4), some_page())
    first = (draw(2) ? block : before) * 16 + draw(2) * 8
    if (r % 4 == 0) { change(core, "r--", first, 8); lent = first }
    else if (r % 4 == 1) { change(core, "rw-", lent, 8); change(core, "mmap", first, 4) }
    else if (r % 4 == 2) { change(core, "munmap", first, 8); map((core + 1) % 4, first, 8) }
    else { change(core, "munmap", first, 6); map(core, first, 6) }
    for (i = 0; i < 5; i++) emit("c" core " flush")
    for (c = 0; c < 4; c++) for (i = 0; i < 2; i++) emit("c" c " flush")
    for (c = 0; c < 4; c++) for (i = 0; i < 3; i++) emit("c" c " review")
}
BEGIN {
    seed = 20131
    emit("vm 4 416 1048576")
    for (b = 0; b < 24; b++) map(b % 4, b * 16, 16)
    for (r = 0; ; r++) round(r)
}'
