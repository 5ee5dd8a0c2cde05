#!/usr/bin/env bash
# Writes the trace of one shape to standard output, of so many lines (its own count where left out; a shape may end its last round a
# few lines later, and touches and sparse pages have one count). What is drawn comes from one generator of fixed seed (Lehmer's), so
# the text is always the same. Usage: bench/make_shape.sh NAME [LINES], or bench/make_shape.sh for the list of names and their counts.
set -eu
cd "$(dirname "$0")"

# Each shape, its number of lines, and what it does.
shapes='one-core 1000000 one core maps 1,000 pages one by one, stores and loads, and now and then maps one anew
four-cores 1000000 four cores share 384 pages: misses, evictions, shootdowns, flushes and reviews
hits-one 1000000 stores and loads on one page, which the TLB has
hits-thousand 1000000 stores and loads over 1,000 pages, of which the TLB has 64
touch-upwards 65002 each of 65,000 pages loaded for the first time, from the first on
touch-random 65002 the same in random order
map-one 500000 one page mapped and unmapped
map-thousand 20000 1,000 pages mapped and unmapped
map-overlap 200000 ranges of up to 200 pages mapped and unmapped where others lie
protect 200000 mprotect of up to 64 pages, and an access to one of them
refused 500000 accesses that the rights forbid, or of unmapped pages
faults 500000 accesses that fault on pages that have a frame, after mprotect
files-sixteen 100000 loads through 16 files of 1 MiB, which one core maps shared and another privately
files-shared 500000 two cores store and load through four files of 1 MiB
files-private 200000 two cores read private pages of a file, and one stores: shootdown and copy
files-stored 500000 64 cores store, and one line in four loads, through 16 files of 1 MiB that are mapped shared
shootdowns 200000 a page mapped, loaded by 64 cores, and unmapped, which 63 of them have to acknowledge
sparse 30001 10,000 pages 1,000 apart mapped, stored to, and loaded from
protect-thousand 20000 mprotect of 1,000 pages, to rw- every other time, while a file is open
protect-file 200000 as protect, while a file is open
no-frame 500000 loads of untouched pages, after the last free frame is taken
first-stores 65256 the first store to each of 65,000 private pages of a file
read-then-store 130256 each of 65,000 private pages of a file loaded, and then stored to
idle-reviews 500000 flushes and reviews of cores that have nothing to flush or review
gib-touched 60000 1 GiB mapped, a page in each 2 MiB of it stored to, and all unmapped
behind-fragments 20000 mappings without a hint, whose room is behind 16,000 single pages'

[ $# -gt 0 ] || { echo "$shapes"; exit; }
default=$(awk -v name="$1" '$1 == name { print $2 }' <<< "$shapes")
[ -n "$default" ] || { echo "bench/make_shape.sh: no shape $1" >&2; exit 2; }
lines=${2:-$default}
case $1 in
    one-core) exec ./make_trace.sh "$lines" ;;
    four-cores) exec ./make_trace_four.sh "$lines" ;;
    files-sixteen) exec ./make_trace_files.sh "$lines" ;;
esac
awk -v shape="$1" -v lines="$lines" '
function draw(n) { seed = (seed * 16807) % 2147483647; return int(seed / 8) % n }
function emit(line) { print line; count++ }
# In two parts, since some awks write no number of more than 32 bits.
function at(page, offset) { return sprintf("0x%x%03x", 16 + page, offset) }
function map(page, pages, prot) { emit("c0! mmap " at(page, 0) " " pages * 4096 " " prot " pfa") }
function unmap(page, pages) { emit("c0! munmap " at(page, 0) " " pages * 4096) }
function load(core, page) { emit("c" core "! load " at(page, count % 4096)) }
function store(core, page) { emit("c" core "! store " at(page, count % 4096) " " count % 256) }
function access(core, page) { if (count % 3) load(core, page); else store(core, page) }

function hits(pages) {
    emit("vm 1 1024 1048576")
    map(0, pages, "rw-")
    while (count < lines) access(0, (count * 7919) % pages)
}
function touches(pages, is_shuffled,    i, j, other) {
    emit("vm 1 65536 1048576")
    map(0, pages, "rw-")
    for (i = 0; i < pages; i++) order[i] = i
    for (i = pages - 1; i > 0 && is_shuffled; i--) {
        j = draw(i + 1); other = order[i]; order[i] = order[j]; order[j] = other
    }
    for (i = 0; i < pages; i++) load(0, order[i])
}
function cycles(pages,    page) {
    emit("vm 1 1024 1048576")
    while (count < lines) { page = draw(2048); map(page, pages, "rw-"); unmap(page, pages) }
}
function overlaps(    page, pages) {
    emit("vm 1 1024 1048576")
    while (count < lines) {
        page = draw(4096); pages = 1 + draw(200)
        if (draw(5) < 3) map(page, pages, draw(2) ? "rw-" : "r--"); else unmap(page, pages)
    }
}
function protects(has_file,    i, page, pages) {
    emit("vm 1 8192 1048576")
    if (has_file) emit("file 0 rw 4096 7")
    map(0, 4096, "rw-")
    for (i = 0; i < 4096; i += 2) store(0, i)
    split("r-- rw- rwx ---", prots, " ")
    while (count < lines) {
        page = draw(4096 - 64); pages = 1 + draw(64)
        emit("c0! mprotect " at(page, 0) " " pages * 4096 " " prots[1 + draw(4)])
        access(0, page + draw(pages))
    }
}
function protects_all(    round) {
    emit("vm 1 8192 1048576")
    emit("file 0 rw 4096 7")
    map(0, 1000, "rw-")
    for (round = 0; count < lines; round++) {
        emit("c0! mprotect " at(0, 0) " " 1000 * 4096 " " (round % 2 ? "rw-" : "r--"))
        load(0, draw(1000))
    }
}
function no_frames(    i) {
    emit("vm 1 64 1048576")
    map(0, 4096, "rw-")
    for (i = 0; i < 64; i++) load(0, i)
    while (count < lines) load(0, 64 + draw(4032))
}
# Each 256 pages show the file anew. A page that is read shows the frame of the file, and its store gives it one of its own.
function private_pages(is_read,    i) {
    emit("vm 1 65536 1048576")
    emit("file 0 rw 1048576 7")
    for (i = 0; i < 254; i++) emit("c0! mmap " at(i * 256, 0) " 1048576 rw- pf 0 0")
    for (i = 0; i < 65000 && count < lines; i++) { if (is_read) load(0, i); store(0, i) }
}
function idle_reviews(    core) {
    emit("vm 4 64 1048576")
    while (count < lines) { core = draw(4); emit("c" core (count % 2 ? " flush" : " review")) }
}
function gib_touched(    i, round) {
    emit("vm 1 65536 1048576")
    for (round = 0; round < 127 && count < lines; round++) {
        map(0, 262144, "rw-")
        for (i = 0; i < 512; i++) store(0, i * 512 + round)
        unmap(0, 262144)
    }
}
# Each second page is mapped, from the beginning of the window of core 0 on.
function behind_fragments(    i) {
    emit("vm 1 64 1048576")
    for (i = 0; i < int(lines * 4 / 5); i++) emit(sprintf("c0! mmap 0x80%05x000 4096 rw- pfa", 2 * i))
    while (count < lines) emit("c0! mmap 0 8192 rw- pa")
}
function refusals(    page) {
    emit("vm 1 1024 1048576")
    map(0, 250, "r--"); map(250, 250, "rw-"); map(500, 250, "---")
    for (page = 0; page < 500; page += 2) load(0, page)
    while (count < lines) {
        page = draw(250)
        if (count % 5 == 0) store(0, page)
        else if (count % 5 == 1) emit("c0! fetch " at(250 + page, 0))
        else if (count % 5 == 2) load(0, 500 + page)
        else if (count % 5 == 3) load(0, 750 + page)
        else emit("c0! load " (page % 2 ? "0x10" : "0x800000000000"))
    }
}
function faults(    i) {
    emit("vm 1 1024 1048576")
    map(0, 1000, "rw-")
    for (i = 0; i < 1000; i++) store(0, i)
    while (count < lines) {
        emit("c0! mprotect " at(0, 0) " " 1000 * 4096 " rw-")
        for (i = 0; i < 1000; i++) access(0, (i * 389) % 1000)
    }
}
function shared_files(    file) {
    emit("vm 2 4096 1048576")
    for (file = 0; file < 4; file++) emit("file " file " rw 1048576 " file * 7)
    for (file = 0; file < 4; file++) emit("c0! mmap " at(file * 256, 0) " 1048576 rw- sf " file " 0")
    while (count < lines) access(draw(2), draw(1024))
}
# Core 0 maps 64 pages anew, which core 1 had used; both read them; core 0 stores to every other one, for which it gets a copy.
function private_round(round,    page) {
    emit("c0! mmap " at(0, 0) " 262144 rw- pf 0 " (round % 4) * 262144)
    if (round) { emit("c1 take"); emit("c1 take"); emit("c0 finish") }
    for (page = 0; page < 64; page++) { load(0, page); load(1, page) }
    for (page = 0; page < 64; page += 2) { store(0, page); emit("c1 take"); emit("c1 take"); emit("c0 finish"); load(1, page) }
}
# The counts of both cores are flushed, two epochs end, and the lost frames come back.
function give_back(    i) {
    for (i = 0; i < 66; i++) { emit("c0 flush"); emit("c1 flush") }
    for (i = 0; i < 2; i++) { emit("c0 flush"); emit("c1 flush") }
    for (i = 0; i < 560; i++) emit("c0 review")
}
function private_files(    round) {
    emit("vm 2 4096 1048576")
    emit("file 0 rw 1048576 3")
    for (round = 0; count < lines; round++) { private_round(round); if (round % 16 == 15) give_back() }
}
function stored_files(    file) {
    emit("vm 64 8192 1048576")
    for (file = 0; file < 16; file++) emit("file " file " rw 1048576 " file * 7)
    for (file = 0; file < 16; file++) emit("c0! mmap " at(file * 256, 0) " 1048576 rw- sf " file " 0")
    while (count < lines) if (count % 4) store(draw(64), draw(4096)); else load(draw(64), draw(4096))
}
# Each round takes a frame anew, which none gives back.
function shootdowns(    page, core) {
    emit("vm 64 4096 1048576")
    while (count < lines) {
        page = draw(64)
        map(page, 1, "rw-")
        for (core = 0; core < 64; core++) load(core, page)
        unmap(page, 1)
        for (core = 1; core < 64; core++) { emit("c" core " take"); emit("c" core " take") }
        emit("c0 finish")
    }
}
function sparse(pages,    i) {
    emit("vm 1 65536 1048576")
    for (i = 0; i < pages; i++) map(i * 1000, 1, "rw-")
    for (i = 0; i < pages; i++) store(0, i * 1000)
    for (i = 0; i < pages; i++) load(0, (i * 7919) % pages * 1000)
}
BEGIN {
    seed = 20131
    if (shape == "hits-one") hits(1)
    if (shape == "hits-thousand") hits(1000)
    if (shape == "touch-upwards") touches(65000, 0)
    if (shape == "touch-random") touches(65000, 1)
    if (shape == "map-one") cycles(1)
    if (shape == "map-thousand") cycles(1000)
    if (shape == "map-overlap") overlaps()
    if (shape == "protect") protects(0)
    if (shape == "refused") refusals()
    if (shape == "faults") faults()
    if (shape == "files-shared") shared_files()
    if (shape == "files-private") private_files()
    if (shape == "files-stored") stored_files()
    if (shape == "shootdowns") shootdowns()
    if (shape == "sparse") sparse(10000)
    if (shape == "protect-thousand") protects_all()
    if (shape == "protect-file") protects(1)
    if (shape == "no-frame") no_frames()
    if (shape == "first-stores") private_pages(0)
    if (shape == "read-then-store") private_pages(1)
    if (shape == "idle-reviews") idle_reviews()
    if (shape == "gib-touched") gib_touched()
    if (shape == "behind-fragments") behind_fragments()
}'
