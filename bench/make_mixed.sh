#!/usr/bin/env bash
# Writes a trace of mixed lines to standard output, of so many lines (one million where left out) and cores (1 to 8, 8 where left
# out); the last round may end a few lines later. Loads, stores and fetches, three of four near the core's last; mmap of one page, of
# many, and of files, shared and private; munmap and mprotect of one page and of many; takes, flushes and reviews. Addresses and sizes
# are skewed: small ones are drawn most. Who waits for other cores goes on once they took its message. All is drawn from one generator
# of fixed seed (Lehmer's), so the text is always the same. Usage: bench/make_mixed.sh [LINES [CORES]]
set -eu
awk -v lines="${1:-1000000}" -v cores="${2:-8}" '
function draw(n) { seed = (seed * 16807) % 2147483647; return int(seed / 8) % n }
# A number below n, the small ones most: half of all are below an eighth of n.
function skewed(n,    part) { part = draw(1048576) / 1048576; return int(n * part * part * part) }
function emit(line) { print line; count++ }
# In two parts, since some awks write no number of more than 32 bits.
function at(page, offset) { return sprintf("0x%x%03x", 16 + page, offset) }
# Any page, or one of those that the core likes best.
function some_page(core) { return draw(4) ? (core * 2048 + skewed(2048)) % pages : skewed(pages) }
function allows(kind, prot) { return prot == "" ? 0 : kind == "store" ? prot ~ /w/ : kind == "fetch" ? prot ~ /x/ : prot != "---" }

# The other cores that used pages of a range take the message of this one, which goes on then.
function wait_for_others(core, first, count,    c, p, waits) {
    for (c = 0; c < cores; c++) wanted[c] = 0
    for (p = first; p < first + count; p++) if (p in users) for (c = 0; c < cores; c++) if (index(users[p], c)) wanted[c] = 1
    wanted[core] = 0
    for (c = 0; c < cores; c++) if (wanted[c]) { emit("c" c " take"); emit("c" c " take"); waits = 1 }
    if (waits) emit("c" core " finish")
}
# The pages have these rights from now on, and nobody has used them.
function change(core, first, count, prot, from,    p) {
    wait_for_others(core, first, count)
    for (p = first; p < first + count; p++) {
        delete users[p]
        if (from != "") shown[p] = from
        rights[p] = prot
    }
}
function access(core,    page, kind) {
    page = draw(4) ? last[core] : some_page(core)
    if (draw(4) == 0) page = (page + draw(8)) % pages
    last[core] = page
    kind = draw(100); kind = kind < 66 ? "load" : kind < 94 ? "store" : "fetch"
    emit("c" core "! " kind " " at(page, draw(4096)) (kind == "store" ? " " draw(256) : ""))
    if (!allows(kind, rights[page])) return
    if (kind == "store" && shown[page] == "private") {
        wait_for_others(core, page, 1)
        users[page] = ""; shown[page] = "own"
    }
    if (!index(users[page], core)) users[page] = users[page] core
}
function map(core, first, count, prot) {
    emit("c" core "! mmap " at(first, 0) " " count * 4096 " " prot " pfa")
    change(core, first, count, prot, "own")
}
function map_file(core, first, count,    file, how) {
    file = draw(files); how = draw(2) ? "private" : "shared"
    emit("c" core "! mmap " at(first, 0) " " count * 4096 " rw- " (how == "private" ? "pf" : "sf") " " file " " skewed(48) * 4096)
    change(core, first, count, "rw-", how)
}
function unmap(core, first, count) {
    emit("c" core "! munmap " at(first, 0) " " count * 4096)
    change(core, first, count, "", "")
}
function protect(core, first, count, prot,    p) {
    emit("c" core "! mprotect " at(first, 0) " " count * 4096 " " prot)
    for (p = first; p < first + count; p++) if (rights[p] == "") return
    change(core, first, count, prot, "")
}
function some_prot() { return prots[1 + skewed(5)] }
function deed(core,    kind, first, many) {
    kind = draw(100); first = some_page(core); many = 1 + skewed(draw(8) ? 64 : 512)
    if (first + many > pages) many = pages - first
    if (kind < 86) access(core)
    else if (kind < 90) map(core, first, 1, some_prot())
    else if (kind < 92) map(core, first, many, some_prot())
    else if (kind < 93) map_file(core, first, 1 + skewed(many))
    else if (kind < 95) unmap(core, first, 1)
    else if (kind < 96) unmap(core, first, skewed(many) + 1)
    else if (kind < 98) protect(core, first, 1, some_prot())
    else protect(core, first, 1 + skewed(many), some_prot())
}
# Counts are flushed, an epoch ends, and frames of lost pages come back.
function give_back(    c, i) {
    for (c = 0; c < cores; c++) { emit("c" c " take"); emit("c" c " finish") }
    for (c = 0; c < cores; c++) for (i = 0; i < 66; i++) emit("c" c " flush")
    for (c = 0; c < cores; c++) for (i = 0; i < 1024 / cores; i++) emit("c" c " review")
}
BEGIN {
    seed = 20131; pages = 16384; files = 8
    split("rw- rwx r-- r-x ---", prots, " ")
    emit("vm " cores " 65536 1048576")
    for (i = 0; i < files; i++) emit("file " i " rw " 4096 * (64 + draw(193)) " " i * 7)
    for (i = 0; i < cores; i++) { last[i] = (i * 2048) % pages; map(i, last[i], 2048, "rw-") }
    while (count < lines) { for (i = 0; i < 8000 && count < lines; i++) deed(draw(cores)); give_back() }
}'
