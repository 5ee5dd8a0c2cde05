/* Page tables and frames of one's own, beside a machine that is kept: random changes and accesses of three cores. A core's
 * words change only as it is told, frames get their bytes by the fills that are told, and each access has the reply of a plain page map.
 * After each call the words are those of radixvm_entry. Usage: driven [SEED]; status 1 at a difference. */
#include "radixvm.h"
#include <stdio.h>
#include <stdlib.h>
#include <string.h>

enum { CORES = 3, PAGES = 6, FIRST = 16, FRAMES = 24, STEPS = 4000 };

static uint64_t seed = 1;
static uint64_t words[CORES][PAGES];
static uint8_t frames[FRAMES][4096];
static uint8_t file[PAGES * 4096];
static struct { int mapped, own; uint32_t prot; const uint8_t *shown; uint8_t bytes[4096]; } plain[PAGES];
static radixvm_machine machine;

static uint32_t below(uint32_t n) {
    seed = seed * 6364136223846793005u + 1442695040888963407u;
    return (uint32_t)(seed >> 33) % n;
}

static void fail(const char *what) {
    printf("%s\n", what);
    exit(1);
}

static void check(uint32_t status) {
    if (status != RADIXVM_OK) fail(radixvm_text(status));
}

static void drop(uint32_t core, const radixvm_drop *told) {
    for (uint64_t page = told->first; page < told->end; page++)
        if (page >= FIRST && page < FIRST + PAGES) words[core][page - FIRST] = 0;
}

/* The interrupt of a core: the words go between the two takes of a message. */
static void serve(uint32_t core) {
    radixvm_drop told, half = {0, 0, 0, 0};
    for (;;) {
        check(radixvm_take(&machine, core, &told));
        if (told.what == RADIXVM_DROP_NONE) break;
        if (told.from == core || told.from >= CORES) fail("a message of another core is told");
        if (told.what == RADIXVM_DROP_TLB && (half.first != told.first || half.end != told.end || half.from != told.from))
            fail("the second take tells another message");
        if (told.what == RADIXVM_DROP_TABLES) drop(core, &told);
        half = told;
    }
}

static void install(uint32_t core, const radixvm_filled *filled) {
    if (filled->fill == RADIXVM_FILL_ZERO) memset(frames[filled->frame], 0, 4096);
    if (filled->fill == RADIXVM_FILL_FRAME) memcpy(frames[filled->frame], frames[filled->from], 4096);
    if (filled->fill == RADIXVM_FILL_FILE) memcpy(frames[filled->frame], file + filled->from * 4096, 4096);
    words[core][filled->page - FIRST] = filled->word;
}

static void compare(void) {
    uint64_t word;
    for (uint32_t core = 0; core < CORES; core++)
        for (uint64_t page = 0; page < PAGES; page++) {
            check(radixvm_entry(&machine, core, FIRST + page, &word));
            if (word != words[core][page]) fail("an entry has changed, and nothing told so");
        }
}

/* Waits for the other cores until the call has its reply. */
static void end(uint32_t core, radixvm_outcome *outcome, radixvm_filled *filled) {
    radixvm_drop own;
    while (outcome->kind < RADIXVM_MAPPED) {
        if (outcome->kind == RADIXVM_WAIT_ACKS)
            for (uint32_t other = 0; other < CORES; other++)
                if (outcome->value >> other & 1) serve(other);
        check(radixvm_go_on(&machine, core, outcome, filled, &own));
        if (own.what != RADIXVM_DROP_NONE) drop(core, &own);
    }
}

static void change(uint32_t core) {
    radixvm_event event = {0, core, 0, 0, 0, 0, 0, 0, 0};
    radixvm_outcome outcome;
    radixvm_filled filled;
    radixvm_drop own;
    const uint32_t first = below(PAGES), count = 1 + below(PAGES - first), backed = below(3);
    int all = 1;
    for (uint32_t page = first; page < first + count; page++) all = all && plain[page].mapped;
    event.kind = 1 + below(3);
    event.at = (uint64_t)(FIRST + first) * 4096;
    event.len = (uint64_t)count * 4096;
    event.prot = below(2) ? 3 : 1 + below(7);
    event.flags = RADIXVM_MAP_FIXED | (backed == 1 ? RADIXVM_MAP_SHARED : RADIXVM_MAP_PRIVATE) | (backed ? 0 : RADIXVM_MAP_ANONYMOUS);
    event.off = (uint64_t)first * 4096;
    check(radixvm_change(&machine, &event, &outcome, &own));
    if (own.what == RADIXVM_DROP_OWN) drop(core, &own);
    else if (own.what != RADIXVM_DROP_NONE || outcome.kind == RADIXVM_WAIT_ACKS || outcome.kind == RADIXVM_DONE)
        fail("its own pages aren't told");
    end(core, &outcome, &filled);
    if (outcome.kind != (event.kind == RADIXVM_MMAP ? RADIXVM_MAPPED : RADIXVM_DONE)) {
        if (event.kind != RADIXVM_MPROTECT || all) fail("a change failed");
        return;
    }
    for (uint32_t page = first; page < first + count; page++) {
        if (event.kind == RADIXVM_MMAP) {
            memset(plain[page].bytes, 0, 4096);
            plain[page].own = backed == 0;
            plain[page].shown = backed ? file + page * 4096 : NULL;
            plain[page].mapped = backed == 1 ? 2 : 1;
        }
        if (event.kind == RADIXVM_MUNMAP) plain[page].mapped = 0;
        else plain[page].prot = event.prot;
    }
}

/* An access by the core's word, after a fault where the word doesn't permit it. */
static void touch(uint32_t core) {
    const uint32_t page = below(PAGES), offset = below(4096), store = below(2);
    uint64_t *word = &words[core][page], back;
    const uint64_t at = (uint64_t)(FIRST + page) * 4096 + offset;
    for (int tries = 0; !(*word & 1) || (store && !(*word & 2)); tries++) {
        radixvm_outcome outcome;
        radixvm_filled filled;
        check(radixvm_touch(&machine, core, at, store ? RADIXVM_STORE : RADIXVM_LOAD, &outcome, &filled));
        if (outcome.kind == RADIXVM_WAIT_ACKS) *word = 0; /* the page gets a copy */
        end(core, &outcome, &filled);
        if (outcome.kind == RADIXVM_NO_FRAME && tries < 2) {
            check(radixvm_reclaim(&machine, &back));
            continue;
        }
        if (outcome.kind == RADIXVM_NO_FRAME) fail("no frame came back");
        const uint32_t right = store ? RADIXVM_PROT_WRITE : RADIXVM_PROT_READ | RADIXVM_PROT_WRITE | RADIXVM_PROT_EXEC;
        const int permitted = plain[page].mapped && plain[page].prot & right;
        if (outcome.kind != (uint32_t)(store ? RADIXVM_DONE : RADIXVM_BYTE)) {
            if (permitted && (store || plain[page].prot & RADIXVM_PROT_READ)) fail("a fault is a signal, and the map permits the access");
            return;
        }
        if (!permitted) fail("a fault was served, and the map forbids the access");
        install(core, &filled);
        if (tries > 2) fail("the core faults again and again");
    }
    uint8_t *byte = &frames[*word >> 12 & 0xffff][offset];
    const uint8_t *shown = plain[page].mapped == 2 ? plain[page].shown : plain[page].own ? plain[page].bytes : plain[page].shown;
    if (*byte != shown[offset]) fail("a byte isn't the plain map's");
    if (!store) return;
    *byte = (uint8_t)below(256);
    if (plain[page].mapped == 2) file[page * 4096 + offset] = *byte;
    else {
        if (!plain[page].own) memcpy(plain[page].bytes, plain[page].shown, 4096);
        plain[page].own = 1;
        plain[page].bytes[offset] = *byte;
    }
}

int main(int argc, char **argv) {
    static uint8_t given[PAGES * 4096];
    const radixvm_setup setup = {CORES, FRAMES, STEPS * 4, 0};
    const radixvm_file files[] = {{RADIXVM_O_RDWR, 0, sizeof given}};
    if (argc > 1) seed = strtoull(argv[1], NULL, 0);
    for (size_t i = 0; i < sizeof given; i++) given[i] = file[i] = (uint8_t)below(256);
    if (radixvm_new(&setup, files, 1, given, sizeof given, &machine).status != RADIXVM_OK) fail("no machine");
    for (int step = 0; step < STEPS; step++) {
        const uint32_t core = below(CORES);
        if (below(4)) touch(core);
        else change(core);
        compare();
    }
    radixvm_free(&machine);
    printf("%d calls of three cores\n", STEPS);
    return 0;
}
