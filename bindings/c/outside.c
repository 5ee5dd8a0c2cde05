/* Cores whose MMU obeys the library, in random order, in one thread: tables that lag behind the library's entries until the last moment that the
 * duties of radixvm.h allow, TLBs that take words in at any time and keep them without bound, and bytes of frames that lie here, outside the library.
 * Each access, by whatever translation hardware may still have, is compared with a plain page map of one's own.
 * Usage: outside [SEED [BUG]]; status 1 at a difference. BUG plants an error of the handler: 1, a core acknowledges a message with translations
 * left in its TLB; 2, it keeps those of its own change; 3, a new frame keeps its old bytes. */
#include "radixvm.h"
#include <stdio.h>
#include <stdlib.h>
#include <string.h>

enum { CORES = 3, PAGES = 6, FRAMES = 24, FILE_PAGES = 3, FILE_LENGTH = 10000, PLACES = 4, MOST = 64, STEPS = 40000 };
enum { NO_FLUSH = 1, OWN_KEPT, NO_ZEROS };
static const uint64_t FIRST = 0x10000;
static const uint64_t offsets[PLACES] = {0, 1, 2047, 4095}; /* the bytes of a page that are looked at */

static uint64_t seed = 1;
static int bug;
static radixvm_machine machine;
static uint8_t outside[FRAMES][PLACES], file[FILE_PAGES * 4096]; /* bytes of frames; the file's own, with zeros after its end */

static uint64_t below(uint64_t n) {
    seed = seed * 6364136223846793005u + 1442695040888963407u;
    return (seed >> 33) % n;
}

static void fail(const char *what, uint64_t core, uint64_t page) {
    printf("core %llu, page %llu: %s\n", (unsigned long long)core, (unsigned long long)page, what);
    exit(1);
}

static void must(uint32_t status) {
    if (status != RADIXVM_OK) fail(radixvm_text(status), 0, 0);
}

/* ---- the plain page map */

static struct page {
    uint32_t prot;
    int mapped, shows_file, is_private; /* a private page that has its copy doesn't show the file any more */
    uint64_t of_file;
    uint8_t bytes[PLACES];
} pages[PAGES];
static uint8_t shared[FILE_PAGES][PLACES]; /* what pages that show the file see */

/* The reply that is due; a byte is left in `value`. */
static uint32_t due(const struct page *page, uint32_t kind, uint64_t place, uint64_t *value) {
    uint32_t needs = kind == RADIXVM_STORE ? RADIXVM_PROT_WRITE : kind == RADIXVM_FETCH ? RADIXVM_PROT_EXEC : 7u;
    if (!page->mapped) return RADIXVM_SEGV_MAPERR;
    if (!(page->prot & needs)) return RADIXVM_SEGV_ACCERR;
    if (page->shows_file && page->of_file >= FILE_PAGES) return RADIXVM_BUS;
    *value = page->shows_file ? shared[page->of_file][place] : page->bytes[place];
    return kind == RADIXVM_STORE ? RADIXVM_DONE : RADIXVM_BYTE;
}

static void copy_own(struct page *page) {
    if (!page->shows_file || !page->is_private) return;
    memcpy(page->bytes, shared[page->of_file], PLACES);
    page->shows_file = 0;
}

static void store(struct page *page, uint64_t place, uint8_t byte) {
    copy_own(page);
    if (page->shows_file) shared[page->of_file][place] = byte;
    else page->bytes[place] = byte;
}

static void change_map(const radixvm_event *event, const radixvm_outcome *told) {
    uint64_t first = event->at / 4096 - FIRST, end = first + event->len / 4096;
    int unmapped = 0;
    for (uint64_t p = first; p < end; p++) unmapped |= !pages[p].mapped;
    if ((told->kind == RADIXVM_REFUSED) != (event->kind == RADIXVM_MPROTECT && unmapped)) fail("a change has another reply", event->core, first);
    for (uint64_t p = first; p < end && told->kind != RADIXVM_REFUSED; p++) {
        if (event->kind == RADIXVM_MPROTECT) { pages[p].prot = event->prot; continue; }
        memset(&pages[p], 0, sizeof pages[p]);
        pages[p].mapped = event->kind == RADIXVM_MMAP, pages[p].prot = event->prot;
        pages[p].shows_file = pages[p].mapped && !(event->flags & RADIXVM_MAP_ANONYMOUS);
        pages[p].is_private = (event->flags & RADIXVM_MAP_PRIVATE) != 0, pages[p].of_file = event->off / 4096 + p - first;
    }
}

/* ---- cores: real words, a TLB, and a handler */

static struct core {
    uint64_t words[PAGES], tlb[PAGES][MOST];
    int count[PAGES], in_call;
    radixvm_event asked;        /* the touch or change that waits */
    radixvm_drop message, owed; /* what is to be dropped before the next take, and before the program goes on */
} cores[CORES];

static int permits(uint64_t word, uint32_t kind) {
    return word & 1 && (kind == RADIXVM_STORE ? (word & 2) != 0 : kind == RADIXVM_LOAD || !(word >> 63));
}

static void walk(struct core *core, uint64_t page) {
    if (core->words[page] & 1 && core->count[page] < MOST) core->tlb[page][core->count[page]++] = core->words[page];
}

static void lose(struct core *core, uint64_t page) {
    if (core->count[page] == 0) return;
    uint64_t lost = below((uint64_t)core->count[page]);
    core->tlb[page][lost] = core->tlb[page][--core->count[page]];
}

/* Clears the words, and flushes, where the handler does that. */
static void drop(struct core *core, radixvm_drop *pages_told, int flushes) {
    for (uint64_t p = pages_told->first; p < pages_told->end; p++) {
        core->words[p - FIRST] = 0;
        if (flushes) core->count[p - FIRST] = 0;
    }
    pages_told->what = RADIXVM_DROP_NONE;
}

static void fill(const radixvm_filled *filled) {
    uint8_t *to = outside[filled->frame];
    for (uint64_t place = 0; place < PLACES && filled->fill != RADIXVM_FILL_NONE; place++) {
        if (filled->fill == RADIXVM_FILL_FRAME) to[place] = outside[filled->from][place];
        else if (filled->fill == RADIXVM_FILL_FILE) to[place] = file[filled->from * 4096 + offsets[place]];
        else if (bug != NO_ZEROS) to[place] = 0;
    }
}

/* What a touch or change has come to: its fill is made, its own range is owed, and where it ended the map changes, or the word is installed. */
static void come_to(uint32_t c, const radixvm_outcome *told, const radixvm_filled *filled, const radixvm_drop *own) {
    struct core *core = &cores[c];
    uint64_t value, back, page = core->asked.at / 4096 - FIRST;
    fill(filled);
    if (core->asked.kind == RADIXVM_STORE && filled->fill != RADIXVM_FILL_NONE) copy_own(&pages[page]);
    if (own->what == RADIXVM_DROP_OWN && bug != OWN_KEPT) core->owed = *own;
    core->in_call = told->kind <= RADIXVM_WAIT_ACKS;
    if (core->in_call) return;
    if (told->kind == RADIXVM_NO_FRAME) must(radixvm_reclaim(&machine, &back));
    else if (core->asked.kind <= RADIXVM_MPROTECT) change_map(&core->asked, told);
    else if (told->kind != due(&pages[page], core->asked.kind, 0, &value)) fail("a fault comes to another reply", c, page);
    if (core->asked.kind <= RADIXVM_MPROTECT) return;
    core->words[page] = told->kind == RADIXVM_BYTE || told->kind == RADIXVM_DONE ? filled->word : 0;
    core->count[page] = 0;
    if (core->words[page] && !permits(core->words[page], core->asked.kind)) fail("the word doesn't permit the access", c, page);
}

static uint64_t accesses, faults, waits;

/* An access by one of the translations that the TLB may have; without one, a walk or a fault comes first. */
static void access_byte(uint32_t c) {
    struct core *core = &cores[c];
    uint64_t page = below(PAGES), place = below(PLACES), value = 0;
    uint32_t kind = RADIXVM_LOAD + (uint32_t)below(3);
    uint8_t byte = (uint8_t)below(256);
    if (core->count[page] == 0 || !below(4)) walk(core, page);
    uint64_t word = core->count[page] ? core->tlb[page][below((uint64_t)core->count[page])] : 0;
    if (!permits(word, kind)) {
        radixvm_outcome told = {0, 0};
        radixvm_filled filled = {0, 0, 0, 0, 0, 0};
        radixvm_drop own = {0, 0, 0, 0};
        radixvm_event asked = {kind, c, (FIRST + page) * 4096 + offsets[place], 0, 0, 0, 0, 0, 0};
        core->asked = asked, faults++;
        must(radixvm_touch(&machine, c, asked.at, kind, &told, &filled));
        come_to(c, &told, &filled, &own);
        return;
    }
    uint8_t *real = &outside[word >> 12 & 0xffffffff][place];
    uint32_t reply = due(&pages[page], kind, place, &value);
    if (reply != (uint32_t)(kind == RADIXVM_STORE ? RADIXVM_DONE : RADIXVM_BYTE)) fail("an access is served that isn't due", c, page);
    if (kind != RADIXVM_STORE && *real != value) fail("another byte", c, page);
    if (kind == RADIXVM_STORE) *real = byte, store(&pages[page], place, byte);
    accesses++;
}

static void change(uint32_t c) {
    radixvm_outcome told = {0, 0};
    radixvm_filled none = {0, 0, 0, 0, 0, 0};
    radixvm_drop own = {0, 0, 0, 0};
    uint64_t page = below(PAGES), how = below(8), count = 1 + below(PAGES - page > 3 ? 3 : PAGES - page);
    radixvm_event asked = {RADIXVM_MMAP, c, (FIRST + page) * 4096, count * 4096, 0, below(FILE_PAGES + 1) * 4096, (uint32_t)below(8), RADIXVM_MAP_FIXED, 0};
    if (below(2)) asked.prot |= RADIXVM_PROT_READ | RADIXVM_PROT_WRITE;
    asked.flags |= how == 4 ? RADIXVM_MAP_SHARED : RADIXVM_MAP_PRIVATE;
    if (how < 2) asked.kind = how ? RADIXVM_MUNMAP : RADIXVM_MPROTECT;
    else if (how < 4) asked.flags |= RADIXVM_MAP_ANONYMOUS;
    cores[c].asked = asked;
    must(radixvm_change(&machine, &asked, &told, &own));
    come_to(c, &told, &none, &own);
}

/* The handler's part of a step: a message, or what the core's call waits for. A message's words and translations stay until the next take. */
static void take(uint32_t c) {
    struct core *core = &cores[c];
    radixvm_drop told = {0, 0, 0, 0};
    if (core->message.what == RADIXVM_DROP_TABLES) drop(core, &core->message, bug != NO_FLUSH);
    must(radixvm_take(&machine, c, &told));
    if (told.what == RADIXVM_DROP_TABLES) core->message = told;
}

static void go_on(uint32_t c) {
    radixvm_outcome told = {0, 0};
    radixvm_filled filled = {0, 0, 0, 0, 0, 0};
    radixvm_drop own = {0, 0, 0, 0};
    must(radixvm_go_on(&machine, c, &told, &filled, &own));
    waits++;
    come_to(c, &told, &filled, &own);
}

static void step(void) {
    uint32_t c = (uint32_t)below(CORES);
    struct core *core = &cores[c];
    uint64_t what = below(20), page = below(PAGES), back;
    if (what < 6) take(c);
    else if (what == 6) walk(core, page);
    else if (what == 7) lose(core, page);
    else if (what == 8 && !below(16)) must(radixvm_reclaim(&machine, &back));
    else if (core->in_call) go_on(c);
    else {
        if (core->owed.what == RADIXVM_DROP_OWN) drop(core, &core->owed, 1);
        if (what == 9) change(c);
        else access_byte(c);
    }
}

int main(int argc, char **argv) {
    const radixvm_setup setup = {CORES, FRAMES, (uint64_t)1 << 30, 0};
    const radixvm_file kept = {RADIXVM_O_RDWR, 0, FILE_LENGTH};
    if (argc > 1) seed = strtoull(argv[1], NULL, 0);
    if (argc > 2) bug = atoi(argv[2]);
    for (int i = 0; i < FILE_LENGTH; i++) file[i] = (uint8_t)(i * 7 + i / 256);
    for (uint64_t i = 0; i < FILE_PAGES * PLACES; i++) shared[i / PLACES][i % PLACES] = file[i / PLACES * 4096 + offsets[i % PLACES]];
    memset(outside, 0x55, sizeof outside);
    must(radixvm_new(&setup, &kept, 1, file, FILE_LENGTH, &machine).status);
    for (int i = 0; i < STEPS; i++) step();
    radixvm_free(&machine);
    printf("%llu accesses, as in a plain page map; %llu faults, %llu waits\n", (unsigned long long)accesses, (unsigned long long)faults,
        (unsigned long long)waits);
    return 0;
}
