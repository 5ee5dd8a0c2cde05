/* Random events and calls of two cores, on a machine that keeps its log: what each comes to is what it comes to without one, each
 * core's replies stand in the log in their order, and each of its entries names the call that began under its number.
 * Usage: log [SEED]; status 1 at a difference. */
#include "radixvm.h"
#include <stdio.h>
#include <stdlib.h>
#include <string.h>

enum { EVENTS = 5000, CALLS = 3000, FILE_BYTES = 3 * 4096 };
static const radixvm_file FILES[1] = {{RADIXVM_O_RDWR, 0, FILE_BYTES}};
static uint8_t bytes[FILE_BYTES];
static uint64_t seed = 1;

static uint64_t random_below(uint64_t n) {
    seed = seed * 6364136223846793005u + 1442695040888963407u;
    return (seed >> 33) % n;
}

/* A call, begun or whole, of which only what its kind names isn't 0. */
static radixvm_event random_call(uint32_t core) {
    radixvm_event e = {1 + (uint32_t)random_below(6), core, 4096 * (510 + random_below(6)), 0, 0, 0, 0, 0, 0};
    if (e.kind <= RADIXVM_MPROTECT) e.len = 4096 * (1 + random_below(3));
    if (e.kind == RADIXVM_MMAP || e.kind == RADIXVM_MPROTECT) e.prot = random_below(3) ? 3u : (uint32_t)random_below(8);
    if (e.kind == RADIXVM_STORE) e.byte = (uint32_t)random_below(256);
    if (e.kind == RADIXVM_MMAP) {
        e.flags = (random_below(6) ? RADIXVM_MAP_PRIVATE : RADIXVM_MAP_SHARED) | (random_below(4) ? RADIXVM_MAP_FIXED : 0u)
            | (random_below(6) ? 0u : RADIXVM_MAP_ANONYMOUS);
        e.off = 4096 * random_below(4);
    }
    return e;
}

static radixvm_event random_event(int whole) {
    static const uint32_t steps[] = {RADIXVM_GO, RADIXVM_GO, RADIXVM_GO, RADIXVM_TAKE, RADIXVM_TAKE, RADIXVM_FLUSH, RADIXVM_REVIEW,
        RADIXVM_WALK, RADIXVM_EVICT, RADIXVM_FOLD, RADIXVM_FRAME, RADIXVM_GUESS, RADIXVM_WHOLE, RADIXVM_GIVE_UP};
    radixvm_event e = {0, (uint32_t)random_below(2), 0, 0, 0, 0, 0, 0, 0};
    if (!whole && random_below(4)) {
        e.kind = RADIXVM_GO;
        return e;
    }
    if (random_below(3)) return random_call(e.core);
    e.kind = whole && random_below(2) ? (uint32_t)RADIXVM_FINISH : steps[random_below(sizeof steps / sizeof *steps)];
    e.at = e.kind == RADIXVM_FRAME ? random_below(24) : 510 + random_below(6);
    return e;
}

static int same_event(const radixvm_event *a, const radixvm_event *b) {
    return a->kind == b->kind && a->core == b->core && a->at == b->at && a->len == b->len && a->file == b->file && a->off == b->off
        && a->prot == b->prot && a->flags == b->flags && a->byte == b->byte;
}

/* The calls in the order in which they began, and each core's replies. */
static radixvm_event begun[EVENTS];
static radixvm_outcome replies[2][EVENTS];
static size_t begun_count, reply_count[2];
static radixvm_log_entry entries[2 * EVENTS];

static void note(const radixvm_event *event, const radixvm_outcome *told) {
    if (event->kind <= RADIXVM_FETCH && told->kind != RADIXVM_IDLE && told->kind != RADIXVM_FULL) begun[begun_count++] = *event;
    if (told->kind >= RADIXVM_MAPPED && told->kind <= RADIXVM_NO_MEMORY) replies[event->core][reply_count[event->core]++] = *told;
}

/* How many copies the log has, or -1 where it isn't as noted. */
static int check(size_t count) {
    size_t at[2] = {0, 0};
    int copies = 0;
    uint64_t step = 0;
    for (size_t i = 0; i < count; i++) {
        const radixvm_log_entry *e = &entries[i];
        if (e->step <= step || e->call == 0 || e->call > begun_count) return -1;
        step = e->step;
        const radixvm_event *call = &begun[e->call - 1];
        if (e->kind == RADIXVM_ENTRY_COPY) {
            copies++;
            if (call->kind != RADIXVM_STORE || call->at / 4096 != e->page) return -1;
            continue;
        }
        const radixvm_outcome *reply = &replies[e->core][at[e->core]++];
        if (!same_event(&e->asked, call) || e->core != call->core) return -1;
        /* the last reply of a core may not be handed out yet */
        if (at[e->core] > reply_count[e->core] + 1) return -1;
        if (at[e->core] <= reply_count[e->core] && (e->reply.kind != reply->kind || e->reply.value != reply->value)) return -1;
    }
    return at[0] < reply_count[0] || at[1] < reply_count[1] ? -1 : copies;
}

static int compare(int whole) {
    const radixvm_setup plain = {2, 24, CALLS, 0}, logged = {2, 24, CALLS, 1};
    radixvm_machine one = {0}, other = {0};
    if (radixvm_new(&plain, FILES, 1, bytes, FILE_BYTES, &other).status != RADIXVM_OK) return -1;
    if (radixvm_new(&logged, FILES, 1, bytes, FILE_BYTES, &one).status != RADIXVM_OK) return -1;
    begun_count = reply_count[0] = reply_count[1] = 0;
    for (int i = 0; i < EVENTS; i++) {
        const radixvm_event event = random_event(whole);
        radixvm_outcome told = {0, 0}, right = {0, 0};
        uint32_t status = whole ? radixvm_call(&one, &event, &told) : radixvm_step(&one, &event, &told);
        if (status != RADIXVM_OK) return -1;
        status = whole ? radixvm_call(&other, &event, &right) : radixvm_step(&other, &event, &right);
        if (status != RADIXVM_OK || told.kind != right.kind || told.value != right.value) return -1;
        note(&event, &told);
    }
    const radixvm_done done = radixvm_log(&one, entries, 2 * EVENTS);
    radixvm_free(&other);
    radixvm_free(&one);
    return done.status == RADIXVM_OK && done.count <= 2 * EVENTS ? check(done.count) : -1;
}

int main(int argc, char **argv) {
    if (argc > 1) seed = strtoull(argv[1], NULL, 0);
    for (size_t i = 0; i < FILE_BYTES; i++) bytes[i] = (uint8_t)i;
    for (int whole = 0; whole < 2; whole++) {
        const int copies = compare(whole);
        if (copies < 0) { printf("the log isn't what was told\n"); return 1; }
        if (whole && copies == 0) { printf("no page got a copy\n"); return 1; }
    }
    printf("%d events and %d items, their log as they were answered\n", EVENTS, EVENTS);
    return 0;
}
