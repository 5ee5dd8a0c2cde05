/* Random events and calls of two cores, on a machine that is kept: one by one, and in batches of random lengths. What each
 * comes to is what it comes to in one batch on a new machine. Usage: kept [SEED]; status 1 at a difference. */
#include "radixvm.h"
#include <stdio.h>
#include <stdlib.h>
#include <string.h>

enum { EVENTS = 5000, CALLS = 3000 };
static const radixvm_setup SETUP = {2, 24, CALLS, 0};
static uint64_t seed = 1;

static uint64_t random_below(uint64_t n) {
    seed = seed * 6364136223846793005u + 1442695040888963407u;
    return (seed >> 33) % n;
}

/* A call, begun or whole, or one step of some core. */
static radixvm_event random_event(int whole) {
    static const uint32_t steps[] = {RADIXVM_GO, RADIXVM_GO, RADIXVM_GO, RADIXVM_TAKE, RADIXVM_TAKE, RADIXVM_FLUSH, RADIXVM_REVIEW,
        RADIXVM_WALK, RADIXVM_EVICT, RADIXVM_FOLD, RADIXVM_FRAME, RADIXVM_GUESS, RADIXVM_WHOLE, RADIXVM_GIVE_UP};
    radixvm_event e = {0, (uint32_t)random_below(2), 0, 4096 * (1 + random_below(3)), 0, 0, 0, 0, 0};
    uint64_t page = 510 + random_below(6);
    if (random_below(3)) {
        e.kind = 1 + (uint32_t)random_below(6);
        e.at = page * 4096;
        e.prot = (uint32_t)random_below(8);
        e.flags = RADIXVM_MAP_PRIVATE | RADIXVM_MAP_ANONYMOUS | (random_below(4) ? RADIXVM_MAP_FIXED : 0);
        e.byte = (uint32_t)random_below(256);
        return e;
    }
    e.kind = whole && random_below(2) ? (uint32_t)RADIXVM_FINISH : steps[random_below(sizeof steps / sizeof *steps)];
    e.at = e.kind == RADIXVM_FRAME ? random_below(24) : page;
    return e;
}

static int same(const char *way, const radixvm_outcome *told, const radixvm_outcome *right, int i, uint32_t status) {
    if (status == RADIXVM_OK && told->kind == right->kind && told->value == right->value) return 1;
    printf("%s, event %d: status %u, %u %llu, in one batch %u %llu\n", way, i, status, told->kind, (unsigned long long)told->value,
        right->kind, (unsigned long long)right->value);
    return 0;
}

static int compare(int whole) {
    static radixvm_event events[EVENTS];
    static radixvm_outcome all[EVENTS], told[EVENTS];
    radixvm_machine one = {0}, many = {0};
    for (int i = 0; i < EVENTS; i++) events[i] = random_event(whole);
    radixvm_done done = whole ? radixvm_calls(&SETUP, NULL, 0, NULL, 0, events, EVENTS, all, EVENTS)
        : radixvm_run(&SETUP, NULL, 0, NULL, 0, events, EVENTS, all, EVENTS);
    if (done.status != RADIXVM_OK || done.count != EVENTS) return 0;
    if (radixvm_new(&SETUP, NULL, 0, NULL, 0, &one).status != RADIXVM_OK) return 0;
    if (radixvm_new(&SETUP, NULL, 0, NULL, 0, &many).status != RADIXVM_OK) return 0;
    for (int i = 0; i < EVENTS; i++) {
        radixvm_outcome own = {0, 0};
        uint32_t status = whole ? radixvm_call(&one, &events[i], &own) : radixvm_step(&one, &events[i], &own);
        if (!same("one by one", &own, &all[i], i, status)) return 0;
    }
    memset(told, 0, sizeof told);
    for (int at = 0; at < EVENTS;) {
        size_t n = random_below(50);
        if (n > (size_t)(EVENTS - at)) n = (size_t)(EVENTS - at);
        done = whole ? radixvm_calls_on(&many, events + at, n, told + at, n) : radixvm_run_on(&many, events + at, n, told + at, n);
        if (done.status != RADIXVM_OK || done.count != n) { printf("in pieces, at %d: status %u\n", at, done.status); return 0; }
        at += (int)n;
    }
    for (int i = 0; i < EVENTS; i++) if (!same("in pieces", &told[i], &all[i], i, RADIXVM_OK)) return 0;
    radixvm_free(&many);
    radixvm_free(&one);
    return 1;
}

int main(int argc, char **argv) {
    if (argc > 1) seed = strtoull(argv[1], NULL, 0);
    if (!compare(0) || !compare(1)) return 1;
    printf("%d events and %d items, one by one and in pieces as in one batch\n", EVENTS, EVENTS);
    return 0;
}
