/* A machine that threads share, with random calls for it; each thread notes its own calls and what they came to. threads.c and
 * refused_threads.c hold the notes against the machine's log. */
#ifndef SHARED_H
#define SHARED_H
#include "radixvm.h"
#include <pthread.h>
#include <stdio.h>
#include <stdlib.h>
#include <string.h>

enum { MAX_THREADS = 64, FRAMES = 512, FILE_BYTES = 3 * 4096, MANY = 16 }; /* MANY: how many calls a list has at the most */
static const radixvm_file FILES[1] = {{RADIXVM_O_RDWR, 0, FILE_BYTES}};
static uint8_t bytes[FILE_BYTES];

typedef struct {
    radixvm_seat seat;
    pthread_t thread;
    uint64_t seed;
    uint32_t core, status;
    size_t calls, replied; /* how many calls are to be made, and how many were replied */
    radixvm_event *asked;
    radixvm_outcome *replies;
} worker;

static uint64_t below(uint64_t *seed, uint64_t n) {
    *seed = *seed * 6364136223846793005u + 1442695040888963407u;
    return (*seed >> 33) % n;
}

/* A call of which only what its kind names isn't 0: of few pages, so that threads meet. */
static radixvm_event random_call(uint64_t *seed) {
    radixvm_event e = {4 + (uint32_t)below(seed, 3), 0, 4096 * (510 + below(seed, 12)), 0, 0, 0, 0, 0, 0};
    if (!below(seed, 4)) e.kind = 1 + (uint32_t)below(seed, 3);
    if (e.kind <= RADIXVM_MPROTECT) e.len = 4096 * (1 + below(seed, 3));
    if (e.kind == RADIXVM_MMAP || e.kind == RADIXVM_MPROTECT) e.prot = below(seed, 3) ? 7u : (uint32_t)below(seed, 8);
    if (e.kind == RADIXVM_STORE) e.byte = (uint32_t)below(seed, 256);
    if (e.kind == RADIXVM_MMAP) {
        e.flags = (below(seed, 6) ? RADIXVM_MAP_PRIVATE : RADIXVM_MAP_SHARED) | (below(seed, 4) ? RADIXVM_MAP_FIXED : 0u)
            | (below(seed, 2) ? 0u : RADIXVM_MAP_ANONYMOUS);
        e.off = 4096 * below(seed, 4);
    }
    return e;
}

static void die(const char *why) {
    printf("%s\n", why);
    exit(1);
}

/* What a core does beside its calls. */
static uint32_t pass(worker *w) {
    const radixvm_event e = {RADIXVM_WALK + (uint32_t)below(&w->seed, 5), w->core, 510 + below(&w->seed, 12), 0, 0, 0, 0, 0, 0};
    radixvm_outcome told = {0, 0};
    const uint32_t status = radixvm_seat_call(&w->seat, &e, &told);
    if (!status && told.kind != RADIXVM_STEPPED && told.kind != RADIXVM_IDLE) die("a step beside calls came to something else");
    return status;
}

/* The calls of one thread, one by one and in lists, and what it does beside them. A list that malloc refuses memory to goes on behind the
 * call that it was refused to. It stops at another status that isn't 0. */
static void *work(void *at) {
    worker *w = at;
    while (w->replied < w->calls && !w->status) {
        const size_t left = w->calls - w->replied, most = left < MANY ? left : MANY;
        const size_t count = below(&w->seed, 3) ? 1 : 1 + (size_t)below(&w->seed, most);
        radixvm_event list[MANY];
        radixvm_outcome *replies = &w->replies[w->replied];
        radixvm_done done = {RADIXVM_OK, 1};
        for (size_t i = 0; i < count; i++) list[i] = random_call(&w->seed);
        if (count == 1) done.status = radixvm_seat_call(&w->seat, list, replies);
        else done = radixvm_seat_calls(&w->seat, list, count, replies, left);
        if (done.status == RADIXVM_OUT_OF_MEMORY) {
            if (!done.count || replies[done.count - 1].kind != RADIXVM_NO_MEMORY) die("a list doesn't end behind the call that memory was refused to");
        } else if ((w->status = done.status)) break;
        for (size_t i = 0; i < done.count; i++) {
            w->asked[w->replied] = list[i];
            w->asked[w->replied++].core = w->core;
        }
        if (!below(&w->seed, 4)) w->status = pass(w);
    }
    return NULL;
}

static void *take(size_t count, size_t size) {
    void *at = calloc(count + 1, size);
    if (!at) die("no memory");
    return at;
}

static int same_event(const radixvm_event *a, const radixvm_event *b) {
    return a->kind == b->kind && a->core == b->core && a->at == b->at && a->len == b->len && a->file == b->file && a->off == b->off
        && a->prot == b->prot && a->flags == b->flags && a->byte == b->byte;
}

static int same_outcome(const radixvm_outcome *a, const radixvm_outcome *b) {
    return a->kind == b->kind && a->value == b->value;
}

/* The workers of a new machine with a log, each with the seat of a core of its own. */
static worker *share_out(size_t threads, size_t calls, uint64_t seed) {
    const radixvm_setup setup = {threads, FRAMES, threads * calls, 1};
    worker *workers = take(threads, sizeof *workers);
    radixvm_machine machine = {0};
    for (size_t i = 0; i < FILE_BYTES; i++) bytes[i] = (uint8_t)i;
    if (radixvm_new(&setup, FILES, 1, bytes, FILE_BYTES, &machine).status) die("no machine");
    for (size_t i = 0; i < threads; i++) {
        const uint32_t status = i ? radixvm_seat_split(&workers[0].seat, &workers[i].seat)
            : radixvm_share(&machine, &workers[0].seat);
        if (status || machine.at) die(radixvm_text(status));
        workers[i].core = (uint32_t)(i ? threads - i : 0);
        workers[i].seed = seed * 1000 + i;
        workers[i].calls = calls;
        workers[i].asked = take(calls, sizeof *workers[i].asked);
        workers[i].replies = take(calls, sizeof *workers[i].replies);
    }
    return workers;
}

/* All threads at once, each with this to do, and their seats taken in by the first: the machine comes back. */
static radixvm_machine run_together(worker *workers, size_t threads, void *(*body)(void *)) {
    radixvm_machine machine = {0};
    for (size_t i = 0; i < threads; i++) if (pthread_create(&workers[i].thread, NULL, body, &workers[i])) die("no thread");
    for (size_t i = 0; i < threads; i++) pthread_join(workers[i].thread, NULL);
    for (size_t i = 1; i < threads; i++) {
        if (radixvm_unshare(&workers[0].seat, &machine) != RADIXVM_IN_USE) die("it was unshared beside a seat");
        if (radixvm_seat_return(&workers[0].seat, &workers[i].seat) || workers[i].seat.at) die("a seat wasn't returned");
    }
    if (radixvm_unshare(&workers[0].seat, &machine) || workers[0].seat.at || !machine.at) die("the machine didn't come back");
    return machine;
}

/* The log, of which each core's replies have to be those that its thread noted, in order. */
static radixvm_log_entry *log_of_workers(const radixvm_machine *machine, const worker *workers, size_t threads, size_t *count) {
    const radixvm_done all = radixvm_log(machine, NULL, 0);
    radixvm_log_entry *entries = take(all.count, sizeof *entries);
    size_t of_core[MAX_THREADS] = {0};
    if (radixvm_log(machine, entries, all.count).status) die("no log");
    for (size_t i = 0; i < all.count; i++) {
        const radixvm_log_entry *e = &entries[i];
        if (e->kind != RADIXVM_ENTRY_REPLY) continue;
        const worker *w = NULL;
        for (size_t k = 0; k < threads; k++) if (workers[k].core == e->core) w = &workers[k];
        const size_t n = w ? of_core[e->core]++ : 0;
        if (!w || n >= w->replied || !same_event(&e->asked, &w->asked[n]) || !same_outcome(&e->reply, &w->replies[n])) {
            printf("entry %zu of core %u isn't what its thread noted\n", i, e->core);
            exit(1);
        }
    }
    for (size_t k = 0; k < threads; k++) if (of_core[workers[k].core] != workers[k].replied) die("the log lacks a call");
    *count = all.count;
    return entries;
}

static void free_workers(worker *workers, size_t threads) {
    for (size_t i = 0; i < threads; i++) {
        free(workers[i].asked);
        free(workers[i].replies);
    }
    free(workers);
}
#endif
