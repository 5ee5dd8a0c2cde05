/* A core's loop over the library: page faults, changes and messages, for any MMU. The platform's file defines the functions declared here, and
   includes this one; space.h does it for Linux processes, and ../kernel-on-radixvm/kernel.c for processors. The library decides what may be
   translated, and hardware translates. The numbers of duties are those of include/radixvm.h, and each is named where it is kept. */
#ifndef HANDLER_H
#define HANDLER_H
#include "radixvm.h"

/* Errors of this loop, each planted by its number, to see what a judge says of it. */
enum { NO_CLEAR = 1, NO_FLUSH, OWN_KEPT, NO_ZEROS, LATE_COPY, STALE_WORD, RIGHTS, BUGS = RIGHTS };
static int bug;

/* ---- what the platform has */

static radixvm_machine *machine(void);
static uint32_t this_core(void);
static void lock(void);   /* duty 1: by a locked instruction */
static void unlock(void);
static void pause_a_bit(void);           /* while others hold the lock */
static void interrupt(uint64_t cores);   /* bit c: core c */
static void must(uint32_t status);       /* ends the program where the status isn't RADIXVM_OK */
static uint8_t *frame_bytes(uint64_t frame);
static const uint8_t *file_bytes(uint32_t number, uint64_t page);
static void copy_page(uint8_t *to, const uint8_t *from); /* zeros where there is no `from` */

/* This core's tables and MMU: its words of some pages are cleared; what the MMU took in of them is; a word is put in the place of the old one. */
static void clear(uint64_t first, uint64_t end);
static void flush(uint64_t first, uint64_t end);
static void install(uint64_t page, uint64_t word);

/* ---- words, as Intel SDM volume 3A has them */

enum { PAGE = 4096, WRITABLE = 2 };

/* ---- the loop */

/* Drops what this core has of some pages. Duty 2: first the words, and then what the MMU took in. */
static void drop(uint64_t first, uint64_t end) {
    if (bug != NO_CLEAR) clear(first, end);
    if (bug != NO_FLUSH) flush(first, end);
}

/* Duty 3: the program runs no instruction between its own change and this. */
static void drop_own(const radixvm_drop *own) {
    if (own->what == RADIXVM_DROP_OWN && bug != OWN_KEPT) drop(own->first, own->end);
}

/* Takes this core's messages. The first take of one says what to drop; the next one acknowledges that. */
static void serve(void) {
    radixvm_drop asked;
    do {
        must(radixvm_take(machine(), this_core(), &asked));
        if (asked.what == RADIXVM_DROP_TABLES) drop(asked.first, asked.end);
    } while (asked.what != RADIXVM_DROP_NONE);
}

static void let_others_run(void) {
    unlock();
    pause_a_bit();
    lock();
}

/* Gives a new frame its bytes, before any core has a word for it. Duty 1: under the lock of the call that asked for it. */
static void fill(const radixvm_filled *filled) {
    uint8_t *to = frame_bytes(filled->frame);
    if (bug == LATE_COPY && filled->fill == RADIXVM_FILL_FRAME) let_others_run();
    if (filled->fill == RADIXVM_FILL_ZERO && bug != NO_ZEROS) copy_page(to, 0);
    if (filled->fill == RADIXVM_FILL_FRAME) copy_page(to, frame_bytes(filled->from));
    if (filled->fill == RADIXVM_FILL_FILE) copy_page(to, file_bytes(filled->file, filled->from));
}

/* Goes on with this core's call until it has its reply, and does at once what each part of it tells. Other cores run while it waits for them, and so it
   serves them too. */
static void finish(radixvm_outcome *told, radixvm_filled *filled, radixvm_drop *own) {
    uint64_t asked = 0;
    fill(filled);
    drop_own(own);
    while (told->kind <= RADIXVM_WAIT_ACKS) {
        uint64_t awaited = told->kind == RADIXVM_WAIT_ACKS ? told->value : 0;
        interrupt(awaited & ~asked);
        asked |= awaited;
        let_others_run();
        serve();
        must(radixvm_go_on(machine(), this_core(), told, filled, own));
        fill(filled);
        drop_own(own);
    }
}

static int is_served(const radixvm_outcome *told) { return told->kind == RADIXVM_DONE || told->kind == RADIXVM_BYTE; }

static void touch_once(uint64_t at, uint32_t kind, radixvm_outcome *told, radixvm_filled *filled) {
    radixvm_drop own = {0, 0, RADIXVM_DROP_NONE, 0};
    must(radixvm_touch(machine(), this_core(), at, kind, told, filled));
    finish(told, filled, &own);
}

/* What a page fault comes to, with interrupts off. If the access is served, the instruction may run again, by the word that is installed now: duty 4,
   after the fill, and duty 1, under the same lock. If it is refused, its page may have a copy all the same, so the old translation goes. */
static radixvm_outcome touch(uint64_t at, uint32_t kind) {
    radixvm_outcome told = {0, 0};
    radixvm_filled filled = {0, 0, 0, 0, 0, 0};
    uint64_t back;
    lock();
    touch_once(at, kind, &told, &filled);
    if (told.kind == RADIXVM_NO_FRAME) {
        must(radixvm_reclaim(machine(), &back));
        touch_once(at, kind, &told, &filled);
    }
    if (bug == STALE_WORD) let_others_run(), serve();
    if (is_served(&told)) install(at / PAGE, filled.word | (bug == RIGHTS ? WRITABLE : 0));
    else drop(at / PAGE, at / PAGE + 1);
    unlock();
    return told;
}

/* An mmap, munmap or mprotect, with interrupts off. */
static radixvm_outcome change(const radixvm_event *event) {
    radixvm_outcome told = {0, 0};
    radixvm_filled none = {0, 0, 0, 0, 0, 0};
    radixvm_drop own = {0, 0, RADIXVM_DROP_NONE, 0};
    lock();
    must(radixvm_change(machine(), event, &told, &own));
    finish(&told, &none, &own);
    unlock();
    return told;
}

/* An interrupt. */
static void take_messages(void) {
    lock();
    serve();
    unlock();
}

/* ---- the library's memory. libradixvm.a has these three functions over malloc; here the platform gives it the bytes from `heap` to `heap_end`. */

typedef struct { uint64_t is_there; uint8_t *at; } piece; /* `at` is never null, also if there is none */
enum { HEAD = 16 }; /* before each piece: the power of two that it takes, and if it is free the next free one */
struct store { uint8_t *heap, *heap_end, *freed[64]; };
static struct store *store(void);

piece rattle_alloc(size_t size, size_t align);
piece rattle_realloc(uint8_t *old, size_t had, size_t size, size_t align);
void rattle_dealloc(uint8_t *at);

piece rattle_alloc(size_t size, size_t align) {
    unsigned power = 5;
    while (((size_t)1 << power) < size + HEAD) power++;
    uint8_t *at = store()->freed[power];
    if (align > HEAD || (!at && (size_t)(store()->heap_end - store()->heap) < (size_t)1 << power)) return (piece){0, (uint8_t *)store()};
    if (at) store()->freed[power] = *(uint8_t **)(void *)(at + 8);
    else at = store()->heap, store()->heap += (size_t)1 << power;
    at[0] = (uint8_t)power;
    return (piece){1, at + HEAD};
}

void rattle_dealloc(uint8_t *at) {
    uint8_t *head = at - HEAD;
    *(uint8_t **)(void *)(head + 8) = store()->freed[head[0]];
    store()->freed[head[0]] = head;
}

piece rattle_realloc(uint8_t *old, size_t had, size_t size, size_t align) {
    piece moved = rattle_alloc(size, align);
    if (!moved.is_there) return moved;
    for (size_t i = 0; i < had && i < size; i++) moved.at[i] = old[i];
    rattle_dealloc(old);
    return moved;
}
#endif
