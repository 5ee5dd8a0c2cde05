/* What sharing a machine tells: each status, and that all is as it was where it isn't RADIXVM_OK; a seat that another thread has
 * in a call is busy to the others; seats go from thread to thread.
 * Usage: seats */
#include "radixvm.h"
#include <pthread.h>
#include <stdatomic.h>
#include <stdio.h>
#include <stdlib.h>
#include <string.h>

static const radixvm_event MAP = {RADIXVM_MMAP, 63, 0x10000, 4096, 0, 0, 3,
    RADIXVM_MAP_PRIVATE | RADIXVM_MAP_FIXED | RADIXVM_MAP_ANONYMOUS, 0};
static const radixvm_event LOAD = {RADIXVM_LOAD, 0, 0x10000, 0, 0, 0, 0, 0, 0};
static const radixvm_event STORE = {RADIXVM_STORE, 0, 0x10000, 0, 0, 0, 0, 0, 41};
static const radixvm_event UNMAP = {RADIXVM_MUNMAP, 0, 0x10000, 4096, 0, 0, 0, 0, 0};
static int rows;

static void die(const char *why) {
    printf("%s\n", why);
    exit(1);
}

static void is(uint32_t told, uint32_t due, const char *what) {
    rows++;
    if (told == due) return;
    printf("%s: %s, expected %s\n", what, radixvm_text(told), radixvm_text(due));
    exit(1);
}

/* The call comes to this. */
static void comes(radixvm_seat *seat, const radixvm_event *event, uint32_t kind, uint64_t value, const char *what) {
    radixvm_outcome told = {0, 0};
    is(radixvm_seat_call(seat, event, &told), RADIXVM_OK, what);
    if (told.kind == kind && told.value == value) return;
    printf("%s: %s %llu\n", what, radixvm_outcome_text(told.kind), (unsigned long long)told.value);
    exit(1);
}

static void nulls(void) {
    radixvm_machine machine = {0};
    radixvm_seat seat = {0}, other = {0};
    radixvm_outcome told = {0, 0};
    is(radixvm_share(NULL, &seat), RADIXVM_NULL, "share no place");
    is(radixvm_share(&machine, NULL), RADIXVM_NULL, "share to no place");
    is(radixvm_seat_split(&seat, NULL), RADIXVM_NULL, "split to no place");
    is(radixvm_seat_try(&seat, NULL, &told), RADIXVM_NULL, "call nothing");
    is(radixvm_seat_try(&seat, &LOAD, NULL), RADIXVM_NULL, "tell nobody");
    is(radixvm_seat_return(NULL, &other), RADIXVM_NULL, "return to no place");
    is(radixvm_seat_return(NULL, NULL), RADIXVM_NULL, "return no place");
    is(radixvm_unshare(&seat, NULL), RADIXVM_NULL, "unshare to no place");
    radixvm_seat_free(NULL);
    is(radixvm_share(&machine, &seat), RADIXVM_EMPTY, "share nothing");
    is(radixvm_seat_split(&seat, &other), RADIXVM_EMPTY, "split nothing");
    is(radixvm_seat_try(&seat, &LOAD, &told), RADIXVM_EMPTY, "call as nobody");
    is(radixvm_seat_return(&seat, &other), RADIXVM_EMPTY, "return nothing");
    is(radixvm_unshare(&seat, &machine), RADIXVM_EMPTY, "unshare nothing");
    radixvm_seat_free(&seat);
    if (told.kind || seat.at || other.at || machine.at) die("something was written");
}

static void statuses(void) {
    const radixvm_setup setup = {3, 4, 100, 1};
    radixvm_machine machine = {0}, spare = {0};
    radixvm_seat first = {0}, two = {0}, one = {0};
    radixvm_outcome told = {0, 0};
    radixvm_event bad = LOAD;
    is(radixvm_new(&setup, NULL, 0, NULL, 0, &machine).status, RADIXVM_OK, "new");
    is(radixvm_new(&setup, NULL, 0, NULL, 0, &spare).status, RADIXVM_OK, "new");
    is(radixvm_begin(&machine, &LOAD, &told), RADIXVM_OK, "begin");
    is(radixvm_share(&machine, &first), RADIXVM_IN_FLIGHT, "share amid a call");
    is(radixvm_finish(&machine, 0, &told), RADIXVM_OK, "finish");
    is(told.kind, RADIXVM_SEGV_MAPERR, "the call goes on");
    is(radixvm_share(&machine, &first), RADIXVM_OK, "share");
    is(radixvm_call(&machine, &LOAD, &told), RADIXVM_EMPTY, "call what is shared");
    is(radixvm_share(&spare, &first), RADIXVM_IN_USE, "share into a seat");
    is(radixvm_seat_split(&first, &first), RADIXVM_IN_USE, "split into a seat");
    is(radixvm_unshare(&first, &spare), RADIXVM_IN_USE, "unshare into a machine");
    is(radixvm_seat_split(&first, &two), RADIXVM_OK, "split");
    is(radixvm_seat_split(&first, &one), RADIXVM_OK, "split");
    radixvm_seat none = {0};
    is(radixvm_seat_split(&first, &none), RADIXVM_ABSENT, "split a fourth");
    is(radixvm_seat_split(&two, &none), RADIXVM_ABSENT, "split by another");
    bad.kind = RADIXVM_GO;
    is(radixvm_seat_try(&first, &bad, &told), RADIXVM_BAD_EVENT, "a step");
    bad.kind = RADIXVM_FINISH;
    is(radixvm_seat_try(&first, &bad, &told), RADIXVM_BAD_EVENT, "a finish");
    bad.kind = RADIXVM_LOAD | RADIXVM_BEGIN;
    is(radixvm_seat_try(&first, &bad, &told), RADIXVM_BAD_EVENT, "a begin");
    bad = STORE;
    bad.byte = 256;
    is(radixvm_seat_try(&first, &bad, &told), RADIXVM_BAD_EVENT, "no byte");
    comes(&first, &MAP, RADIXVM_MAPPED, 0x10000, "map");
    comes(&two, &STORE, RADIXVM_DONE, 0, "store by another");
    comes(&one, &LOAD, RADIXVM_BYTE, 41, "load by a third");
    comes(&first, &UNMAP, RADIXVM_DONE, 0, "unmap, which waits for two");
    comes(&two, &LOAD, RADIXVM_SEGV_MAPERR, 0, "gone");
    is(radixvm_seat_return(&two, &two), RADIXVM_IN_USE, "return to itself");
    comes(&two, &LOAD, RADIXVM_SEGV_MAPERR, 0, "still there");
    is(radixvm_seat_return(&two, &first), RADIXVM_OK, "core 0 returned to another");
    is(radixvm_unshare(&two, &machine), RADIXVM_IN_USE, "unshare beside a seat");
    radixvm_seat_free(&one);
    is(radixvm_unshare(&two, &machine), RADIXVM_OK, "unshare by another than the first");
    is(radixvm_call(&machine, &LOAD, &told), RADIXVM_OK, "call what came back");
    radixvm_log_entry entries[16];
    const radixvm_done log = radixvm_log(&machine, entries, 16);
    is(log.status, RADIXVM_OK, "log");
    is((uint32_t)log.count, 8, "eight replies");
    const uint32_t cores[] = {0, 0, 2, 1, 0, 2, 2, 0};
    for (size_t i = 0; i < 8; i++) is(entries[i].core, cores[i], "the core of a seat");
    is(radixvm_seat_return(&two, &one), RADIXVM_EMPTY, "return what is freed");
    radixvm_free(&machine);
    radixvm_free(&spare);
}

/* After as many calls as the machine may have each is told that it is full; the last seat that is freed frees the machine. */
static void full(void) {
    const radixvm_setup setup = {2, 4, 2, 0};
    radixvm_machine machine = {0};
    radixvm_seat first = {0}, other = {0};
    is(radixvm_new(&setup, NULL, 0, NULL, 0, &machine).status, RADIXVM_OK, "new");
    is(radixvm_share(&machine, &first), RADIXVM_OK, "share");
    is(radixvm_seat_split(&first, &other), RADIXVM_OK, "split");
    comes(&first, &LOAD, RADIXVM_SEGV_MAPERR, 0, "one");
    comes(&other, &LOAD, RADIXVM_SEGV_MAPERR, 0, "two");
    comes(&first, &LOAD, RADIXVM_FULL, 0, "three");
    comes(&other, &LOAD, RADIXVM_FULL, 0, "four");
    radixvm_seat_free(&first);
    comes(&other, &LOAD, RADIXVM_FULL, 0, "five");
    radixvm_seat_free(&other);
    if (first.at || other.at) die("a seat is left");
}

/* Calls of one seat in a list: how far they go, what is told of them, and that the places behind are as they were. */
static void goes(radixvm_seat *seat, const radixvm_event *events, size_t count, size_t room, uint32_t status, size_t made, const char *what) {
    radixvm_outcome told[8];
    memset(told, 255, sizeof told);
    const radixvm_done done = radixvm_seat_calls(seat, events, count, told, room);
    is(done.status, status, what);
    is((uint32_t)done.count, (uint32_t)made, what);
    for (size_t i = 0; i < 8; i++) if ((told[i].kind == UINT32_MAX) != (i >= made)) die(what);
}

static void lists(void) {
    const radixvm_setup setup = {2, 4, 12, 1};
    radixvm_machine machine = {0};
    radixvm_seat first = {0}, other = {0};
    radixvm_event events[8] = {MAP, STORE, LOAD, UNMAP, LOAD, LOAD, LOAD, LOAD}, amid[3] = {LOAD, LOAD, LOAD};
    radixvm_outcome told[8];
    is(radixvm_seat_calls(NULL, events, 1, told, 1).status, RADIXVM_NULL, "calls of no place");
    is(radixvm_seat_calls(&first, events, 1, NULL, 1).status, RADIXVM_NULL, "calls told nobody");
    goes(&first, events, 1, 1, RADIXVM_EMPTY, 0, "calls as nobody");
    is(radixvm_new(&setup, NULL, 0, NULL, 0, &machine).status, RADIXVM_OK, "new");
    is(radixvm_share(&machine, &first), RADIXVM_OK, "share");
    is(radixvm_seat_split(&first, &other), RADIXVM_OK, "split");
    is(radixvm_seat_calls(&first, NULL, 0, NULL, 0).status, RADIXVM_OK, "no calls");
    goes(&first, events, 3, 2, RADIXVM_NO_ROOM, 0, "too little room");
    is(radixvm_calls_seat(&first, events, (1ull << 32) + 1, told, 8).status, RADIXVM_TOO_LONG, "too many");
    memset(told, 0, sizeof told);
    const radixvm_done done = radixvm_seat_try_calls(&first, events, 5, told, 8);
    is(done.status, RADIXVM_OK, "five calls");
    is((uint32_t)done.count, 5, "five calls");
    const uint32_t kinds[8] = {RADIXVM_MAPPED, RADIXVM_DONE, RADIXVM_BYTE, RADIXVM_DONE, RADIXVM_SEGV_MAPERR, 0, 0, 0};
    for (size_t i = 0; i < 8; i++) is(told[i].kind, kinds[i], "a reply in its place");
    if (told[2].value != 41) die("another byte");
    amid[1].kind = RADIXVM_EVICT;
    goes(&other, amid, 3, 8, RADIXVM_BAD_EVENT, 1, "a step amid calls");
    goes(&other, events, 8, 8, RADIXVM_AT_LIMIT, 6, "the limit of calls");
    goes(&first, events, 8, 8, RADIXVM_AT_LIMIT, 0, "beyond the limit");
    is(radixvm_seat_return(&first, &other), RADIXVM_OK, "return");
    is(radixvm_unshare(&first, &machine), RADIXVM_OK, "unshare");
    radixvm_log_entry entries[16];
    const radixvm_done log = radixvm_log(&machine, entries, 16);
    is((uint32_t)log.count, 12, "twelve replies");
    for (size_t i = 0; i < 12; i++) is(entries[i].core, i >= 5, "the core of a list");
    radixvm_free(&machine);
}

/* What a core does beside calls. */
static void asides(void) {
    const radixvm_setup setup = {2, 4, 100, 1};
    radixvm_machine machine = {0};
    radixvm_seat first = {0};
    radixvm_event walk = {RADIXVM_WALK, 1, 0x10, 0, 0, 0, 0, 0, 0}, evict = walk, fold = walk, flush = walk, review = walk, take = walk;
    evict.kind = RADIXVM_EVICT, fold.kind = RADIXVM_FOLD, flush.kind = RADIXVM_FLUSH, review.kind = RADIXVM_REVIEW, take.kind = RADIXVM_TAKE;
    is(radixvm_new(&setup, NULL, 0, NULL, 0, &machine).status, RADIXVM_OK, "new");
    is(radixvm_share(&machine, &first), RADIXVM_OK, "share");
    radixvm_outcome told = {0, 0};
    is(radixvm_seat_try(&first, &take, &told), RADIXVM_BAD_EVENT, "a take");
    comes(&first, &evict, RADIXVM_IDLE, 0, "evict nothing");
    comes(&first, &walk, RADIXVM_IDLE, 0, "walk to nothing");
    comes(&first, &review, RADIXVM_IDLE, 0, "review nothing");
    comes(&first, &fold, RADIXVM_IDLE, 0, "fold where nothing is divided");
    comes(&first, &flush, RADIXVM_STEPPED, 0, "end an epoch");
    comes(&first, &MAP, RADIXVM_MAPPED, 0x10000, "map");
    comes(&first, &LOAD, RADIXVM_BYTE, 0, "load");
    comes(&first, &evict, RADIXVM_STEPPED, 0, "evict");
    comes(&first, &evict, RADIXVM_IDLE, 0, "evict again");
    comes(&first, &walk, RADIXVM_STEPPED, 0, "walk");
    is(radixvm_unshare(&first, &machine), RADIXVM_OK, "unshare");
    is((uint32_t)radixvm_log(&machine, NULL, 0).count, 2, "two replies");
    radixvm_free(&machine);
}

/* Two threads try until one has been told that the other is in a call. */
static atomic_int busy;
static void *tries(void *at) {
    radixvm_outcome told;
    for (long n = 0; n < 100000000 && !atomic_load(&busy); n++) {
        const uint32_t status = radixvm_seat_try(at, &LOAD, &told);
        if (status == RADIXVM_BUSY) atomic_store(&busy, 1);
        else if (status) die("no call");
    }
    return NULL;
}

static void is_busy(void) {
    const radixvm_setup setup = {2, 4, 1ull << 40, 0};
    radixvm_machine machine = {0};
    radixvm_seat first = {0}, other = {0};
    pthread_t thread;
    is(radixvm_new(&setup, NULL, 0, NULL, 0, &machine).status, RADIXVM_OK, "new");
    is(radixvm_share(&machine, &first), RADIXVM_OK, "share");
    is(radixvm_seat_split(&first, &other), RADIXVM_OK, "split");
    if (pthread_create(&thread, NULL, tries, &other)) die("no thread");
    tries(&first);
    pthread_join(thread, NULL);
    is((uint32_t)atomic_load(&busy), 1, "busy");
    is(radixvm_seat_return(&first, &other), RADIXVM_OK, "return");
    is(radixvm_unshare(&first, &machine), RADIXVM_OK, "unshare");
    radixvm_free(&machine);
}

/* A machine that isn't shared goes from thread to thread. */
static void *maps(void *at) {
    radixvm_outcome told;
    if (radixvm_call(at, &MAP, &told) || told.kind != RADIXVM_MAPPED) die("not mapped");
    return NULL;
}

static void handed_over(void) {
    const radixvm_setup setup = {64, 4, 100, 0};
    radixvm_machine machine = {0};
    radixvm_outcome told = {0, 0};
    pthread_t thread;
    is(radixvm_new(&setup, NULL, 0, NULL, 0, &machine).status, RADIXVM_OK, "new");
    if (pthread_create(&thread, NULL, maps, &machine)) die("no thread");
    pthread_join(thread, NULL);
    is(radixvm_call(&machine, &LOAD, &told), RADIXVM_OK, "load what another thread mapped");
    is(told.kind, RADIXVM_BYTE, "a byte");
    radixvm_free(&machine);
}

int main(void) {
    nulls();
    statuses();
    full();
    lists();
    asides();
    is_busy();
    handed_over();
    if (strcmp(radixvm_text(RADIXVM_AT_LIMIT + 1), "unknown status") || strcmp(radixvm_outcome_text(RADIXVM_STUCK + 1), "unknown outcome")
        || strcmp(radixvm_text(RADIXVM_BUSY), "another seat is in a call") || strcmp(radixvm_outcome_text(RADIXVM_BUS), "SIGBUS: past the end of the file"))
        die("texts");
    printf("%d statuses of seats\n", rows);
    return 0;
}
