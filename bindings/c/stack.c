/* How much of its caller's stack the library uses: a thread on a stack of our own paints it before each call, and sees how far down it was used.
 * Usage: stack; status 1 if a call used more than MOST bytes, or radixvm_new more than MOST_NEW. */
#define _DEFAULT_SOURCE
#include "radixvm.h"
#include <pthread.h>
#include <stdio.h>
#include <stdlib.h>
#include <string.h>
#include <sys/mman.h>

enum { SIZE = 1 << 20, PAINTED = 32768, NEAR = 512, MOST = 6400, MOST_NEW = 21000, CORES = 8, CALLS = 20000 };
static radixvm_machine machine;
static uint8_t *stack;
static uint64_t seed = 1, most, most_new;
static const char *deepest = "";

static uint64_t below(uint64_t n) {
    seed = seed * 6364136223846793005u + 1442695040888963407u;
    return (seed >> 33) % n;
}

/* What a call of the library is made with. */
static radixvm_event event;
static radixvm_outcome told;
static radixvm_filled filled;
static radixvm_drop drop;
static uint64_t number;
static uint32_t status;

static void new(void) {
    const radixvm_setup setup = {CORES, 200, (uint64_t)1 << 30, 0};
    static const uint8_t bytes[20000];
    static const radixvm_file files[] = {{RADIXVM_O_RDWR, 0, 10000}, {RADIXVM_O_RDONLY, 10000, 9000}};
    status = radixvm_new(&setup, files, 2, bytes, sizeof bytes, &machine).status;
}
static void call(void) { status = radixvm_call(&machine, &event, &told); }
static void step(void) { status = radixvm_step(&machine, &event, &told); }
static void finish(void) { status = radixvm_finish(&machine, event.core, &told); }
static void touch(void) { status = radixvm_touch(&machine, event.core, event.at, event.kind, &told, &filled); }
static void change(void) { status = radixvm_change(&machine, &event, &told, &drop); }
static void go_on(void) { status = radixvm_go_on(&machine, event.core, &told, &filled, &drop); }
static void take(void) { status = radixvm_take(&machine, event.core, &drop); }
static void reclaim(void) { status = radixvm_reclaim(&machine, &number); }
static void entry(void) { status = radixvm_entry(&machine, event.core, event.at / 4096 + 1, &number); }
static void end(void) { radixvm_free(&machine); }

/* Makes the call, and keeps how many bytes below this function's frame it wrote to. */
static __attribute__((noinline)) void measure(const char *name, void (*made)(void)) {
    uint8_t *top = (uint8_t *)__builtin_frame_address(0), *low = top - PAINTED;
    memset(low, 0x5a, PAINTED - NEAR);
    made();
    while (low < top && *(volatile uint8_t *)low == 0x5a) low++;
    if ((uint64_t)(top - low) > most) most = (uint64_t)(top - low), deepest = name;
    if (status != RADIXVM_OK) printf("%s: %s\n", name, radixvm_text(status)), exit(1);
}

static void random_event(void) {
    static const uint32_t kinds[] = {RADIXVM_MMAP, RADIXVM_MMAP, RADIXVM_MUNMAP, RADIXVM_MPROTECT, RADIXVM_LOAD, RADIXVM_STORE, RADIXVM_STORE, RADIXVM_FETCH};
    uint64_t page = below(20) ? 0x7f0000000 - 32 + below(64) : 1 + below(1 << 20);
    memset(&event, 0, sizeof event);
    event.kind = kinds[below(8)], event.core = (uint32_t)below(CORES), event.at = page * 4096;
    event.prot = (uint32_t)below(8), event.file = below(2), event.off = below(3) * 4096;
    if (event.kind <= RADIXVM_MPROTECT) event.len = (1 + below(below(10) ? 5 : 4000)) * 4096;
    event.flags = (below(2) ? RADIXVM_MAP_SHARED : RADIXVM_MAP_PRIVATE) | (below(8) ? RADIXVM_MAP_FIXED : 0u) | (below(2) ? RADIXVM_MAP_ANONYMOUS : 0u);
}

static void *run(void *nothing) {
    measure("radixvm_new", new);
    most_new = most, most = 0;
    for (int i = 0; i < CALLS; i++) {
        random_event();
        int is_call = below(3) == 0;
        if (is_call) measure("radixvm_call", call);
        else if (event.kind >= RADIXVM_LOAD) measure("radixvm_touch", touch);
        else measure("radixvm_change", change);
        while (told.kind <= RADIXVM_WAIT_ACKS) {
            uint32_t core = event.core;
            for (event.core = 0; event.core < CORES; event.core++) measure("radixvm_take", take);
            event.core = core;
            if (is_call) measure("radixvm_finish", finish);
            else measure("radixvm_go_on", go_on);
        }
        measure("radixvm_entry", entry);
        if (told.kind == RADIXVM_NO_FRAME) measure("radixvm_reclaim", reclaim);
        event.kind = RADIXVM_FOLD, event.at = event.at / 4096;
        if (below(20) == 0) measure("radixvm_step", step);
    }
    measure("radixvm_free", end);
    return nothing;
}

int main(void) {
    pthread_attr_t attributes;
    pthread_t thread;
    stack = (uint8_t *)mmap(NULL, SIZE, PROT_READ | PROT_WRITE, MAP_PRIVATE | MAP_ANONYMOUS, -1, 0);
    if (stack == MAP_FAILED || pthread_attr_init(&attributes) || pthread_attr_setstack(&attributes, stack, SIZE)) return 2;
    if (pthread_create(&thread, &attributes, run, NULL) || pthread_join(thread, NULL)) return 2;
    printf("a call uses at most %llu bytes of stack (%s), and radixvm_new %llu\n", (unsigned long long)most, deepest, (unsigned long long)most_new);
    return most > MOST || most_new > MOST_NEW;
}
