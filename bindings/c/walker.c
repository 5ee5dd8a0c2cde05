/* Random calls of one core, by a walker whose entries the library tells, and all in one batch: the replies are the same.
 * Usage: walker [SEED]; status 1 at a difference. */
#include "walker.h"

enum { CALLS = 20000, PAGES = 64 };
static const uint64_t BASE = (0x7f0000000 - PAGES / 2) * 4096ull; /* the pages lie on both sides of an edge of each level */
static uint64_t seed = 1;

static uint64_t random_below(uint64_t n) {
    seed = seed * 6364136223846793005u + 1442695040888963407u;
    return (seed >> 33) % n;
}

static radixvm_event random_call(void) {
    uint64_t kind = random_below(10), first = random_below(PAGES), pages = 1 + random_below(PAGES - first < 5 ? PAGES - first : 5);
    radixvm_event e = {0, 0, BASE + first * 4096, pages * 4096, 0, 0, 0, 0, 0};
    e.kind = kind < 2 ? RADIXVM_MMAP : kind == 2 ? RADIXVM_MUNMAP : kind == 3 ? RADIXVM_MPROTECT
        : kind < 6 ? RADIXVM_LOAD : kind < 9 ? RADIXVM_STORE : RADIXVM_FETCH;
    e.prot = (uint32_t)random_below(8);
    e.flags = RADIXVM_MAP_PRIVATE | RADIXVM_MAP_FIXED | RADIXVM_MAP_ANONYMOUS;
    e.byte = (uint32_t)random_below(256);
    if (e.kind >= RADIXVM_LOAD) e.at += random_below(3) * 2047;
    return e;
}

int main(int argc, char **argv) {
    static radixvm_event calls[CALLS];
    static radixvm_outcome replies[CALLS];
    const radixvm_setup many = {1, CALLS, CALLS, 0}, few = {1, FRAMES, 2 * CALLS, 0};
    if (argc > 1) seed = strtoull(argv[1], NULL, 0);
    for (int i = 0; i < CALLS; i++) calls[i] = random_call();
    must(radixvm_calls(&many, NULL, 0, NULL, 0, calls, CALLS, replies, CALLS).status);
    must(radixvm_new(&few, NULL, 0, NULL, 0, &machine).status);
    for (int i = 0; i < CALLS; i++) {
        const radixvm_event *call = &calls[i];
        const radixvm_outcome own = call->kind <= RADIXVM_MPROTECT ? change(call) : access_byte(call);
        if (own.kind == replies[i].kind && own.value == replies[i].value) continue;
        printf("call %d, kind %u at 0x%llx: the walker says %u %llu, the batch %u %llu\n", i, call->kind,
            (unsigned long long)call->at, own.kind, (unsigned long long)own.value, replies[i].kind, (unsigned long long)replies[i].value);
        return 1;
    }
    radixvm_free(&machine);
    release(&root);
    printf("%d calls, the same replies\n", CALLS);
    return 0;
}
