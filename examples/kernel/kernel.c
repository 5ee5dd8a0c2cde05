/* Records what the kernel that it runs on answers to calls of threads that overlap, as a history on standard output. The threads map,
   unmap and protect a few pages, and load, store and fetch bytes there. At the repository's root:
   cc -O2 -pthread -I include -o /tmp/kernel examples/kernel/kernel.c && /tmp/kernel 4 100000 | ./radixvm audit --overlapping
   usage: kernel [THREADS [CALLS [PAGES [MOST [SEED [FILE]]]]]]: each thread makes so many calls, on at most MOST pages of PAGES at once (4,
   100000, 8, 0 and 1 where they are left out). It is pinned to a processor. The record is kept in FILE, too: if the program is killed,
   bindings/radixvm-record.c writes its history. MOST 0 means single pages, which are mapped anew and protected, but never unmapped, nor given one
   right while another is taken. POSIX allows a kernel what no page map does, and Linux does it: where MOST is above 1 it shows a range half
   changed. Where it is 1, it serves one thread's access to a page that is being unmapped after another's was refused, once in a million
   calls or two: page faults are judged by the list of mappings, which munmap shortens first, and other accesses by page tables and TLBs, which it
   clears then. And once in ten million it serves a fetch by a right that mprotect gives, and then a store by one that it takes, which
   another processor's TLB still has. So neither these four calls of Linux 6.18 have an order nor those five, and audit says no order:
   10 11 c3! mmap 0x10000 4096 r-x sf 0 0x2000 = 0x10000        10 11 c0! mmap 0x10000 4096 rw- pfa = 0x10000
   21 66 c3! munmap 0x10000 4096 = done                         12 13 c3! store 0x10000 6 = done
   23 24 c0! store 0x10000 244 = segv maperr                    20 90 c0! mprotect 0x10000 4096 r-x = done
   37 38 c1! fetch 0x10000 = 195                                30 80 c2! fetch 0x10000 = 6
                                                                40 41 c3! store 0x10000 244 = done */
#ifndef _GNU_SOURCE
#define _GNU_SOURCE
#endif
#include "radixvm_record.h"
#include <pthread.h>
#include <string.h>
#include <unistd.h>

enum { PAGE = 4096, FILE_PAGES = 3, FILE_FIRST = 0xc3 };

static uint64_t calls = 100000, pages = 8, most = 0, seed = 1;
static uint8_t *base;
static int fd;
static int waiting;

/* A core, and its random numbers. */
struct core {
    pthread_t thread;
    struct rv_ring *ring;
    uint64_t state;
};

static uint64_t below(struct core *core, uint64_t bound) {
    uint64_t z = core->state += 0x9e3779b97f4a7c15;
    z = (z ^ z >> 30) * 0xbf58476d1ce4e5b9;
    z = (z ^ z >> 27) * 0x94d049bb133111eb;
    return (z ^ z >> 31) % bound;
}

/* An access: of the first byte of a page, which is always one that may be fetched, or of another. */
static void touch(struct core *core, uint8_t *page) {
    static const uint8_t codes[] = {0xc3, 0xcc, 0xf4, 0x06};
    uint8_t byte, *other = page + PAGE / 2;
    switch (below(core, 6)) {
    case 0: rv_fetch(core->ring, page, &byte); break;
    case 1: rv_store(core->ring, page, codes[below(core, 4)]); break;
    case 2: rv_load(core->ring, page, &byte); break;
    case 3: rv_load(core->ring, other, &byte); break;
    default: rv_store(core->ring, other, (uint8_t)(1 + below(core, 255)));
    }
}

/* A change of some pages. */
static void change(struct core *core) {
    static const int rights[] = {PROT_NONE, PROT_READ, PROT_READ | PROT_WRITE, PROT_READ | PROT_WRITE, PROT_READ | PROT_EXEC,
                                 PROT_READ | PROT_WRITE | PROT_EXEC};
    uint64_t count = most ? 1 + below(core, most) : 1, page = below(core, pages - count + 1);
    uint8_t *at = base + page * PAGE;
    size_t length = (size_t)count * PAGE;
    int prot = rights[below(core, 6)];
    if (!most && prot == (PROT_READ | PROT_EXEC)) prot |= PROT_WRITE; /* of any two rights one has the other's, and maybe more */
    switch (most ? below(core, 5) : 1 + below(core, 4)) {
    case 0: rv_munmap(core->ring, at, length); break;
    case 1: rv_mprotect(core->ring, at, length, prot); break;
    case 2: /* no page past the file's end: where one may not be executed, Linux answers a fetch by SIGBUS, and a page map by SIGSEGV */
        if (count <= FILE_PAGES)
            rv_mmap(core->ring, at, length, prot, MAP_SHARED | MAP_FIXED, fd, (off_t)below(core, FILE_PAGES + 1 - count) * PAGE, 0);
        break;
    default: rv_mmap(core->ring, at, length, prot, MAP_PRIVATE | MAP_ANONYMOUS | MAP_FIXED, -1, 0, 0);
    }
}

static void *run(void *argument) {
    struct core *core = (struct core *)argument;
    if (rv_pin(core->ring)) fputs("kernel: a thread isn't pinned\n", stderr);
    __atomic_sub_fetch(&waiting, 1, __ATOMIC_SEQ_CST);
    while (__atomic_load_n(&waiting, __ATOMIC_SEQ_CST)) {}
    for (uint64_t i = 0; i < calls; i++) {
        if (below(core, 10) < 7) touch(core, base + below(core, pages) * PAGE);
        else change(core);
    }
    return NULL;
}

/* Addresses that nobody maps: far below those that the kernel hands out next. */
static int find_base(void) {
    size_t length = (size_t)pages * PAGE;
    void *probe = mmap(NULL, length, PROT_NONE, MAP_PRIVATE | MAP_ANONYMOUS, -1, 0);
    if (probe == MAP_FAILED) return -1;
    munmap(probe, length);
    void *far = (void *)((uintptr_t)probe - ((uintptr_t)64 << 30));
    void *found = mmap(far, length, PROT_NONE, MAP_PRIVATE | MAP_ANONYMOUS | MAP_FIXED_NOREPLACE, -1, 0);
    if (found == MAP_FAILED) return -1;
    base = (uint8_t *)found;
    return munmap(found, length) || found != far;
}

/* A file whose byte i is 0xc3 + i. */
static int make_file(void) {
    static uint8_t bytes[FILE_PAGES * PAGE];
    for (int i = 0; i < FILE_PAGES * PAGE; i++) bytes[i] = (uint8_t)(FILE_FIRST + i);
    fd = memfd_create("kernel", 0);
    return fd < 0 || write(fd, bytes, sizeof bytes) != (ssize_t)sizeof bytes;
}

int main(int argc, char **argv) {
    uint64_t threads = 4, *numbers[] = {&threads, &calls, &pages, &most, &seed};
    static struct core cores[64];
    char file[64];
    for (int i = 1; i < argc && i < 6; i++) *numbers[i - 1] = strtoull(argv[i], NULL, 10);
    if (threads < 1 || threads > 64 || calls < 1 || pages < 1 || most > pages) return 2;
    if (make_file() || find_base() || rv_start()) return 3;
    snprintf(file, sizeof file, "file 0 rw %d %d", FILE_PAGES * PAGE, FILE_FIRST);
    if (argc > 6 && (rv_keep(argv[6]) || rv_say(file))) return 3;
    waiting = (int)threads;
    for (uint64_t i = 0; i < threads; i++) {
        cores[i].state = seed * 1000003 + i * 7919;
        if (!(cores[i].ring = rv_thread((int)i, calls))) return 3;
    }
    for (uint64_t i = 0; i < threads; i++)
        if (pthread_create(&cores[i].thread, NULL, run, &cores[i])) return 3;
    for (uint64_t i = 0; i < threads; i++) pthread_join(cores[i].thread, NULL);
    rv_head(stdout, (int)threads);
    puts(file);
    return rv_write(stdout) ? 1 : 0;
}
