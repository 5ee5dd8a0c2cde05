/* Asks the kernel for what looks random in one range of addresses, and writes each request with the reply that the kernel gave, as
 * `radixvm audit --any-place` reads it: `cC! REQUEST = REPLY`, with the lines of the space and its files before. Each request is made
 * by the thread of its core, on a processor of its own where there are as many, and the next one only once it has its reply.
 *
 * What POSIX.1-2017 leaves open, and the plain page map settles otherwise than Linux, is not asked for (`is_left_out`), nor what a line can't say:
 * - a request with two faults: POSIX doesn't order them;
 * - an mprotect that fails behind pages that it could change: Linux leaves them changed, the plain page map changes nothing;
 * - a fetch past a file's end on a page that isn't executable: Linux says bus, the plain page map segv accerr;
 * - MAP_PRIVATE with MAP_SHARED for a file, which is Linux's MAP_SHARED_VALIDATE, and an anonymous mapping with an offset, of which Linux asks that
 *   it is that of a page;
 * - file offsets between 2^47 and 2^63, page 0 with MAP_FIXED, and the last page below 2^47, each of which has another limit;
 * - rights to execute alone, where processors with protection keys forbid loads, and addresses that aren't canonical, whose SIGSEGV has another code;
 * - a fetch of another byte than that of the instruction `ret`, which would be executed.
 * MAP_FIXED_NOREPLACE is written as MAP_FIXED, but where it is refused because pages are mapped (EEXIST), which is not written.
 *
 * Usage: kernel_replies REQUESTS SEED [PAGES]; the range has 256 pages where left out, and 16 at least */
#define _GNU_SOURCE
#include <errno.h>
#include <fcntl.h>
#include <pthread.h>
#include <sched.h>
#include <semaphore.h>
#include <setjmp.h>
#include <signal.h>
#include <stdbool.h>
#include <stdint.h>
#include <stdio.h>
#include <stdlib.h>
#include <sys/mman.h>
#include <unistd.h>

#ifndef MAP_FIXED_NOREPLACE
#define MAP_FIXED_NOREPLACE 0x100000
#endif

enum { CORES = 4, FILES = 3, PAGE = 4096, PAGES = 256, PLACES = 8, RETURN = 0xc3, FIXED = MAP_FIXED | MAP_FIXED_NOREPLACE };
static const uint64_t BASE = 0x8000000000, END = BASE + (uint64_t)PAGES * PAGE, LIMIT = (uint64_t)1 << 47, NO_FILE = 9;

enum action { MMAP, MUNMAP, MPROTECT, LOAD, STORE, FETCH };

struct request {
    enum action action;
    uint64_t address, length, file, offset;
    int prot, flags;
    uint8_t byte;
};

/* An address, a byte or 0; or an error; or a signal and its code. */
struct reply {
    uint64_t value;
    int error, signal, code;
};

static const struct { const char *mode; int flags; uint64_t length; unsigned seed; } files[FILES] = {
    {"rw", O_RDWR, 5 * PAGE + 1000, 7}, {"r", O_RDONLY, 3 * PAGE, 200}, {"w", O_WRONLY, PAGE, 0}};
static int descriptors[FILES];

static void stop(const char *why)
{
    fprintf(stderr, "kernel_replies: %s\n", why);
    exit(2);
}

/* ---- what the replies so far say of the range's pages; it steers what is asked for next, and nothing else */

struct page {
    bool is_mapped, is_kept_read_only, is_past_end;
    int prot;
};
static struct page pages[PAGES];

/* the mappings outside the range, whose places the kernel has chosen */
static struct { uint64_t address, length; } places[PLACES];

static bool is_inside(uint64_t address, uint64_t length) { return address >= BASE && address < END && length <= END - address; }

static struct page *page_at(uint64_t address) { return &pages[(address - BASE) / PAGE]; }

static void note_place(uint64_t address, uint64_t length)
{
    int at = 0;
    while (places[at].length) at++; /* none is asked for where all are taken */
    places[at].address = address;
    places[at].length = length;
}

static void note_mapping(const struct request *asked, uint64_t address)
{
    bool is_of_file = !(asked->flags & MAP_ANONYMOUS);
    for (uint64_t at = 0; at < asked->length; at += PAGE)
        *page_at(address + at) = (struct page){
            .is_mapped = true,
            .is_kept_read_only = is_of_file && asked->flags & MAP_SHARED && files[asked->file].flags == O_RDONLY,
            .is_past_end = is_of_file && asked->offset + at >= files[asked->file].length,
            .prot = asked->prot};
}

static void note(const struct request *asked, const struct reply *came)
{
    if (came->error || asked->action > MPROTECT) return;
    uint64_t address = asked->action == MMAP ? came->value : asked->address;
    if (!is_inside(address, asked->length)) {
        if (asked->action == MMAP) note_place(address, asked->length);
        for (int i = 0; i < PLACES && asked->action == MUNMAP; i++)
            if (places[i].address == address) places[i].length = 0;
    } else if (asked->action == MMAP) {
        note_mapping(asked, address);
    } else {
        for (uint64_t at = 0; at < asked->length; at += PAGE) {
            if (asked->action == MUNMAP) *page_at(address + at) = (struct page){0};
            else page_at(address + at)->prot = asked->prot;
        }
    }
}

/* ---- what is asked for */

static uint64_t state, extent = PAGES;

/* splitmix64 */
static uint64_t below(uint64_t bound)
{
    uint64_t z = state += 0x9e3779b97f4a7c15;
    z = (z ^ z >> 30) * 0xbf58476d1ce4e5b9;
    z = (z ^ z >> 27) * 0x94d049bb133111eb;
    return (z ^ z >> 31) % bound;
}

static bool one_in(uint64_t count) { return below(count) == 0; }

static int some_prot(void)
{
    static const int prots[] = {PROT_NONE, PROT_READ, PROT_WRITE, PROT_READ | PROT_WRITE, PROT_READ | PROT_WRITE,
                                PROT_READ | PROT_EXEC, PROT_WRITE | PROT_EXEC, PROT_READ | PROT_WRITE | PROT_EXEC};
    return prots[below(sizeof prots / sizeof *prots)];
}

/* A range, most often of whole pages, now and then of none, or from within a page, or past all pages. */
static struct request some_range(enum action action)
{
    uint64_t count = 1 + below(one_in(4) ? 16 : 4);
    struct request asked = {.action = action, .prot = some_prot(), .length = count * PAGE};
    asked.address = BASE + below(extent - count + 1) * PAGE;
    if (one_in(4)) asked.length -= below(PAGE);
    if (one_in(40)) asked.length = 0;
    if (one_in(40)) asked.address += below(PAGE);
    if (one_in(80)) asked.address = (uint64_t)1 << (47 + below(16));
    return asked;
}

static struct request some_mapping(void)
{
    struct request asked = some_range(MMAP);
    asked.flags = one_in(2) ? MAP_PRIVATE : MAP_SHARED;
    if (one_in(40)) asked.flags = one_in(2) ? 0 : MAP_PRIVATE | MAP_SHARED;
    if (one_in(2)) {
        asked.flags |= MAP_ANONYMOUS;
    } else {
        asked.file = one_in(20) ? NO_FILE : one_in(20) ? 2 : below(2);
        asked.offset = below(7) * PAGE;
        if (one_in(40)) asked.offset += below(PAGE);
        if (one_in(40)) asked.offset = INT64_MAX & -PAGE;
    }
    if (!one_in(6)) asked.flags |= MAP_FIXED;
    else if (one_in(2)) asked.flags |= MAP_FIXED_NOREPLACE;
    else if (one_in(2)) asked.address = 0;
    return asked;
}

/* Behind some bytes others follow as often, so that loads find what was stored. */
static struct request some_access(void)
{
    struct request asked = {.action = one_in(6) ? FETCH : one_in(2) ? LOAD : STORE};
    static const uint64_t offsets[] = {0, 1, 999, 1000, PAGE - 1};
    uint64_t offset = offsets[below(sizeof offsets / sizeof *offsets)];
    int place = (int)below(PLACES);
    asked.address = BASE + below(extent) * PAGE + offset;
    asked.byte = one_in(2) ? RETURN : (uint8_t)below(256);
    if (one_in(8) && places[place].length && asked.action != FETCH) asked.address = places[place].address + offset;
    if (one_in(200)) asked.address = one_in(2) ? below(PAGE) : UINT64_MAX << (47 - below(8));
    return asked;
}

static struct request some_request(void)
{
    int place = (int)below(PLACES);
    switch (below(10)) {
    case 0: case 1: return some_mapping();
    case 2: return some_range(MUNMAP);
    case 3: return some_range(MPROTECT);
    case 4: if (places[place].length) return (struct request){.action = MUNMAP, .address = places[place].address, .length = places[place].length};
        /* fall through */
    default: return some_access();
    }
}

/* ---- what is left out */

static int faults_of(const struct request *asked)
{
    bool is_of_file = !(asked->flags & MAP_ANONYMOUS), is_fixed = asked->flags & FIXED, is_there = asked->file < FILES;
    int kind = asked->flags & (MAP_PRIVATE | MAP_SHARED);
    return (asked->length == 0) + (kind != MAP_PRIVATE && kind != MAP_SHARED) + (is_fixed && asked->address % PAGE != 0)
        + (is_fixed && asked->address >= END) + (is_of_file && asked->offset % PAGE != 0) + (is_of_file && !is_there)
        + (is_of_file && asked->offset > LIMIT) + (is_of_file && is_there && files[asked->file].flags == O_WRONLY)
        + (is_of_file && is_there && files[asked->file].flags == O_RDONLY && kind == MAP_SHARED && asked->prot & PROT_WRITE);
}

static bool is_mmap_left_out(const struct request *asked)
{
    bool has_both = (asked->flags & (MAP_PRIVATE | MAP_SHARED)) == (MAP_PRIVATE | MAP_SHARED), is_full = true;
    for (int i = 0; i < PLACES; i++) is_full = is_full && places[i].length;
    return faults_of(asked) > 1 || (has_both && !(asked->flags & MAP_ANONYMOUS))
        || (is_full && !(asked->flags & FIXED));
}

static bool fails_at(const struct page *page, int prot) { return !page->is_mapped || (page->is_kept_read_only && prot & PROT_WRITE); }

static bool is_mprotect_left_out(const struct request *asked)
{
    if (asked->address % PAGE != 0 || !is_inside(asked->address, asked->length) || !page_at(asked->address)->is_mapped) return false;
    const struct page *first = page_at(asked->address);
    for (uint64_t at = PAGE; at < asked->length; at += PAGE) {
        const struct page *page = page_at(asked->address + at);
        if (fails_at(first, asked->prot) ? !page->is_mapped : fails_at(page, asked->prot)) return true;
    }
    return false;
}

static bool is_fetch_left_out(const struct request *asked)
{
    if (!is_inside(asked->address, 1)) return false;
    const struct page *page = page_at(asked->address);
    if (!page->is_mapped || !(page->prot & PROT_EXEC)) return page->is_past_end;
    return !page->is_past_end && *(volatile uint8_t *)asked->address != RETURN;
}

static bool is_left_out(const struct request *asked)
{
    switch (asked->action) {
    case MMAP: return is_mmap_left_out(asked);
    case MPROTECT: return is_mprotect_left_out(asked);
    case FETCH: return is_fetch_left_out(asked);
    default: return false;
    }
}

/* ---- the threads of the cores, one of which has its turn */

static _Thread_local sigjmp_buf before_access;
static _Thread_local struct reply faulted;
static sem_t turns[CORES], is_answered;
static struct request asked_now;
static struct reply came_now;

static void on_fault(int signal, siginfo_t *info, void *context)
{
    (void)context;
    faulted = (struct reply){.signal = signal, .code = info->si_code};
    siglongjmp(before_access, 1);
}

static struct reply accessed(const struct request *asked)
{
    volatile uint8_t *byte = (volatile uint8_t *)asked->address;
    if (sigsetjmp(before_access, 0)) return faulted;
    if (asked->action == LOAD) return (struct reply){.value = *byte};
    if (asked->action == STORE) *byte = asked->byte;
    if (asked->action == FETCH) ((void (*)(void))asked->address)();
    return (struct reply){.value = asked->action == FETCH ? RETURN : 0};
}

static struct reply answered(const struct request *asked)
{
    void *address = (void *)asked->address, *at = NULL;
    int descriptor = asked->flags & MAP_ANONYMOUS || asked->file >= FILES ? -1 : descriptors[asked->file];
    int failed = 0;
    switch (asked->action) {
    case MMAP: at = mmap(address, asked->length, asked->prot, asked->flags, descriptor, (off_t)asked->offset); break;
    case MUNMAP: failed = munmap(address, asked->length); break;
    case MPROTECT: failed = mprotect(address, asked->length, asked->prot); break;
    default: return accessed(asked);
    }
    if (at == MAP_FAILED || failed) return (struct reply){.error = errno};
    return (struct reply){.value = (uint64_t)at};
}

static void *be_core(void *argument)
{
    long core = (long)argument;
    cpu_set_t own;
    CPU_ZERO(&own);
    CPU_SET(core % sysconf(_SC_NPROCESSORS_ONLN), &own);
    sched_setaffinity(0, sizeof own, &own); /* where it may not be had, any processor will do */
    for (;;) {
        while (sem_wait(&turns[core])) {}
        came_now = answered(&asked_now);
        sem_post(&is_answered);
    }
    return NULL;
}

static struct reply reply_of_core(int core, const struct request *asked)
{
    asked_now = *asked;
    sem_post(&turns[core]);
    while (sem_wait(&is_answered)) {}
    return came_now;
}

/* ---- lines */

static void write_prot(int prot)
{
    printf(" %c%c%c", prot & PROT_READ ? 'r' : '-', prot & PROT_WRITE ? 'w' : '-', prot & PROT_EXEC ? 'x' : '-');
}

static void write_request(const struct request *asked)
{
    static const char *const names[] = {"mmap", "munmap", "mprotect", "load", "store", "fetch"};
    printf("%s 0x%lx", names[asked->action], asked->address);
    if (asked->action <= MPROTECT) printf(" %lu", asked->length);
    if (asked->action == STORE) printf(" %d", asked->byte);
    if (asked->action == MMAP || asked->action == MPROTECT) write_prot(asked->prot);
    if (asked->action != MMAP) return;
    printf(" %s%s%s%s%s", asked->flags & MAP_PRIVATE ? "p" : "", asked->flags & MAP_SHARED ? "s" : "", asked->flags & FIXED ? "f" : "",
        asked->flags & MAP_ANONYMOUS ? "a" : "", asked->flags ? "" : "-");
    if (!(asked->flags & MAP_ANONYMOUS)) printf(" %lu 0x%lx", asked->file, asked->offset);
}

static const char *error_name(int error)
{
    switch (error) {
    case EINVAL: return "einval";
    case ENOMEM: return "enomem";
    case EACCES: return "eacces";
    case EBADF: return "ebadf";
    case EOVERFLOW: return "eoverflow";
    default: stop("an error that no line can say"); return NULL;
    }
}

static void write_reply(const struct request *asked, const struct reply *came)
{
    bool is_read = asked->action == LOAD || asked->action == FETCH;
    if (came->error) printf(" = %s\n", error_name(came->error));
    else if (came->signal == SIGBUS) printf(" = bus\n");
    else if (came->signal) printf(" = segv %s\n", came->code == SEGV_MAPERR ? "maperr" : came->code == SEGV_ACCERR ? "accerr" : "otherwise");
    else if (asked->action == MMAP) printf(" = 0x%lx\n", came->value);
    else if (is_read) printf(" = %lu\n", came->value);
    else printf(" = done\n");
}

/* ---- all */

static void make_files(void)
{
    static uint8_t bytes[8 * PAGE];
    for (int i = 0; i < FILES; i++) {
        char path[64];
        for (uint64_t at = 0; at < files[i].length; at++) bytes[at] = (uint8_t)(files[i].seed + at);
        int made = memfd_create("file", 0);
        snprintf(path, sizeof path, "/proc/self/fd/%d", made);
        if (made < 0 || write(made, bytes, files[i].length) != (ssize_t)files[i].length) stop("no file can be made in memory");
        descriptors[i] = open(path, files[i].flags);
        if (descriptors[i] < 0) stop("a file can't be opened by /proc");
        printf("file %d %s %lu %u\n", i, files[i].mode, files[i].length, files[i].seed);
    }
}

/* The range has to be free, and so that nothing is mapped to it by itself it is far from all that the kernel places. */
static void look_for_room(void)
{
    if (mmap((void *)BASE, END - BASE, PROT_NONE, MAP_PRIVATE | MAP_ANONYMOUS | MAP_FIXED_NOREPLACE, -1, 0) != (void *)BASE || munmap((void *)BASE, END - BASE))
        stop("the range isn't free");
}

static void begin_cores(void)
{
    struct sigaction action = {.sa_sigaction = on_fault, .sa_flags = SA_SIGINFO | SA_NODEFER};
    sigaction(SIGSEGV, &action, NULL);
    sigaction(SIGBUS, &action, NULL);
    sem_init(&is_answered, 0, 0);
    for (long core = 0; core < CORES; core++) {
        pthread_t thread;
        sem_init(&turns[core], 0, 0);
        if (pthread_create(&thread, NULL, be_core, (void *)core)) stop("no thread can be made");
    }
}

int main(int count, char **words)
{
    static char buffer[1 << 20];
    if (count != 3 && count != 4) stop("usage: kernel_replies REQUESTS SEED [PAGES]");
    uint64_t left = strtoull(words[1], NULL, 10);
    state = strtoull(words[2], NULL, 10);
    if (count == 4) extent = strtoull(words[3], NULL, 10);
    if (extent < 16 || extent > PAGES) stop("the range has 16 to 256 pages");
    setvbuf(stdout, buffer, _IOFBF, sizeof buffer);
    printf("vm %d 65536\n", CORES);
    make_files();
    look_for_room();
    begin_cores();
    while (left > 0) {
        struct request asked = some_request();
        if (is_left_out(&asked)) continue;
        int core = (int)below(CORES);
        struct reply came = reply_of_core(core, &asked);
        if (came.error == EEXIST) continue;
        note(&asked, &came);
        printf("c%d! ", core);
        write_request(&asked);
        write_reply(&asked, &came);
        left--;
    }
    return fflush(stdout) != 0;
}
