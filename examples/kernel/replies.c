/* Makes a call of each kind with each reply that the recorder's header knows, and fills a ring: the record then ends for all threads. What is
   wrong is reported on standard error; the history goes to standard output. examples/kernel/test.sh compiles and runs it. */
#ifndef _GNU_SOURCE
#define _GNU_SOURCE
#endif
#include "radixvm_record.h"
#include <pthread.h>

enum { PAGE = 4096, ROOM = 70 };

static void need(int is_so, const char *what) {
    if (is_so) return;
    fprintf(stderr, "wrong: %s\n", what);
    exit(1);
}

static void *go_on(void *argument) {
    struct rv_ring *ring = (struct rv_ring *)argument;
    static uint8_t at;
    uint8_t byte;
    for (int i = 0; i < 100000; i++) rv_store(ring, &at, 1), rv_load(ring, &at, &byte);
    return NULL;
}

static void touch(struct rv_ring *ring, uint8_t *at) {
    static const uint8_t codes[] = {0xc3, 0xcc, 0xf4, 0x06};
    uint8_t byte = 7;
    need(rv_load(ring, at, &byte) == RV_MAPERR && byte == 0, "load, maperr");
    need(rv_store(ring, at, 1) == RV_MAPERR, "store, maperr");
    need(rv_fetch(ring, at, &byte) == RV_MAPERR, "fetch, maperr");
    int all = PROT_READ | PROT_WRITE | PROT_EXEC;
    need(rv_mmap(ring, at, PAGE, all, MAP_PRIVATE | MAP_ANONYMOUS | MAP_FIXED, -1, 0, 0) == at, "mmap");
    need(rv_fetch(ring, at, &byte) == RV_BYTE && byte == 0, "fetch of 0");
    for (int i = 0; i < 4; i++) {
        need(rv_store(ring, at, codes[i]) == RV_DONE, "store");
        need(rv_load(ring, at, &byte) == RV_BYTE && byte == codes[i], "load");
        need(rv_fetch(ring, at, &byte) == RV_BYTE && byte == codes[i], "fetch");
    }
    need(!rv_mprotect(ring, at, PAGE, PROT_READ), "mprotect");
    need(rv_store(ring, at, 3) == RV_ACCERR, "store, accerr");
    need(rv_fetch(ring, at, &byte) == RV_ACCERR, "fetch, accerr");
    need(rv_load(ring, at, &byte) == RV_BYTE && byte == codes[3], "load of what may not be written");
    need(!rv_munmap(ring, at, PAGE), "munmap");
    need(rv_munmap(ring, at, 0) == -1 && errno == EINVAL, "munmap, einval");
    need(rv_mprotect(ring, at, PAGE, PROT_READ) == -1 && errno == ENOMEM, "mprotect, enomem");
}

static void touch_file(struct rv_ring *ring, uint8_t *at, int fd) {
    uint8_t byte;
    need(rv_mmap(ring, at, 2 * PAGE, PROT_READ | PROT_WRITE, MAP_SHARED | MAP_FIXED, fd, 0, 0) == at, "mmap of a file");
    need(rv_load(ring, at + PAGE, &byte) == RV_BUS, "load, bus");
    need(rv_store(ring, at + PAGE, 1) == RV_BUS, "store, bus");
    need(rv_store(ring, at, 1) == RV_DONE, "store to a file");
    need(rv_mmap(ring, at, PAGE, PROT_READ, MAP_PRIVATE | MAP_FIXED, fd, 1, 0) == MAP_FAILED && errno == EINVAL, "mmap, einval");
    need(rv_mmap(ring, at, PAGE, PROT_READ, MAP_PRIVATE | MAP_FIXED, -1, 0, 7) == MAP_FAILED && errno == EBADF, "mmap, ebadf");
}

/* The reply of the ring's last call. */
static unsigned last_told(const struct rv_ring *ring) { return ring->calls[ring->count - 1].told; }

/* What a plain page map lacks: limits, an error of its own, a flag and execute-only pages. */
static void touch_beyond(struct rv_ring *ring, uint8_t *at) {
    enum { VALIDATE = 3, NOREPLACE = 0x100000 };
    struct rlimit all;
    uint8_t byte;
    /* Linux refuses it to what is no file */
    need(rv_mmap(ring, at, PAGE, PROT_READ, VALIDATE | MAP_FIXED | MAP_ANONYMOUS, -1, 0, 0) == at || last_told(ring) == RV_OTHER, "validate");
    need(rv_mmap(ring, at, PAGE, PROT_EXEC, MAP_PRIVATE | MAP_FIXED | MAP_ANONYMOUS, -1, 0, 0) == at, "mmap, execute-only");
    enum rv_told told = rv_load(ring, at, &byte);
    need((told == RV_BYTE && byte == 0) || told == RV_KEY, "load, execute-only");
    need(rv_mmap(ring, at, PAGE, PROT_READ, NOREPLACE | MAP_PRIVATE | MAP_ANONYMOUS, -1, 0, 0) != at, "noreplace");
    need(last_told(ring) == RV_OTHER || last_told(ring) == RV_ADDRESS, "noreplace, told");
    need(!getrlimit(RLIMIT_AS, &all), "getrlimit");
    rlim_t before = all.rlim_cur;
    all.rlim_cur = 1;
    need(!setrlimit(RLIMIT_AS, &all), "setrlimit");
    need(rv_mmap(ring, at + PAGE, PAGE, PROT_READ, MAP_PRIVATE | MAP_FIXED | MAP_ANONYMOUS, -1, 0, 0) == MAP_FAILED, "mmap, a limit");
    need(last_told(ring) == RV_NOMEMORY, "mmap, nomemory");
    need(rv_mprotect(ring, at, 3 * PAGE, PROT_READ) == -1 && last_told(ring) == RV_ENOMEM, "mprotect of a gap under a limit");
    all.rlim_cur = before;
    need(!setrlimit(RLIMIT_AS, &all), "setrlimit back");
    need(rv_mmap(ring, NULL, (size_t)1 << 48, PROT_READ, MAP_PRIVATE | MAP_ANONYMOUS, -1, 0, 0) == MAP_FAILED, "mmap of too much");
    need(last_told(ring) == RV_ENOMEM, "mmap of too much, enomem");
}

int main(void) {
    struct rv_ring *mine = rv_thread(0, ROOM), *other = rv_thread(1, 1000000);
    pthread_t thread;
    uint8_t byte;
    need(mine && other && !rv_start(), "the start");
    int fd = memfd_create("replies", 0);
    need(fd >= 0 && !ftruncate(fd, PAGE), "the file");
    /* far below what the kernel hands out next */
    void *probe = mmap(NULL, 2 * PAGE, PROT_NONE, MAP_PRIVATE | MAP_ANONYMOUS, -1, 0);
    need(probe != MAP_FAILED && !munmap(probe, 2 * PAGE), "the place");
    uint8_t *at = (uint8_t *)((uintptr_t)probe - ((uintptr_t)64 << 30));
    touch(mine, at);
    touch_beyond(mine, at);
    touch_file(mine, at, fd);
    need(mine->count < ROOM, "the room");
    need(!pthread_create(&thread, NULL, go_on, other), "the thread");
    while (mine->count < ROOM) rv_load(mine, at, &byte);
    need(rv_load(mine, at, &byte) == RV_BYTE && byte == 1, "a call behind the record");
    uint64_t last = other->count;
    pthread_join(thread, NULL);
    need(mine->count == ROOM && other->count == last, "the end of the record");
    rv_head(stdout, 1);
    puts("file 0 rw 4096 0");
    need(rv_write(stdout) == 1, "the text");
    return 0;
}
