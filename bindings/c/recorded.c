/* A program that knows of no recorder, for bindings/preload.c: threads, four at once and many in turn, map, unmap, protect, move and hand back pages,
   also in the handler of a signal, and a forked process does so, too.
   usage: recorded SEED THREADS CALLS, each thread so many calls; THREADS 0 goes on until the program is killed. */
#ifndef _GNU_SOURCE
#define _GNU_SOURCE
#endif
#include <pthread.h>
#include <signal.h>
#include <stdint.h>
#include <stdio.h>
#include <stdlib.h>
#include <string.h>
#include <sys/mman.h>
#include <sys/wait.h>
#include <unistd.h>

enum { PAGE = 4096, KEPT = 12, AT_ONCE = 4 };

static unsigned long seed, calls;
static volatile sig_atomic_t handled;

static unsigned long below(unsigned long *state, unsigned long bound) {
    *state = *state * 6364136223846793005u + 1442695040888963407u;
    return (*state >> 33) % bound;
}

/* A store to pages that may only be read lets them be written, as a garbage collector's handler does. */
static void on_fault(int number, siginfo_t *info, void *context) {
    (void)context;
    handled++;
    void *page = (void *)((uintptr_t)info->si_addr / PAGE * PAGE);
    if (mprotect(page, PAGE, PROT_READ | PROT_WRITE)) signal(number, SIG_DFL);
}

/* What a thread has mapped. */
struct kept {
    char *at;
    size_t pages;
};

static void change(struct kept *kept, unsigned long *state) {
    if (!kept->at) {
        kept->pages = 1 + below(state, 9);
        kept->at = mmap(NULL, kept->pages * PAGE, PROT_READ | PROT_WRITE, MAP_PRIVATE | MAP_ANONYMOUS, -1, 0);
        if (kept->at == MAP_FAILED) exit(3);
        return;
    }
    size_t page = below(state, kept->pages), length = (kept->pages - page) * PAGE;
    char *at = kept->at + page * PAGE;
    switch (below(state, 7)) {
    case 0: mprotect(at, PAGE, PROT_READ), *(volatile char *)at = 1; break;
    case 1: mprotect(kept->at, kept->pages * PAGE, PROT_READ | PROT_WRITE); break;
    case 2: mmap(at, length, PROT_READ, MAP_PRIVATE | MAP_ANONYMOUS | MAP_FIXED, -1, 0); break;
    case 3: madvise(at, length, MADV_DONTNEED); break;
    case 4: /* over mappings of several kinds it may be refused */
        page = 1 + below(state, 20), at = mremap(kept->at, kept->pages * PAGE, page * PAGE, MREMAP_MAYMOVE);
        if (at != MAP_FAILED) kept->at = at, kept->pages = page;
        break;
    default:
        munmap(at, length);
        kept->pages = page;
        if (!page) kept->at = NULL;
    }
}

static void *run(void *argument) {
    struct kept kept[KEPT];
    unsigned long state = (uintptr_t)argument * 7919 + seed;
    memset(kept, 0, sizeof kept);
    for (unsigned long i = 0; i < calls; i++) change(&kept[below(&state, KEPT)], &state);
    for (int i = 0; i < KEPT; i++)
        if (kept[i].at) munmap(kept[i].at, kept[i].pages * PAGE);
    return NULL;
}

/* As many threads, at most AT_ONCE at once. */
static void run_threads(unsigned long threads) {
    pthread_t running[AT_ONCE];
    for (unsigned long i = 0; !threads || i < threads; i++) {
        if (i >= AT_ONCE) pthread_join(running[i % AT_ONCE], NULL);
        if (pthread_create(&running[i % AT_ONCE], NULL, run, (void *)(uintptr_t)(i + 1))) exit(3);
    }
    for (unsigned long i = 0; i < AT_ONCE && i < threads; i++) pthread_join(running[i], NULL);
}

int main(int argc, char **argv) {
    if (argc != 4) return 2;
    struct sigaction action;
    memset(&action, 0, sizeof action);
    action.sa_sigaction = on_fault, action.sa_flags = SA_SIGINFO;
    if (sigaction(SIGSEGV, &action, NULL)) return 3;
    seed = strtoul(argv[1], NULL, 10), calls = strtoul(argv[3], NULL, 10);
    run_threads(strtoul(argv[2], NULL, 10));
    pid_t child = fork();
    if (child < 0) return 3;
    if (!child) run((void *)99), _exit(0);
    int status;
    if (waitpid(child, &status, 0) != child || status) return 3;
    printf("%d\n", (int)getpid());
    return 0;
}
