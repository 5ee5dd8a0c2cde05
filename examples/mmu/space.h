/* The platform of handler.h whose cores are Linux processes, so that each has page tables of its own. Frames are pages of a memfd. A core's word for
   a page is mirrored by an mmap of its frame: `words` are the core's tables, and its process's mappings are what the MMU took in of them. A page
   fault is SIGSEGV, and an interrupt is SIGUSR1. All accesses are instructions of the processor. */
#ifndef SPACE_H
#define SPACE_H
#ifndef _GNU_SOURCE
#define _GNU_SOURCE
#endif
#include "handler.h"
static uint64_t *clock_of_all;
#define RV_STAMP() __atomic_fetch_add(clock_of_all, 1, __ATOMIC_SEQ_CST)
#include "radixvm_record.h"
#include <string.h>
#include <unistd.h>

enum { CORES = 8, PAGES = 4096, HEAP = 1 << 28, FILE_PAGES = 3, FILE_LENGTH = 10000, FILE_FIRST = 0xc3 };
static const uint64_t FIRST = 0x100000000; /* the space's first page */

/* What the processes share: the machine, its lock and its memory, and what else the cores know of each other. */
static struct shared {
    radixvm_machine machine;
    struct store store;
    int lock, ready, met, running;
    pid_t process[CORES];
    uint64_t stamps;
} *shared;
static uint8_t *frames, *file; /* the memfd's pages, and the file's bytes, with zeros up to the end of its last page */
static int memory;             /* the memfd */

/* What a core has for itself. */
static uint32_t core;
static uint64_t words[PAGES];

static radixvm_machine *machine(void) { return &shared->machine; }
static struct store *store(void) { return &shared->store; }
static uint32_t this_core(void) { return core; }
static uint8_t *frame_bytes(uint64_t frame) { return frames + frame * PAGE; }
static const uint8_t *file_bytes(uint32_t number, uint64_t page) { return file + (number + page) * PAGE; }

static void must(uint32_t status) {
    if (status != RADIXVM_OK) fprintf(stderr, "core %u: %s\n", core, radixvm_text(status)), _exit(4);
}

static void copy_page(uint8_t *to, const uint8_t *from) {
    if (from) memcpy(to, from, PAGE);
    else memset(to, 0, PAGE);
}

static void lock(void) {
    while (__atomic_exchange_n(&shared->lock, 1, __ATOMIC_SEQ_CST)) sched_yield();
}

static void unlock(void) { __atomic_store_n(&shared->lock, 0, __ATOMIC_SEQ_CST); }

static void pause_a_bit(void) {
    if (bug == LATE_COPY || bug == STALE_WORD) usleep(bug == LATE_COPY ? 2000 : 500);
    else sched_yield();
}

static void interrupt(uint64_t cores) {
    for (uint32_t other = 0; other < CORES; other++)
        if (cores >> other & 1) kill(shared->process[other], SIGUSR1);
}

/* ---- words, as Intel SDM volume 3A has them, and mappings */

static const uint64_t PRESENT = 1, NO_EXECUTE = (uint64_t)1 << 63, ADDRESS = 0xffffffffff000;

static int permits(uint64_t word, uint32_t kind) {
    return word & PRESENT && (kind == RADIXVM_STORE ? (word & WRITABLE) != 0 : kind == RADIXVM_LOAD || !(word & NO_EXECUTE));
}

static void map(uint64_t first, uint64_t end, int prot, int flags, int fd, uint64_t offset) {
    if (mmap((void *)(first * PAGE), (end - first) * PAGE, prot, flags | MAP_FIXED, fd, (off_t)offset) == MAP_FAILED) perror("mmap"), _exit(4);
}

static void clear(uint64_t first, uint64_t end) { memset(&words[first - FIRST], 0, (end - first) * sizeof words[0]); }

static void flush(uint64_t first, uint64_t end) { map(first, end, PROT_NONE, MAP_PRIVATE | MAP_ANONYMOUS | MAP_NORESERVE, -1, 0); }

/* The MMU takes the page's word in. */
static void walk(uint64_t page) {
    uint64_t word = words[page - FIRST];
    int prot = PROT_READ | (permits(word, RADIXVM_STORE) ? PROT_WRITE : 0) | (permits(word, RADIXVM_FETCH) ? PROT_EXEC : 0);
    map(page, page + 1, prot, MAP_SHARED, memory, word & ADDRESS);
}

static void install(uint64_t page, uint64_t word) {
    words[page - FIRST] = word;
    walk(page);
}

/* ---- faults, interrupts and calls */

static void on_interrupt(int number) {
    int error = errno;
    (void)number;
    take_messages();
    errno = error;
}

/* A page fault in the space is the library's: the instruction runs again, or the program gets the signal. A word that permits the access is only to
   be taken in. */
static void on_fault(int number, siginfo_t *info, void *context) {
    greg_t *registers = rv_registers(context);
    uint64_t at = rv_at(info->si_addr), error = (uint64_t)registers[REG_ERR];
    if (registers[REG_TRAPNO] != 14 || at / PAGE < FIRST || at / PAGE >= FIRST + PAGES) {
        rv_caught(number, info, context);
        return;
    }
    uint32_t kind = error & 16 ? RADIXVM_FETCH : error & 2 ? RADIXVM_STORE : RADIXVM_LOAD;
    if (permits(words[at / PAGE - FIRST], kind)) {
        walk(at / PAGE);
        return;
    }
    radixvm_outcome told = touch(at, kind);
    if (is_served(&told)) return;
    info->si_code = told.kind == RADIXVM_SEGV_MAPERR ? SEGV_MAPERR : SEGV_ACCERR;
    rv_caught(told.kind == RADIXVM_BUS ? SIGBUS : SIGSEGV, info, context);
    if (told.kind == RADIXVM_NO_FRAME) registers[REG_RDX] = RV_NOFRAME;
}

/* An mmap, munmap or mprotect of the program. */
static radixvm_outcome call(const radixvm_event *event) {
    sigset_t interrupts;
    sigemptyset(&interrupts), sigaddset(&interrupts, SIGUSR1);
    sigprocmask(SIG_BLOCK, &interrupts, NULL);
    radixvm_outcome told = change(event);
    sigprocmask(SIG_UNBLOCK, &interrupts, NULL);
    return told;
}

/* ---- begin and end */

static void *shared_memory(size_t size) {
    void *at = mmap(NULL, size, PROT_READ | PROT_WRITE, MAP_SHARED | MAP_ANONYMOUS | MAP_NORESERVE, -1, 0);
    if (at == MAP_FAILED) perror("mmap"), exit(3);
    return at;
}

/* Makes a machine of so many cores and frames, with one file, in memory that processes share. */
static void open_space(uint32_t cores, uint64_t count) {
    radixvm_setup setup = {cores, count, (uint64_t)1 << 40, 0};
    radixvm_file kept = {RADIXVM_O_RDWR, 0, FILE_LENGTH};
    shared = shared_memory(sizeof *shared);
    shared->running = (int)cores;
    shared->store.heap = shared_memory(HEAP), shared->store.heap_end = shared->store.heap + HEAP;
    clock_of_all = &shared->stamps;
    file = shared_memory(FILE_PAGES * PAGE);
    for (int i = 0; i < FILE_LENGTH; i++) file[i] = (uint8_t)(FILE_FIRST + i);
    memory = memfd_create("frames", 0);
    if (memory < 0 || ftruncate(memory, (off_t)count * PAGE)) perror("memfd"), exit(3);
    frames = mmap(NULL, count * PAGE, PROT_READ | PROT_WRITE, MAP_SHARED, memory, 0);
    if (frames == MAP_FAILED) perror("mmap"), exit(3);
    must(radixvm_new(&setup, &kept, 1, file, FILE_LENGTH, machine()).status);
}

/* This process becomes a core, whose MMU has nothing of the space (duty 8), and waits until the others are cores too. */
static void become(uint32_t number) {
    struct sigaction fault, message;
    memset(&message, 0, sizeof message), memset(&fault, 0, sizeof fault);
    message.sa_handler = on_interrupt, message.sa_flags = SA_RESTART;
    fault.sa_sigaction = on_fault, fault.sa_flags = SA_SIGINFO;
    sigaddset(&fault.sa_mask, SIGUSR1);
    if (rv_start() || sigaction(SIGSEGV, &fault, NULL) || sigaction(SIGUSR1, &message, NULL)) perror("sigaction"), _exit(3);
    flush(FIRST, FIRST + PAGES);
    core = number;
    shared->process[core] = getpid();
    __atomic_fetch_add(&shared->ready, 1, __ATOMIC_SEQ_CST);
    while (__atomic_load_n(&shared->ready, __ATOMIC_SEQ_CST) < shared->running) usleep(100);
}

/* The core's program has ended. The core takes messages until all have. */
static void rest(void) {
    __atomic_fetch_sub(&shared->running, 1, __ATOMIC_SEQ_CST);
    while (__atomic_load_n(&shared->running, __ATOMIC_SEQ_CST) > 0) usleep(100);
}
#endif
