/* RadixVM, verified: a recorder for tests of kernels, hypervisors and unikernels. It records the calls that threads make on one
 * address space. The calls may overlap. It writes them as a history that `radixvm audit --overlapping` judges: is there an order of
 * the calls in which a plain page map gives these replies? It is one header, in C11 or C++17, for one file of a program. Nothing of
 * it is proved: the judge believes what it writes.
 *
 *     #define _GNU_SOURCE                                  where the compiler has not (g++ has)
 *     #include "radixvm_record.h"
 *     rv_start();                                          once: it catches the faults of the accesses below
 *     struct rv_ring *mine = rv_thread(0, 100000);         in each thread: core 0, at most 100000 calls
 *     rv_pin(mine);                                        it stays on one processor
 *     rv_mmap(mine, at, 4096, PROT_READ | PROT_WRITE, MAP_PRIVATE | MAP_ANONYMOUS | MAP_FIXED, -1, 0, 0);
 *     rv_store(mine, at, 41);  rv_load(mine, at, &byte);   in place of the calls and accesses themselves
 *     rv_head(stdout, 4);  rv_write(stdout);               at the end, when no thread makes calls any more
 *
 * Each line is `BEGIN END cC! REQUEST = REPLY`. BEGIN is a stamp taken before the call, END one taken after it. If a thread is stopped
 * between a call and its stamp, the stamps are wider than the call, and the judge sees less. They are never narrower: then the judge
 * would accuse wrongly.
 *
 * Stamps. By default they are numbers of one counter that all threads increment. Then nobody has to believe in clocks, and on x86-64
 * and Arm the increment is a fence. With RV_TSC defined they are the processor's time stamps (rdtscp); use it only if those of all
 * processors agree (constant_tsc, nonstop_tsc). When a store instruction ends, its byte may still be in the store buffer, where no
 * other processor sees it. So with RV_TSC a fence is made before a store's end stamp. Without the fence innocent kernels are accused.
 * You may define RV_STAMP() as another clock. It must be a fence, and never go back from one thread to another. On processors that
 * reorder loads a fence is also made between a call and its stamps.
 *
 * Threads that move. A core of a history is a processor. The judge lets no core go back to an old translation, so a thread that moves
 * looks wrong where it isn't. Let each thread call rv_pin. Where one didn't, rv_write says so in a comment.
 *
 * What a plain page map lacks. A call that the kernel refuses by a limit of the process (RLIMIT_AS, RLIMIT_DATA, the number of mappings)
 * is written as `nomemory`, which any kernel may reply. Two sorts of refusals are written as comments, which the judge doesn't read: those by
 * an error that the map never gives (EAGAIN, EPERM, EEXIST and others), and those by a protection key, as of a load from an
 * execute-only page. rv_write counts these. Look at them: a kernel that refuses so what it should do isn't called wrong.
 *
 * A full ring ends the record, for all threads. A judge needs every call from the first on, since recorded calls can see the effect of
 * one that isn't recorded. So the calls that are being recorded end first, and then further calls are made and not recorded. rv_write
 * says so in a comment and by what it returns.
 *
 * A record that outlives its process. After rv_keep(PATH) the rings lie in a file that is mapped shared. The program radixvm-record
 * (bindings/radixvm-record.c) writes its history, also where the process was killed, and with the calls that were under way then. Lines
 * of the head are kept by rv_say. If the kernel dies, the file is there only if its pages are: on a disk that the host caches, on virtiofs
 * or pmem. Without files rv_place puts a ring into memory of yours, and radixvm-record reads a copy of that memory.
 *
 * rv_start, rv_load, rv_store and rv_fetch are there on x86-64 Linux alone. On other systems, and without signals (in a unikernel, a
 * simulator, or a hypervisor), call rv_begin and rv_end around each call or access, and rv_line for its text.
 * With RV_FREESTANDING defined the header uses no C library, and rv_join joins the rings.
 *
 * Units: addresses, lengths and offsets are in bytes. Cores are 0 to 63, and one thread at a time makes the calls of a core. */
#ifndef RADIXVM_RECORD_H
#define RADIXVM_RECORD_H
#include <stddef.h>
#include <stdint.h>
#ifndef RV_FREESTANDING
#ifndef _GNU_SOURCE
#error "radixvm_record.h: define _GNU_SOURCE before the first include"
#endif
#include <errno.h>
#include <fcntl.h>
#include <sched.h>
#include <signal.h>
#include <stdio.h>
#include <stdlib.h>
#include <sys/mman.h>
#include <sys/resource.h>
#include <sys/stat.h>
#include <sys/types.h>
#include <ucontext.h>
#include <unistd.h>
#endif

/* ---- calls */

enum rv_kind { RV_MMAP, RV_MUNMAP, RV_MPROTECT, RV_LOAD, RV_STORE, RV_FETCH };

/* The reply to a call. RV_ADDRESS and RV_BYTE have a value. RV_NOFRAME and RV_NOMEMORY say that the kernel had no memory for a call that
 * it would have made otherwise, or a limit. RV_OTHER is an error that a plain page map never gives, its number the value; RV_KEY is a
 * refusal by a protection key. Lines with these two are comments. */
enum rv_told {
    RV_ADDRESS, RV_DONE, RV_BYTE, RV_MAPERR, RV_ACCERR, RV_BUS, RV_EINVAL, RV_ENOMEM, RV_EBADF, RV_EOVERFLOW, RV_EACCES, RV_NOFRAME,
    RV_NOMEMORY, RV_OTHER, RV_KEY
};

/* rights, and flags of a mapping */
enum { RV_READ = 1, RV_WRITE = 2, RV_EXEC = 4 };
enum { RV_PRIVATE = 1, RV_SHARED = 2, RV_FIXED = 4, RV_ANONYMOUS = 8 };

/* A call. Only the fields of its kind are read: length of mmap, munmap and mprotect; rights of mmap and mprotect; flags, file and offset
 * of mmap; byte of a store. */
struct rv_call {
    uint64_t begin, end, address, length, offset, value;
    uint32_t file;
    uint8_t kind, rights, flags, byte, told;
};

/* The calls of one core, in order. `mark` is RV_MARK. While `busy` is set, the call after the last may be under way. `is_pinned`: the
 * core's thread stays on one processor. `is_partial`: calls are left out (bindings/preload.c). `ended`: the ring had no room for a call. */
struct rv_ring {
    uint64_t mark;
    struct rv_call *calls;
    uint64_t count, room;
    struct rv_ring *next;
    int core, busy, is_pinned, is_partial, ended;
};

/* What begins each ring and each note of a file, so that a reader finds it; and how files are divided. */
#define RV_MARK 0x31676e6972767200u
#define RV_NOTE 0x3165746f6e767200u
enum { RV_PAGE = 4096 };

/* All rings, whether the record has ended, and the counter. */
static struct rv_ring *rv_rings __attribute__((unused));
static int rv_ended __attribute__((unused));
static uint64_t rv_clock __attribute__((unused, aligned(128))) = 1;

static inline uint64_t rv_at(const void *address) { return (uint64_t)(uintptr_t)address; }

static inline unsigned rv_if(int is_so, unsigned flag) { return is_so ? flag : 0; }

/* A call without its stamps and its reply. */
static inline struct rv_call rv_asked(enum rv_kind kind, uint64_t address, uint64_t length, unsigned rights) {
    struct rv_call call;
    call.begin = call.end = call.offset = call.value = 0;
    call.address = address, call.length = length, call.file = 0;
    call.kind = (uint8_t)kind, call.rights = (uint8_t)rights, call.flags = call.byte = call.told = 0;
    return call;
}

/* Whether a plain page map has no place for the range: it reaches past 2^47. */
static inline int rv_reaches_past(uint64_t address, uint64_t length) {
    const uint64_t end = (uint64_t)1 << 47;
    return length > end || address > end - length;
}

/* ---- stamps */

#if defined RV_TSC && !defined RV_STAMP
/* rdtscp waits until all instructions before it are done, and lfence until the stamp is taken. */
static inline uint64_t rv_now(void) {
    uint32_t low, high, processor;
    __asm__ volatile("rdtscp\n\tlfence" : "=a"(low), "=d"(high), "=c"(processor) : : "memory");
    return (uint64_t)high << 32 | low;
}
static inline void rv_fence(void) { __asm__ volatile("mfence" : : : "memory"); }
#else
#ifndef RV_STAMP
#define RV_STAMP() __atomic_fetch_add(&rv_clock, 1, __ATOMIC_SEQ_CST)
#endif
static inline uint64_t rv_now(void) { return RV_STAMP(); }
/* Keeps a call and its stamps in order: also the fetches of instructions and the walks of tables, where the processor has a way to. */
static inline void rv_fence(void) {
#if defined __x86_64__ || defined __i386__
    /* the increment is a fence, and loads aren't reordered */
#elif defined __aarch64__
    __asm__ volatile("dsb sy\n\tisb" : : : "memory");
#elif defined __riscv
    __asm__ volatile("fence rw, rw\n\tfence.i" : : : "memory");
#else
    __atomic_thread_fence(__ATOMIC_SEQ_CST);
#endif
}
#endif

/* x86-64 needs the fence after stores alone, and others around each call. */
#if defined __x86_64__ || defined __i386__
enum { RV_FENCES = 0 };
#else
enum { RV_FENCES = 1 };
#endif

#ifdef RV_FREESTANDING
static inline void rv_relax(void) {}
#else
static inline void rv_relax(void) { sched_yield(); }
#endif

/* ---- the record */

/* Adds a ring to the record. It has `room` calls, belongs to the caller, and is for a core that makes no call yet. */
static inline void rv_join(struct rv_ring *ring, struct rv_call *calls, uint64_t room, int core) {
    ring->mark = RV_MARK, ring->calls = calls, ring->room = room, ring->count = 0, ring->core = core, ring->busy = 0;
    ring->is_pinned = ring->is_partial = ring->ended = 0;
    ring->next = __atomic_load_n(&rv_rings, __ATOMIC_SEQ_CST);
    while (!__atomic_compare_exchange_n(&rv_rings, &ring->next, ring, 0, __ATOMIC_SEQ_CST, __ATOMIC_SEQ_CST)) {}
}

/* Where the calls of a ring lie that has them in the same memory. */
static inline struct rv_call *rv_behind(struct rv_ring *ring) { return (struct rv_call *)((char *)ring + (sizeof *ring + 63) / 64 * 64); }

/* How many bytes such a ring takes: whole pages. */
static inline uint64_t rv_bytes(uint64_t room) {
    return ((sizeof(struct rv_ring) + 63) / 64 * 64 + room * sizeof(struct rv_call) + RV_PAGE - 1) / RV_PAGE * RV_PAGE;
}

/* Adds a ring that lies in this memory, as radixvm-record reads it from a copy. The memory begins at a page, has rv_bytes(room) bytes, and
 * is zero. */
static inline struct rv_ring *rv_place(void *memory, uint64_t room, int core) {
    struct rv_ring *ring = (struct rv_ring *)memory;
    rv_join(ring, rv_behind(ring), room, core);
    return ring;
}

/* Ends the record, and waits until no call is being recorded. No recorded call has seen what the caller does afterwards. */
static inline void rv_stop(void) {
    __atomic_store_n(&rv_ended, 1, __ATOMIC_SEQ_CST);
    for (struct rv_ring *ring = __atomic_load_n(&rv_rings, __ATOMIC_SEQ_CST); ring; ring = ring->next)
        while (__atomic_load_n(&ring->busy, __ATOMIC_SEQ_CST)) rv_relax();
}

/* Begins a call in a ring that is busy and has room. Its begin is written last: a reader takes no call without one. */
static inline struct rv_call *rv_enter(struct rv_ring *ring, struct rv_call call) {
    struct rv_call *recorded = &ring->calls[ring->count];
    *recorded = call;
    __atomic_store_n(&recorded->begin, rv_now(), __ATOMIC_RELEASE);
    if (RV_FENCES) rv_fence();
    return recorded;
}

/* Begins a call of the ring's core. Null: the record has ended, so the call isn't recorded; make it all the same. */
static inline struct rv_call *rv_begin(struct rv_ring *ring, struct rv_call call) {
    __atomic_store_n(&ring->busy, 1, __ATOMIC_SEQ_CST);
    if (ring->count == ring->room || __atomic_load_n(&rv_ended, __ATOMIC_SEQ_CST)) {
        ring->ended = 1;
        __atomic_store_n(&ring->busy, 0, __ATOMIC_SEQ_CST);
        rv_stop();
        return NULL;
    }
    return rv_enter(ring, call);
}

/* Ends the call that was begun, with its reply. Does nothing if `call` is null. */
static inline void rv_end(struct rv_ring *ring, struct rv_call *call, enum rv_told told, uint64_t value) {
    if (!call) return;
    if (RV_FENCES || call->kind == RV_STORE) rv_fence();
    do call->end = rv_now();
    while (call->end <= call->begin);
    call->told = (uint8_t)told, call->value = value;
    __atomic_store_n(&ring->count, ring->count + 1, __ATOMIC_RELEASE);
    __atomic_store_n(&ring->busy, 0, __ATOMIC_RELEASE);
}

/* ---- its text */

/* Whether the judge reads no such reply. */
static inline int rv_is_comment(const struct rv_call *call) { return call->told >= RV_OTHER; }

/* A reply as text, as a judge of histories reads it; NULL if it has a value. */
static inline const char *rv_told_text(unsigned told) {
    static const char *const texts[] = {NULL,     "done",  "",          "segv maperr", "segv accerr", "bus",      "einval",
                                        "enomem", "ebadf", "eoverflow", "eacces",      "noframe",     "nomemory"};
    if (told == RV_KEY) return "refused by a protection key";
    return told == RV_ADDRESS || told == RV_BYTE || told >= RV_OTHER ? NULL : texts[told];
}

static inline char *rv_put(char *to, const char *text) {
    while (*text) *to++ = *text++;
    return to;
}

static inline char *rv_put_number(char *to, uint64_t number, unsigned base) {
    char digits[20];
    int count = 0;
    do digits[count++] = "0123456789abcdef"[number % base];
    while (number /= base);
    while (count) *to++ = digits[--count];
    return to;
}

static inline char *rv_put_address(char *to, uint64_t number) { return rv_put_number(rv_put(to, " 0x"), number, 16); }

/* The longest line, with its newline and the final zero. */
enum { RV_LINE = 256 };

/* Puts a call's request. */
static inline char *rv_put_request(char *to, const struct rv_call *call) {
    static const char *const names[] = {"mmap", "munmap", "mprotect", "load", "store", "fetch"};
    to = rv_put_address(rv_put(to, names[call->kind % 6u]), call->address);
    if (call->kind <= RV_MPROTECT) *to++ = ' ', to = rv_put_number(to, call->length, 10);
    if (call->kind == RV_STORE) *to++ = ' ', to = rv_put_number(to, call->byte, 10);
    if (call->kind == RV_MMAP || call->kind == RV_MPROTECT) {
        *to++ = ' ', *to++ = call->rights & RV_READ ? 'r' : '-', *to++ = call->rights & RV_WRITE ? 'w' : '-';
        *to++ = call->rights & RV_EXEC ? 'x' : '-';
    }
    if (call->kind == RV_MMAP) {
        to = rv_put(to, call->flags ? " " : " -");
        for (unsigned flag = 0; flag < 4; flag++)
            if (call->flags >> flag & 1) *to++ = "psfa"[flag];
        if (!(call->flags & RV_ANONYMOUS)) *to++ = ' ', to = rv_put_address(rv_put_number(to, call->file, 10), call->offset);
    }
    return to;
}

/* Puts a call's reply, and ends the line. */
static inline void rv_put_reply(char *to, const struct rv_call *call) {
    to = rv_put(to, " =");
    if (call->told == RV_ADDRESS) to = rv_put_address(to, call->value);
    else if (call->told == RV_BYTE) *to++ = ' ', to = rv_put_number(to, call->value, 10);
    else if (rv_told_text(call->told)) to = rv_put(rv_put(to, " "), rv_told_text(call->told));
    else to = rv_put_number(rv_put(to, " errno "), call->value, 10);
    rv_put(to, "\n")[0] = 0;
}

/* Writes the line of a core's call, with a newline and a final zero. */
static inline void rv_line(char text[RV_LINE], int core, const struct rv_call *call) {
    char *to = rv_put_number(rv_is_comment(call) ? rv_put(text, "# ") : text, call->begin, 10);
    *to++ = ' ', to = rv_put_number(to, call->end, 10);
    to = rv_put(rv_put_number(rv_put(to, " c"), (uint64_t)core, 10), "! ");
    rv_put_reply(rv_put_request(to, call), call);
}

#ifndef RV_FREESTANDING

/* ---- a record in a file */

/* The file's path, empty where there is none, and how many of its bytes are given to rings. */
static char rv_path[RV_PAGE] __attribute__((unused));
static uint64_t rv_kept __attribute__((unused));

/* A line for the beginning of the text. Of a recorder that leaves calls out: how often the program made them, and the stamp from which on
 * others may be left out, too, or 0. */
enum { RV_MREMAP, RV_BRK, RV_MADVISE, RV_SHM, RV_REMAP_FILE, RV_LEFT };
struct rv_note {
    uint64_t mark, ended_at, left[RV_LEFT];
    char text[RV_PAGE - 8 * (2 + RV_LEFT)];
};

/* `length` more bytes of the file, zero and mapped shared. NULL, with errno: there is no room, or no file of this path. The path is opened
 * anew, since a program may close all that is open. */
static inline void *rv_more(uint64_t length) {
    int fd = open(rv_path, O_RDWR | O_CLOEXEC);
    if (fd < 0) return NULL;
    uint64_t at = __atomic_fetch_add(&rv_kept, length, __ATOMIC_SEQ_CST);
    int error = posix_fallocate(fd, (off_t)at, (off_t)length);
    void *memory = error ? MAP_FAILED : mmap(NULL, (size_t)length, PROT_READ | PROT_WRITE, MAP_SHARED, fd, (off_t)at);
    if (!error) error = errno;
    close(fd);
    errno = error;
    return memory == MAP_FAILED ? NULL : memory;
}

/* Keeps the rings that rv_thread makes in a file of this path, whose old contents go. Returns 0, or -1 with errno. */
static inline int rv_keep(const char *path) {
    size_t length = 0;
    while (path[length]) length++;
    if (length >= sizeof rv_path) return errno = ENAMETOOLONG, -1;
    int fd = open(path, O_RDWR | O_CREAT | O_TRUNC | O_CLOEXEC, 0666);
    if (fd < 0) return -1;
    rv_put(rv_path, path)[0] = 0;
    rv_kept = 0;
    return close(fd);
}

/* Keeps a line of the text's beginning in the file, as "file 0 rw 8192 7". Returns 0, or -1 with errno. */
static inline int rv_say(const char *line) {
    struct rv_note *note = (struct rv_note *)rv_more(sizeof *note);
    if (!note) return -1;
    for (size_t i = 0; line[i] && i < sizeof note->text - 1; i++) note->text[i] = line[i];
    __atomic_store_n(&note->mark, RV_NOTE, __ATOMIC_RELEASE);
    return 0;
}

/* Makes a ring of `room` calls for a core that makes no call yet, and adds it to the record: in the file of rv_keep, if there is
 * one. NULL: there was no memory. It is never freed. */
static inline struct rv_ring *rv_thread(int core, uint64_t room) {
    uint64_t length = rv_bytes(room);
    void *memory = rv_path[0] ? rv_more(length) : aligned_alloc(RV_PAGE, (size_t)length);
    if (!memory) return NULL;
    /* the memory is touched now, and not while calls are stamped */
    for (uint64_t i = 0; i < length / sizeof(uint64_t); i++) ((uint64_t *)memory)[i] = 0;
    return rv_place(memory, room, core);
}

/* Pins the calling thread, which makes the core's calls, to one of the processors that it may use. Threads that it starts then have that one,
 * too. Returns 0, or -1 with errno. */
static inline int rv_pin(struct rv_ring *ring) {
    cpu_set_t may, one;
    if (sched_getaffinity(0, sizeof may, &may)) return -1;
    int left = ring->core % CPU_COUNT(&may), processor = 0;
    while (!CPU_ISSET((size_t)processor, &may) || left-- > 0) processor++;
    CPU_ZERO(&one);
    CPU_SET((size_t)processor, &one);
    if (sched_setaffinity(0, sizeof one, &one)) return -1;
    ring->is_pinned = 1;
    return 0;
}

/* Writes the first line of a text. The caller writes its lines `file N MODE LEN SEED` next. */
static inline void rv_head(FILE *file, int cores) { fprintf(file, "vm %d 65536\n", cores); }

/* Writes in comments what a reader of the verdict has to know: how many calls aren't judged, and whether threads moved. */
static inline void rv_warn(FILE *file, uint64_t errors, uint64_t keys, int moved) {
    if (errors) fprintf(file, "# not judged: %llu calls with errors that a plain page map never gives\n", (unsigned long long)errors);
    if (keys) fprintf(file, "# not judged: %llu accesses that a protection key refused\n", (unsigned long long)keys);
    if (moved) fputs("# threads weren't pinned: a core may be several processors\n", file);
}

/* Writes all lines, when no thread makes calls any more. Returns 0; 1 where a full ring ended the record before the last call, which a
 * comment says; and -1 where a write failed. */
static inline int rv_write(FILE *file) {
    char text[RV_LINE];
    uint64_t errors = 0, keys = 0;
    int ended = __atomic_load_n(&rv_ended, __ATOMIC_SEQ_CST), moved = 0;
    if (ended) fputs("# a full ring ended the record: later calls aren't here\n", file);
    for (struct rv_ring *ring = __atomic_load_n(&rv_rings, __ATOMIC_SEQ_CST); ring; ring = ring->next) {
        moved |= ring->count && !ring->is_pinned;
        for (uint64_t i = 0; i < ring->count; i++) {
            errors += ring->calls[i].told == RV_OTHER, keys += ring->calls[i].told == RV_KEY;
            rv_line(text, ring->core, &ring->calls[i]), fputs(text, file);
        }
    }
    rv_warn(file, errors, keys, moved);
    return fflush(file) || ferror(file) ? -1 : ended;
}

/* ---- calls of this kernel, in place of the calls themselves */

static inline unsigned rv_rights(int prot) {
    return rv_if(prot & PROT_READ, RV_READ) | rv_if(prot & PROT_WRITE, RV_WRITE) | rv_if(prot & PROT_EXEC, RV_EXEC);
}

static inline enum rv_told rv_error(int error) {
    switch (error) {
    case EINVAL: return RV_EINVAL;
    case ENOMEM: return RV_ENOMEM;
    case EBADF: return RV_EBADF;
    case EOVERFLOW: return RV_EOVERFLOW;
    case EACCES: return RV_EACCES;
    default: return RV_OTHER;
    }
}

/* How far the pages from an address on are mapped without a gap, and how many mappings there are, by /proc/self/maps; 0 and 0 if that
 * can't be read. */
struct rv_maps {
    uint64_t mapped_to, count;
};
static inline struct rv_maps rv_look(uint64_t from) {
    struct rv_maps found = {from, 0};
    char bytes[1024];
    uint64_t numbers[2] = {0, 0};
    ssize_t length;
    int fd = open("/proc/self/maps", O_RDONLY | O_CLOEXEC), word = 0; /* which number of the line; 2 is the rest */
    if (fd < 0) return found.mapped_to = 0, found;
    while ((length = read(fd, bytes, sizeof bytes)) > 0)
        for (ssize_t i = 0; i < length; i++) {
            char c = bytes[i];
            if (c == '\n') {
                if (numbers[0] <= found.mapped_to && found.mapped_to < numbers[1]) found.mapped_to = numbers[1];
                found.count++, word = 0, numbers[0] = numbers[1] = 0;
            } else if (word < 2 && (c == '-' || c == ' ')) word++;
            else if (word < 2) numbers[word] = numbers[word] * 16 + (uint64_t)(c <= '9' ? c - '0' : c - 'a' + 10);
        }
    close(fd);
    return found;
}

/* Whether the process may have as much memory as the kernel has. */
static inline int rv_is_unlimited(void) {
    struct rlimit all, data;
    return !getrlimit(RLIMIT_AS, &all) && !getrlimit(RLIMIT_DATA, &data) && all.rlim_cur == RLIM_INFINITY && data.rlim_cur == RLIM_INFINITY;
}

/* Whether mprotect may have been refused by a limit, and not for a page that isn't mapped. All its pages have to be mapped now. Also the
 * process has limits, or the range is so large that memory may be short, or the number of mappings is near its limit. Another thread may have mapped
 * the page meanwhile: that is before the call's end stamp, so no reply is excused that couldn't have been. */
static inline int rv_met_limit(uint64_t address, uint64_t length) {
    enum { NEAR = 60000 }; /* Linux allows 65530 of them by default */
    struct rv_maps maps = rv_look(address);
    if (maps.mapped_to < address || maps.mapped_to - address < length) return 0;
    return !rv_is_unlimited() || length >= (uint64_t)1 << 30 || maps.count >= NEAR;
}

/* The reply for a call's error. ENOMEM says two things: that a page isn't mapped, or no place is left, which a plain page map says too; or
 * that the process met a limit. */
static inline enum rv_told rv_refused(const struct rv_call *call, int error) {
    if (error != ENOMEM || call->kind > RV_MPROTECT) return rv_error(error);
    if (call->kind == RV_MUNMAP) return RV_NOMEMORY; /* a plain page map has no such reply to it */
    if (call->kind == RV_MPROTECT) return rv_met_limit(call->address, call->length) ? RV_NOMEMORY : RV_ENOMEM;
    return rv_reaches_past(call->flags & RV_FIXED ? call->address : 0, call->length) ? RV_ENOMEM : RV_NOMEMORY;
}

/* Ends a call that the kernel refused with this error. `is_plain`: it asked for nothing that the model lacks. errno stays. */
static inline void rv_end_refused(struct rv_ring *ring, struct rv_call *recorded, int error, int is_plain) {
    if (recorded) rv_end(ring, recorded, is_plain ? rv_refused(recorded, error) : RV_OTHER, (uint64_t)error);
    errno = error;
}

/* The flags of mmap as a plain page map has them. MAP_SHARED_VALIDATE is MAP_SHARED for files, which refuses flags that it doesn't know;
 * pages of MAP_DROPPABLE are private. */
static inline uint8_t rv_flags(int flags) {
    enum { VALIDATE = 3 };
    int type = flags & MAP_TYPE, is_shared = type == MAP_SHARED || type == VALIDATE;
    return (uint8_t)(rv_if(type && !is_shared, RV_PRIVATE) | rv_if(is_shared, RV_SHARED) | rv_if(flags & MAP_FIXED, RV_FIXED)
                     | rv_if(flags & MAP_ANONYMOUS, RV_ANONYMOUS));
}

/* Whether all of these rights and flags are those of a plain page map, or say nothing to it. Else the kernel may refuse them as such. */
static inline int rv_is_plain(int prot, int flags) {
    int type = flags & MAP_TYPE;
    return !(prot & ~(PROT_READ | PROT_WRITE | PROT_EXEC)) && (type == 0 || type == MAP_PRIVATE || type == MAP_SHARED)
           && !(flags & ~(MAP_TYPE | MAP_FIXED | MAP_ANONYMOUS | MAP_NORESERVE | MAP_POPULATE | MAP_STACK | MAP_NONBLOCK | MAP_DENYWRITE));
}

/* mmap; `file` is the number of the line `file N ..` of the text that is about `fd`, and isn't read without a file. */
static inline void *rv_mmap(struct rv_ring *ring, void *address, size_t length, int prot, int flags, int fd, off_t offset, uint32_t file) {
    struct rv_call call = rv_asked(RV_MMAP, rv_at(address), length, rv_rights(prot));
    call.flags = rv_flags(flags), call.file = file, call.offset = (uint64_t)offset;
    struct rv_call *recorded = rv_begin(ring, call);
    void *mapped = mmap(address, length, prot, flags, fd, offset);
    if (mapped == MAP_FAILED) rv_end_refused(ring, recorded, errno, rv_is_plain(prot, flags));
    else rv_end(ring, recorded, RV_ADDRESS, rv_at(mapped));
    return mapped;
}

/* Ends munmap or mprotect by what it returned, which is returned. */
static inline int rv_returned(struct rv_ring *ring, struct rv_call *recorded, int failed, int is_plain) {
    if (failed) rv_end_refused(ring, recorded, errno, is_plain);
    else rv_end(ring, recorded, RV_DONE, 0);
    return failed;
}

static inline int rv_munmap(struct rv_ring *ring, void *address, size_t length) {
    struct rv_call *recorded = rv_begin(ring, rv_asked(RV_MUNMAP, rv_at(address), length, 0));
    return rv_returned(ring, recorded, munmap(address, length), 1);
}

static inline int rv_mprotect(struct rv_ring *ring, void *address, size_t length, int prot) {
    struct rv_call *recorded = rv_begin(ring, rv_asked(RV_MPROTECT, rv_at(address), length, rv_rights(prot)));
    return rv_returned(ring, recorded, mprotect(address, length, prot), rv_is_plain(prot, 0));
}

/* ---- accesses of this processor, with their faults caught */

#if defined __x86_64__ && defined __linux__

/* Each access that may fault, and the address at which to go on: two addresses an item. */
#ifdef __cplusplus
extern "C" {
#endif
extern const uint64_t __start_rv_accesses[] __attribute__((weak, visibility("hidden")));
extern const uint64_t __stop_rv_accesses[] __attribute__((weak, visibility("hidden")));
#ifdef __cplusplus
}
#endif
#define RV_ACCESS(instruction) \
    "1: " instruction "\n2:\n\t.pushsection rv_accesses,\"aw\",@progbits\n\t.balign 8\n\t.quad 1b, 2b\n\t.popsection\n"

/* The address that the thread fetches from, and one that is never mapped. */
static __thread uint64_t rv_fetched __attribute__((unused));
static const uint64_t rv_nowhere __attribute__((unused)) = 8;

/* Loads a byte from the address. */
static inline enum rv_told rv_try_load(const void *address, uint8_t *byte) {
    uint32_t value = 0;
    uint64_t told = RV_BYTE;
    __asm__ volatile(RV_ACCESS("movzbl (%2), %0") : "+r"(value), "+d"(told) : "r"(address) : "memory");
    *byte = (uint8_t)value;
    return (enum rv_told)told;
}

/* Stores a byte to the address. */
static inline enum rv_told rv_try_store(void *address, uint8_t byte) {
    uint64_t told = RV_DONE;
    __asm__ volatile(RV_ACCESS("movb %1, (%2)") : "+d"(told) : "q"(byte), "r"(address) : "memory");
    return (enum rv_told)told;
}

/* The instruction there is called. It has to be one byte long and known by what it does: ret (0xc3), int3 (0xcc), hlt (0xf4), 0x06, which
 * is none, or 0 followed by another 0. */
static inline enum rv_told rv_try_fetch(const void *address, uint8_t *byte) {
    uint64_t value = rv_nowhere, told = RV_BYTE;
    __atomic_store_n(&rv_fetched, rv_at(address), __ATOMIC_RELAXED);
    __asm__ volatile("sub $128, %%rsp\n\tcall *%2\n\tadd $128, %%rsp" : "+a"(value), "+d"(told) : "r"(address) : "memory", "cc");
    __atomic_store_n(&rv_fetched, 0, __ATOMIC_RELAXED);
    *byte = value == rv_nowhere ? 0xc3 : (uint8_t)value;
    return (enum rv_told)told;
}

/* The byte at which a fetched instruction stopped; -1: it was not fetched. */
static inline int rv_stopped(int number, const siginfo_t *info) {
    if (number == SIGTRAP) return 0xcc;
    if (number == SIGILL) return 0x06;
    if (number == SIGSEGV && info->si_code != SEGV_MAPERR && info->si_code != SEGV_ACCERR) return 0xf4;
    return number == SIGSEGV && rv_at(info->si_addr) == rv_nowhere ? 0 : -1;
}

/* The registers of a context, by the names of <sys/ucontext.h>. */
static inline greg_t *rv_registers(void *context) { return ((ucontext_t *)context)->uc_mcontext.gregs; }

static inline enum rv_told rv_fault_told(int number, const siginfo_t *info) {
    enum { PKUERR = 4 }; /* SEGV_PKUERR, which older C libraries don't name */
    if (number == SIGBUS) return RV_BUS;
    return info->si_code == SEGV_ACCERR ? RV_ACCERR : info->si_code == PKUERR ? RV_KEY : RV_MAPERR;
}

/* Steps over the one access at which the thread stopped, and leaves its reply in a register. What else stops a thread ends it, as
 * without a handler. */
static inline void rv_caught(int number, siginfo_t *info, void *context) {
    greg_t *registers = rv_registers(context);
    uint64_t at = (uint64_t)registers[REG_RIP];
    for (const uint64_t *access = __start_rv_accesses; access != __stop_rv_accesses; access += 2)
        if (access[0] == at && (number == SIGSEGV || number == SIGBUS)) {
            registers[REG_RDX] = (greg_t)rv_fault_told(number, info);
            registers[REG_RIP] = (greg_t)access[1];
            return;
        }
    uint64_t fetched = __atomic_load_n(&rv_fetched, __ATOMIC_RELAXED);
    if (fetched && (at == fetched || at == fetched + 1)) {
        int byte = rv_stopped(number, info);
        if (byte < 0) registers[REG_RDX] = (greg_t)rv_fault_told(number, info);
        else registers[REG_RAX] = byte;
        uint64_t *stack = (uint64_t *)registers[REG_RSP];
        registers[REG_RIP] = (greg_t)*stack, registers[REG_RSP] += 8;
        return;
    }
    signal(number, SIG_DFL);
}

/* Catches the faults of the accesses below, of all threads. Returns 0, or -1 with errno. */
static inline int rv_start(void) {
    static const int caught[] = {SIGSEGV, SIGBUS, SIGTRAP, SIGILL};
    struct sigaction action;
    action.sa_sigaction = rv_caught, action.sa_flags = SA_SIGINFO | SA_NODEFER;
    sigemptyset(&action.sa_mask);
    for (unsigned i = 0; i < 4; i++)
        if (sigaction(caught[i], &action, NULL)) return -1;
    return 0;
}

/* A load, a store and a fetch of a byte, recorded. Each returns its reply: RV_BYTE, with the byte, or RV_DONE; RV_MAPERR, RV_ACCERR,
 * RV_BUS or RV_KEY. */
static inline enum rv_told rv_load(struct rv_ring *ring, const void *address, uint8_t *byte) {
    struct rv_call *recorded = rv_begin(ring, rv_asked(RV_LOAD, rv_at(address), 0, 0));
    enum rv_told told = rv_try_load(address, byte);
    rv_end(ring, recorded, told, *byte);
    return told;
}

static inline enum rv_told rv_store(struct rv_ring *ring, void *address, uint8_t byte) {
    struct rv_call call = rv_asked(RV_STORE, rv_at(address), 0, 0);
    call.byte = byte;
    struct rv_call *recorded = rv_begin(ring, call);
    enum rv_told told = rv_try_store(address, byte);
    rv_end(ring, recorded, told, 0);
    return told;
}

static inline enum rv_told rv_fetch(struct rv_ring *ring, const void *address, uint8_t *byte) {
    struct rv_call *recorded = rv_begin(ring, rv_asked(RV_FETCH, rv_at(address), 0, 0));
    enum rv_told told = rv_try_fetch(address, byte);
    rv_end(ring, recorded, told, *byte);
    return told;
}

#endif
#endif
#endif
