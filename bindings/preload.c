/* Records the calls of mmap, munmap and mprotect that a program makes, of all its threads, without a change to the program:
   cc -O2 -fPIC -shared -ftls-model=initial-exec -I include -o libradixvm-record.so bindings/preload.c
   LD_PRELOAD=$PWD/libradixvm-record.so RADIXVM_RECORD=calls PROGRAM; radixvm-record calls.PID | radixvm audit --overlapping --any-place
   Each process writes a file of its own, RADIXVM_RECORD followed by .PID; .PID.2 and so on where that is there, as after an exec. The file is
   mapped shared, so what was recorded stays when the program is killed.
   It sees what goes through the C library's names. What the library maps for itself (malloc, the stacks of threads, dlopen) and what a
   program asks by system calls of its own isn't seen: so an mprotect of such pages isn't judged. All mappings are recorded as of no file.
   mremap is recorded as an munmap and an mmap at the same time. mremap, brk, sbrk, madvise, shmat, shmdt and remap_file_pages are counted.
   A call takes a lane while it runs, its thread's own one unless that is taken: another thread's, when there are more than 64, or that of the
   call in which a signal's handler was started. A lane is a core of the history. */
#ifndef _GNU_SOURCE
#define _GNU_SOURCE
#endif
#include <dlfcn.h>
#include <limits.h>
#include <stdarg.h>
#include <stdint.h>
#include <string.h>
#include <sys/mman.h>
#include <sys/shm.h>
#include <sys/syscall.h>
#include <sys/types.h>
#include <unistd.h>

static void *make_mmap(void *at, size_t length, int prot, int flags, int fd, off_t offset) {
    return (void *)syscall(SYS_mmap, at, length, prot, flags, fd, offset);
}
static int make_munmap(void *at, size_t length) { return (int)syscall(SYS_munmap, at, length); }

/* The recorder's own calls aren't recorded. */
#define mmap make_mmap
#define munmap make_munmap
#include "radixvm_record.h"
#undef mmap
#undef munmap

#define SHOWN __attribute__((visibility("default")))

enum { LANES = 64, ROOM = 4000 };

/* What a process knows of itself: a forked one finds zeros there, and begins anew. `is_set`: its file is made. */
struct process {
    int is_begun, is_set;
};
static struct process *process;
static int is_off, is_first;
static struct rv_ring *lanes[LANES];
static uint64_t taken;
static struct rv_note *note;
static char name[PATH_MAX];

/* The thread's own lane. */
static __thread int own = -1;
static int threads;

/* ---- the file */

/* The absolute path of what RADIXVM_RECORD names, once: a program may change its folder. */
static int find_name(void) {
    const char *wanted = getenv("RADIXVM_RECORD");
    if (!wanted || !*wanted || strlen(wanted) > PATH_MAX / 2) return -1;
    if (*wanted != '/') {
        if (!getcwd(name, PATH_MAX / 2 - 1)) return -1;
        strcat(name, "/");
    }
    strcat(name, wanted);
    return 0;
}

/* Makes the process's file, of a name that isn't there yet. */
static int make_file(void) {
    char path[PATH_MAX];
    for (int i = 1; i < 1000; i++) {
        int length = i == 1 ? snprintf(path, sizeof path, "%s.%d", name, (int)getpid()) : snprintf(path, sizeof path, "%s.%d.%d", name, (int)getpid(), i);
        if (length < 0 || (size_t)length >= sizeof path) return -1;
        int fd = open(path, O_RDWR | O_CREAT | O_EXCL | O_CLOEXEC, 0666);
        if (fd >= 0) return close(fd), rv_keep(path);
        if (errno != EEXIST) return -1;
    }
    return -1;
}

/* More of the file, which a forked process doesn't have mapped. */
static void *more(uint64_t length) {
    void *memory = rv_more(length);
    if (memory) madvise(memory, (size_t)length, MADV_DONTFORK);
    return memory;
}

/* The first line of the file: which program it is of. */
static int make_note(void) {
    char program[512] = "";
    ssize_t length = readlink("/proc/self/exe", program, sizeof program - 1);
    note = (struct rv_note *)more(sizeof *note);
    if (!note) return -1;
    for (ssize_t i = 0; i < length; i++)
        if (program[i] < ' ' || program[i] > '~') program[i] = '?';
    snprintf(note->text, sizeof note->text, "# process %d: %s", (int)getpid(), program);
    __atomic_store_n(&note->mark, RV_NOTE, __ATOMIC_RELEASE);
    return 0;
}

/* Makes the word that a fork clears. */
static void make_process(void) {
    if (__atomic_exchange_n(&is_first, 1, __ATOMIC_SEQ_CST)) return;
    void *page = make_mmap(NULL, RV_PAGE, PROT_READ | PROT_WRITE, MAP_PRIVATE | MAP_ANONYMOUS, -1, 0);
    if (page == MAP_FAILED || madvise(page, RV_PAGE, MADV_WIPEONFORK) || find_name()) {
        __atomic_store_n(&is_off, 1, __ATOMIC_SEQ_CST);
        return;
    }
    __atomic_store_n(&process, (struct process *)page, __ATOMIC_RELEASE);
}

/* Whether this process is recorded. The first call makes its file; others that come meanwhile aren't recorded, and nothing before them is. */
static int is_recorded(void) {
    if (__atomic_load_n(&is_off, __ATOMIC_ACQUIRE)) return 0;
    struct process *mine = __atomic_load_n(&process, __ATOMIC_ACQUIRE);
    if (mine && __atomic_load_n(&mine->is_set, __ATOMIC_ACQUIRE)) return !__atomic_load_n(&rv_ended, __ATOMIC_ACQUIRE);
    if (!mine) make_process();
    if (!(mine = __atomic_load_n(&process, __ATOMIC_ACQUIRE)) || __atomic_exchange_n(&mine->is_begun, 1, __ATOMIC_SEQ_CST)) return 0;
    int error = errno;
    memset(lanes, 0, sizeof lanes);
    taken = 0, rv_rings = NULL, rv_ended = 0;
    if (make_file() || make_note()) {
        fprintf(stderr, "libradixvm-record: no file %s.%d: %s\n", name, (int)getpid(), strerror(errno));
        __atomic_store_n(&is_off, 1, __ATOMIC_SEQ_CST);
    } else __atomic_store_n(&mine->is_set, 1, __ATOMIC_RELEASE);
    errno = error;
    return !is_off;
}

/* ---- calls */

/* Takes a lane that no call runs in. */
static int take_lane(void) {
    if (own < 0) own = __atomic_fetch_add(&threads, 1, __ATOMIC_RELAXED) % LANES;
    for (int i = 0;; i++) {
        int lane = (own + i) % LANES;
        uint64_t bit = (uint64_t)1 << lane;
        if (!(__atomic_fetch_or(&taken, bit, __ATOMIC_ACQUIRE) & bit)) return lane;
        if (i % LANES == LANES - 1) sched_yield();
    }
}

/* Gives the lane of a ring back. */
static void leave(struct rv_ring *ring) {
    __atomic_store_n(&ring->busy, 0, __ATOMIC_RELEASE);
    __atomic_fetch_and(&taken, ~((uint64_t)1 << ring->core), __ATOMIC_RELEASE);
}

/* A ring with room for the lane. NULL, where the file has no room: the record ends then, with a stamp that says when. */
static struct rv_ring *ring_of(int lane) {
    struct rv_ring *ring = lanes[lane];
    if (ring && ring->count < ring->room) return ring;
    void *memory = more(rv_bytes(ROOM));
    if (!memory) {
        uint64_t none = 0;
        __atomic_compare_exchange_n(&note->ended_at, &none, rv_now(), 0, __ATOMIC_SEQ_CST, __ATOMIC_SEQ_CST);
        __atomic_store_n(&rv_ended, 1, __ATOMIC_SEQ_CST);
        return NULL;
    }
    if (ring) make_munmap(ring, rv_bytes(ROOM));
    lanes[lane] = rv_place(memory, ROOM, lane);
    lanes[lane]->is_partial = 1;
    return lanes[lane];
}

/* A call under way, with its ring; none where it isn't recorded. */
struct running {
    struct rv_ring *ring;
    struct rv_call *call;
};

static struct running begin(struct rv_call call) {
    struct running running = {NULL, NULL};
    int error = errno;
    if (!is_recorded()) return running;
    int lane = take_lane();
    running.ring = ring_of(lane);
    if (running.ring) {
        __atomic_store_n(&running.ring->busy, 1, __ATOMIC_SEQ_CST);
        running.call = rv_enter(running.ring, call);
    } else __atomic_fetch_and(&taken, ~((uint64_t)1 << lane), __ATOMIC_RELEASE);
    errno = error;
    return running;
}

static void end(struct running running, enum rv_told told, uint64_t value) {
    if (!running.ring) return;
    rv_end(running.ring, running.call, told, value);
    leave(running.ring);
}

/* Ends a call that was refused; errno stays. */
static void refuse(struct running running, int is_plain) {
    int error = errno;
    if (running.ring) {
        rv_end_refused(running.ring, running.call, error, is_plain);
        leave(running.ring);
    }
    errno = error;
}

/* Counts a call of what isn't recorded. */
static void count_left(int what) {
    int error = errno;
    if (is_recorded()) __atomic_fetch_add(&note->left[what], 1, __ATOMIC_RELAXED);
    errno = error;
}

SHOWN void *mmap(void *at, size_t length, int prot, int flags, int fd, off_t offset) {
    struct rv_call call = rv_asked(RV_MMAP, rv_at(at), length, rv_rights(prot));
    call.flags = (uint8_t)(rv_flags(flags) | RV_ANONYMOUS);
    struct running running = begin(call);
    void *mapped = make_mmap(at, length, prot, flags, fd, offset);
    if (mapped == MAP_FAILED) refuse(running, (flags & MAP_ANONYMOUS) && rv_is_plain(prot, flags));
    else end(running, RV_ADDRESS, rv_at(mapped));
    return mapped;
}

SHOWN void *mmap64(void *at, size_t length, int prot, int flags, int fd, off_t offset) { return mmap(at, length, prot, flags, fd, offset); }

static int returned(struct running running, int failed, int is_plain) {
    if (failed) refuse(running, is_plain);
    else end(running, RV_DONE, 0);
    return failed;
}

SHOWN int munmap(void *at, size_t length) {
    struct running running = begin(rv_asked(RV_MUNMAP, rv_at(at), length, 0));
    return returned(running, make_munmap(at, length), 1);
}

SHOWN int mprotect(void *at, size_t length, int prot) {
    struct running running = begin(rv_asked(RV_MPROTECT, rv_at(at), length, rv_rights(prot)));
    return returned(running, (int)syscall(SYS_mprotect, at, length, prot), rv_is_plain(prot, MAP_PRIVATE));
}

SHOWN int pkey_mprotect(void *at, size_t length, int prot, int key) {
    struct running running = begin(rv_asked(RV_MPROTECT, rv_at(at), length, rv_rights(prot)));
    return returned(running, (int)syscall(SYS_pkey_mprotect, at, length, prot, key), 0);
}

/* Ends the part of an mremap that is an munmap or an mmap of these pages, or forgets it where there are none. */
static void end_part(struct running part, uint64_t at, uint64_t length, enum rv_told told) {
    if (!part.ring) return;
    if (!length) return leave(part.ring);
    part.call->address = at, part.call->length = length;
    end(part, told, told == RV_ADDRESS ? at : 0);
}

/* Two calls at the same time: an munmap of what went from the old place, and an mmap of what came. In its place only the rest goes or comes. */
static void end_move(struct running gone, struct running came, uint64_t at, uint64_t length, uint64_t to, uint64_t new_length, int stays) {
    length = (length + RV_PAGE - 1) / RV_PAGE * RV_PAGE, new_length = (new_length + RV_PAGE - 1) / RV_PAGE * RV_PAGE;
    uint64_t kept = to == at ? (length < new_length ? length : new_length) : 0;
    end_part(gone, at + kept, stays ? 0 : length - kept, RV_DONE);
    end_part(came, to + kept, new_length - kept, RV_ADDRESS);
}

SHOWN void *mremap(void *at, size_t length, size_t new_length, int flags, ...) {
    enum { DONTUNMAP = 4 };
    va_list words;
    va_start(words, flags);
    void *to = flags & (MREMAP_FIXED | DONTUNMAP) ? va_arg(words, void *) : NULL;
    va_end(words);
    count_left(RV_MREMAP);
    struct rv_call call = rv_asked(RV_MMAP, 0, new_length, RV_READ | RV_WRITE);
    call.flags = (uint8_t)(RV_PRIVATE | RV_ANONYMOUS | rv_if(flags & MREMAP_FIXED, RV_FIXED));
    struct running gone = begin(rv_asked(RV_MUNMAP, rv_at(at), length, 0)), came = begin(call);
    void *moved = (void *)syscall(SYS_mremap, at, length, new_length, flags, to);
    int error = errno, failed = moved == MAP_FAILED;
    end_move(gone, came, rv_at(at), failed ? 0 : length, failed ? rv_at(at) : rv_at(moved), failed ? 0 : new_length, flags & DONTUNMAP);
    errno = error;
    return moved;
}

SHOWN int madvise(void *at, size_t length, int advice) {
    count_left(RV_MADVISE);
    return (int)syscall(SYS_madvise, at, length, advice);
}

SHOWN void *shmat(int id, const void *at, int flags) {
    count_left(RV_SHM);
    return (void *)syscall(SYS_shmat, id, at, flags);
}

SHOWN int shmdt(const void *at) {
    count_left(RV_SHM);
    return (int)syscall(SYS_shmdt, at);
}

SHOWN int remap_file_pages(void *at, size_t length, int prot, size_t page, int flags) {
    count_left(RV_REMAP_FILE);
    return (int)syscall(SYS_remap_file_pages, at, length, prot, page, flags);
}

SHOWN int brk(void *end_of_data) {
    count_left(RV_BRK);
    int (*next)(void *);
    *(void **)&next = dlsym(RTLD_NEXT, "brk");
    return next(end_of_data);
}

SHOWN void *sbrk(intptr_t more_bytes) {
    count_left(RV_BRK);
    void *(*next)(intptr_t);
    *(void **)&next = dlsym(RTLD_NEXT, "sbrk");
    return next(more_bytes);
}
