/* RadixVM, verified: one virtual address space that 1 to 64 modelled cores share, as a C library.
 *
 * There are three ways to use it:
 *   - A batch (radixvm_run, radixvm_calls) makes a new machine, gives it a list of events or calls, and writes
 *     an outcome for each.
 *   - A kept machine (radixvm_new to radixvm_free) takes events or calls as they come.
 *   - A shared machine (radixvm_share) gives each of your threads a seat, which makes the calls of one core.
 *
 * What is proved, by the contracts of crates/radixvm_c/src/lib.rt:
 *   - radixvm_run: the outcomes are a run of the abstract machine, and its log is that of a plain page map
 *     (POSIX.1-2017 mmap, munmap, mprotect).
 *   - radixvm_calls and kept machines: each call or event has the outcome that the abstract machine's steps
 *     give from the state before it. Each state is one that a run reaches, with the log of a plain page map.
 *   - Shared machines, for every schedule: each seat gets the replies of a plain page map, in one order of all
 *     calls. Each seat's calls are in that order as the seat made them.
 *
 * Units: addresses, lengths and offsets are in bytes. A page or a frame has 4096 bytes, and its number is its
 * name (page = address / 4096).
 *
 * Memory: all buffers are yours, and you pass each with its number of items. The library keeps no pointer to
 * them. It frees what it allocates before it returns, except for kept machines and seats.
 *
 * Frames come back late: a frame that no page has any more is free once its count was 0 for two epochs (Refcache of
 * the RadixVM paper). A program that maps and unmaps needs that, or gets RADIXVM_NO_FRAME: radixvm_reclaim brings back all
 * such frames. By hand, let each core make RADIXVM_FLUSH until it is RADIXVM_IDLE, then each once more, and then each
 * RADIXVM_REVIEW until it is RADIXVM_IDLE. With one core RADIXVM_FLUSH is never RADIXVM_IDLE, since one that finds no count
 * ends an epoch.
 *
 * Kernels: libradixvm-kernel.a is the same library for code without a C library. It uses no register of floating point, MMX
 * or SSE, and no red zone. Its names are those of the functions below that aren't inline. It calls memcpy, memmove, memset and
 * three functions of memory, which you write. In other programs you may write these three too: otherwise those of
 * libradixvm.a are linked, which call malloc, realloc and free.
 *     struct piece { uint64_t is_there; void *at; };       is_there: 1, or 0 if there is no memory; `at` is never null
 *     struct piece rattle_alloc(size_t size, size_t align);     align: 16 at the most
 *     struct piece rattle_realloc(void *at, size_t old_size, size_t size, size_t align);     0: the old piece stays
 *     void rattle_dealloc(void *at);
 * A call uses at most 6400 bytes of stack, and radixvm_new 21000: so much was measured, and none of it is proved.
 *
 * Threads: the library has no static state. Threads may call it at the same time if each has its own buffers,
 * machines and seats. You may hand a machine or a seat to another thread as you hand over any plain object:
 * through a lock, or when a thread starts or ends. Only one call at a time may use a machine or a seat.
 *
 * Pointers: a null pointer is accepted if its length is 0; otherwise the status is RADIXVM_NULL. A length above
 * 2^32 gives RADIXVM_TOO_LONG before any memory is read. The library can't check the rest, so you must:
 *   - each buffer is as long as you say, is aligned, and overlaps no other; `outcomes` is initialised memory;
 *   - a radixvm_machine or a radixvm_seat begins as {0}, stays in one place, is never copied, and is changed
 *     by the functions below alone;
 *   - no function is called from a signal handler that interrupts a call of the library, nor in the forked child of
 *     a process with threads. */
#ifndef RADIXVM_H
#define RADIXVM_H
#include <stddef.h>
#include <stdint.h>
#ifdef _WIN32
#include <windows.h>
#elif !defined __STDC_HOSTED__ || __STDC_HOSTED__
#include <sched.h>
#endif

#define RADIXVM_VERSION 5 /* radixvm_version() returns this if the library fits this header */

/* The size of a machine. */
typedef struct {
    uint64_t cores;  /* 1 to 64 */
    uint64_t frames; /* frames of 4096 bytes, at most 65536 */
    uint64_t calls;  /* how many calls may begin: at most 2^40, or 1048576 with a log */
    uint32_t log;    /* 0: no log. Otherwise a kept machine has a log, which radixvm_log reads */
} radixvm_setup;

/* A file that is open from the start. Its number is its place in the list, and its bytes are a part of `bytes`. */
typedef struct {
    uint32_t mode;       /* RADIXVM_O_.. */
    uint64_t start, len; /* its part of `bytes`; at most 1048576 bytes a file, and 16 files */
} radixvm_file;
enum { RADIXVM_O_RDONLY = 1, RADIXVM_O_WRONLY = 2, RADIXVM_O_RDWR = 3 };

/* An event. Only the fields that its kind names are read, and `core`, which is always below 64. */
typedef struct {
    uint32_t kind, core;
    uint64_t at, len, file, off;
    uint32_t prot, flags, byte;
} radixvm_event;
enum { /* The kinds. The first six begin a call. */
    RADIXVM_MMAP = 1, /* at, len, prot, flags, file, off: POSIX mmap; `at` is addr */
    RADIXVM_MUNMAP,   /* at, len */
    RADIXVM_MPROTECT, /* at, len, prot */
    RADIXVM_LOAD,     /* at: the byte at that address */
    RADIXVM_STORE,    /* at, byte (below 256) */
    RADIXVM_FETCH,    /* at */
    RADIXVM_GO,       /* one step of the core's call */
    RADIXVM_FRAME,    /* at: the frame that the call is to take */
    RADIXVM_GUESS,    /* at: the page at which the call is to look for a gap first */
    RADIXVM_WHOLE,    /* the call is to search its whole window */
    RADIXVM_TAKE,     /* the core does what the oldest message of its inbox asks */
    RADIXVM_WALK,     /* at: the page whose translation the core's TLB gets */
    RADIXVM_EVICT,    /* at: the page whose translation the core's TLB drops */
    RADIXVM_FLUSH,    /* the core flushes one count, or ends its part of the epoch */
    RADIXVM_REVIEW,   /* the core reviews the front of its queue */
    RADIXVM_FOLD,     /* at: the page at which slots are joined */
    RADIXVM_GIVE_UP,  /* the core's call is cancelled, as if memory were short */
    RADIXVM_FINISH,   /* radixvm_calls only: the core's call goes on until it ends or waits */
    RADIXVM_BEGIN = 64 /* radixvm_calls only: added to a kind, it asks for one step, as in radixvm_run */
};
enum { RADIXVM_PROT_READ = 1, RADIXVM_PROT_WRITE = 2, RADIXVM_PROT_EXEC = 4 };                /* as on Linux */
enum { RADIXVM_MAP_SHARED = 1, RADIXVM_MAP_PRIVATE = 2, RADIXVM_MAP_FIXED = 16, RADIXVM_MAP_ANONYMOUS = 32 };

/* The outcome of an event. */
typedef struct {
    uint32_t kind;
    uint64_t value; /* its meaning is below, at the kinds that have one; otherwise 0 */
} radixvm_outcome;
enum { /* The kinds of outcomes. RADIXVM_MAPPED to RADIXVM_NO_MEMORY are replies. */
    RADIXVM_STEPPED = 1,
    RADIXVM_WAIT_SLOT,   /* value: the core that holds a slot of the call's pages */
    RADIXVM_WAIT_ACKS,   /* value: the cores that still have to take a message; bit c is core c */
    RADIXVM_IDLE,        /* the event can't happen now */
    RADIXVM_FULL,        /* the limit of calls is reached, or that of 2^64 - 1 events */
    RADIXVM_MAPPED,      /* value: the mapping's first address */
    RADIXVM_DONE,        /* unmapped, protected or stored */
    RADIXVM_BYTE,        /* value: the byte that was loaded or fetched */
    RADIXVM_REFUSED,     /* value: RADIXVM_E.. */
    RADIXVM_SEGV_MAPERR, /* SIGSEGV: not mapped */
    RADIXVM_SEGV_ACCERR, /* SIGSEGV: the protection forbids it */
    RADIXVM_BUS,         /* SIGBUS: past the end of the file */
    RADIXVM_NO_FRAME,    /* no frame was free */
    RADIXVM_NO_MEMORY,   /* the call was cancelled: by RADIXVM_GIVE_UP, or since a seat was refused memory */
    RADIXVM_STUCK        /* radixvm_calls only: 2^40 steps were made, and the call hasn't ended */
};
enum { RADIXVM_EBADF = 9, RADIXVM_ENOMEM = 12, RADIXVM_EACCES = 13, RADIXVM_EINVAL = 22, RADIXVM_EOVERFLOW = 75 };

/* A place for a kept machine. Begin with {0}, which says that there is none. The pointer is the library's: don't
 * read or write it. */
typedef struct {
    uint8_t *at;
} radixvm_machine;

/* A place for a seat: the right to make the calls of one core of a shared machine. Begin with {0}, which says
 * that there is none. */
typedef struct {
    uint8_t *at;
} radixvm_seat;

/* Neighbouring pages with one protection, whose backing goes on from page to page. */
typedef struct {
    uint64_t first, end; /* the first page, and the page after the last */
    uint64_t page;       /* the page of the file that backs the first page; 0 without a file */
    uint32_t file, back; /* the file's number, or 0; RADIXVM_BACK_.. */
    uint32_t prot;       /* RADIXVM_PROT_.. */
} radixvm_line;
enum { RADIXVM_BACK_ZEROS = 0, RADIXVM_BACK_SHARED, RADIXVM_BACK_PRIVATE };

/* An entry of the log. Either a call got its reply, or a private page that showed its file got a copy of its own
 * because of a store. Events are numbered from 1, and so are calls, in the order in which they began. */
typedef struct {
    uint32_t kind;         /* RADIXVM_ENTRY_.. */
    uint32_t core;         /* of a reply: the core that made the call; otherwise 0 */
    uint64_t step, call;   /* the event that made the entry, and its call */
    uint64_t page;         /* of a copy: the page that got it; otherwise 0 */
    radixvm_event asked;   /* of a reply: the call; fields that its kind doesn't name are 0. Otherwise all 0 */
    radixvm_outcome reply; /* of a reply: RADIXVM_MAPPED to RADIXVM_NO_MEMORY; otherwise 0 */
} radixvm_log_entry;
enum { RADIXVM_ENTRY_REPLY = 1, RADIXVM_ENTRY_COPY };

/* What a touch comes to, as a handler of page faults needs it. */
typedef struct {
    uint64_t word;        /* the core's entry of the page now, as radixvm_entry tells it; 0 if there is none */
    uint64_t page;        /* the page of the touch; 0 if the address has none */
    uint32_t frame, fill; /* the page's frame, 0 if it has none; RADIXVM_FILL_.. */
    uint64_t from;        /* RADIXVM_FILL_FRAME: the frame to copy. RADIXVM_FILL_FILE: the page of the file. Otherwise 0 */
    uint32_t file;        /* RADIXVM_FILL_FILE: the file's number. Otherwise 0 */
} radixvm_filled;
enum {
    RADIXVM_FILL_NONE = 0, /* the page's frame has its bytes already, or the page has no frame */
    RADIXVM_FILL_ZERO,     /* the frame is new: make its 4096 bytes 0 */
    RADIXVM_FILL_FRAME,    /* the frame is new: copy the 4096 bytes of frame `from` into it */
    RADIXVM_FILL_FILE      /* the frame is new: copy page `from` of file `file` into it, with 0 after the file's end */
};

/* Pages first to end - 1, of which a core is to drop its real translations. */
typedef struct {
    uint64_t first, end; /* the first page, and the page after the last; both 0 with RADIXVM_DROP_NONE */
    uint32_t what, from; /* RADIXVM_DROP_..; the core whose call asks for it */
} radixvm_drop;
enum {
    RADIXVM_DROP_NONE = 0, /* nothing */
    RADIXVM_DROP_TABLES,   /* clear the words of these pages and flush the real TLB of them, now */
    RADIXVM_DROP_TLB,      /* this take was the acknowledgement: the core must have no word and no TLB entry of them */
    RADIXVM_DROP_OWN       /* clear the words and flush, before the core runs an instruction of its program again */
};

/* How a batch ended. The first `count` events were taken, and outcomes[0] to outcomes[count - 1] are theirs; all
 * other outcomes are unchanged. No event was taken, unless the status is RADIXVM_OK, RADIXVM_BAD_EVENT,
 * RADIXVM_OUT_OF_MEMORY or RADIXVM_AT_LIMIT. */
typedef struct {
    uint32_t status;
    uint64_t count;
} radixvm_done;
enum {
    RADIXVM_OK = 0,
    RADIXVM_BAD_EVENT,     /* events[count] isn't an event: its kind, core, prot, flags or byte is out of range */
    RADIXVM_OUT_OF_MEMORY, /* malloc refused memory during events[count]; radixvm_seat_calls: during the last one made */
    RADIXVM_NO_ROOM,       /* there are fewer outcomes than events */
    RADIXVM_TOO_LONG,      /* a length is above 2^32 */
    RADIXVM_BAD_FILE,      /* files[count] has no such mode, or its part isn't inside `bytes` */
    RADIXVM_NULL,          /* a null pointer whose length isn't 0 */
    RADIXVM_EMPTY,         /* the place has no machine or no seat */
    RADIXVM_IN_USE,        /* the place is taken already, or the machine has another seat */
    RADIXVM_ABSENT,        /* there is no such core, no further core, or no such page */
    RADIXVM_NO_LOG,        /* the machine keeps no log */
    RADIXVM_BAD_CORES, RADIXVM_BAD_FRAMES, RADIXVM_TOO_MANY_FILES, RADIXVM_FILE_TOO_LONG, RADIXVM_BAD_CALLS, /* limits */
    RADIXVM_NO_MACHINE,    /* malloc refused memory for the new machine */
    RADIXVM_BUSY,          /* another seat is in a call */
    RADIXVM_IN_FLIGHT,     /* a core of the machine has a call that hasn't ended */
    RADIXVM_LOST,          /* a seat was freed inside its call, which is forbidden, and the machine is gone with it */
    RADIXVM_AT_LIMIT       /* radixvm_seat_calls: the limit of calls or of events is reached. radixvm_reclaim: below */
};

#ifdef __cplusplus
extern "C" {
#endif
uint32_t radixvm_version(void);
/* Like radixvm_run and radixvm_calls below, but no pointer may be null, not even if its length is 0. */
radixvm_done radixvm_run_batch(const radixvm_setup *setup, const radixvm_file *files, size_t file_count,
    const uint8_t *bytes, size_t byte_count, const radixvm_event *events, size_t event_count,
    radixvm_outcome *outcomes, size_t room);
radixvm_done radixvm_calls_batch(const radixvm_setup *setup, const radixvm_file *files, size_t file_count,
    const uint8_t *bytes, size_t byte_count, const radixvm_event *events, size_t event_count,
    radixvm_outcome *outcomes, size_t room);

/* Runs a new machine. Each event is one step. */
static inline radixvm_done radixvm_run(const radixvm_setup *setup, const radixvm_file *files, size_t file_count,
    const uint8_t *bytes, size_t byte_count, const radixvm_event *events, size_t event_count,
    radixvm_outcome *outcomes, size_t room) {
    const radixvm_file no_file = {0, 0, 0};
    const radixvm_event no_event = {0, 0, 0, 0, 0, 0, 0, 0, 0};
    const uint8_t no_byte = 0;
    radixvm_outcome no_outcome = {0, 0};
    if (!setup || (!files && file_count) || (!bytes && byte_count) || (!events && event_count) || (!outcomes && room)) {
        const radixvm_done null = {RADIXVM_NULL, 0};
        return null;
    }
    return radixvm_run_batch(setup, files ? files : &no_file, file_count, bytes ? bytes : &no_byte, byte_count,
        events ? events : &no_event, event_count, outcomes ? outcomes : &no_outcome, room);
}
/* Runs a new machine. Each event of the first six kinds is a whole call. It goes on until it ends, or until it
 * waits for other cores: then its outcome is a wait. TAKEs of the awaited cores and then a FINISH end it. */
static inline radixvm_done radixvm_calls(const radixvm_setup *setup, const radixvm_file *files, size_t file_count,
    const uint8_t *bytes, size_t byte_count, const radixvm_event *events, size_t event_count,
    radixvm_outcome *outcomes, size_t room) {
    const radixvm_file no_file = {0, 0, 0};
    const radixvm_event no_event = {0, 0, 0, 0, 0, 0, 0, 0, 0};
    const uint8_t no_byte = 0;
    radixvm_outcome no_outcome = {0, 0};
    if (!setup || (!files && file_count) || (!bytes && byte_count) || (!events && event_count) || (!outcomes && room)) {
        const radixvm_done null = {RADIXVM_NULL, 0};
        return null;
    }
    return radixvm_calls_batch(setup, files ? files : &no_file, file_count, bytes ? bytes : &no_byte, byte_count,
        events ? events : &no_event, event_count, outcomes ? outcomes : &no_outcome, room);
}

/* ---- Kept machines. If the status isn't RADIXVM_OK, the machine is unchanged, with two exceptions: the steps
 * that a call made before RADIXVM_OUT_OF_MEMORY stay made, and so do the first `count` events of a batch. */

/* Like those below, but no pointer may be null, not even if its length is 0. */
radixvm_done radixvm_new_held(const radixvm_setup *setup, const radixvm_file *files, size_t file_count,
    const uint8_t *bytes, size_t byte_count, radixvm_machine *machine);
void radixvm_free_held(radixvm_machine *machine);
uint32_t radixvm_step_held(radixvm_machine *machine, const radixvm_event *event, radixvm_outcome *outcome);
uint32_t radixvm_call_held(radixvm_machine *machine, const radixvm_event *event, radixvm_outcome *outcome);
radixvm_done radixvm_run_held(radixvm_machine *machine, const radixvm_event *events, size_t event_count,
    radixvm_outcome *outcomes, size_t room);
radixvm_done radixvm_calls_held(radixvm_machine *machine, const radixvm_event *events, size_t event_count,
    radixvm_outcome *outcomes, size_t room);
uint64_t radixvm_cores_held(radixvm_machine *machine);
uint32_t radixvm_entry_held(radixvm_machine *machine, uint32_t core, uint64_t page, uint64_t *word);
radixvm_done radixvm_maps_held(radixvm_machine *machine, radixvm_line *lines, size_t room);
radixvm_done radixvm_log_held(radixvm_machine *machine, radixvm_log_entry *entries, size_t room);
uint32_t radixvm_touch_held(radixvm_machine *machine, uint32_t core, uint64_t at, uint32_t kind,
    radixvm_outcome *outcome, radixvm_filled *filled);
uint32_t radixvm_change_held(radixvm_machine *machine, const radixvm_event *event, radixvm_outcome *outcome,
    radixvm_drop *own);
uint32_t radixvm_go_on_held(radixvm_machine *machine, uint32_t core, radixvm_outcome *outcome, radixvm_filled *filled,
    radixvm_drop *own);
uint32_t radixvm_take_held(radixvm_machine *machine, uint32_t core, radixvm_drop *drop);
uint32_t radixvm_reclaim_held(radixvm_machine *machine, uint64_t *frames);

/* Makes a machine in an empty place, and copies the bytes of the files. With a log, it takes the memory of the
 * whole log at once: about 100 bytes for each call that may begin. */
static inline radixvm_done radixvm_new(const radixvm_setup *setup, const radixvm_file *files, size_t file_count,
    const uint8_t *bytes, size_t byte_count, radixvm_machine *machine) {
    const radixvm_file no_file = {0, 0, 0};
    const uint8_t no_byte = 0;
    if (!setup || (!files && file_count) || (!bytes && byte_count) || !machine) {
        const radixvm_done null = {RADIXVM_NULL, 0};
        return null;
    }
    return radixvm_new_held(setup, files ? files : &no_file, file_count, bytes ? bytes : &no_byte, byte_count, machine);
}
/* Frees the machine, if there is one, and leaves the place empty. */
static inline void radixvm_free(radixvm_machine *machine) {
    if (machine) radixvm_free_held(machine);
}
/* One event, as in radixvm_run. Returns a status; with RADIXVM_OK, `outcome` was written. */
static inline uint32_t radixvm_step(radixvm_machine *machine, const radixvm_event *event, radixvm_outcome *outcome) {
    if (!machine || !event || !outcome) return RADIXVM_NULL;
    return radixvm_step_held(machine, event, outcome);
}
/* One item, as in radixvm_calls: a whole call, a FINISH, or one event. */
static inline uint32_t radixvm_call(radixvm_machine *machine, const radixvm_event *event, radixvm_outcome *outcome) {
    if (!machine || !event || !outcome) return RADIXVM_NULL;
    return radixvm_call_held(machine, event, outcome);
}
/* Begins a call and makes no step of it. Go on with radixvm_step and RADIXVM_GO, or with radixvm_finish. */
static inline uint32_t radixvm_begin(radixvm_machine *machine, const radixvm_event *event, radixvm_outcome *outcome) {
    if (event && event->kind > RADIXVM_FETCH) return RADIXVM_BAD_EVENT;
    return radixvm_step(machine, event, outcome);
}
/* Goes on with the core's call until it ends or waits. */
static inline uint32_t radixvm_finish(radixvm_machine *machine, uint32_t core, radixvm_outcome *outcome) {
    radixvm_event event = {RADIXVM_FINISH, 0, 0, 0, 0, 0, 0, 0, 0};
    event.core = core;
    return radixvm_call(machine, &event, outcome);
}
/* Like radixvm_run and radixvm_calls, from the machine's present state. */
static inline radixvm_done radixvm_run_on(radixvm_machine *machine, const radixvm_event *events, size_t event_count,
    radixvm_outcome *outcomes, size_t room) {
    const radixvm_event no_event = {0, 0, 0, 0, 0, 0, 0, 0, 0};
    radixvm_outcome no_outcome = {0, 0};
    if (!machine || (!events && event_count) || (!outcomes && room)) {
        const radixvm_done null = {RADIXVM_NULL, 0};
        return null;
    }
    return radixvm_run_held(machine, events ? events : &no_event, event_count, outcomes ? outcomes : &no_outcome, room);
}
static inline radixvm_done radixvm_calls_on(radixvm_machine *machine, const radixvm_event *events, size_t event_count,
    radixvm_outcome *outcomes, size_t room) {
    const radixvm_event no_event = {0, 0, 0, 0, 0, 0, 0, 0, 0};
    radixvm_outcome no_outcome = {0, 0};
    if (!machine || (!events && event_count) || (!outcomes && room)) {
        const radixvm_done null = {RADIXVM_NULL, 0};
        return null;
    }
    return radixvm_calls_held(machine, events ? events : &no_event, event_count, outcomes ? outcomes : &no_outcome,
        room);
}
/* The number of cores; 0 if there is no machine. */
static inline uint64_t radixvm_cores(const radixvm_machine *machine) {
    return machine ? radixvm_cores_held((radixvm_machine *)machine) : 0;
}
/* Reads the core's page-table entry of a page, in the format of x86-64 (Intel SDM volume 3A, 4-level paging, the
 * entry of a 4 KiB page). It is 0 if the tables have none. A page is 1 to 2^35 - 1. */
static inline uint32_t radixvm_entry(const radixvm_machine *machine, uint32_t core, uint64_t page, uint64_t *word) {
    if (!machine || !word) return RADIXVM_NULL;
    return radixvm_entry_held((radixvm_machine *)machine, core, page, word);
}
/* Writes the mappings in order of pages, as many as there is room for. `count` is how many there are. The
 * function allocates, and frees it again. */
static inline radixvm_done radixvm_maps(const radixvm_machine *machine, radixvm_line *lines, size_t room) {
    radixvm_line no_line = {0, 0, 0, 0, 0, 0};
    if (!machine || (!lines && room)) {
        const radixvm_done null = {RADIXVM_NULL, 0};
        return null;
    }
    return radixvm_maps_held((radixvm_machine *)machine, lines ? lines : &no_line, room);
}
/* Writes the log from its first entry on, as many entries as there is room for. `count` is how many there are.
 * Each answered call is in it once, in the order in which a plain page map gives these replies. */
static inline radixvm_done radixvm_log(const radixvm_machine *machine, radixvm_log_entry *entries, size_t room) {
    radixvm_log_entry no_entry = {0, 0, 0, 0, 0, {0, 0, 0, 0, 0, 0, 0, 0, 0}, {0, 0}};
    if (!machine || (!entries && room)) {
        const radixvm_done null = {RADIXVM_NULL, 0};
        return null;
    }
    return radixvm_log_held((radixvm_machine *)machine, entries ? entries : &no_entry, room);
}

/* ---- A real MMU: your page tables, or a TLB of your own, do the accesses, and a kept machine decides what they may
 * translate. Frame f of the machine is a page of your memory, number f, which has the bytes. The machine's own bytes stay
 * 0: it hears of page faults, and not of accesses.
 *
 * A core's loop:
 *   - Page fault: lock; radixvm_touch. RADIXVM_DONE or RADIXVM_BYTE: drop the page's old translation, make the fill,
 *     install `word`; unlock; run the instruction again. A signal: unlock, and deliver it. RADIXVM_NO_FRAME: radixvm_reclaim,
 *     and try once more. A wait: drop the page's old translation; unlock; send interrupts to the cores of
 *     RADIXVM_WAIT_ACKS; serve your own inbox; lock; radixvm_go_on, until the outcome is a reply. (RADIXVM_STEPPED is no
 *     reply either: a call that would have a second thing to tell stops before it, and goes on by radixvm_go_on.)
 *   - System call: lock; radixvm_change; drop `own`; a wait as above.
 *   - Interrupt: lock; radixvm_take until it tells RADIXVM_DROP_NONE, and do at once what each take tells; unlock.
 *
 * When an entry changes. A core's entry of a page, as radixvm_entry tells it, changes at three places only: a touch of that
 * core and page gives it `word`; the core's own change or copy drops it, where `own` or the touch tells so; and a take of
 * that core that tells RADIXVM_DROP_TABLES drops it. No other call changes it, and none of another core does.
 *
 * If you do your duties, each access of each core has the reply of a plain page map (POSIX.1-2017 mmap, munmap, mprotect) at
 * its moment, with its core's waiting stores made. That is one theorem, calls_are_driven of crates/driven. It takes all calls that
 * returned, in the order of your lock, and what your handler, processors and programs do between them. They are a run of the
 * law of hardware, driven_runs_are_plain of crates/real_mmu. What each call writes is the contract of its function
 * (crates/radixvm_c/src/tables.rt). Duties 1 to 4 and 10 are premises of the theorem, and 5 to 9 say what its processors are.
 * That your code does its duties is proved nowhere. They are, by number, in the words of Intel SDM volume 3A:
 *   1. One lock is held over each call of the library on this machine, and from a touch until its fill is made and its word is
 *      installed. It is taken by a locked instruction, which empties the core's store buffer (8.2.2).
 *   2. Core c's paging-structure entry of a page is made present by core c alone, as `word` tells it, in the locked section of
 *      that touch. After a take that tells RADIXVM_DROP_TABLES the core clears the entries of the range, each by one 8-byte
 *      store, and then invalidates them by INVLPG or MOV to CR3 (4.10.4.1). Both are done before its next take. INVLPG is for the current PCID alone.
 *   3. After its own change or copy a core runs no instruction of its program until it has cleared and invalidated `own`, or
 *      the page of its touch. Its handlers make no access by the program's translations.
 *   4. A fill is made before the word is installed. A fill by non-temporal stores ends with SFENCE.
 *   5. All mappings of frames are of memory type write-back. An access of n bytes is n accesses of one byte.
 *   6. Your entries may differ from `word` in the physical address of frame 0, and in the accessed and dirty flags (4.8). There are
 *      no global pages, each page has 4 KBytes, paging is 4-level, and each core has one PCID.
 *   7. The processor walks your paging structures alone, which lie in no frame of the machine. One is freed or moved only after the
 *      core has cleared what leads to it and invalidated its paging-structure caches (4.10.3). Upper entries permit everything.
 *   8. CR0.WP and IA32_EFER.NXE are 1. Before its first touch a core has no translation of the space.
 *   9. Bytes of frames change by fills and by the program's accesses alone: by no device, no other mapping and no system call. The
 *      bytes of files, from which RADIXVM_FILL_FILE copies, never change.
 *  10. On this machine you make calls by the five functions below alone. RADIXVM_FLUSH, RADIXVM_REVIEW and RADIXVM_FOLD by
 *      radixvm_step are allowed, and so is each function that changes nothing.
 *
 * Seats can't drive a real MMU: a seat's call makes the takes of the other cores itself, before their real TLBs are flushed.
 * A kept machine under your lock serves one thread at a time too. A handler of faults or interrupts may call the library if
 * it didn't interrupt a call of the library.
 */

/* A page fault of the core at an address; `kind` is RADIXVM_LOAD, RADIXVM_STORE or RADIXVM_FETCH. It makes RADIXVM_EVICT of
 * the page, as a page fault does (Intel SDM volume 3A, 4.10.4.1), and then the access, which stores 0. `filled` tells what
 * the page has now, and the fill that is due. It is written with RADIXVM_OUT_OF_MEMORY too: make its fill, and go on
 * later. RADIXVM_EMPTY: there is no machine. RADIXVM_ABSENT: no such core. RADIXVM_BAD_EVENT: another kind. RADIXVM_IN_FLIGHT: the
 * core has a call that hasn't ended. */
static inline uint32_t radixvm_touch(radixvm_machine *machine, uint32_t core, uint64_t at, uint32_t kind,
    radixvm_outcome *outcome, radixvm_filled *filled) {
    if (!machine || !outcome || !filled) return RADIXVM_NULL;
    return radixvm_touch_held(machine, core, at, kind, outcome, filled);
}
/* A call RADIXVM_MMAP, RADIXVM_MUNMAP or RADIXVM_MPROTECT of event->core, until it ends or waits. `own` is RADIXVM_DROP_OWN
 * where the call dropped its own core's translations, and otherwise RADIXVM_DROP_NONE. It is given once: here, or by the
 * radixvm_go_on that does it. It is written with RADIXVM_OUT_OF_MEMORY too. Other statuses as above. */
static inline uint32_t radixvm_change(radixvm_machine *machine, const radixvm_event *event, radixvm_outcome *outcome,
    radixvm_drop *own) {
    if (!machine || !event || !outcome || !own) return RADIXVM_NULL;
    return radixvm_change_held(machine, event, outcome, own);
}
/* Goes on with the core's touch or change until it ends or waits, as radixvm_finish does, and tells `filled` of a touch and
 * `own` as above. With no touch `filled` is all 0. RADIXVM_IDLE: the core has no call. */
static inline uint32_t radixvm_go_on(radixvm_machine *machine, uint32_t core, radixvm_outcome *outcome,
    radixvm_filled *filled, radixvm_drop *own) {
    if (!machine || !outcome || !filled || !own) return RADIXVM_NULL;
    return radixvm_go_on_held(machine, core, outcome, filled, own);
}
/* The core does what the oldest message of its inbox asks, as by RADIXVM_TAKE. Each message is given twice: as
 * RADIXVM_DROP_TABLES, and then, by the take that acknowledges it, as RADIXVM_DROP_TLB. RADIXVM_DROP_NONE: there is none. */
static inline uint32_t radixvm_take(radixvm_machine *machine, uint32_t core, radixvm_drop *drop) {
    if (!machine || !drop) return RADIXVM_NULL;
    return radixvm_take_held(machine, core, drop);
}
/* Brings back each frame that no page has, that caches no page of a file and that no call has taken. It makes rounds over all
 * cores: each makes RADIXVM_FLUSH until its part of the epoch is over, and RADIXVM_REVIEW while it can. With RADIXVM_OK each
 * such frame is free. RADIXVM_AT_LIMIT: eight epochs ended, or 2^40 steps were made, and one isn't free yet; that this never
 * comes isn't proved. `frames` is how many came back, with both. No page and no log entry changes. RADIXVM_EMPTY: there is no
 * machine. */
static inline uint32_t radixvm_reclaim(radixvm_machine *machine, uint64_t *frames) {
    if (!machine || !frames) return RADIXVM_NULL;
    return radixvm_reclaim_held(machine, frames);
}

/* ---- Shared machines. Each thread has a seat, which makes whole calls of one core, while other threads make theirs.
 * What is proved, for every schedule of any threads: the machine's log is that of a plain page map (POSIX.1-2017
 * mmap, munmap, mprotect). Seats have the machine by turns, in one order; a list of calls is one turn. A seat has
 * seen the first turns and all of its own: exactly the calls that it made, with the replies that it got. The log need not
 * be kept. A call finds the machine busy only where another seat is left, or was freed and not given back.
 * Not proved: that a call ever finds it free while other seats are left; that a last seat never gets RADIXVM_IN_USE.
 *
 *     radixvm_share(&machine, &seats[0]);
 *     for (i = 1; i < threads; i++) radixvm_seat_split(&seats[0], &seats[i]);
 *     (start the threads; thread i makes its calls by radixvm_seat_call(&seats[i], &event, &outcome); join them)
 *     for (i = 1; i < threads; i++) radixvm_seat_return(&seats[0], &seats[i]);
 *     radixvm_unshare(&seats[0], &machine);
 *
 * No function of the library waits. If another seat is in a call, the status is RADIXVM_BUSY, and nothing was done.
 * radixvm_seat_call and radixvm_seat_calls, which are written in this header, try again until it isn't RADIXVM_BUSY. A seat
 * makes one call at a time, and stays in one place. If the status isn't RADIXVM_OK, nothing has changed, with two
 * exceptions: RADIXVM_LOST, and the first `count` calls of a list.
 *
 * Don't end a thread inside a call (asynchronous pthread_cancel, TerminateThread), and don't call from a signal handler.
 * Otherwise the machine stays half-way in that call, and each other seat gets RADIXVM_BUSY for ever. Those seats may be
 * freed, but not the seat of the thread that ended, so the machine's memory stays allocated. */

/* Like those below, but no pointer may be null. */
uint32_t radixvm_share_held(radixvm_machine *machine, radixvm_seat *seat);
uint32_t radixvm_split_seat(radixvm_seat *first, radixvm_seat *other);
uint32_t radixvm_try_seat(radixvm_seat *seat, const radixvm_event *event, radixvm_outcome *outcome);
radixvm_done radixvm_calls_seat(radixvm_seat *seat, const radixvm_event *events, size_t event_count,
    radixvm_outcome *outcomes, size_t room);
uint32_t radixvm_return_seat(radixvm_seat *first, radixvm_seat *other);
uint32_t radixvm_unshare_seat(radixvm_seat *seat, radixvm_machine *machine);
void radixvm_free_seat(radixvm_seat *seat);

/* Moves the machine from its place into a first seat, that of core 0. RADIXVM_EMPTY: there is no machine.
 * RADIXVM_IN_USE: there is a seat already. RADIXVM_IN_FLIGHT: a core has a call that hasn't ended.
 * RADIXVM_OUT_OF_MEMORY: malloc refused memory. */
static inline uint32_t radixvm_share(radixvm_machine *machine, radixvm_seat *seat) {
    return machine && seat ? radixvm_share_held(machine, seat) : (uint32_t)RADIXVM_NULL;
}
/* Makes one more seat in an empty place, by means of core 0's seat. The first one is the last core's, the next that
 * of the core before it, down to core 1. RADIXVM_ABSENT: all cores have had a seat, or `first` isn't core 0's.
 * RADIXVM_EMPTY: `first` is no seat. RADIXVM_IN_USE: the other place is taken. RADIXVM_OUT_OF_MEMORY: as above. */
static inline uint32_t radixvm_seat_split(radixvm_seat *first, radixvm_seat *other) {
    return first && other ? radixvm_split_seat(first, other) : (uint32_t)RADIXVM_NULL;
}
/* Makes a whole call of this seat's core: one of the first six kinds. `event->core` isn't read. The outcome is a
 * reply or RADIXVM_FULL. The function itself makes the takes of the cores that the call waits for. If malloc refuses
 * memory, the reply is RADIXVM_NO_MEMORY. So no call is left in flight.
 * It also makes one step that is no call: RADIXVM_WALK, RADIXVM_EVICT, RADIXVM_FLUSH, RADIXVM_REVIEW or RADIXVM_FOLD. Its
 * outcome is RADIXVM_STEPPED, RADIXVM_IDLE or RADIXVM_FULL, and the log is unchanged.
 * RADIXVM_BAD_EVENT: another kind. RADIXVM_BUSY: another seat is in a call. */
static inline uint32_t radixvm_seat_try(radixvm_seat *seat, const radixvm_event *event, radixvm_outcome *outcome) {
    return seat && event && outcome ? radixvm_try_seat(seat, event, outcome) : (uint32_t)RADIXVM_NULL;
}
/* Waits before the next try: 16 pauses, then twice as many each time, up to 128; after ten tries it lets another thread
 * run. While the others wait, the thread that has the machine makes several calls, with its data in one cache. */
static inline void radixvm_relax(uint32_t tries) {
#if defined(__GNUC__) && (defined(__x86_64__) || defined(__i386__))
    if (tries < 10) {
        for (uint32_t pauses = 16u << (tries < 3 ? tries : 3); pauses > 0; pauses--) __builtin_ia32_pause();
        return;
    }
#else
    (void)tries;
#endif
#ifdef _WIN32
    SwitchToThread();
#elif !defined __STDC_HOSTED__ || __STDC_HOSTED__
    sched_yield();
#endif
}
/* Like radixvm_seat_try, but it tries again while the status is RADIXVM_BUSY. After ten tries it lets other threads run
 * between tries. With many threads, a mutex of your own around radixvm_seat_try gives the system's order instead; no
 * proof depends on it. */
static inline uint32_t radixvm_seat_call(radixvm_seat *seat, const radixvm_event *event, radixvm_outcome *outcome) {
    uint32_t tries = 0, status = radixvm_seat_try(seat, event, outcome);
    while (status == RADIXVM_BUSY) {
        radixvm_relax(tries);
        if (tries < 10) tries++;
        status = radixvm_seat_try(seat, event, outcome);
    }
    return status;
}
/* Makes a list of whole calls of this seat's core, all of the first six kinds, with no call of another seat between
 * them. The seat takes the machine once for all, which makes short calls cheaper; other seats wait for the whole list.
 * The first `count` calls were made, and outcomes[0] to outcomes[count - 1] are their replies; all other outcomes are
 * unchanged. RADIXVM_OK: all were made. RADIXVM_BAD_EVENT: events[count] isn't a call. RADIXVM_OUT_OF_MEMORY: malloc
 * refused memory to the last call made, whose reply is RADIXVM_NO_MEMORY. RADIXVM_AT_LIMIT: no further call can be made.
 * RADIXVM_BUSY: another seat is in a call, and none was made. */
static inline radixvm_done radixvm_seat_try_calls(radixvm_seat *seat, const radixvm_event *events, size_t event_count,
    radixvm_outcome *outcomes, size_t room) {
    const radixvm_event no_event = {0, 0, 0, 0, 0, 0, 0, 0, 0};
    radixvm_outcome no_outcome = {0, 0};
    if (!seat || (!events && event_count) || (!outcomes && room)) {
        const radixvm_done null = {RADIXVM_NULL, 0};
        return null;
    }
    return radixvm_calls_seat(seat, events ? events : &no_event, event_count, outcomes ? outcomes : &no_outcome, room);
}
/* Like radixvm_seat_try_calls, but it tries again while the status is RADIXVM_BUSY, as radixvm_seat_call does. */
static inline radixvm_done radixvm_seat_calls(radixvm_seat *seat, const radixvm_event *events, size_t event_count,
    radixvm_outcome *outcomes, size_t room) {
    uint32_t tries = 0;
    radixvm_done done = radixvm_seat_try_calls(seat, events, event_count, outcomes, room);
    while (done.status == RADIXVM_BUSY) {
        radixvm_relax(tries);
        if (tries < 10) tries++;
        done = radixvm_seat_try_calls(seat, events, event_count, outcomes, room);
    }
    return done;
}
/* Gives the other seat back, and leaves its place empty. Nobody else gets its core. Both must be seats of one machine:
 * the library can't check that. The proof about the log of the machine that radixvm_unshare hands back then covers the
 * replies that the other seat got. RADIXVM_EMPTY: there is no seat in one of them. RADIXVM_IN_USE: they are one place. */
static inline uint32_t radixvm_seat_return(radixvm_seat *first, radixvm_seat *other) {
    if (first && first == other) return RADIXVM_IN_USE;
    return first && other ? radixvm_return_seat(first, other) : (uint32_t)RADIXVM_NULL;
}
/* Moves the machine, with its log, from its last seat back into an empty place. Any seat may be the last.
 * RADIXVM_EMPTY: there is no seat. RADIXVM_IN_USE: the place is taken, or another seat is left. RADIXVM_LOST: a seat
 * was freed inside a call, against the rule above, and the machine is gone. It can't come where each other seat was
 * given back by radixvm_seat_return. */
static inline uint32_t radixvm_unshare(radixvm_seat *seat, radixvm_machine *machine) {
    return seat && machine ? radixvm_unshare_seat(seat, machine) : (uint32_t)RADIXVM_NULL;
}
/* Frees the seat, if there is one. The last seat frees the machine too. Nobody else gets its core. The calls that it
 * made stay in the log, but the proof about the log of radixvm_unshare doesn't name them. */
static inline void radixvm_seat_free(radixvm_seat *seat) {
    if (seat) radixvm_free_seat(seat);
}

/* ---- Texts. */

/* A status in words; "unknown status" if it isn't one. */
static inline const char *radixvm_text(uint32_t status) {
    static const char *const texts[] = {"done", "not an event: its kind, core, prot, flags or byte is out of range",
        "malloc refused memory", "fewer outcomes than events", "a length is above 2^32",
        "a file has no such mode, or its bytes don't lie in the buffer", "a null pointer", "there is no machine or seat in its place",
        "there is one already, or the machine has another seat", "no such core or page, or no further core", "the machine keeps no log",
        "not 1 to 64 cores", "more than 65536 frames", "more than 16 files", "a file of more than 1048576 bytes",
        "more calls than may begin", "malloc refused memory to the new machine", "another seat is in a call",
        "a core has a call that isn't at its end", "the machine is gone with a seat that was freed during its call",
        "the limit of calls or of events is reached"};
    return status < sizeof texts / sizeof texts[0] ? texts[status] : "unknown status";
}
/* The kind of an outcome in words; "unknown outcome" if it isn't one. */
static inline const char *radixvm_outcome_text(uint32_t kind) {
    static const char *const texts[] = {"unknown outcome", "a step was made", "waits for a core that holds a slot",
        "waits for cores that are to take a message", "not possible now", "a limit is reached", "mapped", "done", "a byte",
        "refused", "SIGSEGV: not mapped", "SIGSEGV: the protection forbids it", "SIGBUS: past the end of the file",
        "no frame was free", "no memory", "not at its end after 2^40 steps"};
    return kind < sizeof texts / sizeof texts[0] ? texts[kind] : texts[0];
}
#ifdef __cplusplus
}
#endif
#endif
