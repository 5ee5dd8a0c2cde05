/* What isn't in range, null pointers, lengths of 0 and of 2^63, machines that aren't there, and malloc that refuses the
 * n-th block: each is told by its code, what was told before it stays, and a machine that is kept loses nothing. With the
 * sanitizers nothing leaks or is touched past its end. */
#include "radixvm.h"
#include <stdio.h>
#include <stdlib.h>
#include <string.h>

static int wrong, tried;

static void expect(const char *what, radixvm_done done, uint32_t status, uint64_t count) {
    tried++;
    if (done.status == status && done.count == count) return;
    wrong++;
    printf("%s: status %u, count %llu, expected %u, %llu\n", what, done.status, (unsigned long long)done.count, status,
        (unsigned long long)count);
}

static radixvm_event load(uint32_t kind, uint32_t core) {
    radixvm_event e = {kind, core, 0x10000, 0, 0, 0, 0, 0, 0};
    return e;
}

typedef radixvm_done batch(const radixvm_setup *, const radixvm_file *, size_t, const uint8_t *, size_t,
    const radixvm_event *, size_t, radixvm_outcome *, size_t);

/* A batch on a machine that is kept for it alone. */
static radixvm_done on_kept(int whole, const radixvm_setup *setup, const radixvm_file *files, size_t file_count, const uint8_t *bytes,
    size_t byte_count, const radixvm_event *events, size_t event_count, radixvm_outcome *outcomes, size_t room) {
    radixvm_machine machine = {0};
    radixvm_done done = radixvm_new(setup, files, file_count, bytes, byte_count, &machine);
    if (done.status == RADIXVM_OK)
        done = whole ? radixvm_calls_on(&machine, events, event_count, outcomes, room)
            : radixvm_run_on(&machine, events, event_count, outcomes, room);
    radixvm_free(&machine);
    return done;
}

static radixvm_done run_kept(const radixvm_setup *setup, const radixvm_file *files, size_t file_count, const uint8_t *bytes,
    size_t byte_count, const radixvm_event *events, size_t event_count, radixvm_outcome *outcomes, size_t room) {
    return on_kept(0, setup, files, file_count, bytes, byte_count, events, event_count, outcomes, room);
}

static radixvm_done calls_kept(const radixvm_setup *setup, const radixvm_file *files, size_t file_count, const uint8_t *bytes,
    size_t byte_count, const radixvm_event *events, size_t event_count, radixvm_outcome *outcomes, size_t room) {
    return on_kept(1, setup, files, file_count, bytes, byte_count, events, event_count, outcomes, room);
}

static void expect_status(const char *what, uint32_t is, uint32_t status) {
    expect(what, (radixvm_done){is, 0}, status, 0);
}

/* Calls for real page tables that are refused: nothing is told, and nothing changes. */
static void driven(radixvm_machine *place) {
    radixvm_outcome told = {77, 77};
    radixvm_filled filled = {77, 77, 77, 77, 77, 77};
    radixvm_drop drop = {77, 77, 77, 77};
    radixvm_event event = {RADIXVM_MUNMAP, 64, 0x10000, 4096, 0, 0, 0, 0, 0};
    expect_status("a touch of core 64", radixvm_touch(place, 64, 0x10000, RADIXVM_LOAD, &told, &filled), RADIXVM_ABSENT);
    expect_status("a touch that is no access", radixvm_touch(place, 0, 0x10000, RADIXVM_MUNMAP, &told, &filled), RADIXVM_BAD_EVENT);
    expect_status("a change of core 64", radixvm_change(place, &event, &told, &drop), RADIXVM_ABSENT);
    event.core = 0, event.kind = RADIXVM_LOAD;
    expect_status("a change that is an access", radixvm_change(place, &event, &told, &drop), RADIXVM_BAD_EVENT);
    expect_status("core 64 goes on", radixvm_go_on(place, 64, &told, &filled, &drop), RADIXVM_ABSENT);
    expect_status("core 64 takes", radixvm_take(place, 64, &drop), RADIXVM_ABSENT);
    expect_status("a touch, null", radixvm_touch(place, 0, 0x10000, RADIXVM_LOAD, &told, NULL), RADIXVM_NULL);
    expect("nothing is told", (radixvm_done){told.kind, filled.word + drop.first}, 77, 154);
    expect_status("no message", radixvm_take(place, 0, &drop), RADIXVM_OK);
    expect("it is none", (radixvm_done){drop.what, drop.first + drop.end}, RADIXVM_DROP_NONE, 0);
    expect_status("no call", radixvm_go_on(place, 0, &told, &filled, &drop), RADIXVM_OK);
    expect("it is idle", (radixvm_done){told.kind, filled.word + filled.page}, RADIXVM_IDLE, 0);
    event.kind = RADIXVM_MUNMAP;
    expect_status("a call begins", radixvm_begin(place, &event, &told), RADIXVM_OK);
    expect_status("a touch in a call", radixvm_touch(place, 0, 0x10000, RADIXVM_LOAD, &told, &filled), RADIXVM_IN_FLIGHT);
    expect_status("a change in a call", radixvm_change(place, &event, &told, &drop), RADIXVM_IN_FLIGHT);
    expect_status("the call goes on", radixvm_go_on(place, 0, &told, &filled, &drop), RADIXVM_OK);
    expect("it drops its own", (radixvm_done){told.kind, drop.what + drop.first}, RADIXVM_DONE, RADIXVM_DROP_OWN + 16);
}

/* What each function says of this place, in which there is no machine, or that is null. */
static void try_none(radixvm_machine *place, uint32_t status) {
    const radixvm_event event = load(RADIXVM_LOAD, 0);
    radixvm_outcome told = {77, 77};
    radixvm_line line = {77, 77, 77, 77, 77, 77};
    radixvm_log_entry entry;
    uint64_t word = 77;
    memset(&entry, 77, sizeof entry);
    expect("log of none", radixvm_log(place, &entry, 1), status, 0);
    expect_status("step on none", radixvm_step(place, &event, &told), status);
    expect_status("call on none", radixvm_call(place, &event, &told), status);
    expect_status("begin on none", radixvm_begin(place, &event, &told), status);
    expect_status("finish on none", radixvm_finish(place, 0, &told), status);
    expect("run on none", radixvm_run_on(place, &event, 1, &told, 1), status, 0);
    expect("calls on none", radixvm_calls_on(place, &event, 1, &told, 1), status, 0);
    expect("maps of none", radixvm_maps(place, &line, 1), status, 0);
    expect_status("entry of none", radixvm_entry(place, 0, 16, &word), status);
    radixvm_filled filled;
    radixvm_drop drop;
    uint64_t back;
    expect_status("touch of none", radixvm_touch(place, 0, 0x10000, RADIXVM_LOAD, &told, &filled), status);
    expect_status("change of none", radixvm_change(place, &event, &told, &drop), status);
    expect_status("go on with none", radixvm_go_on(place, 0, &told, &filled, &drop), status);
    expect_status("take of none", radixvm_take(place, 0, &drop), status);
    expect_status("reclaim of none", radixvm_reclaim(place, &back), status);
    expect_status("cores of none", (uint32_t)radixvm_cores(place), 0);
    radixvm_free(place);
    tried++;
    if (told.kind != 77 || told.value != 77 || line.first != 77 || word != 77 || (uint8_t)entry.kind != 77) wrong++, printf("something was told of none\n");
}

/* A machine that is kept: made once, looked at, and freed. */
static void keep_one(void) {
    const radixvm_setup setup = {2, 4, 100, 0}, bad = {65, 4, 100, 0};
    const uint32_t fixed = RADIXVM_MAP_PRIVATE | RADIXVM_MAP_FIXED | RADIXVM_MAP_ANONYMOUS;
    const radixvm_event map = {RADIXVM_MMAP, 1, 0x10000, 0x2000, 0, 0, 3, fixed, 0}, store = {RADIXVM_STORE, 1, 0x10000, 0, 0, 0, 0, 0, 7};
    radixvm_machine place = {0};
    radixvm_outcome told = {0, 0};
    radixvm_line lines[2] = {{77, 77, 77, 77, 77, 77}, {77, 77, 77, 77, 77, 77}};
    uint64_t word = 77;
    try_none(NULL, RADIXVM_NULL);
    try_none(&place, RADIXVM_EMPTY);
    expect("a bad setup", radixvm_new(&bad, NULL, 0, NULL, 0, &place), RADIXVM_BAD_CORES, 0);
    try_none(&place, RADIXVM_EMPTY);
    expect("no place", radixvm_new(&setup, NULL, 0, NULL, 0, NULL), RADIXVM_NULL, 0);
    expect("a machine", radixvm_new(&setup, NULL, 0, NULL, 0, &place), RADIXVM_OK, 0);
    expect("another", radixvm_new(&setup, NULL, 0, NULL, 0, &place), RADIXVM_IN_USE, 0);
    expect_status("cores", (uint32_t)radixvm_cores(&place), 2);
    expect_status("no event", radixvm_call(&place, NULL, &told), RADIXVM_NULL);
    expect_status("no outcome", radixvm_step(&place, &map, NULL), RADIXVM_NULL);
    expect_status("no word", radixvm_entry(&place, 0, 16, NULL), RADIXVM_NULL);
    driven(&place);
    const radixvm_event go = load(RADIXVM_GO, 1);
    expect_status("no call is begun by a step", radixvm_begin(&place, &go, &told), RADIXVM_BAD_EVENT);
    expect_status("begun", radixvm_begin(&place, &map, &told), RADIXVM_OK);
    expect_status("the outcome of a begin", told.kind, RADIXVM_STEPPED);
    expect_status("finished", radixvm_finish(&place, 1, &told), RADIXVM_OK);
    expect("the reply", (radixvm_done){told.kind, told.value}, RADIXVM_MAPPED, 0x10000);
    expect_status("an entry before an access", radixvm_entry(&place, 1, 16, &word), RADIXVM_OK);
    expect("it is none", (radixvm_done){0, word}, 0, 0);
    expect_status("stored", radixvm_call(&place, &store, &told), RADIXVM_OK);
    expect_status("an entry", radixvm_entry(&place, 1, 16, &word), RADIXVM_OK);
    expect_status("present, writable", (uint32_t)word & 3, 3);
    word = 77;
    expect_status("a core that isn't there", radixvm_entry(&place, 2, 16, &word), RADIXVM_ABSENT);
    expect_status("core 64", radixvm_entry(&place, 64, 16, &word), RADIXVM_ABSENT);
    expect_status("page 0", radixvm_entry(&place, 1, 0, &word), RADIXVM_ABSENT);
    expect_status("page 2^35", radixvm_entry(&place, 1, (uint64_t)1 << 35, &word), RADIXVM_ABSENT);
    expect("nothing is told", (radixvm_done){0, word}, 0, 77);
    expect("maps, no room", radixvm_maps(&place, NULL, 0), RADIXVM_OK, 1);
    expect("maps, null", radixvm_maps(&place, NULL, 1), RADIXVM_NULL, 0);
    expect("maps, room for 2^63", radixvm_maps(&place, lines, (size_t)1 << 63), RADIXVM_TOO_LONG, 0);
    expect("maps", radixvm_maps(&place, lines, 2), RADIXVM_OK, 1);
    expect("its pages", (radixvm_done){(uint32_t)lines[0].first, lines[0].end}, 16, 18);
    expect("its rights", (radixvm_done){lines[0].prot, lines[0].back}, 3, RADIXVM_BACK_ZEROS);
    expect("no other", (radixvm_done){(uint32_t)lines[1].first, lines[1].end}, 77, 77);
    expect("no log", radixvm_log(&place, NULL, 0), RADIXVM_NO_LOG, 0);
    radixvm_free(&place);
    try_none(&place, RADIXVM_EMPTY);
}

/* A machine that keeps its log: a store to a private page of a file gets it a copy, and its reply. */
static void keep_logged(void) {
    const radixvm_setup setup = {2, 4, 100, 1}, most = {2, 4, 1048576, 1}, past = {2, 4, 1048577, 1};
    const radixvm_event map = {RADIXVM_MMAP, 1, 0x10000, 0x1000, 0, 0, 3, RADIXVM_MAP_PRIVATE | RADIXVM_MAP_FIXED, 0};
    const radixvm_event load_it = load(RADIXVM_LOAD, 1), store = {RADIXVM_STORE, 1, 0x10001, 77, 77, 77, 77, 77, 7};
    const radixvm_file file = {RADIXVM_O_RDONLY, 0, 4};
    const uint8_t bytes[4] = {1, 2, 3, 4};
    radixvm_machine place = {0};
    radixvm_outcome told = {0, 0};
    radixvm_log_entry log[5];
    memset(log, 77, sizeof log);
    expect("a log of 1048577 calls", radixvm_new(&past, &file, 1, bytes, 4, &place), RADIXVM_BAD_CALLS, 0);
    expect("a log of 1048576 calls", radixvm_new(&most, &file, 1, bytes, 4, &place), RADIXVM_OK, 0);
    radixvm_free(&place);
    expect("a machine with a log", radixvm_new(&setup, &file, 1, bytes, 4, &place), RADIXVM_OK, 0);
    expect("an empty log", radixvm_log(&place, NULL, 0), RADIXVM_OK, 0);
    expect_status("mapped", radixvm_call(&place, &map, &told), RADIXVM_OK);
    expect_status("loaded", radixvm_call(&place, &load_it, &told), RADIXVM_OK);
    expect_status("stored", radixvm_call(&place, &store, &told), RADIXVM_OK);
    expect("log, null", radixvm_log(&place, NULL, 1), RADIXVM_NULL, 0);
    expect("log, room for 2^63", radixvm_log(&place, log, (size_t)1 << 63), RADIXVM_TOO_LONG, 0);
    expect("log, no room", radixvm_log(&place, NULL, 0), RADIXVM_OK, 4);
    expect("log, room for one", radixvm_log(&place, log, 1), RADIXVM_OK, 4);
    expect("one is told", (radixvm_done){log[0].kind, log[1].kind}, RADIXVM_ENTRY_REPLY, 0x4d4d4d4d);
    expect("log", radixvm_log(&place, log, 5), RADIXVM_OK, 4);
    expect("no other entry", (radixvm_done){log[4].kind, log[4].page}, 0x4d4d4d4d, 0x4d4d4d4d4d4d4d4d);
    expect("its first call", (radixvm_done){log[0].asked.kind, log[0].asked.at}, RADIXVM_MMAP, 0x10000);
    expect("with its length and flags", (radixvm_done){log[0].asked.flags, log[0].asked.len}, map.flags, 0x1000);
    expect("its reply", (radixvm_done){log[0].reply.kind, log[0].reply.value}, RADIXVM_MAPPED, 0x10000);
    expect("the byte of the file", (radixvm_done){log[1].reply.kind, log[1].reply.value}, RADIXVM_BYTE, 1);
    expect("a copy", (radixvm_done){log[2].kind, log[2].page}, RADIXVM_ENTRY_COPY, 16);
    expect("for the third call", (radixvm_done){log[2].asked.kind, log[2].call}, 0, 3);
    expect("the store", (radixvm_done){log[3].core, log[3].call}, 1, 3);
    expect("as it was asked for", (radixvm_done){log[3].asked.byte, log[3].asked.at}, 7, 0x10001);
    expect("and nothing besides", (radixvm_done){log[3].asked.prot, log[3].asked.len}, 0, 0);
    expect("it is answered", (radixvm_done){log[3].reply.kind, log[3].page}, RADIXVM_DONE, 0);
    radixvm_free(&place);
    try_none(&place, RADIXVM_EMPTY);
}

static void try_all(batch *run, int whole) {
    const radixvm_setup good = {2, 4, 100, 0};
    radixvm_outcome told[4];
    radixvm_event events[4];
    memset(told, 0, sizeof told);
    memset(events, 0, sizeof events);
    expect("nothing", run(&good, NULL, 0, NULL, 0, NULL, 0, NULL, 0), RADIXVM_OK, 0);
    expect("no setup", run(NULL, NULL, 0, NULL, 0, NULL, 0, NULL, 0), RADIXVM_NULL, 0);
    expect("no files", run(&good, NULL, 1, NULL, 0, NULL, 0, NULL, 0), RADIXVM_NULL, 0);
    expect("no bytes", run(&good, NULL, 0, NULL, 1, NULL, 0, NULL, 0), RADIXVM_NULL, 0);
    expect("no events", run(&good, NULL, 0, NULL, 0, NULL, 1, told, 4), RADIXVM_NULL, 0);
    expect("no outcomes", run(&good, NULL, 0, NULL, 0, events, 1, NULL, 1), RADIXVM_NULL, 0);
    expect("2^63 events", run(&good, NULL, 0, NULL, 0, events, (size_t)1 << 63, told, 4), RADIXVM_TOO_LONG, 0);
    expect("room for 2^63", run(&good, NULL, 0, NULL, 0, events, 1, told, (size_t)1 << 63), RADIXVM_TOO_LONG, 0);
    expect("2^63 bytes", run(&good, NULL, 0, (const uint8_t *)told, (size_t)1 << 63, events, 1, told, 4), RADIXVM_TOO_LONG, 0);
    expect("no room", run(&good, NULL, 0, NULL, 0, events, 2, told, 1), RADIXVM_NO_ROOM, 0);
    radixvm_setup bad = {0, 4, 100, 0};
    expect("no core", run(&bad, NULL, 0, NULL, 0, events, 1, told, 4), RADIXVM_BAD_CORES, 0);
    bad.cores = 65;
    expect("65 cores", run(&bad, NULL, 0, NULL, 0, events, 1, told, 4), RADIXVM_BAD_CORES, 0);
    bad.cores = 64;
    bad.frames = 65537;
    expect("65537 frames", run(&bad, NULL, 0, NULL, 0, events, 1, told, 4), RADIXVM_BAD_FRAMES, 0);
    bad.frames = 0;
    bad.calls = ((uint64_t)1 << 40) + 1;
    expect("2^40 + 1 calls", run(&bad, NULL, 0, NULL, 0, events, 1, told, 4), RADIXVM_BAD_CALLS, 0);
    bad.calls--;
    expect("2^40 calls", run(&bad, NULL, 0, NULL, 0, events, 0, told, 4), RADIXVM_OK, 0);
    bad.log = 2;
    bad.calls = 1048577;
    expect("1048577 calls with a log", run(&bad, NULL, 0, NULL, 0, events, 1, told, 4), RADIXVM_BAD_CALLS, 0);
    bad.calls--;
    expect("1048576 calls with a log", run(&bad, NULL, 0, NULL, 0, events, 0, told, 4), RADIXVM_OK, 0);
    radixvm_file files[17];
    const uint8_t bytes[4] = {1, 2, 3, 4};
    memset(files, 0, sizeof files);
    for (int i = 0; i < 17; i++) files[i].mode = RADIXVM_O_RDWR;
    expect("17 files", run(&good, files, 17, bytes, 4, events, 0, told, 4), RADIXVM_TOO_MANY_FILES, 0);
    files[3].len = 1048577;
    expect("a long file", run(&good, files, 16, bytes, 4, events, 0, told, 4), RADIXVM_FILE_TOO_LONG, 0);
    files[3].len = 2;
    files[3].start = 3;
    expect("a file past the bytes", run(&good, files, 16, bytes, 4, events, 0, told, 4), RADIXVM_BAD_FILE, 3);
    files[3].start = UINT64_MAX;
    expect("a file from 2^64 - 1 on", run(&good, files, 16, bytes, 4, events, 0, told, 4), RADIXVM_BAD_FILE, 3);
    files[3].start = 2;
    files[5].mode = 4;
    expect("a file of no mode", run(&good, files, 16, bytes, 4, events, 0, told, 4), RADIXVM_BAD_FILE, 5);
    files[5].mode = RADIXVM_O_RDONLY;
    expect("sixteen files", run(&good, files, 16, bytes, 4, events, 0, told, 4), RADIXVM_OK, 0);
    /* the second event is none: the first is told, and the others' places stay */
    events[0] = load(RADIXVM_LOAD, 0);
    const uint32_t kinds[] = {0, RADIXVM_FINISH + 1, RADIXVM_BEGIN, RADIXVM_BEGIN + RADIXVM_FINISH, 2 * RADIXVM_BEGIN + 1, UINT32_MAX};
    for (size_t i = 0; i < sizeof kinds / sizeof *kinds; i++) {
        events[1] = load(kinds[i], 0);
        expect("a kind that is none", run(&good, NULL, 0, NULL, 0, events, 2, told, 4), RADIXVM_BAD_EVENT, 1);
    }
    events[1] = load(RADIXVM_FINISH, 0);
    expect("finish", run(&good, NULL, 0, NULL, 0, events, 2, told, 4), whole ? RADIXVM_OK : RADIXVM_BAD_EVENT, whole ? 2 : 1);
    for (uint32_t core = 63; core <= 64; core++) {
        events[1] = load(RADIXVM_LOAD, core);
        memset(told, 0xff, sizeof told);
        expect("a core", run(&good, NULL, 0, NULL, 0, events, 2, told, 4), core < 64 ? RADIXVM_OK : RADIXVM_BAD_EVENT, core < 64 ? 2 : 1);
        tried++;
        if (core == 63 ? told[1].kind != RADIXVM_IDLE : told[1].kind != UINT32_MAX) wrong++, printf("core %u is told %u\n", core, told[1].kind);
    }
    events[1] = load(RADIXVM_STORE, 0);
    events[1].byte = 256;
    expect("a byte of 256", run(&good, NULL, 0, NULL, 0, events, 2, told, 4), RADIXVM_BAD_EVENT, 1);
    events[1] = load(RADIXVM_MPROTECT, 0);
    events[1].prot = 8;
    expect("a right that is none", run(&good, NULL, 0, NULL, 0, events, 2, told, 4), RADIXVM_BAD_EVENT, 1);
    events[1] = load(RADIXVM_MMAP, 0);
    for (uint32_t bit = 0; bit < 32; bit++) {
        events[1].flags = (uint32_t)1 << bit;
        int is_one = bit == 0 || bit == 1 || bit == 4 || bit == 5;
        expect("a flag", run(&good, NULL, 0, NULL, 0, events, 2, told, 4), is_one ? RADIXVM_OK : RADIXVM_BAD_EVENT, is_one ? 2 : 1);
    }
}

/* How many of so many loads are answered by a machine of these calls. */
static uint64_t answered(uint64_t calls, uint32_t log, uint64_t loads) {
    const radixvm_setup setup = {1, 0, calls, log};
    const radixvm_event event = load(RADIXVM_LOAD, 0);
    radixvm_machine machine = {0};
    uint64_t n = 0;
    expect("a machine of many calls", radixvm_new(&setup, NULL, 0, NULL, 0, &machine), RADIXVM_OK, 0);
    while (loads--) {
        radixvm_outcome told = {0, 0};
        if (radixvm_call(&machine, &event, &told) == RADIXVM_OK) n += told.kind == RADIXVM_SEGV_MAPERR;
    }
    if (log) expect("all of them are logged", radixvm_log(&machine, NULL, 0), RADIXVM_OK, n);
    radixvm_free(&machine);
    return n;
}

/* Without a log more calls begin than with one. */
static void many_calls(void) {
    const uint64_t usual = 1048576;
    expect("2^40 calls", (radixvm_done){0, answered((uint64_t)1 << 40, 0, usual + 2)}, 0, usual + 2);
    expect("one call more than fit", (radixvm_done){0, answered(usual + 1, 0, usual + 2)}, 0, usual + 1);
    expect("with a log", (radixvm_done){0, answered(usual, 1, usual + 2)}, 0, usual);
}

/* Lengths of 2^63 of a call are answered as POSIX says. */
static void long_calls(void) {
    const radixvm_setup setup = {1, 4, 100, 0};
    const uint32_t fixed = RADIXVM_MAP_PRIVATE | RADIXVM_MAP_FIXED | RADIXVM_MAP_ANONYMOUS;
    const uint64_t long_one = (uint64_t)1 << 63;
    const radixvm_event events[] = {
        {RADIXVM_MMAP, 0, 0x10000, long_one, 0, 0, 3, fixed, 0}, {RADIXVM_MMAP, 0, 0x10000, 0, 0, 0, 3, fixed, 0},
        {RADIXVM_MUNMAP, 0, 0x10000, long_one, 0, 0, 0, 0, 0}, {RADIXVM_MPROTECT, 0, 0x10000, long_one, 0, 0, 3, 0, 0},
        {RADIXVM_MPROTECT, 0, 0x10000, 0, 0, 0, 3, 0, 0}, {RADIXVM_LOAD, 0, UINT64_MAX, 0, 0, 0, 0, 0, 0},
    };
    const radixvm_outcome right[] = {{RADIXVM_REFUSED, RADIXVM_ENOMEM}, {RADIXVM_REFUSED, RADIXVM_EINVAL},
        {RADIXVM_REFUSED, RADIXVM_EINVAL}, {RADIXVM_REFUSED, RADIXVM_ENOMEM}, {RADIXVM_DONE, 0}, {RADIXVM_SEGV_MAPERR, 0}};
    radixvm_outcome told[6];
    memset(told, 0, sizeof told);
    expect("long calls", radixvm_calls(&setup, NULL, 0, NULL, 0, events, 6, told, 6), RADIXVM_OK, 6);
    for (int i = 0; i < 6; i++) {
        tried++;
        if (told[i].kind != right[i].kind || told[i].value != right[i].value) wrong++, printf("long call %d is told %u %llu\n", i, told[i].kind, (unsigned long long)told[i].value);
    }
}

#ifdef REFUSE
/* The linker's --wrap puts these before the library's blocks: the n-th is refused. */
void *__real_malloc(size_t size);
void *__real_realloc(void *at, size_t size);
static long left = -1;
static int is_refused(void) { return left == 0 || (left > 0 && left-- < 0); }
void *__wrap_malloc(size_t size) { return is_refused() ? NULL : __real_malloc(size); }
void *__wrap_realloc(void *at, size_t size) { return is_refused() ? NULL : __real_realloc(at, size); }

/* From the n-th block on each is refused, for each n until all goes well: what is told is a beginning of what is told
 * where memory is ample, and the batch ends by the code of the machine, or of the event that found none. */
static void refuse_each(void) {
    const radixvm_setup setup = {2, 4, 100, 0};
    const uint32_t fixed = RADIXVM_MAP_PRIVATE | RADIXVM_MAP_FIXED | RADIXVM_MAP_ANONYMOUS;
    const radixvm_event events[] = {
        {RADIXVM_MMAP, 0, 0x10000, 0x4000, 0, 0, 3, fixed, 0}, {RADIXVM_STORE, 0, 0x10000, 0, 0, 0, 0, 0, 7},
        {RADIXVM_LOAD, 1, 0x10000, 0, 0, 0, 0, 0, 0}, {RADIXVM_MMAP, 1, 0x40000000, 0x1000, 0, 0, 3, fixed, 0},
        {RADIXVM_STORE, 1, 0x40000000, 0, 0, 0, 0, 0, 8}, {RADIXVM_MUNMAP, 1, 0x40000000, 0x1000, 0, 0, 0, 0, 0},
    };
    const radixvm_file files[] = {{RADIXVM_O_RDONLY, 0, 4}, {RADIXVM_O_RDWR, 2, 2}};
    const uint8_t bytes[4] = {1, 2, 3, 4};
    radixvm_outcome all[6], told[6];
    memset(all, 0, sizeof all);
    expect("ample memory", radixvm_calls(&setup, files, 2, bytes, 4, events, 6, all, 6), RADIXVM_OK, 6);
    long n = 0, machines = 0, stopped = 0;
    for (radixvm_done done = {RADIXVM_NULL, 0}; done.status != RADIXVM_OK; n++) {
        memset(told, 0, sizeof told);
        left = n;
        done = radixvm_calls(&setup, files, 2, bytes, 4, events, 6, told, 6);
        left = -1;
        tried++;
        machines += done.status == RADIXVM_NO_MACHINE;
        stopped += done.status == RADIXVM_OUT_OF_MEMORY;
        if (memcmp(told, all, done.count * sizeof *told) || n > 100000
            || (done.status != RADIXVM_OK && done.status != RADIXVM_NO_MACHINE && done.status != RADIXVM_OUT_OF_MEMORY)) {
            wrong++;
            printf("block %ld refused: status %u, count %llu\n", n, done.status, (unsigned long long)done.count);
            return;
        }
    }
    printf("%ld blocks refused in turn: no machine at %ld, an event without memory at %ld\n", n - 1, machines, stopped);
    tried++;
    wrong += machines == 0 || stopped == 0;
}

/* The same calls on a machine that is kept: where one finds no memory it is finished once there is some, and each reply is
 * as where memory is ample. The list of mappings is told, or refused, likewise; a log has all replies. */
static void refuse_kept(uint32_t log) {
    const radixvm_setup setup = {2, 4, 100, log};
    const uint32_t fixed = RADIXVM_MAP_PRIVATE | RADIXVM_MAP_FIXED | RADIXVM_MAP_ANONYMOUS;
    const radixvm_event events[] = {
        {RADIXVM_MMAP, 0, 0x10000, 0x4000, 0, 0, 3, fixed, 0}, {RADIXVM_STORE, 0, 0x10000, 0, 0, 0, 0, 0, 7},
        {RADIXVM_LOAD, 0, 0x10000, 0, 0, 0, 0, 0, 0}, {RADIXVM_MMAP, 1, 0x40000000, 0x1000, 0, 0, 3, fixed, 0},
        {RADIXVM_STORE, 1, 0x40000000, 0, 0, 0, 0, 0, 8}, {RADIXVM_LOAD, 1, 0x40000000, 0, 0, 0, 0, 0, 0},
    };
    const radixvm_outcome right[] = {{RADIXVM_MAPPED, 0x10000}, {RADIXVM_DONE, 0}, {RADIXVM_BYTE, 7}, {RADIXVM_MAPPED, 0x40000000},
        {RADIXVM_DONE, 0}, {RADIXVM_BYTE, 8}};
    long n = 0, machines = 0, stopped = 0, lists = 0;
    for (int refused = 1; refused && n < 100000; n++) {
        radixvm_machine machine = {0};
        radixvm_line lines[3];
        refused = 0;
        left = n;
        radixvm_done done = radixvm_new(&setup, NULL, 0, NULL, 0, &machine);
        if (done.status == RADIXVM_NO_MACHINE) {
            refused = 1, machines++, left = -1;
            expect("nothing was made", radixvm_run_on(&machine, NULL, 0, NULL, 0), RADIXVM_EMPTY, 0);
            done = radixvm_new(&setup, NULL, 0, NULL, 0, &machine);
        }
        expect("a machine", done, RADIXVM_OK, 0);
        for (int i = 0; i < 6; i++) {
            radixvm_outcome told = {77, 77};
            uint32_t status = radixvm_call(&machine, &events[i], &told);
            if (status == RADIXVM_OUT_OF_MEMORY) {
                refused = 1, stopped++, left = -1;
                expect_status("nothing is told", told.kind, 77);
                status = radixvm_finish(&machine, events[i].core, &told);
            }
            expect_status("a call", status, RADIXVM_OK);
            expect("its reply", (radixvm_done){told.kind, told.value}, right[i].kind, right[i].value);
        }
        done = radixvm_maps(&machine, lines, 3);
        if (done.status == RADIXVM_OUT_OF_MEMORY) {
            refused = 1, lists++, left = -1;
            done = radixvm_maps(&machine, lines, 3);
        }
        expect("the mappings", done, RADIXVM_OK, 2);
        left = -1;
        expect("the log", radixvm_log(&machine, NULL, 0), log ? RADIXVM_OK : RADIXVM_NO_LOG, log ? 6 : 0);
        radixvm_free(&machine);
    }
    printf("of a kept machine %ld: none was made at %ld, a call was finished later at %ld, the list was asked for again at %ld\n", n - 1,
        machines, stopped, lists);
    tried++;
    wrong += machines == 0 || stopped == 0 || lists == 0;
}
#endif

int main(void) {
    expect("version", (radixvm_done){radixvm_version(), 0}, RADIXVM_VERSION, 0);
    try_all(radixvm_run, 0);
    try_all(radixvm_calls, 1);
    try_all(run_kept, 0);
    try_all(calls_kept, 1);
    keep_one();
    keep_logged();
    many_calls();
    long_calls();
#ifdef REFUSE
    refuse_each();
    refuse_kept(0);
    refuse_kept(1);
#endif
    printf("%d of %d\n", tried - wrong, tried);
    return wrong != 0;
}
