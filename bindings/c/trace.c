/* Runs a trace, as `./radixvm run` does, through the library: one batch of all lines.
 * Usage: trace [kept | log] [steps] < TRACE; with `steps` each event is one line (radixvm_run), with `kept` each line is
 * given by itself to a machine that is kept, and with `log` its log comes behind, as `./radixvm run --log` writes it. */
#include "radixvm.h"
#include <stdio.h>
#include <stdlib.h>
#include <string.h>

enum { MAX_LINES = 200000, MAX_WORDS = 12 };

static void die(const char *why, size_t line) {
    fprintf(stderr, "trace: %s, line %zu\n", why, line);
    exit(2);
}

static uint64_t number(const char *word) {
    return word ? strtoull(word, NULL, 0) : 0;
}

static uint32_t prot_of(const char *word) {
    return (word[0] == 'r' ? RADIXVM_PROT_READ : 0u) | (word[1] == 'w' ? RADIXVM_PROT_WRITE : 0u)
        | (word[2] == 'x' ? RADIXVM_PROT_EXEC : 0u);
}

static uint32_t flags_of(const char *word) {
    return (strchr(word, 'p') ? RADIXVM_MAP_PRIVATE : 0u) | (strchr(word, 's') ? RADIXVM_MAP_SHARED : 0u)
        | (strchr(word, 'f') ? RADIXVM_MAP_FIXED : 0u) | (strchr(word, 'a') ? RADIXVM_MAP_ANONYMOUS : 0u);
}

/* The words of a request: its name and its arguments. */
static radixvm_event request(char **word, size_t line) {
    radixvm_event e = {0, 0, 0, 0, 0, 0, 0, 0, 0};
    e.at = number(word[1]);
    if (!strcmp(word[0], "mmap")) {
        e.kind = RADIXVM_MMAP;
        e.len = number(word[2]);
        e.prot = prot_of(word[3]);
        e.flags = flags_of(word[4]);
        e.file = number(word[5]);
        e.off = word[5] ? number(word[6]) : 0;
    } else if (!strcmp(word[0], "munmap")) {
        e.kind = RADIXVM_MUNMAP;
        e.len = number(word[2]);
    } else if (!strcmp(word[0], "mprotect")) {
        e.kind = RADIXVM_MPROTECT;
        e.len = number(word[2]);
        e.prot = prot_of(word[3]);
    } else if (!strcmp(word[0], "load")) {
        e.kind = RADIXVM_LOAD;
    } else if (!strcmp(word[0], "store")) {
        e.kind = RADIXVM_STORE;
        e.byte = (uint32_t)number(word[2]);
    } else if (!strcmp(word[0], "fetch")) {
        e.kind = RADIXVM_FETCH;
    } else {
        die("no such request", line);
    }
    return e;
}

static radixvm_event event(char **word, size_t line) {
    static const struct { const char *name; uint32_t kind; int is_page; } others[] = {
        {"go", RADIXVM_GO, 0}, {"frame", RADIXVM_FRAME, 0}, {"guess", RADIXVM_GUESS, 1},
        {"whole", RADIXVM_WHOLE, 0}, {"take", RADIXVM_TAKE, 0}, {"walk", RADIXVM_WALK, 1},
        {"evict", RADIXVM_EVICT, 1}, {"flush", RADIXVM_FLUSH, 0}, {"review", RADIXVM_REVIEW, 0},
        {"giveup", RADIXVM_GIVE_UP, 0}, {"finish", RADIXVM_FINISH, 0},
    };
    radixvm_event e = {0, 0, 0, 0, 0, 0, 0, 0, 0};
    if (!strcmp(word[0], "fold")) {
        e.kind = RADIXVM_FOLD;
        e.at = number(word[1]) / 4096;
        return e;
    }
    uint32_t core = (uint32_t)strtoul(word[0] + 1, NULL, 10);
    size_t n = 0;
    if (word[0][strlen(word[0]) - 1] == '!') {
        e = request(word + 1, line);
    } else if (!strcmp(word[1], "call")) {
        e = request(word + 2, line);
        e.kind |= RADIXVM_BEGIN;
    } else {
        while (n < sizeof others / sizeof *others && strcmp(word[1], others[n].name)) n++;
        if (n == sizeof others / sizeof *others) die("no such event", line);
        e.kind = others[n].kind;
        e.at = others[n].is_page ? number(word[2]) / 4096 : number(word[2]);
    }
    e.core = core;
    return e;
}

static void tell(radixvm_outcome o) {
    static const char *words[] = {"", "step", "", "", "idle", "full", "", "done", "", "", "segv maperr",
        "segv accerr", "bus", "noframe", "nomemory", "stuck"};
    switch (o.kind) {
    case RADIXVM_WAIT_SLOT: printf("wait slot %llu\n", (unsigned long long)o.value); break;
    case RADIXVM_WAIT_ACKS:
        printf("wait acks");
        for (int c = 0; c < 64; c++) if (o.value >> c & 1) printf(" %d", c);
        printf("\n");
        break;
    case RADIXVM_MAPPED: printf("0x%llx\n", (unsigned long long)o.value); break;
    case RADIXVM_BYTE: printf("%llu\n", (unsigned long long)o.value); break;
    case RADIXVM_REFUSED:
        puts(o.value == RADIXVM_EBADF ? "ebadf" : o.value == RADIXVM_ENOMEM ? "enomem"
            : o.value == RADIXVM_EACCES ? "eacces" : o.value == RADIXVM_EINVAL ? "einval"
            : o.value == RADIXVM_EOVERFLOW ? "eoverflow" : "no such errno");
        break;
    default: puts(o.kind < sizeof words / sizeof *words ? words[o.kind] : "no such outcome");
    }
}

static void tell_log(radixvm_machine *machine) {
    const radixvm_done all = radixvm_log(machine, NULL, 0);
    radixvm_log_entry *entries = calloc(all.count + 1, sizeof *entries);
    if (!entries || all.status != RADIXVM_OK) die("no log", 0);
    const radixvm_done done = radixvm_log(machine, entries, all.count);
    if (done.status != RADIXVM_OK || done.count != all.count) die("another log", 0);
    for (uint64_t i = 0; i < done.count; i++) {
        printf("log %llu ", (unsigned long long)entries[i].step);
        if (entries[i].kind == RADIXVM_ENTRY_COPY) {
            printf("detach 0x%llx\n", (unsigned long long)entries[i].page * 4096);
        } else {
            printf("call %llu ", (unsigned long long)entries[i].call);
            tell(entries[i].reply);
        }
    }
    free(entries);
}

/* The events one by one, on a machine that is kept; at the end its log, if it has one. */
static radixvm_done run_kept(int by_steps, const radixvm_setup *setup, const radixvm_file *files, size_t file_count,
    const uint8_t *bytes, size_t byte_count, const radixvm_event *events, size_t count, radixvm_outcome *outcomes) {
    radixvm_machine machine = {0};
    radixvm_done done = radixvm_new(setup, files, file_count, bytes, byte_count, &machine);
    while (done.status == RADIXVM_OK && done.count < count) {
        done.status = by_steps ? radixvm_step(&machine, &events[done.count], &outcomes[done.count])
            : radixvm_call(&machine, &events[done.count], &outcomes[done.count]);
        if (done.status == RADIXVM_OK) tell(outcomes[done.count++]);
    }
    if (done.status == RADIXVM_OK && setup->log) tell_log(&machine);
    radixvm_free(&machine);
    return done;
}

int main(int argc, char **argv) {
    int by_steps = argc > 1 && !strcmp(argv[argc - 1], "steps"), logged = argc > 1 && !strcmp(argv[1], "log");
    int kept = logged || (argc > 1 && !strcmp(argv[1], "kept"));
    radixvm_setup setup = {1, 0, 4096, (uint32_t)logged};
    static radixvm_file files[16];
    static uint8_t bytes[16 * 1048576];
    size_t file_count = 0, byte_count = 0, count = 0, line = 0;
    radixvm_event *events = calloc(MAX_LINES, sizeof *events);
    radixvm_outcome *outcomes = calloc(MAX_LINES, sizeof *outcomes);
    char text[512];
    if (!events || !outcomes) die("no memory", 0);
    while (fgets(text, sizeof text, stdin) && count < MAX_LINES) {
        char *word[MAX_WORDS + 2] = {0};
        size_t n = 0;
        line++;
        for (char *w = strtok(text, " \n"); w && n < MAX_WORDS; w = strtok(NULL, " \n")) word[n++] = w;
        if (n == 0 || word[0][0] == '#') continue;
        if (!strcmp(word[0], "vm")) {
            setup.cores = number(word[1]);
            setup.frames = number(word[2]);
            setup.calls = n > 3 ? number(word[3]) : 4096;
        } else if (!strcmp(word[0], "file")) {
            uint64_t len = number(word[3]), seed = number(word[4]);
            if (file_count == 16 || len > 1048576) die("no such file", line);
            files[file_count].mode = !strcmp(word[2], "r") ? RADIXVM_O_RDONLY
                : !strcmp(word[2], "w") ? RADIXVM_O_WRONLY : RADIXVM_O_RDWR;
            files[file_count].start = byte_count;
            files[file_count++].len = len;
            for (uint64_t i = 0; i < len; i++) bytes[byte_count++] = (uint8_t)(seed + i);
        } else {
            radixvm_event e = event(word, line);
            if (by_steps) e.kind &= ~(uint32_t)RADIXVM_BEGIN;
            events[count++] = e;
        }
    }
    radixvm_done done = kept ? run_kept(by_steps, &setup, files, file_count, bytes, byte_count, events, count, outcomes)
        : by_steps ? radixvm_run(&setup, files, file_count, bytes, byte_count, events, count, outcomes, count)
        : radixvm_calls(&setup, files, file_count, bytes, byte_count, events, count, outcomes, count);
    for (uint64_t i = 0; i < done.count && !kept && done.status <= RADIXVM_OUT_OF_MEMORY; i++) tell(outcomes[i]);
    free(events);
    free(outcomes);
    if (done.status != RADIXVM_OK) {
        fprintf(stderr, "trace: ended by %u after %llu\n", done.status, (unsigned long long)done.count);
        return 1;
    }
    return 0;
}
