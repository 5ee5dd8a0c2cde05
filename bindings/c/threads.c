/* Random calls of threads that share a machine: its log has, core by core, just what each thread noted, and a new machine
 * that is asked for the log's calls in their order gives the same replies.
 * Usage: threads [SEED [THREADS [CALLS [echo]]]]; status 1 at a difference. With `echo` the log is written as radixvm audit
 * reads it. */
#include "shared.h"

static void tell_prot(uint32_t prot) {
    printf(" %c%c%c", prot & 1 ? 'r' : '-', prot & 2 ? 'w' : '-', prot & 4 ? 'x' : '-');
}

static void tell_request(const radixvm_event *e) {
    static const char *const names[] = {"", "mmap", "munmap", "mprotect", "load", "store", "fetch"};
    printf("c%u! %s 0x%llx", e->core, names[e->kind], (unsigned long long)e->at);
    if (e->kind <= RADIXVM_MPROTECT) printf(" %llu", (unsigned long long)e->len);
    if (e->kind == RADIXVM_MMAP || e->kind == RADIXVM_MPROTECT) tell_prot(e->prot);
    if (e->kind == RADIXVM_STORE) printf(" %u", e->byte);
    if (e->kind == RADIXVM_MMAP) {
        printf(" %s%s%s%s %llu %llu", e->flags & RADIXVM_MAP_PRIVATE ? "p" : "", e->flags & RADIXVM_MAP_SHARED ? "s" : "",
            e->flags & RADIXVM_MAP_FIXED ? "f" : "", e->flags & RADIXVM_MAP_ANONYMOUS ? "a" : "", (unsigned long long)e->file,
            (unsigned long long)e->off);
    }
}

static void tell_reply(const radixvm_outcome *o) {
    static const char *const words[] = {"done", "", "", "segv maperr", "segv accerr", "bus", "noframe", "nomemory"};
    static const struct { uint64_t number; const char *name; } errors[] = {{RADIXVM_EBADF, "ebadf"}, {RADIXVM_ENOMEM, "enomem"},
        {RADIXVM_EACCES, "eacces"}, {RADIXVM_EINVAL, "einval"}, {RADIXVM_EOVERFLOW, "eoverflow"}};
    if (o->kind == RADIXVM_MAPPED) {
        printf(" = 0x%llx\n", (unsigned long long)o->value);
    } else if (o->kind == RADIXVM_BYTE) {
        printf(" = %llu\n", (unsigned long long)o->value);
    } else if (o->kind == RADIXVM_REFUSED) {
        for (size_t i = 0; i < 5; i++) if (errors[i].number == o->value) printf(" = %s\n", errors[i].name);
    } else {
        printf(" = %s\n", words[o->kind - RADIXVM_DONE]);
    }
}

static void echo(const radixvm_log_entry *entries, size_t count, size_t threads) {
    printf("vm %zu %d\n", threads, FRAMES);
    printf("file 0 rw %d 0\n", FILE_BYTES);
    for (size_t i = 0; i < count; i++) {
        if (entries[i].kind != RADIXVM_ENTRY_REPLY) continue;
        tell_request(&entries[i].asked);
        tell_reply(&entries[i].reply);
    }
}

/* The rest of a call that waits: the cores that it waits for take what they are told. */
static void end_call(radixvm_machine *machine, uint32_t core, radixvm_outcome *told) {
    radixvm_event take_event = {RADIXVM_TAKE, 0, 0, 0, 0, 0, 0, 0, 0};
    const uint64_t awaited = told->value;
    for (uint32_t c = 0; c < 64; c++) {
        take_event.core = c;
        for (int twice = 0; twice < 2 && awaited >> c & 1; twice++) if (radixvm_step(machine, &take_event, told)) die("no take");
    }
    if (radixvm_finish(machine, core, told)) die("no finish");
}

/* The log's calls, on a new machine. */
static void replay(const radixvm_log_entry *entries, size_t count, size_t threads) {
    const radixvm_setup setup = {threads, FRAMES, count + 1, 0};
    radixvm_machine machine = {0};
    if (radixvm_new(&setup, FILES, 1, bytes, FILE_BYTES, &machine).status) die("no machine");
    for (size_t i = 0; i < count; i++) {
        radixvm_outcome told = {0, 0};
        if (entries[i].kind != RADIXVM_ENTRY_REPLY) continue;
        if (radixvm_call(&machine, &entries[i].asked, &told)) die("no call");
        if (told.kind == RADIXVM_WAIT_ACKS) end_call(&machine, entries[i].core, &told);
        if (!same_outcome(&told, &entries[i].reply)) {
            printf("entry %zu is replied another way: %s\n", i, radixvm_outcome_text(told.kind));
            exit(1);
        }
    }
    radixvm_free(&machine);
}

int main(int argc, char **argv) {
    const uint64_t seed = argc > 1 ? strtoull(argv[1], NULL, 10) : 1;
    const size_t threads = argc > 2 ? strtoull(argv[2], NULL, 10) : 4, calls = argc > 3 ? strtoull(argv[3], NULL, 10) : 2000;
    size_t count = 0;
    if (threads < 1 || threads > MAX_THREADS) die("1 to 64 threads");
    worker *workers = share_out(threads, calls, seed);
    radixvm_machine machine = run_together(workers, threads, work);
    for (size_t i = 0; i < threads; i++) if (workers[i].status || workers[i].replied != calls) die(radixvm_text(workers[i].status));
    radixvm_log_entry *entries = log_of_workers(&machine, workers, threads, &count);
    replay(entries, count, threads);
    radixvm_free(&machine);
    if (argc > 4) {
        echo(entries, count, threads);
    } else {
        printf("%zu threads of %zu calls\n", threads, calls);
    }
    free(entries);
    free_workers(workers, threads);
    return 0;
}
