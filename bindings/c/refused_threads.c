/* Threads that share a machine, with malloc refused: to each allocation of a sharing and of a split in turn, after which all is as
 * it was; and to the Nth of each thread's calls, N from 1 on, after which its call has a reply, no seat stays busy, and the log has
 * what each thread noted. Linked with --wrap=malloc,--wrap=realloc.
 * Usage: refused_threads */
#include "shared.h"

void *__real_malloc(size_t size);
void *__real_realloc(void *at, size_t size);
void *__wrap_malloc(size_t size);
void *__wrap_realloc(void *at, size_t size);

/* How many allocations of this thread go well before one is refused; 0: none is. */
static _Thread_local size_t left, refused;

static int is_refused(void) {
    if (left == 0 || --left > 0) return 0;
    refused++;
    return 1;
}

void *__wrap_malloc(size_t size) {
    return is_refused() ? NULL : __real_malloc(size);
}

void *__wrap_realloc(void *at, size_t size) {
    return is_refused() ? NULL : __real_realloc(at, size);
}

static const radixvm_event MAP = {RADIXVM_MMAP, 0, 0x10000, 4096, 0, 0, 3,
    RADIXVM_MAP_PRIVATE | RADIXVM_MAP_FIXED | RADIXVM_MAP_ANONYMOUS, 0};
static const radixvm_event LOAD = {RADIXVM_LOAD, 0, 0x10000, 0, 0, 0, 0, 0, 0};

/* How many allocations a sharing and a split take, each of which is refused once. */
static size_t refuse_sharing(void) {
    const radixvm_setup setup = {2, 4, 100, 1};
    radixvm_machine machine = {0};
    radixvm_seat first = {0}, other = {0};
    radixvm_outcome told = {0, 0};
    uint32_t status = RADIXVM_OUT_OF_MEMORY;
    size_t n = 0, k = 0;
    if (radixvm_new(&setup, FILES, 0, bytes, 0, &machine).status || radixvm_call(&machine, &MAP, &told)) die("no machine");
    while (status == RADIXVM_OUT_OF_MEMORY) {
        const uint8_t *const at = machine.at;
        left = ++n;
        status = radixvm_share(&machine, &first);
        left = 0;
        if (status && (machine.at != at || first.at || radixvm_call(&machine, &LOAD, &told) || told.kind != RADIXVM_BYTE))
            die("a machine that isn't shared isn't as it was");
    }
    for (status = RADIXVM_OUT_OF_MEMORY; status == RADIXVM_OUT_OF_MEMORY;) {
        left = ++k;
        status = radixvm_seat_split(&first, &other);
        left = 0;
        if (status && (other.at || radixvm_seat_try(&first, &LOAD, &told) || told.kind != RADIXVM_BYTE))
            die("a seat that isn't split isn't as it was");
    }
    if (status || radixvm_seat_try(&other, &LOAD, &told)) die("the other seat can't call");
    radixvm_seat_free(&other);
    if (radixvm_unshare(&first, &machine) || radixvm_call(&machine, &LOAD, &told)) die("the machine didn't come back");
    radixvm_free(&machine);
    if (n < 3 || k < 2) die("fewer allocations were refused than there are");
    return n + k - 2;
}

static size_t first_refused;
static size_t refused_of[MAX_THREADS];

/* Each thread's Nth allocation is refused. */
static void *work_refused(void *at) {
    worker *w = at;
    left = first_refused;
    refused = 0;
    work(w);
    left = 0;
    refused_of[w->core] = refused;
    return NULL;
}

static size_t refuse_calls(size_t nth, size_t threads, size_t calls) {
    worker *workers = share_out(threads, calls, nth);
    size_t count = 0, all = 0;
    first_refused = nth;
    radixvm_machine machine = run_together(workers, threads, work_refused);
    for (size_t i = 0; i < threads; i++) {
        if (workers[i].status || workers[i].replied != calls) die(radixvm_text(workers[i].status));
        all += refused_of[workers[i].core];
    }
    free(log_of_workers(&machine, workers, threads, &count));
    radixvm_free(&machine);
    free_workers(workers, threads);
    return all;
}

int main(void) {
    const size_t shared = refuse_sharing();
    size_t n = 0, refusals = 0, none = 0;
    while (none < 3) {
        const size_t now = refuse_calls(++n, 4, 300);
        refusals += now;
        none = now ? 0 : none + 1;
    }
    if (refusals < 10) die("no call was refused memory");
    printf("refused to threads: %zu of a sharing and a split, and %zu amid calls, the last by the %zuth of a thread\n", shared, refusals, n - 3);
    return 0;
}
