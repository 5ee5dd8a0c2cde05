/* Writes the history that a recorder left in a file, for `radixvm audit --overlapping`: include/radixvm_record.h after rv_keep, also of a
   program that was killed, or bindings/preload.c, whose histories want --any-place.
   cc -O2 -I include -o radixvm-record bindings/radixvm-record.c; radixvm-record FILE | radixvm audit --overlapping --any-place
   Calls that were under way at the end may have taken effect or not. A load or a fetch changes nothing and becomes a comment. An munmap, or an
   mmap at a fixed place, is given an end after all others: if it didn't take effect before, then there. If one is a store, or
   another mmap, or an mprotect, these calls have no end: the text has a line for each begin and end, in the order of the stamps.
   The preload recorder doesn't see what the C library maps for itself. So an mprotect of pages that no call in the history has mapped
   becomes a comment, and all its files are anonymous. Status 0; 2 for wrong words or files; 3 where memory or a write failed. */
#ifndef _GNU_SOURCE
#define _GNU_SOURCE
#endif
#include "radixvm_record.h"
#include <string.h>

enum { CORES = 64 };

static const char *const left_names[RV_LEFT] = {NULL, "brk and sbrk", "madvise", "shmat and shmdt", "remap_file_pages"};

/* A call of the file. `is_open`: it was under way at the end. `is_said`: it becomes a line, and else a comment. */
struct item {
    const struct rv_call *call;
    uint64_t begin, end;
    int core, is_open, is_said;
};

/* Disjoint ranges of addresses, in order. */
struct range {
    uint64_t from, to;
};
struct ranges {
    struct range *all;
    size_t count, room;
};

static struct item *items;
static size_t count;
static const struct rv_ring *rings[1 << 16];
static size_t ring_count;
static uint64_t left[RV_LEFT], ended_at;
static int is_partial, has_ended, moved, cores;

static void fail(int status, const char *what) {
    fprintf(stderr, "radixvm-record: %s\n", what);
    exit(status);
}

static void *enough(void *memory, size_t length) {
    if (!(memory = realloc(memory, length ? length : 1))) fail(3, "no memory");
    return memory;
}

/* ---- the file */

static int by_begin(const void *a, const void *b) {
    const struct rv_ring *one = *(const struct rv_ring *const *)a, *other = *(const struct rv_ring *const *)b;
    if (one->core != other->core) return one->core < other->core ? -1 : 1;
    uint64_t first = rv_behind((struct rv_ring *)(uintptr_t)one)->begin, second = rv_behind((struct rv_ring *)(uintptr_t)other)->begin;
    return first < second ? -1 : first > second;
}

/* Takes a note, and writes its line. */
static void take_note(const struct rv_note *note) {
    for (int i = 0; i < RV_LEFT; i++) left[i] += note->left[i];
    if (note->ended_at && (!ended_at || note->ended_at < ended_at)) ended_at = note->ended_at;
    if (note->text[0]) printf("%.*s\n", (int)sizeof note->text, note->text);
}

/* Finds the rings and notes, each at the beginning of a page, and writes the text's head. */
static void find_rings(const char *bytes, uint64_t length) {
    uint64_t notes = 0, at = 0;
    while (at + RV_PAGE <= length) {
        const struct rv_ring *ring = (const struct rv_ring *)(const void *)(bytes + at);
        uint64_t size = ring->mark == RV_MARK && ring->room < length ? rv_bytes(ring->room) : RV_PAGE;
        notes += ring->mark == RV_NOTE;
        if (ring->mark == RV_MARK && ring->core >= 0 && ring->core < CORES && size <= length - at && ring->count <= ring->room) {
            if (ring_count == sizeof rings / sizeof *rings) fail(2, "too many rings");
            rings[ring_count++] = ring;
            if (ring->core >= cores) cores = ring->core + 1;
            is_partial |= ring->is_partial, has_ended |= ring->ended, moved |= ring->count && !ring->is_pinned;
        }
        at += size <= length - at ? size : RV_PAGE;
    }
    if (!ring_count && !notes) fail(2, "the file has no record");
    rv_head(stdout, cores ? cores : 1);
    for (at = 0; notes && at + RV_PAGE <= length; at += RV_PAGE) {
        const struct rv_note *note = (const struct rv_note *)(const void *)(bytes + at);
        if (note->mark == RV_NOTE) take_note(note), notes--;
    }
    qsort(rings, ring_count, sizeof *rings, by_begin);
}

static int is_valid(const struct rv_call *call) {
    return call->length && !(call->address % RV_PAGE) && call->address && !rv_reaches_past(call->address, call->length);
}

/* Whether an open call changes the same when it has an end after all others, and is done there: it has no other reply there. */
static int can_be_last(const struct rv_call *call) {
    unsigned flags = call->flags & (RV_FIXED | RV_ANONYMOUS), types = call->flags & (RV_PRIVATE | RV_SHARED);
    if (!is_valid(call)) return 0;
    return call->kind == RV_MUNMAP || (call->kind == RV_MMAP && flags == (RV_FIXED | RV_ANONYMOUS) && (types == RV_PRIVATE || types == RV_SHARED));
}

/* Whether an open call says nothing: it changes nothing, or nothing that another call could have seen. */
static int says_nothing(const struct rv_call *call) {
    if (call->kind == RV_LOAD || call->kind == RV_FETCH || (call->kind == RV_MUNMAP && !is_valid(call))) return 1;
    return is_partial && !can_be_last(call);
}

/* Takes the calls of all rings, those of a core in their order. */
static void take_calls(void) {
    size_t room = 0;
    for (size_t r = 0; r < ring_count; r++) room += rings[r]->count + 1;
    items = (struct item *)enough(NULL, room * sizeof *items);
    for (size_t r = 0; r < ring_count; r++) {
        const struct rv_call *calls = rv_behind((struct rv_ring *)(uintptr_t)rings[r]);
        uint64_t made = rings[r]->count, under_way = rings[r]->busy && made < rings[r]->room && calls[made].begin;
        for (uint64_t i = 0; i < made + under_way; i++) {
            struct item item = {&calls[i], calls[i].begin, calls[i].end, rings[r]->core, i == made, 1};
            if (i < made && ended_at && item.end > ended_at) item.is_open = 1;
            if (ended_at && item.begin > ended_at) continue;
            item.is_said = item.is_open ? !says_nothing(item.call) : !rv_is_comment(item.call);
            items[count++] = item;
        }
    }
}

/* ---- which pages the calls of a partial record have mapped */

/* The first range that ends after the address. */
static size_t find(const struct ranges *ranges, uint64_t address) {
    size_t low = 0, high = ranges->count;
    while (low < high) {
        size_t middle = (low + high) / 2;
        if (ranges->all[middle].to <= address) low = middle + 1;
        else high = middle;
    }
    return low;
}

/* Puts `new_count` ranges in the place of the `old_count` ones from `at` on. */
static void replace(struct ranges *ranges, size_t at, size_t old_count, const struct range *new_ones, size_t new_count) {
    size_t rest = ranges->count - at - old_count;
    if (ranges->count + new_count > ranges->room) {
        ranges->room = ranges->room * 2 + 16;
        ranges->all = (struct range *)enough(ranges->all, ranges->room * sizeof *ranges->all);
    }
    memmove(ranges->all + at + new_count, ranges->all + at + old_count, rest * sizeof *ranges->all);
    if (new_count) memcpy(ranges->all + at, new_ones, new_count * sizeof *new_ones);
    ranges->count = at + new_count + rest;
}

/* Takes a range away, or adds it. */
static void change(struct ranges *ranges, struct range range, int is_added) {
    struct range kept[3];
    size_t at = find(ranges, range.from), end = at, made = 0;
    while (end < ranges->count && ranges->all[end].from < range.to) end++;
    if (end > at && ranges->all[at].from < range.from) kept[made].from = ranges->all[at].from, kept[made++].to = range.from;
    if (is_added) kept[made++] = range;
    if (end > at && ranges->all[end - 1].to > range.to) kept[made].from = range.to, kept[made++].to = ranges->all[end - 1].to;
    replace(ranges, at, end - at, kept, made);
}

static int has(const struct ranges *ranges, struct range range) {
    size_t at = find(ranges, range.from);
    while (at < ranges->count && ranges->all[at].from <= range.from && range.from < range.to) range.from = ranges->all[at++].to;
    return range.from >= range.to;
}

static struct range pages_of(const struct rv_call *call) {
    struct range range = {call->kind == RV_MMAP ? call->value : call->address, 0};
    range.to = range.from + (call->length + RV_PAGE - 1) / RV_PAGE * RV_PAGE;
    return range;
}

static int by_end(const void *a, const void *b) {
    uint64_t one = items[*(const size_t *)a].end, other = items[*(const size_t *)b].end;
    return one < other ? -1 : one > other;
}

/* The first item of each core that ends later than what was replayed. */
static size_t later[CORES], last[CORES];

/* Whether an munmap that overlaps the item in time and pages ends later: then it isn't known whether the pages were still there. */
static int is_uncertain(const struct item *item) {
    struct range range = pages_of(item->call);
    for (int core = 0; core < cores; core++) {
        const struct item *other = &items[later[core]];
        if (core == item->core || later[core] == last[core] || other->call->kind != RV_MUNMAP || other->begin > item->end) continue;
        struct range its = pages_of(other->call);
        if (its.from < range.to && range.from < its.to) return 1;
    }
    return 0;
}

/* Makes a comment of each mprotect that was done to pages which no recorded call is known to have mapped. Returns how many. */
static uint64_t drop_unknown(void) {
    struct ranges ranges = {NULL, 0, 0};
    uint64_t dropped = 0;
    size_t *order = (size_t *)enough(NULL, count * sizeof *order);
    for (size_t i = count; i-- > 0;) order[i] = i, later[items[i].core] = i;
    for (size_t i = 0; i < count; i++) last[items[i].core] = i + 1;
    qsort(order, count, sizeof *order, by_end);
    for (size_t i = 0; i < count; i++) {
        struct item *item = &items[order[i]];
        const struct rv_call *call = item->call;
        if (item->is_open) continue;
        later[item->core] = order[i] + 1;
        if (call->told != (call->kind == RV_MMAP ? RV_ADDRESS : RV_DONE)) continue;
        if (call->kind != RV_MPROTECT) change(&ranges, pages_of(call), call->kind == RV_MMAP);
        else if (!has(&ranges, pages_of(call)) || is_uncertain(item)) item->is_said = 0, dropped++;
    }
    free(order);
    free(ranges.all);
    return dropped;
}

/* ---- the text */

/* Writes a call with its stamps. One that is open, and said, ends with `latest`. */
static void write_line(const struct item *item, uint64_t latest) {
    char text[RV_LINE];
    struct rv_call call = *item->call;
    if (item->is_open) call.end = latest, call.told = call.kind == RV_MMAP ? RV_ADDRESS : RV_DONE, call.value = call.address;
    if (!item->is_said && !rv_is_comment(&call)) fputs("# ", stdout);
    rv_line(text, item->core, &call);
    fputs(text, stdout);
}

/* A begin, or an end, of an item. */
struct event {
    uint64_t stamp;
    size_t item;
    int is_end;
};

static int by_stamp(const void *a, const void *b) {
    const struct event *one = (const struct event *)a, *other = (const struct event *)b;
    if (one->stamp != other->stamp) return one->stamp < other->stamp ? -1 : 1;
    return one->is_end - other->is_end;
}

/* Writes each begin and each end, in the order of the stamps. Open calls have no end. */
static void write_events(void) {
    struct event *events = (struct event *)enough(NULL, 2 * count * sizeof *events);
    size_t made = 0;
    char text[RV_LINE];
    for (size_t i = 0; i < count; i++) {
        if (!items[i].is_said) continue;
        struct event begin = {items[i].begin, i, 0}, end = {items[i].end, i, 1};
        events[made++] = begin;
        if (!items[i].is_open) events[made++] = end;
    }
    qsort(events, made, sizeof *events, by_stamp);
    for (size_t i = 0; i < made; i++) {
        const struct item *item = &items[events[i].item];
        if (events[i].is_end) rv_put_reply(rv_put(text, " finish"), item->call);
        else rv_put(rv_put_request(rv_put(text, " call "), item->call), " = step\n")[0] = 0;
        printf("c%d%s", item->core, text);
    }
    free(events);
}

static void write_text(void) {
    uint64_t latest = 0, errors = 0, keys = 0, open_calls = 0, dropped = is_partial ? drop_unknown() : 0;
    int is_by_events = 0;
    for (size_t i = 0; i < count; i++) {
        if (items[i].begin > latest) latest = items[i].begin;
        if (items[i].end > latest && !items[i].is_open) latest = items[i].end;
        if (items[i].is_open) is_by_events |= items[i].is_said && !can_be_last(items[i].call), open_calls++;
        else errors += items[i].call->told == RV_OTHER, keys += items[i].call->told == RV_KEY;
    }
    if (is_by_events) write_events();
    else
        for (size_t i = 0; i < count; i++) write_line(&items[i], ++latest);
    if (has_ended || ended_at) puts("# the record ended before the program: later calls aren't here");
    if (open_calls) printf("# %llu calls were under way at the end\n", (unsigned long long)open_calls);
    if (dropped) printf("# not judged: %llu mprotect calls of pages that no recorded call mapped\n", (unsigned long long)dropped);
    if (left[RV_MREMAP]) printf("# %llu calls of mremap are an munmap and an mmap each, or one of them\n", (unsigned long long)left[RV_MREMAP]);
    for (int i = RV_MREMAP + 1; i < RV_LEFT; i++)
        if (left[i]) printf("# not judged: %llu calls of %s\n", (unsigned long long)left[i], left_names[i]);
    rv_warn(stdout, errors, keys, moved && !is_partial);
}

int main(int argc, char **argv) {
    struct stat about;
    if (argc != 2) fail(2, "usage: radixvm-record FILE");
    int fd = open(argv[1], O_RDONLY | O_CLOEXEC);
    if (fd < 0 || fstat(fd, &about)) return perror(argv[1]), 2;
    if (about.st_size < RV_PAGE) fail(2, "the file has no record");
    void *bytes = mmap(NULL, (size_t)about.st_size, PROT_READ, MAP_PRIVATE, fd, 0);
    if (bytes == MAP_FAILED) return perror(argv[1]), 3;
    find_rings((const char *)bytes, (uint64_t)about.st_size);
    take_calls();
    write_text();
    if (fflush(stdout) || ferror(stdout)) fail(3, "a write failed");
    return 0;
}
