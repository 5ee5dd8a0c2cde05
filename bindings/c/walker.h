/* A page-table walker of one core, as a simulator has one: four levels of 512 entries (Intel SDM volume 3A, 4-level paging), with
 * the entries that the library tells, and frames with their bytes. The library is told of faults and changes alone. */
#ifndef WALKER_H
#define WALKER_H
#include "radixvm.h"
#include <stdio.h>
#include <stdlib.h>
#include <string.h>

enum { LEVELS = 4, FRAMES = 128, PRESENT = 1, WRITABLE = 2 };
static const uint64_t NO_EXECUTE = (uint64_t)1 << 63;

typedef struct table { struct table *below[512]; uint64_t entries[512]; } table;

static table root;
static uint8_t frames[FRAMES][4096];
static radixvm_machine machine;

static void must(uint32_t status) {
    if (status == RADIXVM_OK) return;
    printf("%s\n", radixvm_text(status));
    exit(2);
}

/* The entry of the last level. */
static uint64_t *entry_of(uint64_t at) {
    table *t = &root;
    for (int level = LEVELS - 1; level > 0; level--) {
        const unsigned place = (at >> (12 + 9 * level)) & 511;
        if (!t->below[place] && !(t->below[place] = (table *)calloc(1, sizeof *t))) exit(2);
        t = t->below[place];
    }
    return &t->entries[(at >> 12) & 511];
}

static void release(table *t) {
    for (int i = 0; i < 512; i++)
        if (t->below[i]) { release(t->below[i]); free(t->below[i]); }
}

static int permits(uint64_t entry, uint32_t kind) {
    if (!(entry & PRESENT)) return 0;
    return kind == RADIXVM_STORE ? (entry & WRITABLE) != 0 : kind == RADIXVM_FETCH ? !(entry & NO_EXECUTE) : 1;
}

/* A fault: a new frame gets its bytes, here all 0, and then the entry is made present. */
static radixvm_outcome fault(uint64_t at, uint32_t kind) {
    radixvm_outcome told;
    radixvm_filled filled;
    uint64_t back;
    must(radixvm_touch(&machine, 0, at, kind, &told, &filled));
    if (told.kind == RADIXVM_NO_FRAME) {
        must(radixvm_reclaim(&machine, &back));
        must(radixvm_touch(&machine, 0, at, kind, &told, &filled));
    }
    if (filled.fill == RADIXVM_FILL_ZERO) memset(frames[filled.frame], 0, sizeof frames[0]);
    *entry_of(at) = told.kind == RADIXVM_DONE || told.kind == RADIXVM_BYTE ? filled.word : 0;
    return told;
}

/* An access: by the entry where it permits it, and else after a fault. */
static radixvm_outcome access_byte(const radixvm_event *e) {
    const uint64_t *entry = entry_of(e->at);
    if (!permits(*entry, e->kind)) {
        const radixvm_outcome told = fault(e->at, e->kind);
        if (!permits(*entry, e->kind)) return told;
    }
    uint8_t *byte = &frames[*entry >> 12 & 0xffffffff][e->at & 4095];
    if (e->kind == RADIXVM_STORE) *byte = (uint8_t)e->byte;
    const radixvm_outcome done = {RADIXVM_DONE, 0}, read = {RADIXVM_BYTE, *byte};
    return e->kind == RADIXVM_STORE ? done : read;
}

/* A change, which drops this core's entries. With one core it waits for nobody. */
static radixvm_outcome change(const radixvm_event *e) {
    radixvm_outcome told;
    radixvm_drop own;
    must(radixvm_change(&machine, e, &told, &own));
    if (own.what == RADIXVM_DROP_OWN)
        for (uint64_t page = own.first; page < own.end; page++) *entry_of(page * 4096) = 0;
    return told;
}
#endif
