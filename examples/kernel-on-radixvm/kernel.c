/* A kernel whose page tables, invalidations and interprocessor interrupts obey the library (../mmu/handler.h). Each of 1 to 8 processors is a core, with
   page tables of its own. A core's word for a page, with the physical address of frame 0 added, is its last-level entry. A page fault asks the
   library, a message is an interrupt of the local APIC, and a drop clears entries and makes INVLPG. What the processors' programs do is recorded, and
   written to QEMU's debug console, as a history. try.sh builds and runs it; the words of its command line are CALLS SEED BUG. */
#include "../mmu/handler.h"
#define RV_FREESTANDING
#include "radixvm_record.h"

enum { CORES = 8, PAGES = 8, FILED = 6, MOST = 3, FRAMES = 64, MOST_CALLS = 65536, FILE_PAGES = 3, FILE_LENGTH = 10000, FILE_FIRST = 0xc3 };
static const uint64_t FIRST = 0x100000000;      /* the space's first page; a slot of the root has it for each core alone */
static const uint64_t FRAME_0 = 64 << 20;       /* the physical address of the library's frame 0 */
static const uint64_t HEAP = 128 << 20, HEAP_END = 256 << 20; /* the library's memory, and after it that of the record */
enum { MESSAGE = 0x40 };                        /* the vector of messages */

/* A processor. The base of its segment GS has the address. */
static struct processor {
    struct processor *self;
    uint32_t number, apic;
    uint64_t state;
    struct rv_ring ring;
    uint64_t tables[4][512] __attribute__((aligned(4096))); /* the root, two levels, and the last one */
} processors[CORES];

static radixvm_machine the_machine;
static struct store the_store;
static uint8_t file[FILE_PAGES * PAGE];
static int guard, ready, running, met;
static uint32_t cores;
static uint64_t numbers[] = {8000, 1, 0}; /* of the command line */

extern uint64_t low_tables[];
extern uint32_t started, start_info;
extern uint8_t others_begin[], others_end[], refused[];
void page_fault_entry(void), message_entry(void), error_entry(void), other_entry(void);
int guest_load(uint64_t at), guest_store(uint64_t at, int byte);

/* ---- instructions */

static void out(uint16_t port, uint8_t byte) { __asm__ volatile("outb %0, %1" : : "a"(byte), "Nd"(port)); }
static void write_register(uint32_t number, uint64_t value) {
    __asm__ volatile("wrmsr" : : "c"(number), "a"((uint32_t)value), "d"((uint32_t)(value >> 32)));
}
static void disable(void) { __asm__ volatile("cli" : : : "memory"); }
static void enable(void) { __asm__ volatile("sti" : : : "memory"); }
static void relax(void) { __asm__ volatile("pause" : : : "memory"); }
/* Waits for so many ticks of the time stamp counter. */
static void wait_ticks(uint64_t ticks) {
    for (uint64_t begin = __builtin_ia32_rdtsc(); __builtin_ia32_rdtsc() - begin < ticks;) {}
}
static struct processor *self(void) {
    struct processor *found;
    __asm__ volatile("mov %%gs:0, %0" : "=r"(found));
    return found;
}
static volatile uint32_t *apic(uint32_t offset) { return (volatile uint32_t *)(uintptr_t)(0xfee00000 + offset); }

void *memset(void *to, int byte, size_t size) {
    void *at = to;
    __asm__ volatile("rep stosb" : "+D"(at), "+c"(size) : "a"(byte) : "memory");
    return to;
}
void *memcpy(void *to, const void *from, size_t size) {
    void *at = to;
    __asm__ volatile("rep movsb" : "+D"(at), "+S"(from), "+c"(size) : : "memory");
    return to;
}
void *memmove(void *to, const void *from, size_t size) {
    if ((uintptr_t)to <= (uintptr_t)from) return memcpy(to, from, size);
    while (size--) ((uint8_t *)to)[size] = ((const uint8_t *)from)[size];
    return to;
}

static void write_text(const char *text) {
    while (*text) out(0xe9, (uint8_t)*text++);
}
static void write_number(const char *name, uint64_t number) {
    char text[32];
    rv_put(rv_put_number(text, number, 16), "\n")[0] = 0;
    write_text(name), write_text(text);
}
/* QEMU ends with the status 2 * status + 1. */
static void stop(uint8_t status) {
    for (;;) out(0xf4, status);
}

/* ---- the platform of handler.h */

static radixvm_machine *machine(void) { return &the_machine; }
static struct store *store(void) { return &the_store; }
static uint32_t this_core(void) { return self()->number; }
static uint8_t *frame_bytes(uint64_t frame) { return (uint8_t *)(FRAME_0 + frame * PAGE); }
static const uint8_t *file_bytes(uint32_t number, uint64_t page) { return file + (number + page) * PAGE; }

static void must(uint32_t status) {
    if (status != RADIXVM_OK) write_text(radixvm_text(status)), stop(1);
}
static void copy_page(uint8_t *to, const uint8_t *from) {
    if (from) memcpy(to, from, PAGE);
    else memset(to, 0, PAGE);
}
static void lock(void) {
    while (__atomic_exchange_n(&guard, 1, __ATOMIC_SEQ_CST)) relax();
}
static void unlock(void) { __atomic_store_n(&guard, 0, __ATOMIC_SEQ_CST); }
static void pause_a_bit(void) {
    wait_ticks(bug == LATE_COPY || bug == STALE_WORD ? 30000000 : 10000);
}

static void send(uint32_t receiver, uint32_t command) {
    while (*apic(0x300) >> 12 & 1) relax();
    *apic(0x310) = receiver << 24;
    *apic(0x300) = command;
}
static void interrupt(uint64_t awaited) {
    for (uint32_t other = 0; other < cores; other++)
        if (awaited >> other & 1) send(processors[other].apic, 0x4000 | MESSAGE);
}

static volatile uint64_t *entry(uint64_t page) { return &self()->tables[3][page - FIRST]; }
static void flush(uint64_t first, uint64_t end) {
    for (; first < end; first++) __asm__ volatile("invlpg (%0)" : : "r"(first * PAGE) : "memory");
}
static void clear(uint64_t first, uint64_t end) {
    for (; first < end; first++) *entry(first) = 0;
}
static void install(uint64_t page, uint64_t word) {
    *entry(page) = word + FRAME_0;
    flush(page, page + 1);
}

/* ---- exceptions and interrupts, with interrupts off */

struct saved { uint64_t r15, r14, r13, r12, r11, r10, r9, r8, rbp, rdi, rsi, rdx, rcx, rbx, rax, error, rip, cs, flags, rsp, ss; };

void on_error(struct saved *saved) {
    write_number("exception at 0x", saved->rip), write_number("error 0x", saved->error);
    stop(2);
}

static enum rv_told told_of(const radixvm_outcome *told) {
    switch (told->kind) {
    case RADIXVM_MAPPED: return RV_ADDRESS;
    case RADIXVM_DONE: return RV_DONE;
    case RADIXVM_SEGV_MAPERR: return RV_MAPERR;
    case RADIXVM_SEGV_ACCERR: return RV_ACCERR;
    case RADIXVM_BUS: return RV_BUS;
    case RADIXVM_NO_FRAME: return RV_NOFRAME;
    case RADIXVM_REFUSED: return told->value == RADIXVM_ENOMEM ? RV_ENOMEM : told->value == RADIXVM_EACCES ? RV_EACCES : RV_EINVAL;
    default: return RV_OTHER;
    }
}

/* A page fault of a program: its access runs again, or is refused. */
void on_page_fault(struct saved *saved) {
    uint64_t at;
    __asm__ volatile("mov %%cr2, %0" : "=r"(at));
    if (at / PAGE < FIRST || at / PAGE >= FIRST + PAGES) write_number("page fault at 0x", at), on_error(saved);
    radixvm_outcome told = touch(at, saved->error & 2 ? RADIXVM_STORE : RADIXVM_LOAD);
    if (is_served(&told)) return;
    saved->rax = 256 + (uint64_t)told_of(&told), saved->rip = (uint64_t)refused;
}

void on_message(struct saved *saved) {
    (void)saved;
    take_messages();
    *apic(0xb0) = 0;
}

/* ---- programs */

static uint64_t below(uint64_t bound) {
    uint64_t z = self()->state += 0x9e3779b97f4a7c15;
    z = (z ^ z >> 30) * 0xbf58476d1ce4e5b9;
    z = (z ^ z >> 27) * 0x94d049bb133111eb;
    return (z ^ z >> 31) % bound;
}

static void load(uint64_t at) {
    struct rv_call *recorded = rv_begin(&self()->ring, rv_asked(RV_LOAD, at, 0, 0));
    int got = guest_load(at);
    rv_end(&self()->ring, recorded, got < 256 ? RV_BYTE : (enum rv_told)(got - 256), (uint64_t)got);
}

static void put(uint64_t at, uint8_t byte) {
    struct rv_call asked = rv_asked(RV_STORE, at, 0, 0);
    asked.byte = byte;
    struct rv_call *recorded = rv_begin(&self()->ring, asked);
    int got = guest_store(at, byte);
    rv_end(&self()->ring, recorded, got < 256 ? RV_DONE : (enum rv_told)(got - 256), 0);
}

static void change_recorded(radixvm_event event) {
    static const uint8_t kinds[] = {0, RV_MMAP, RV_MUNMAP, RV_MPROTECT};
    struct rv_call asked = rv_asked(kinds[event.kind], event.at, event.len, event.prot);
    asked.flags = (uint8_t)(RV_FIXED | rv_if(event.flags & RADIXVM_MAP_SHARED, RV_SHARED) | rv_if(event.flags & RADIXVM_MAP_PRIVATE, RV_PRIVATE)
                            | rv_if(event.flags & RADIXVM_MAP_ANONYMOUS, RV_ANONYMOUS));
    asked.offset = event.off;
    struct rv_call *recorded = rv_begin(&self()->ring, asked);
    disable();
    radixvm_outcome told = change(&event);
    enable();
    rv_end(&self()->ring, recorded, told_of(&told), told.value);
}

/* Random calls. Pages that may share the file are stored to at their first byte alone: so a copy of the file's frame, byte by byte, is what the frame had
   at one moment. With a planted error there are no files, for then a judge can show the error in a few calls. */
static void run_random(uint64_t calls) {
    static const uint32_t rights[] = {0, 1, 3, 3, 3, 5, 7, 7};
    for (uint64_t i = 0; i < calls; i++) {
        uint64_t count = 1 + below(MOST), page = below(PAGES - count + 1), how = below(20), at = (FIRST + page) * PAGE, other = below(3) * 2047;
        radixvm_event event = {RADIXVM_MMAP, this_core(), at, count * PAGE, 0, 0, rights[below(8)], RADIXVM_MAP_FIXED | RADIXVM_MAP_PRIVATE, 0};
        if (how < 8) load(at + other);
        else if (how < 14) put(at + (page < FILED ? other : 0), (uint8_t)(1 + below(255)));
        else {
            if (how < 16) event.kind = how & 1 ? RADIXVM_MUNMAP : RADIXVM_MPROTECT;
            else if (how < 18 && !bug) {
                event.off = below(FILE_PAGES) * PAGE;
                if (page >= FILED && how & 1) event.flags = RADIXVM_MAP_FIXED | RADIXVM_MAP_SHARED;
            } else event.flags |= RADIXVM_MAP_ANONYMOUS;
            change_recorded(event);
        }
    }
}

static void meet(void) {
    int rounds = __atomic_fetch_add(&met, 1, __ATOMIC_SEQ_CST) / (int)cores + 1;
    while (__atomic_load_n(&met, __ATOMIC_SEQ_CST) < rounds * (int)cores) relax();
}

/* In turn the cores map a private page of the file. All see the file's byte there, each stores one of its own, and then all look at these. */
static void run_copies(uint64_t rounds) {
    radixvm_event event = {RADIXVM_MMAP, this_core(), FIRST * PAGE, PAGE, 0, 0, 3, RADIXVM_MAP_FIXED | RADIXVM_MAP_PRIVATE, 0};
    for (uint64_t round = 0; round < rounds; round++) {
        if (round % cores == this_core()) change_recorded(event);
        meet();
        load(event.at + this_core());
        meet();
        put(event.at + this_core(), (uint8_t)(1 + round));
        meet();
        for (uint32_t other = 0; other < cores; other++) load(event.at + other);
        meet();
    }
}

/* ---- begin and end */

/* The interrupt descriptor table. */
static struct { uint16_t low, segment; uint8_t stack, type; uint16_t middle; uint32_t high, zero; } gates[256];

static void set_gate(int vector, void (*handler)(void)) {
    uint64_t at = (uint64_t)handler;
    gates[vector].low = (uint16_t)at, gates[vector].middle = (uint16_t)(at >> 16), gates[vector].high = (uint32_t)(at >> 32);
    gates[vector].segment = 8, gates[vector].type = 0x8e;
}

/* The numbers of the command line, to which PVH's start information points. */
static void read_numbers(void) {
    const char *at = (const char *)(uintptr_t)*(uint64_t *)(uintptr_t)(start_info + 24);
    for (unsigned i = 0; at && i < sizeof numbers / sizeof numbers[0]; i++) {
        while (*at && (*at < '0' || *at > '9')) at++;
        if (!*at) return;
        for (numbers[i] = 0; *at >= '0' && *at <= '9'; at++) numbers[i] = numbers[i] * 10 + (uint64_t)(*at - '0');
    }
}

static void set_up_processor(struct processor *processor) {
    struct { uint16_t size; uint64_t at; } __attribute__((packed)) table = {sizeof gates - 1, (uint64_t)gates};
    uint64_t first = FIRST * PAGE;
    processor->self = processor;
    write_register(0xc0000101, (uint64_t)processor); /* IA32_GS_BASE */
    __asm__ volatile("lidt %0" : : "m"(table));
    *apic(0xf0) = 0x1ff, *apic(0x80) = 0;
    processor->apic = *apic(0x20) >> 24;
    processor->tables[0][0] = (uint64_t)low_tables + 3;
    processor->tables[0][first >> 39 & 511] = (uint64_t)processor->tables[1] + 7;
    processor->tables[1][first >> 30 & 511] = (uint64_t)processor->tables[2] + 7;
    processor->tables[2][first >> 21 & 511] = (uint64_t)processor->tables[3] + 7;
    __asm__ volatile("mov %0, %%cr3" : : "r"(processor->tables[0]) : "memory");
    processor->state = numbers[1] * 1000003 + processor->number * 7919;
    rv_join(&processor->ring, (struct rv_call *)HEAP_END + processor->number * MOST_CALLS, MOST_CALLS, (int)processor->number);
}

/* What the first processor does before the others: it starts them, and makes the machine for as many as came. */
static void set_up(void) {
    read_numbers();
    bug = (int)numbers[2];
    out(0x21, 0xff), out(0xa1, 0xff); /* no interrupts of old devices */
    for (int vector = 0; vector < 256; vector++)
        set_gate(vector, vector == 8 || (vector >= 10 && vector <= 14) || vector == 17 ? error_entry : other_entry);
    set_gate(14, page_fault_entry), set_gate(MESSAGE, message_entry);
    for (int i = 0; i < FILE_LENGTH; i++) file[i] = (uint8_t)(FILE_FIRST + i);
    memcpy((void *)0x8000, others_begin, (size_t)(others_end - others_begin));
    send(0, 0xc4500);
    wait_ticks(30000000);
    send(0, 0xc4608);
    wait_ticks(300000000);
    cores = __atomic_load_n(&started, __ATOMIC_SEQ_CST);
    the_store.heap = (uint8_t *)HEAP, the_store.heap_end = (uint8_t *)HEAP_END;
    radixvm_setup setup = {cores, FRAMES, (uint64_t)1 << 40, 0};
    radixvm_file kept = {RADIXVM_O_RDWR, 0, FILE_LENGTH};
    must(radixvm_new(&setup, &kept, 1, file, FILE_LENGTH, machine()).status);
    running = (int)cores;
}

static void write_history(void) {
    char text[RV_LINE], *to = rv_put(rv_put_number(rv_put(text, "vm "), cores, 10), " 65536\nfile 0 rw ");
    rv_put(rv_put_number(rv_put(rv_put_number(to, FILE_LENGTH, 10), " "), FILE_FIRST, 10), "\n")[0] = 0;
    write_text(text);
    for (uint32_t number = 0; number < cores; number++)
        for (uint64_t i = 0; i < processors[number].ring.count; i++)
            rv_line(text, (int)number, &processors[number].ring.calls[i]), write_text(text);
}

void kernel_main(uint32_t number);
void kernel_main(uint32_t number) {
    struct processor *processor = &processors[number];
    processor->number = number;
    if (number == 0) set_up();
    else while (!__atomic_load_n(&running, __ATOMIC_SEQ_CST)) relax();
    set_up_processor(processor);
    __atomic_fetch_add(&ready, 1, __ATOMIC_SEQ_CST);
    while (__atomic_load_n(&ready, __ATOMIC_SEQ_CST) < running) relax();
    enable();
    if (bug == LATE_COPY) run_copies(numbers[0]);
    else run_random(numbers[0]);
    __atomic_fetch_sub(&running, 1, __ATOMIC_SEQ_CST);
    while (number == 0 && __atomic_load_n(&running, __ATOMIC_SEQ_CST)) relax();
    if (number == 0) write_history(), stop(0);
}
