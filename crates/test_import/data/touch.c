/* Maps memory, touches it, and prints /proc/self/maps. It has no C library, so that a log of all its accesses is short. Built and recorded with:
 *     cc -O1 -nostdlib -static -fno-stack-protector -o touch touch.c
 *     valgrind --tool=lackey --trace-mem=yes --trace-syscalls=yes --log-file=touch.log ./touch */
static long call(long number, const void *first, unsigned long second, long third, long fourth, long fifth, long sixth)
{
    register long r10 __asm__("r10") = fourth, r8 __asm__("r8") = fifth, r9 __asm__("r9") = sixth;
    long gave;
    __asm__ volatile("syscall" : "=a"(gave) : "a"(number), "D"(first), "S"(second), "d"(third), "r"(r10), "r"(r8), "r"(r9) : "rcx", "r11", "memory");
    return gave;
}

enum { MMAP = 9, MPROTECT = 10, MUNMAP = 11, BRK = 12, MREMAP = 25, READ = 0, WRITE = 1, OPEN = 2, EXIT = 231 };
enum { PAGE = 4096, READ_ONLY = 1, READ_WRITE = 3, SHARED = 1, PRIVATE = 2, NO_FILE = 32, GROWS_DOWN = 256, MAY_MOVE = 1 };

static char list[65536];

static void touch(volatile char *at, int pages)
{
    for (int page = 0; page < pages; page++) at[page * PAGE]++;
}

void _start(void)
{
    char *room = (char *)call(MMAP, 0, 8 * PAGE, READ_WRITE, PRIVATE | NO_FILE, -1, 0);
    touch(room, 8);
    call(MUNMAP, room + PAGE, 2 * PAGE, 0, 0, 0, 0);
    call(MUNMAP, room + 1, PAGE, 0, 0, 0, 0);
    call(MPROTECT, room + 4 * PAGE, PAGE, READ_ONLY, 0, 0, 0);
    *(volatile char *)(room + 4 * PAGE);

    char *end = (char *)call(BRK, 0, 0, 0, 0, 0, 0);
    call(BRK, end + 3 * PAGE, 0, 0, 0, 0, 0);
    touch(end, 3);
    call(BRK, end + 2 * PAGE, 0, 0, 0, 0, 0);

    char *moved = (char *)call(MREMAP, room + 5 * PAGE, 2 * PAGE, 16 * PAGE, MAY_MOVE, 0, 0);
    touch(moved, 16);
    *(volatile long *)(moved + PAGE - 4) += 1; /* two pages */

    long file = call(OPEN, "/proc/self/exe", 0, 0, 0, 0, 0);
    *(volatile char *)call(MMAP, 0, PAGE, READ_ONLY, PRIVATE, file, 0);
    *(volatile char *)call(MMAP, 0, 2 << 20, READ_ONLY, SHARED, file, 0);
    touch((char *)call(MMAP, 0, 4 * PAGE, READ_WRITE, PRIVATE | NO_FILE | GROWS_DOWN, -1, 0), 1);

    file = call(OPEN, "/proc/self/maps", 0, 0, 0, 0, 0);
    for (long count; (count = call(READ, (void *)file, (unsigned long)list, sizeof list, 0, 0, 0)) > 0;)
        call(WRITE, (void *)1, (unsigned long)list, count, 0, 0, 0);
    call(EXIT, 0, 0, 0, 0, 0, 0);
}
