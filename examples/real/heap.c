/* A program whose address space grows and shrinks: a heap by brk, a block that moves by mremap, and two threads that map,
 * protect and unmap pages. Build it with: cc -pthread -o heap heap.c */
#define _GNU_SOURCE
#include <pthread.h>
#include <stdio.h>
#include <string.h>
#include <sys/mman.h>
#include <unistd.h>

enum { PAGE = 4096, ROUNDS = 3 };

static void *worker(void *arg)
{
    unsigned char first = *(unsigned char *)arg;
    for (int i = 0; i < ROUNDS; i++) {
        unsigned char *pages = mmap(NULL, 4 * PAGE, PROT_READ | PROT_WRITE, MAP_PRIVATE | MAP_ANONYMOUS, -1, 0);
        if (pages == MAP_FAILED)
            return NULL;
        memset(pages, first, 4 * PAGE);
        mprotect(pages + PAGE, PAGE, PROT_READ);
        if (i > 0)
            munmap(pages, 4 * PAGE);
    }
    return NULL;
}

int main(void)
{
    unsigned char *end = sbrk(0);
    if (brk(end + 5 * PAGE) != 0 || brk(end + 2 * PAGE) != 0)
        return 1;
    unsigned char *block = mmap(NULL, 2 * PAGE, PROT_READ | PROT_WRITE, MAP_PRIVATE | MAP_ANONYMOUS, -1, 0);
    block = mremap(block, 2 * PAGE, 512 * PAGE, MREMAP_MAYMOVE);
    block = mremap(block, 512 * PAGE, 3 * PAGE, MREMAP_MAYMOVE);
    if (block == MAP_FAILED || munmap((void *)1, PAGE) == 0)
        return 1;
    pthread_t threads[2];
    unsigned char names[2] = {1, 2};
    for (int i = 0; i < 2; i++)
        pthread_create(&threads[i], NULL, worker, &names[i]);
    for (int i = 0; i < 2; i++)
        pthread_join(threads[i], NULL);
    return 0;
}
