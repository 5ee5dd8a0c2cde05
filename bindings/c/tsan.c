/* What clang's instrumented code calls, and gcc's ThreadSanitizer has under other names. Compiled with -fno-builtin, so that these are calls
 * that it sees. */
#include <string.h>

void *__tsan_memset(void *to, int byte, size_t size);
void *__tsan_memcpy(void *to, const void *from, size_t size);
void *__tsan_memmove(void *to, const void *from, size_t size);

void *__tsan_memset(void *to, int byte, size_t size) {
    return memset(to, byte, size);
}

void *__tsan_memcpy(void *to, const void *from, size_t size) {
    return memcpy(to, from, size);
}

void *__tsan_memmove(void *to, const void *from, size_t size) {
    return memmove(to, from, size);
}
