/* The C library's functions that allocate, of which one call is refused: the call whose number, counted from 1 over all
   of them, is in the environment variable REFUSED_GROWTH. A byte on file descriptor 3 reports that it was refused.
   tests/program/refused_memory.py runs the proved program with these functions in place of those of the C library. */
#include <errno.h>
#include <stddef.h>
#include <stdint.h>
#include <stdlib.h>
#include <unistd.h>

void *__libc_malloc(size_t size);
void *__libc_calloc(size_t count, size_t size);
void *__libc_realloc(void *block, size_t size);
void *__libc_memalign(size_t alignment, size_t size);
void *__libc_valloc(size_t size);
void *__libc_pvalloc(size_t size);

static unsigned long calls;

static int is_refused(void) {
    const char *refused = getenv("REFUSED_GROWTH");
    calls++;
    return refused != NULL && strtoul(refused, NULL, 10) == calls && write(3, "r", 1) == 1;
}

void *malloc(size_t size) {
    return is_refused() ? NULL : __libc_malloc(size);
}

void *calloc(size_t count, size_t size) {
    return is_refused() ? NULL : __libc_calloc(count, size);
}

void *realloc(void *block, size_t size) {
    return is_refused() ? NULL : __libc_realloc(block, size);
}

void *reallocarray(void *block, size_t count, size_t size) {
    return is_refused() || (size != 0 && count > SIZE_MAX / size) ? NULL : __libc_realloc(block, count * size);
}

void *memalign(size_t alignment, size_t size) {
    return is_refused() ? NULL : __libc_memalign(alignment, size);
}

void *aligned_alloc(size_t alignment, size_t size) {
    return is_refused() ? NULL : __libc_memalign(alignment, size);
}

int posix_memalign(void **block, size_t alignment, size_t size) {
    void *found = is_refused() ? NULL : __libc_memalign(alignment, size);
    if (found == NULL) return ENOMEM;
    *block = found;
    return 0;
}

void *valloc(size_t size) {
    return is_refused() ? NULL : __libc_valloc(size);
}

void *pvalloc(size_t size) {
    return is_refused() ? NULL : __libc_pvalloc(size);
}
