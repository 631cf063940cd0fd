/* Calls each function of the C library that allocates once, and writes for each whether it gave memory: `g` if it did,
   `r` if it was refused. tests/program/refused_memory.py runs it with each call refused in turn. */
#define _GNU_SOURCE
#include <malloc.h>
#include <stdlib.h>
#include <string.h>
#include <unistd.h>

/* What a function gave is memory of the size, which is then freed. */
static void put(void *block) {
    if (block != NULL) memset(block, 1, 64);
    if (write(1, block != NULL ? "g" : "r", 1) != 1) _exit(1);
    free(block);
}

int main(void) {
    void *block = NULL;
    put(malloc(64));
    put(calloc(4, 16));
    put(realloc(NULL, 64));
    put(reallocarray(NULL, 4, 16));
    put(memalign(64, 64));
    put(aligned_alloc(64, 64));
    put(posix_memalign(&block, 64, 64) == 0 ? block : NULL);
    put(valloc(64));
    put(pvalloc(64));
    return 0;
}
