/* Each file has the beginning of a recording, of which LEFT bytes are read before a read fails. A program is compiled
 * with this before it. */
#define _GNU_SOURCE
#include <errno.h>
#include <stdio.h>
#include <string.h>

static ssize_t read_within(void *left, char *to, size_t room) {
    static const char content[] = "ZKR1C\0\0\0\5ab";
    size_t *count = left, taken = *count < room ? *count : room;
    if (*count == 0) {
        errno = EIO;
        return -1;
    }
    memcpy(to, &content[LEFT - *count], taken);
    *count -= taken;
    return (ssize_t)taken;
}

static FILE *open_within(const char *path, const char *mode) {
    static size_t left = LEFT;
    (void)path;
    return fopencookie(&left, mode, (cookie_io_functions_t){.read = read_within});
}

#define fopen open_within
