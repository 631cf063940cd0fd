/* The C library's read and write, as a standard input and a standard output may answer them. By the environment:
   READ_MOST, WRITE_MOST: the greatest number of bytes of a call. READ_ROOM, WRITE_ROOM: the number of bytes after which
   calls fail, with the error READ_ERROR, WRITE_ERROR; if that is 0 they read or write no byte. tests/program/failing_streams.py runs
   the proved program with these functions in place of those of the C library. */
#define _GNU_SOURCE
#include <errno.h>
#include <stdlib.h>
#include <sys/syscall.h>
#include <unistd.h>

static unsigned long number(const char *name, unsigned long other) {
    const char *value = getenv(name);
    return value == NULL ? other : strtoul(value, NULL, 10);
}

/* How many of `count` bytes a call may read or write; -1 if it has to fail. */
static ssize_t passing(size_t count, unsigned long room, unsigned long most, unsigned long error) {
    if (room == 0 && count != 0) {
        errno = (int)error;
        return error == 0 ? 0 : -1;
    }
    most = most < room ? most : room;
    return (ssize_t)(most < count ? most : count);
}

ssize_t read(int file, void *bytes, size_t count) {
    static unsigned long before;
    if (file != STDIN_FILENO) {
        return syscall(SYS_read, file, bytes, count);
    }
    ssize_t most = passing(count, number("READ_ROOM", -1) - before, number("READ_MOST", -1), number("READ_ERROR", 0));
    ssize_t got = most <= 0 ? most : syscall(SYS_read, file, bytes, (size_t)most);
    before += got > 0 ? (unsigned long)got : 0;
    return got;
}

ssize_t write(int file, const void *bytes, size_t count) {
    static unsigned long before;
    if (file != STDOUT_FILENO) {
        return syscall(SYS_write, file, bytes, count);
    }
    unsigned long room = number("WRITE_ROOM", -1) - before;
    ssize_t most = passing(count, room, number("WRITE_MOST", -1), number("WRITE_ERROR", 0));
    ssize_t taken = most <= 0 ? most : syscall(SYS_write, file, bytes, (size_t)most);
    before += taken > 0 ? (unsigned long)taken : 0;
    return taken;
}
