/* The round trip of the Apache client for C, beside examples/client.c.
 *
 *     apache HOST:PORT PATH ROUNDS
 *
 * It reads the node ROUNDS times, one request at a time, and prints how many microseconds one takes. Linked with
 * libzookeeper_mt, whose call waits for the thread that has the socket. */
#define _POSIX_C_SOURCE 200809L
#define THREADED
#include <zookeeper/zookeeper.h>

#include <stdio.h>
#include <stdlib.h>
#include <time.h>

static void watch(zhandle_t *handle, int type, int state, const char *path, void *context) {
    (void)handle, (void)type, (void)state, (void)path, (void)context;
}

int main(int count, char **words) {
    if (count != 4) return 2;
    long rounds = atol(words[3]);
    zoo_set_debug_level(ZOO_LOG_LEVEL_ERROR);
    zhandle_t *handle = zookeeper_init(words[1], watch, 10000, NULL, NULL, 0);
    if (handle == NULL) return 2;
    struct timespec begun, ended, pause = {0, 1000000};
    for (int i = 0; i < 5000 && zoo_state(handle) != ZOO_CONNECTED_STATE; i++) nanosleep(&pause, NULL);
    clock_gettime(CLOCK_MONOTONIC, &begun);
    for (long i = 0; i < rounds; i++) {
        char data[64];
        int length = sizeof data;
        if (zoo_get(handle, words[2], 0, data, &length, NULL) != ZOK) return 1;
    }
    clock_gettime(CLOCK_MONOTONIC, &ended);
    double microseconds = (double)(ended.tv_sec - begun.tv_sec) * 1e6 + (double)(ended.tv_nsec - begun.tv_nsec) / 1e3;
    printf("getData: %.1f microseconds, the mean of %ld\n", microseconds / (double)rounds, rounds);
    zookeeper_close(handle);
    return 0;
}
