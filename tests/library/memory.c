/* How much memory stays with the process after talks and speakers are closed, under glibc's malloc.
 *
 *     memory talk|speaker CLIENT SERVER WAITING ROUNDS [renew]
 *
 * Each round makes a talk, whose sides send a payload of their limits and then as many requests as may wait, and asks
 * it for a line and the ending's; or it makes a speaker, to which as many lines are said. Then it closes it. With
 * `renew` one handle is begun anew for each round. It prints how many kilobytes are resident after the last close, on
 * top of those at the start: after one round, and after all. */
#define _POSIX_C_SOURCE 200809L
#include "zk.h"

#include <stdio.h>
#include <stdlib.h>
#include <string.h>
#include <unistd.h>

enum { HEAD = 4, MOST = 1 << 24 };

static const char hello[] = "C connect version=0 zxid=0 timeout=1 session=0 "
                            "passwd=#00000000000000000000000000000000 ro=0";
static const char welcome[] = "S connect version=0 timeout=1 session=1 passwd=#00000000000000000000000000000000 ro=0";
static uint32_t client, server, waiting;
static struct zk_talk talk = ZK_ZEROS;
static struct zk_speaker speaker = ZK_ZEROS;
/* No block of malloc's, so that the library's are alone. */
static uint8_t bytes[MOST + HEAD];

static void must(bool good, const char *what) {
    if (good) return;
    printf("%s\n", what);
    exit(1);
}

static long resident(void) {
    char text[100];
    long all, own;
    FILE *file = fopen("/proc/self/statm", "r");
    setvbuf(file, text, _IOFBF, sizeof text);
    must(fscanf(file, "%ld %ld", &all, &own) == 2, "no /proc/self/statm");
    fclose(file);
    return own * (sysconf(_SC_PAGESIZE) / 1024);
}

static void put(uint8_t *at, size_t number) {
    for (int i = 0; i < 4; i++) at[i] = (uint8_t)(number >> (24 - 8 * i));
}

/* Gives the `length` bytes of a payload to the talk, as a frame. */
static void give(uint32_t side, size_t length) {
    put(bytes, length);
    for (size_t at = 0; at < HEAD + length;) {
        size_t size = HEAD + length - at < 65536 ? HEAD + length - at : 65536;
        struct zk_step step = zk_talk_step(&talk, side, bytes + at, size);
        must(step.status == ZK_WELL, "a frame is refused");
        at += step.used;
    }
}

/* A sync of the longest path, or its reply; the header has `head` bytes. */
static void give_path(uint32_t side, size_t head, size_t limit) {
    memset(bytes, 0, HEAD + head);
    put(bytes + HEAD, 1);
    if (side == ZK_CLIENT) put(bytes + HEAD + 4, 9);
    put(bytes + HEAD + head, limit - head - 4);
    memset(bytes + HEAD + head + 4, 'a', limit - head - 4);
    give(side, limit);
}

static void hold_a_talk(void) {
    static uint8_t text[200];
    static const uint8_t exists[] = {0, 0, 0, 1, 0, 0, 0, 3, 0, 0, 0, 1, '/', 0};
    memset(bytes, 0, 64);
    bytes[HEAD + 27] = 16;
    give(ZK_CLIENT, 44);
    bytes[HEAD + 27] = 0;
    bytes[HEAD + 19] = 16;
    give(ZK_SERVER, 36);
    must(zk_talk_line(&talk, ZK_SERVER, text, sizeof text).status == ZK_WELL, "no line");
    give_path(ZK_CLIENT, 8, client);
    give_path(ZK_SERVER, 16, server);
    memcpy(bytes + HEAD, exists, sizeof exists);
    for (uint32_t i = 0; i < waiting; i++) give(ZK_CLIENT, sizeof exists);
    must(zk_talk_waiting(&talk).requests == waiting, "not all requests wait");
    must(zk_talk_ending_line(&talk, text, sizeof text).status == ZK_WELL, "no ending's line");
}

static void hold_a_speaker(void) {
    static const char exists[] = "C 1 exists path=\"/\" watch=0";
    must(zk_speaker_say(&speaker, (const uint8_t *)hello, sizeof hello - 1).status == ZK_WELL, "no hello");
    must(zk_speaker_say(&speaker, (const uint8_t *)welcome, sizeof welcome - 1).status == ZK_WELL, "no welcome");
    for (uint32_t i = 0; i < waiting; i++)
        must(zk_speaker_say(&speaker, (const uint8_t *)exists, sizeof exists - 1).status == ZK_WELL, "no request");
}

int main(int count, char **words) {
    must(count >= 6, "usage: memory talk|speaker CLIENT SERVER WAITING ROUNDS [renew]");
    bool talks = words[1][0] == 't', renews = count > 6;
    client = (uint32_t)strtoul(words[2], NULL, 10);
    server = (uint32_t)strtoul(words[3], NULL, 10);
    waiting = (uint32_t)strtoul(words[4], NULL, 10);
    long rounds = strtol(words[5], NULL, 10), first = 0;
    memset(bytes, 1, sizeof bytes);
    long begun = resident();
    for (long i = 0; i < rounds; i++) {
        if (i == 0 || !renews) {
            uint32_t status = talks ? zk_talk_new(&talk, client, server, waiting, ZK_PROFILE_34)
                                    : zk_speaker_new(&speaker, client, server, waiting, ZK_PROFILE_34);
            must(status == ZK_WELL, "no handle");
        }
        if (talks) hold_a_talk();
        else hold_a_speaker();
        if (renews) must((talks ? zk_talk_renew(&talk) : zk_speaker_renew(&speaker)) == ZK_WELL, "it isn't begun anew");
        if (renews && i + 1 < rounds) continue;
        zk_talk_free(&talk);
        zk_speaker_free(&speaker);
        if (i == 0) first = resident() - begun;
    }
    printf("%ld %ld\n", first, resident() - begun);
    return 0;
}
