/* Handles that go from thread to thread, used by one call at a time: each of THREADS threads takes the next piece of
 * any conversation that is free, and no conversation notices. The status is 0 if all end as on one thread. */
#define _POSIX_C_SOURCE 200809L
#include "zk.h"

#include <pthread.h>
#include <stdio.h>
#include <string.h>

enum { THREADS = 8, TALKS = 5, ROUNDS = 20000 };

static const uint8_t hello[] = {0, 0, 0, 44, 0, 0, 0, 0, 0, 0, 0, 0, 0, 0, 0, 0, 0, 0, 117, 48, 0, 0, 0, 0,
                                0, 0, 0, 0, 0, 0, 0, 16, 0, 0, 0, 0, 0, 0, 0, 0, 0, 0, 0, 0, 0, 0, 0, 0};
static const uint8_t welcome[] = {0, 0, 0, 36, 0, 0, 0, 0, 0, 0, 117, 48, 0, 0, 0, 0, 0, 0, 0, 1, 0, 0, 0, 16,
                                  0, 0, 0, 0, 0, 0, 0, 0, 0, 0, 0, 0, 0, 0, 0, 0};
static const uint8_t ping[] = {0, 0, 0, 8, 255, 255, 255, 254, 0, 0, 0, 11};
static const uint8_t pong[] = {0, 0, 0, 16, 255, 255, 255, 254, 0, 0, 0, 0, 0, 0, 0, 1, 0, 0, 0, 0};

/* A conversation, and how many pieces of it have come. */
struct shared {
    pthread_mutex_t lock;
    struct zk_talk talk;
    struct zk_speaker speaker;
    unsigned pieces, threads;
    bool good;
};

static struct shared all[TALKS];

static bool step(struct shared *it, uint32_t side, const uint8_t *piece, size_t length) {
    struct zk_step step = zk_talk_step(&it->talk, side, piece, length);
    struct zk_line line;
    uint8_t text[200];
    if (step.status != ZK_WELL || step.used != length || !step.whole) return false;
    line = zk_talk_line(&it->talk, side, text, sizeof text);
    return line.status == ZK_WELL && zk_speaker_say(&it->speaker, text, line.length).status == ZK_WELL;
}

static bool next(struct shared *it) {
    switch (it->pieces++) {
    case 0:
        return zk_talk_new(&it->talk, 4096, 4096, 4, ZK_PROFILE_34) == ZK_WELL
               && zk_speaker_new(&it->speaker, 4096, 4096, 4, ZK_PROFILE_34) == ZK_WELL;
    case 1: return step(it, ZK_CLIENT, hello, sizeof hello);
    case 2: return step(it, ZK_SERVER, welcome, sizeof welcome);
    default: break;
    }
    return it->pieces % 2 == 0 ? step(it, ZK_CLIENT, ping, sizeof ping) : step(it, ZK_SERVER, pong, sizeof pong);
}

static void *serve(void *own) {
    unsigned bit = 1u << *(const unsigned *)own;
    for (int i = 0; i < ROUNDS; i++) {
        struct shared *it = &all[(unsigned)i % TALKS];
        pthread_mutex_lock(&it->lock);
        it->good = it->good && next(it);
        it->threads |= bit;
        pthread_mutex_unlock(&it->lock);
    }
    return NULL;
}

int main(void) {
    pthread_t ids[THREADS];
    unsigned numbers[THREADS];
    bool good = true;
    for (int i = 0; i < TALKS; i++) {
        if (pthread_mutex_init(&all[i].lock, NULL) != 0) return 2;
        all[i].good = true;
    }
    for (unsigned i = 0; i < THREADS; i++) {
        numbers[i] = i;
        if (pthread_create(&ids[i], NULL, serve, &numbers[i]) != 0) return 2;
    }
    for (int i = 0; i < THREADS; i++) pthread_join(ids[i], NULL);
    for (int i = 0; i < TALKS; i++) {
        struct zk_ending ending = zk_talk_finish(&all[i].talk);
        good = good && all[i].good && all[i].threads == (1u << THREADS) - 1;
        good = good && ending.kind == ZK_WHOLE && ending.unanswered == (all[i].pieces - 3) % 2;
        zk_talk_free(&all[i].talk);
        zk_speaker_free(&all[i].speaker);
    }
    if (!good) printf("a conversation went wrong\n");
    return good ? 0 : 1;
}
