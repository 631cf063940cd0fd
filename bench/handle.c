/* How fast the library for C is, and how often it allocates.
 *
 *     handle step|line|view|open|renew [THREADS [TIMES]] < RECORDING
 *     handle say [THREADS [TIMES]] < LINES
 *
 * Steps through the recording (format ZKR1), and with `line` writes each message's line, with `view` asks for its
 * numbers; `say` says the message of each line. With THREADS that many threads do so at once, each with a handle of its
 * own. With TIMES all is read that often: with `open` by a new talk each time, which is closed after it, and else by one
 * that is begun anew. It prints the messages, the ending, the CPU seconds of the steps and the number of allocations
 * between the first message and the last. The status is 1 where a message or a line is refused, and 2 where the recording
 * is none or is cut. bench/README.md says how to compile it. */
#define _POSIX_C_SOURCE 200809L
#pragma weak zk_talk_renew /* so that an older library, which lacks it, can be measured without it */
#include "pieces.h"

#include <pthread.h>
#include <stdatomic.h>
#include <stdio.h>
#include <stdlib.h>
#include <time.h>

static atomic_long growths;
void *__real_malloc(size_t size);
void *__real_realloc(void *block, size_t size);
void *__wrap_malloc(size_t size) {
    growths++;
    return __real_malloc(size);
}
void *__wrap_realloc(void *block, size_t size) {
    growths++;
    return __real_realloc(block, size);
}


static uint8_t *recording;
static size_t size;
static char what;
static int times = 1;

struct result {
    long messages, kinds, growths;
    double seconds;
    bool good;
    char ending[200];
};

static void open_talk(struct zk_talk *talk) {
    if (zk_talk_new(talk, 4194304, 4194304, 65536, ZK_PROFILE_34) != ZK_WELL) exit(2);
}

/* Says the message of each line, up to the ending's; returns whether none is refused. */
static bool say_lines(struct result *result) {
    struct zk_speaker speaker = {0};
    bool good = true;
    if (zk_speaker_new(&speaker, 4194304, 4194304, 65536, ZK_PROFILE_34) != ZK_WELL) exit(2);
    for (size_t at = 0; good && at < size;) {
        const uint8_t *line = recording + at, *end = memchr(line, '\n', size - at);
        size_t length = end == NULL ? size - at : (size_t)(end - line);
        at += length + 1;
        if (*line == '.') break;
        struct zk_say said = zk_speaker_say(&speaker, line, length);
        good = said.status == ZK_WELL;
        result->messages += good;
        result->kinds += (long)said.length;
    }
    zk_speaker_free(&speaker);
    return good;
}

/* Gives the talk the recording, up to its end or to a fault; or says the lines. Returns whether there is no fault. */
static bool read_once(struct zk_talk *talk, struct result *result, uint8_t *text, size_t room) {
    if (what == 'S') return say_lines(result);
    for (size_t at = FIRST_PIECE; at < size;) {
        const uint8_t *head = recording + at, *bytes = head + PIECE_HEAD;
        size_t left = length_of(head);
        uint32_t side = head[0] == 'C' ? ZK_CLIENT : ZK_SERVER;
        at += PIECE_HEAD + left;
        while (left > 0) {
            struct zk_step step = zk_talk_step(talk, side, bytes, left);
            if (step.status != ZK_WELL) return false;
            bytes += step.used;
            left -= step.used;
            if (!step.whole) continue;
            result->messages++;
            if (what == 'v') result->kinds += zk_talk_view(talk, side).kind;
            if (what == 'l') result->kinds += (long)zk_talk_line(talk, side, text, room).length;
        }
    }
    return true;
}

static void *run(void *to) {
    struct result *result = to;
    struct zk_talk talk = {0};
    size_t room = 1 << 24;
    uint8_t *text = __real_malloc(room);
    open_talk(&talk);
    struct timespec begin, end;
    clock_gettime(CLOCK_THREAD_CPUTIME_ID, &begin);
    long before = growths;
    result->good = read_once(&talk, result, text, room);
    for (int time = 1; time < times; time++) {
        if (what == 'o') {
            zk_talk_free(&talk);
            open_talk(&talk);
        } else {
            zk_talk_renew(&talk);
        }
        result->good &= read_once(&talk, result, text, room);
    }
    result->growths = growths - before;
    clock_gettime(CLOCK_THREAD_CPUTIME_ID, &end);
    result->seconds = (double)(end.tv_sec - begin.tv_sec) + (double)(end.tv_nsec - begin.tv_nsec) / 1e9;
    struct zk_line line = zk_talk_ending_line(&talk, (uint8_t *)result->ending, sizeof result->ending - 1);
    result->ending[line.status == ZK_WELL ? line.length : 0] = 0;
    zk_talk_free(&talk);
    return NULL;
}

int main(int count, char **words) {
    int threads = count > 2 ? atoi(words[2]) : 1;
    if (count > 3) times = atoi(words[3]);
    if (count < 2 || threads < 1 || threads > 64 || times < 1) return 2;
    what = strcmp(words[1], "say") == 0 ? 'S' : words[1][0]; /* step has the s */
    size_t room = 1 << 28;
    recording = malloc(room);
    size = fread(recording, 1, room, stdin);
    if (size == room || (what != 'S' && !is_recording(recording, size))) return 2;
    static struct result results[64];
    pthread_t ids[64];
    bool good = true;
    for (int i = 1; i < threads; i++) pthread_create(&ids[i], NULL, run, &results[i]);
    run(&results[0]);
    for (int i = 1; i < threads; i++) pthread_join(ids[i], NULL);
    for (int i = 0; i < threads; i++) {
        printf("%ld messages, %s, %.3f s, %ld growths, sum %ld\n", results[i].messages, results[i].ending,
               results[i].seconds, results[i].growths, results[i].kinds);
        good &= results[i].good;
    }
    return good ? 0 : 1;
}
