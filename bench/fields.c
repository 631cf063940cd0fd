/* What the fields of a conversation's messages cost: by the library, and by a decoder by hand.
 *
 *     fields step|passage|fields|hand [sum] < RECORDING
 *
 * `step` judges the recording (format ZKR1) by zk_talk_step, `passage` by zk_through_step, `fields` also writes each
 * message's fields by zk_talk_fields, and `hand` does the same by hand.h. It prints the messages, the fields, with `sum` a sum of all in
 * them, the CPU seconds, the number of allocations between the first message and the last, and the bytes of a talk. */
#define _POSIX_C_SOURCE 200809L
#pragma weak zk_through_new /* so that an older library, which lacks them, can be measured without them */
#pragma weak zk_through_step
#include "hand.h"
#include "pieces.h"

#include <inttypes.h>
#include <stdio.h>
#include <stdlib.h>
#include <time.h>

enum { FIELDS = 1 << 16 };

static long growths;
static size_t allocated; /* bytes that were asked for */
void *__real_malloc(size_t size);
void *__real_realloc(void *block, size_t size);
void *__wrap_malloc(size_t size);
void *__wrap_realloc(void *block, size_t size);

void *__wrap_malloc(size_t size) {
    growths++;
    allocated += size;
    return __real_malloc(size);
}

void *__wrap_realloc(void *block, size_t size) {
    growths++;
    allocated += size;
    return __real_realloc(block, size);
}

static struct zk_field fields[FIELDS];
static struct hand hand;
static struct zk_talk talk;
static struct zk_through through;
static uint64_t messages, field_count, sum;
static bool summed;

/* Adds what is in a message's fields. */
static void add(uint32_t count) {
    field_count += count;
    for (uint32_t i = 0; summed && i < count; i++) {
        const struct zk_field *it = &fields[i];
        sum += it->place + 3u * it->length + 5u * (uint64_t)it->number;
        sum += 7u * it->name + 11u * it->kind + 13u * it->null;
    }
}

/* Takes bytes of a side; returns how many, 0 for a fault. */
static size_t step(char what, uint32_t side, const uint8_t *piece, size_t length) {
    if (what == 'h') {
        bool whole;
        uint32_t used = hand_step(&hand, side, piece, (uint32_t)length, &whole);
        messages += whole;
        if (whole) add(hand.count);
        return used;
    }
    if (what == 'p') {
        struct zk_passed passed = zk_through_step(&through, side, piece, length);
        messages += passed.went == ZK_MESSAGE;
        return passed.used;
    }
    struct zk_step step = zk_talk_step(&talk, side, piece, length);
    if (step.status != ZK_WELL) return 0;
    messages += step.whole;
    if (step.whole && what == 'f') add(zk_talk_fields(&talk, side, fields, FIELDS).count);
    return step.used;
}

static bool run(char what, const uint8_t *recording, size_t size) {
    for (size_t at = FIRST_PIECE; at < size;) {
        const uint8_t *head = recording + at, *piece = head + PIECE_HEAD;
        size_t left = length_of(head);
        at += PIECE_HEAD + left;
        while (left > 0) {
            size_t used = step(what, head[0] == 'C' ? ZK_CLIENT : ZK_SERVER, piece, left);
            if (used == 0) return false;
            piece += used;
            left -= used;
        }
    }
    return true;
}

int main(int count, char **words) {
    const size_t room = (size_t)1 << 29;
    uint8_t *recording = __real_malloc(room);
    if (count < 2 || count > 3 || recording == NULL) return 2;
    summed = count == 3;
    size_t size = fread(recording, 1, room, stdin);
    if (size == room || !is_recording(recording, size)) return 2;
    allocated = 0;
    if (zk_talk_new(&talk, 4194304, 4194304, 65536, ZK_PROFILE_34) != ZK_WELL) return 2;
    size_t made = allocated;
    if (words[1][0] == 'p' && zk_through_new(&through, 4194304, 4194304, 65536, ZK_PROFILE_34) != ZK_WELL) return 2;
    hand.out = fields;
    struct timespec begun, ended;
    long before = growths;
    clock_gettime(CLOCK_PROCESS_CPUTIME_ID, &begun);
    bool good = run(words[1][0], recording, size);
    clock_gettime(CLOCK_PROCESS_CPUTIME_ID, &ended);
    double seconds = (double)(ended.tv_sec - begun.tv_sec) + (double)(ended.tv_nsec - begun.tv_nsec) / 1e9;
    printf("%" PRIu64 " %" PRIu64 " %" PRIu64 " %.4f", messages, field_count, sum, seconds);
    printf(" %ld %zu\n", growths - before, made);
    zk_talk_free(&talk);
    free(recording);
    return good ? 0 : 1;
}
