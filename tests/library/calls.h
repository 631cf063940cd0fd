/* What tests/library/calls.c is made of: numbers at random, memory between guard pages, and stored messages.
 *
 * A guard page may not be touched: a call that reads or writes a byte beside its bytes ends the program. */
#define _DEFAULT_SOURCE
#include "zk.h"

#include <stdio.h>
#include <stdlib.h>
#include <string.h>
#include <sys/mman.h>

enum { SIZE = 1 << 21, PAGE = 4096, CANARY = 64, FILL = 0xa5, MOST = 4096 };

static uint64_t state;
static unsigned long seed, counted;

/* Ends the program if something isn't so. */
static void must(bool good, const char *what) {
    if (good) return;
    printf("seed %lu, call %lu: %s\n", seed, counted, what);
    fflush(stdout);
    _Exit(1);
}

static uint64_t chance(uint64_t below) { /* splitmix64 */
    uint64_t z = state += 0x9e3779b97f4a7c15u;
    z = (z ^ (z >> 30)) * 0xbf58476d1ce4e5b9u;
    z = (z ^ (z >> 27)) * 0x94d049bb133111ebu;
    return (z ^ (z >> 31)) % below;
}

static bool one_in(uint64_t number) {
    return chance(number) == 0;
}

/* One of these numbers. */
#define PICK(...) ((const int64_t[]){__VA_ARGS__}[chance(sizeof((const int64_t[]){__VA_ARGS__}) / sizeof(int64_t))])

/* ---- Memory: SIZE bytes between two guard pages */

static uint8_t *guarded(void) {
    uint8_t *at = mmap(NULL, SIZE + 2 * PAGE, PROT_READ | PROT_WRITE, MAP_PRIVATE | MAP_ANONYMOUS, -1, 0);
    if (at == MAP_FAILED || mprotect(at, PAGE, PROT_NONE) != 0) exit(2);
    if (mprotect(at + PAGE + SIZE, PAGE, PROT_NONE) != 0) exit(2);
    return at + PAGE;
}

/* Where `length` bytes of the memory end at its guard page, or now and then begin at it. */
static uint8_t *place(uint8_t *memory, size_t length) {
    return one_in(4) ? memory : memory + SIZE - length;
}

/* What a call is given to read. It is compared afterwards. */
struct input {
    uint8_t *at;
    size_t length;
    uint8_t *copy, *memory;
};

/* Puts the bytes, which are in `copy`, at a guard page; no bytes may be at a null pointer. */
static void put(struct input *input, size_t length) {
    if (input->memory == NULL) input->memory = guarded();
    input->length = length;
    input->at = length == 0 && one_in(2) ? NULL : place(input->memory, length);
    if (length > 0) memcpy(input->at, input->copy, length);
}

static void unchanged(const struct input *input) {
    must(input->length == 0 || memcmp(input->at, input->copy, input->length) == 0, "what is read was written");
}

/* What a call is given to write to. */
struct output {
    uint8_t *at, *memory;
    size_t room;
};

static void clear(struct output *output, size_t room) {
    if (output->memory == NULL) output->memory = guarded();
    output->room = room;
    output->at = room == 0 && one_in(2) ? NULL : place(output->memory, room);
    if (output->at == NULL) return;
    size_t before = output->at == output->memory ? 0 : CANARY, after = output->at == output->memory ? CANARY : 0;
    memset(output->at - before, FILL, before + room + after);
}

static bool filled(const uint8_t *bytes, size_t length) {
    for (size_t i = 0; i < length; i++)
        if (bytes[i] != FILL) return false;
    return true;
}

/* Nothing but the first `written` bytes of the room was written. */
static void within(const struct output *output, size_t written) {
    must(written <= output->room, "more is written than there is room");
    if (output->at == NULL) return;
    bool first = output->at == output->memory;
    must(filled(output->at + written, output->room - written + (first ? CANARY : 0)), "a byte after what is written");
    must(first || filled(output->at - CANARY, CANARY), "a byte before the room was written");
}

/* ---- Stored messages: recordings of format ZKR1, and listings */

struct piece {
    uint32_t side;
    size_t length;
    const uint8_t *bytes;
};

struct recording {
    size_t first, count; /* among the pieces */
};

/* A payload; operation is that of a request, or of the request that a reply answers. */
struct payload {
    const uint8_t *bytes;
    size_t length;
    int32_t operation;
    uint32_t kind;
};

static struct piece *pieces, *lines;
static struct payload *payloads;
static struct recording recordings[MOST], listings[MOST];
static size_t piece_count, line_count, payload_count, recording_count, listing_count;
static void *kept[4 * MOST]; /* what these point into */
static size_t kept_count;

static int32_t number_at(const uint8_t *at) {
    return (int32_t)((uint32_t)at[0] << 24 | (uint32_t)at[1] << 16 | (uint32_t)at[2] << 8 | at[3]);
}

/* Another element at the end of a list. */
static void *longer(void *list, size_t *count, size_t size) {
    list = realloc(list, ++*count * size);
    if (list == NULL) exit(2);
    return list;
}

/* The operation of the newest request under this xid, by the payloads from `first` on; 3 if there is none. */
static int32_t asked(int32_t xid, size_t first) {
    for (size_t i = payload_count; i-- > first;)
        if (payloads[i].kind == ZK_REQUEST && number_at(payloads[i].bytes) == xid) return payloads[i].operation;
    return 3;
}

static void add_payload(uint32_t side, bool first, const uint8_t *bytes, size_t length, size_t from) {
    struct payload it = {bytes, length, 0, side == ZK_CLIENT ? ZK_CONNECT : ZK_CONNECTED};
    if (!first && length < 8) return;
    if (!first && side == ZK_CLIENT) {
        it.kind = ZK_REQUEST;
        it.operation = number_at(bytes + 4);
    } else if (!first) {
        it.kind = number_at(bytes) == -1 ? ZK_EVENT : ZK_REPLY;
        it.operation = asked(number_at(bytes), from);
    }
    payloads = longer(payloads, &payload_count, sizeof *payloads);
    payloads[payload_count - 1] = it;
}

/* The payloads of a recording, which are cut from the bytes of each side. */
static void add_payloads(const struct recording *recording) {
    uint8_t *bytes[2] = {NULL, NULL};
    size_t lengths[2] = {0, 0}, from = payload_count;
    bool first[2] = {true, true};
    for (size_t i = recording->first; i < recording->first + recording->count; i++) {
        uint32_t side = pieces[i].side;
        bytes[side] = realloc(bytes[side], lengths[side] + pieces[i].length + 1);
        if (bytes[side] == NULL) exit(2);
        memcpy(bytes[side] + lengths[side], pieces[i].bytes, pieces[i].length);
        lengths[side] += pieces[i].length;
    }
    for (uint32_t side = ZK_CLIENT; side <= ZK_SERVER; side++) {
        kept[kept_count++] = bytes[side];
        for (size_t at = 0; at + 4 <= lengths[side];) {
            size_t length = (size_t)(uint32_t)number_at(bytes[side] + at);
            if (length > lengths[side] - at - 4) break;
            add_payload(side, first[side], bytes[side] + at + 4, length, from);
            first[side] = false;
            at += 4 + length;
        }
    }
}

static void add_recording(const uint8_t *bytes, size_t length) {
    struct recording it = {piece_count, 0};
    for (size_t at = 4; at + 5 <= length;) {
        size_t size = (size_t)(uint32_t)number_at(bytes + at + 1);
        if (size > length - at - 5) break;
        pieces = longer(pieces, &piece_count, sizeof *pieces);
        pieces[piece_count - 1] = (struct piece){bytes[at] == 'C' ? ZK_CLIENT : ZK_SERVER, size, bytes + at + 5};
        at += 5 + size;
        it.count++;
    }
    recordings[recording_count++] = it;
    add_payloads(&it);
}

static void add_listing(const uint8_t *bytes, size_t length) {
    struct recording it = {line_count, 0};
    for (size_t at = 0; at < length;) {
        size_t size = 0;
        while (at + size < length && bytes[at + size] != '\n') size++;
        if (size > 0 && bytes[at] != '.') {
            lines = longer(lines, &line_count, sizeof *lines);
            lines[line_count - 1] = (struct piece){0, size, bytes + at};
            it.count++;
        }
        at += size + 1;
    }
    listings[listing_count++] = it;
}

/* Reads a recording or a listing, which is kept. */
static void add_file(const char *path) {
    FILE *file = fopen(path, "rb");
    uint8_t *bytes = kept[kept_count++] = malloc(SIZE);
    if (file == NULL || bytes == NULL || recording_count + listing_count == MOST) exit(2);
    size_t length = fread(bytes, 1, SIZE, file);
    fclose(file);
    if (length > 4 && memcmp(bytes, "ZKR1", 4) == 0) add_recording(bytes, length);
    else if (length > 0) add_listing(bytes, length);
}
