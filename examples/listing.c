/* The listing of a recording: a line for each message, and one for how the conversation ends.
 *
 *     listing RECORDING
 *
 * The recording has the format ZKR1 (docs/FORMATS.md, section 12). The status is 0 if it was read to its end, or up to
 * a refusal, and all is written; else 2. */
#include "zk.h"

#include <errno.h>
#include <stdio.h>
#include <stdlib.h>
#include <string.h>

static void fail(const char *what) {
    fprintf(stderr, "listing: %s\n", what);
    exit(2);
}

/* Reads bytes: fewer than `length` where the file ends. */
static size_t take(FILE *recording, uint8_t *bytes, size_t length) {
    size_t got = fread(bytes, 1, length, recording);
    if (ferror(recording)) fail(strerror(errno));
    return got;
}

/* A text that the library writes, which grows to the longest one. */
struct text {
    uint8_t *bytes;
    size_t room;
};

static void grow(struct text *text, size_t room) {
    uint8_t *bytes = realloc(text->bytes, room);
    if (bytes == NULL) fail("out of memory");
    text->bytes = bytes;
    text->room = room;
}

/* Prints the line of a side's newest message. */
static void put_message(struct zk_talk *talk, uint32_t side, struct text *text) {
    struct zk_line line = zk_talk_line(talk, side, text->bytes, text->room);
    if (line.status == ZK_ROOM) { /* the answer says how much room is needed */
        grow(text, line.length);
        line = zk_talk_line(talk, side, text->bytes, text->room);
    }
    if (line.status != ZK_WELL) fail(zk_status_name(line.status));
    printf("%.*s\n", (int)line.length, (const char *)text->bytes);
}

/* Prints the messages that these bytes of a side complete. False at a fault. */
static bool put_messages(struct zk_talk *talk, uint32_t side, const uint8_t *bytes, size_t length, struct text *text) {
    while (length > 0) {
        struct zk_step step = zk_talk_step(talk, side, bytes, length);
        if (step.status != ZK_WELL) return false;
        if (step.whole) put_message(talk, side, text);
        bytes += step.used;
        length -= step.used;
    }
    return true;
}

/* Gives the recording to the talk, piece by piece. */
static void list(struct zk_talk *talk, FILE *recording, struct text *text) {
    uint8_t head[5], *piece = NULL;
    bool good = true;
    size_t got;
    if (take(recording, head, 4) != 4 || memcmp(head, "ZKR1", 4) != 0) fail("the file is no recording of format ZKR1");
    while (good && (got = take(recording, head, 5)) > 0) {
        if (got != 5 || (head[0] != 'C' && head[0] != 'S')) fail("the recording is damaged");
        size_t length = (size_t)head[1] << 24 | (size_t)head[2] << 16 | (size_t)head[3] << 8 | head[4];
        if (length < 1 || length > 16777220) fail("the recording is damaged");
        uint8_t *larger = realloc(piece, length + 1);
        if (larger == NULL) fail("out of memory");
        piece = larger;
        if (take(recording, piece, length) != length) fail("the recording ends within a piece");
        good = put_messages(talk, head[0] == 'C' ? ZK_CLIENT : ZK_SERVER, piece, length, text);
    }
    free(piece);
}

int main(int count, char **words) {
    if (count != 2) fail("usage: listing RECORDING");
    FILE *recording = fopen(words[1], "rb");
    if (recording == NULL) {
        fprintf(stderr, "listing: %s: %s\n", words[1], strerror(errno));
        return 2;
    }
    struct zk_talk talk = ZK_ZEROS;
    struct text text = {NULL, 0};
    grow(&text, 4096);
    uint32_t status = zk_talk_new(&talk, 4194304, 4194304, 65536, ZK_PROFILE_34);
    if (status != ZK_WELL) fail(zk_status_name(status));
    list(&talk, recording, &text);
    struct zk_line line = zk_talk_ending_line(&talk, text.bytes, text.room);
    printf("%.*s\n", (int)line.length, (const char *)text.bytes);
    zk_talk_free(&talk);
    free(text.bytes);
    fclose(recording);
    if (ferror(stdout) || fflush(stdout) != 0) fail("standard output can't be written");
    return 0;
}
