/* A reader that comes late: a line for each message of a recording from one of its pieces on, as of a connection whose
 * beginning isn't there.
 *
 *     late RECORDING COUNT
 *
 * It passes over the recording's first COUNT pieces; the next of each side has to begin with a frame. Replies to requests
 * in what it passed over have their xid, zxid and err; requests whose operation the profile lacks, and their replies, xid
 * and operation. A frame that is refused is passed over, with a line. The recording
 * has the format ZKR1 (docs/FORMATS.md, section 12). The status is 0 if it was read to its end, or up to a length that
 * no frame has, and all is written; else 2. */
#include "zk.h"

#include <ctype.h>
#include <errno.h>
#include <inttypes.h>
#include <stdio.h>
#include <stdlib.h>
#include <string.h>

static void fail(const char *what) {
    fprintf(stderr, "late: %s\n", what);
    exit(2);
}

/* Reads bytes: fewer than `length` where the file ends. */
static size_t take(FILE *recording, uint8_t *bytes, size_t length) {
    size_t got = fread(bytes, 1, length, recording);
    if (ferror(recording)) fail(strerror(errno));
    return got;
}

/* Prints the line of a side's newest message. */
static void put_message(struct zk_through *through, uint32_t side) {
    struct zk_line line = zk_through_line(through, side, NULL, 0); /* says how much room is needed */
    uint8_t *text = malloc(line.length);
    if (text == NULL) fail("out of memory");
    line = zk_through_line(through, side, text, line.length);
    if (line.status != ZK_WELL) fail(zk_status_name(line.status));
    printf("%.*s\n", (int)line.length, (const char *)text);
    free(text);
}

/* What each side has begun of a frame. */
enum { LIMIT = 4194304 };
static uint8_t begun[2][4 + LIMIT];
static size_t held[2];

static void keep(uint32_t side, struct zk_passed step, const uint8_t *bytes) {
    if (step.went == ZK_WITHIN) memcpy(begun[side] + held[side], bytes, step.used);
    held[side] = step.went == ZK_WITHIN ? held[side] + step.used : 0;
}

/* Goes on after a refused frame of the side, and gives again what the other one has begun. How many bytes of the piece
 * the refused frame has; 0 if it has no end. */
static size_t go_on(struct zk_through *through, uint32_t side, struct zk_fault fault) {
    struct zk_step resumed = zk_through_resume(through);
    if (resumed.status != ZK_WELL) return 0;
    printf("%c refused %s at %" PRIu32 ", passed over\n", "CS"[side], zk_status_name(fault.reason), fault.place);
    held[side] = 0;
    zk_through_step(through, !side, begun[!side], held[!side]);
    return resumed.used;
}

/* Prints what these bytes of a side complete. False at a fault that stays. */
static bool put_frames(struct zk_through *through, uint32_t side, const uint8_t *bytes, size_t length) {
    while (length > 0) {
        struct zk_passed step = zk_through_step(through, side, bytes, length);
        if (step.status != ZK_WELL) {
            size_t used = go_on(through, side, step.fault);
            if (used == 0) return false;
            bytes += used;
            length -= used;
            continue;
        }
        if (step.went == ZK_FULL) fail("more requests wait than may");
        keep(side, step, bytes);
        if (step.went == ZK_MESSAGE) put_message(through, side);
        else if (step.went == ZK_UNSEEN)
            printf("S %" PRId32 " zxid=%" PRId64 " err=%" PRId32 ", not seen asked\n", step.xid, step.zxid, step.err);
        else if (step.went != ZK_WITHIN)
            printf("%c %" PRId32 " operation %" PRId32 ", left out\n", "CS"[side], step.xid, step.operation);
        bytes += step.used;
        length -= step.used;
    }
    return true;
}

/* Gives the recording to the passage, from this piece on. */
static void list(struct zk_through *through, FILE *recording, unsigned long first) {
    uint8_t head[5], *piece = NULL;
    bool good = true;
    size_t got;
    if (take(recording, head, 4) != 4 || memcmp(head, "ZKR1", 4) != 0) fail("the file is no recording of format ZKR1");
    for (unsigned long i = 0; good && (got = take(recording, head, 5)) > 0; i++) {
        if (got != 5 || (head[0] != 'C' && head[0] != 'S')) fail("the recording is damaged");
        size_t length = (size_t)head[1] << 24 | (size_t)head[2] << 16 | (size_t)head[3] << 8 | head[4];
        if (length < 1 || length > 16777220) fail("the recording is damaged");
        uint8_t *larger = realloc(piece, length + 1);
        if (larger == NULL) fail("out of memory");
        piece = larger;
        if (take(recording, piece, length) != length) fail("the recording ends within a piece");
        if (i >= first) good = put_frames(through, head[0] == 'C' ? ZK_CLIENT : ZK_SERVER, piece, length);
    }
    free(piece);
}

/* Prints how it ends. */
static void put_ending(struct zk_through *through) {
    struct zk_ending ending = zk_through_finish(through);
    if (ending.kind == ZK_WHOLE) printf(". whole unanswered=%" PRIu32 "\n", ending.unanswered);
    else if (ending.kind == ZK_CUT) printf(". cut side=%c got=%" PRIu32 "\n", "CS"[ending.side], ending.got);
    else printf(". refused side=%c reason=%s\n", "CS"[ending.fault.side], zk_status_name(ending.fault.reason));
}

int main(int count, char **words) {
    char *end = NULL;
    unsigned long first = count == 3 ? strtoul(words[2], &end, 10) : 0;
    if (count != 3 || !isdigit((unsigned char)*words[2]) || *end != 0) fail("usage: late RECORDING COUNT");
    FILE *recording = fopen(words[1], "rb");
    if (recording == NULL) {
        fprintf(stderr, "late: %s: %s\n", words[1], strerror(errno));
        return 2;
    }
    struct zk_through through = ZK_ZEROS;
    uint32_t status = zk_through_join(&through, LIMIT, LIMIT, 65536, ZK_PROFILE_37);
    if (status != ZK_WELL) fail(zk_status_name(status));
    list(&through, recording, first);
    put_ending(&through);
    zk_through_free(&through);
    fclose(recording);
    if (ferror(stdout) || fflush(stdout) != 0) fail("standard output can't be written");
    return 0;
}
