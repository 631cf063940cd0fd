/* verdict.c
 * The strict verdict over a connection, by a passage of the proved library. It knows nothing of Wireshark.
 *
 * SPDX-License-Identifier: GPL-2.0-or-later
 */
#include "verdict.h"

/* Passages that are over, all of these limits: the next connections begin them anew. A capture that begins late, or is
 * read again, ends as many passages as it has connections, so more aren't kept. */
enum { SPARES = 16 };
static struct judge spares[SPARES];
static unsigned spare_count;

void judge_begin(struct judge *judge, uint32_t limit, uint32_t profile) {
    while (spare_count > 0 && (spares[0].limit != limit || spares[0].profile != profile)) {
        zk_through_free(&spares[--spare_count].through);
    }
    if (spare_count > 0) {
        *judge = spares[--spare_count];
        judge->judges = zk_through_renew(&judge->through) == ZK_WELL;
        judge->frames[ZK_CLIENT] = judge->frames[ZK_SERVER] = judge->bytes[ZK_CLIENT] = judge->bytes[ZK_SERVER] = 0;
        return;
    }
    judge->limit = limit;
    judge->profile = profile;
    judge->judges = zk_through_new(&judge->through, limit, limit, VERDICT_WAITING, profile) == ZK_WELL;
}

void judge_end(struct judge *judge) {
    static const struct judge none = {ZK_ZEROS, false, 0, 0, {0, 0}, {0, 0}};
    if (!judge->judges) {
        return;
    }
    bool alike = spare_count == 0 || (spares[0].limit == judge->limit && spares[0].profile == judge->profile);
    if (alike && spare_count < SPARES) {
        spares[spare_count++] = *judge;
    } else {
        zk_through_free(&judge->through);
    }
    *judge = none; /* a handle isn't used twice */
}

/* What a step of a whole frame says. */
static enum verdict verdict_of(struct zk_passed passed) {
    if (passed.fault.reason != 0) {
        return VERDICT_REFUSED;
    }
    if (passed.status != ZK_WELL) {
        return VERDICT_NONE;
    }
    switch (passed.went) {
    case ZK_MESSAGE: return VERDICT_WELL;
    case ZK_ASKED: case ZK_ANSWERED: return VERDICT_LEFT_OUT;
    case ZK_UNSEEN: return VERDICT_UNSEEN;
    default: return VERDICT_NONE;
    }
}

enum verdict judge_take(struct judge *judge, uint32_t side, const uint8_t *frame, size_t length,
                        struct zk_fault *fault) {
    if (!judge->judges) {
        return VERDICT_NONE;
    }
    struct zk_passed passed = zk_through_step(&judge->through, side, frame, length);
    enum verdict verdict = verdict_of(passed);
    bool begun = side == ZK_CLIENT || judge->frames[ZK_CLIENT] > 0;
    if (verdict == VERDICT_REFUSED) {
        *fault = passed.fault;
        fault->frame = judge->frames[side];
        fault->offset = judge->bytes[side] + length; /* the passage counts from the last refusal on */
    }
    judge->frames[side]++;
    judge->bytes[side] += length;
    if (verdict == VERDICT_NONE ||
        (verdict == VERDICT_REFUSED && !(begun && zk_through_resume(&judge->through).status == ZK_WELL))) {
        judge_end(judge);
    }
    return verdict;
}

size_t judge_line_length(struct judge *judge, uint32_t side) {
    struct zk_line line = zk_through_line(&judge->through, side, NULL, 0);
    return line.status == ZK_ROOM ? line.length : 0;
}

bool judge_line(struct judge *judge, uint32_t side, char *out, size_t length) {
    struct zk_line line = zk_through_line(&judge->through, side, (uint8_t *)out, length);
    return line.status == ZK_WELL && line.length == length;
}
