/* hole.c
 * Where the frames of one side begin again after bytes that were not captured (zkdump_tools/resync.py has the rule in words).
 *
 * SPDX-License-Identifier: GPL-2.0-or-later
 */
#include "hole.h"

#include "message.h"

enum { ENOUGH = 3, MOST_KEPT = 1 << 16 };

/* An operation, and the sizes that its request's payload can have: `behind` bytes after its path or, if `path` is
 * false, `behind` bytes in all; or at least as many. */
struct shape {
    int32_t op;
    bool path, exactly;
    uint32_t behind;
};

/* The lines from here on are written by dev/names.py. */
static const struct shape shapes[] = {
    {1, true, false, 12}, {2, true, true, 4}, {3, true, true, 1}, {4, true, true, 1}, {5, true, false, 8},
    {6, true, true, 0}, {7, true, false, 8}, {8, true, true, 1}, {9, true, true, 0}, {11, false, true, 8},
    {12, true, true, 1}, {14, false, false, 17}, {15, true, false, 12}, {16, false, false, 28}, {17, true, true, 4},
    {18, true, true, 4}, {19, true, false, 12}, {20, true, true, 0}, {21, true, false, 20}, {22, false, false, 17},
    {100, false, false, 20}, {101, false, false, 28}, {102, false, false, 12}, {103, true, true, 0},
    {104, true, true, 0}, {105, false, false, 36}, {106, true, true, 4}, {107, false, true, 8}, {-11, false, true, 8},
};
/* Up to here. */

enum { SET_WATCHES_2 = 105 };

static bool xid_fits(int32_t xid, int32_t op) {
    if (op == OP_PING || op == OP_AUTH) {
        return xid == (op == OP_PING ? XID_PING : XID_AUTH);
    }
    return xid > 0 || (xid == XID_SET_WATCHES && (op == OP_SET_WATCHES || op == SET_WATCHES_2));
}

static bool is_request(const uint8_t *payload, size_t there, uint32_t size) {
    int32_t op = int_at(payload + 4);
    const struct shape *shape = NULL;
    for (size_t k = 0; shape == NULL && k < sizeof shapes / sizeof *shapes; k++) {
        if (shapes[k].op == op) {
            shape = shapes + k;
        }
    }
    if (shape == NULL || !xid_fits(int_at(payload), op)) {
        return false;
    }
    if (!shape->path) {
        return shape->exactly ? size == shape->behind : size >= shape->behind;
    }
    if (there < 13) {
        return size > there;
    }
    int64_t length = int_at(payload + 8), behind = (int64_t)size - 12 - length;
    return length > 0 && payload[12] == '/' && (shape->exactly ? behind == shape->behind : behind >= shape->behind);
}

static bool is_part(int32_t op) {
    static const int32_t parts[] = {-1, 1, 2, 4, 5, 8, 13, 15, 19, 20, 21};
    for (size_t k = 0; k < sizeof parts / sizeof *parts; k++) {
        if (parts[k] == op) {
            return true;
        }
    }
    return false;
}

/* Whether a reply without an error, of this size, can have the body that begins here. What isn't there counts as 0. */
static bool is_body(const uint8_t *payload, size_t there, uint32_t size) {
    uint8_t front[12] = {0};
    for (size_t k = 0; k < sizeof front && REPLY_HEAD + k < there; k++) {
        front[k] = payload[REPLY_HEAD + k];
    }
    int64_t count = int_at(front), first = int_at(front + 4), second = int_at(front + 8), left = (int64_t)size - 20;
    if (size == 88 + (count > 0 ? count : 0)) {
        return count >= -1;
    }
    if (there > 20 && payload[20] == '/' && count > 0 && (size == 20 + count || size == 88 + count)) {
        return true;
    }
    if (is_part((int32_t)count) && size >= 25 && there > 20 && payload[20] <= 1) {
        uint32_t err = 0;
        for (size_t at = 21; at < 25 && at < there; at++) {
            err = err << 8 | payload[at];
        }
        if ((int32_t)err >= -200 && (int32_t)err <= 0) {
            return true;
        }
    }
    return count > 0 && count <= left / 4 &&
           ((first > 0 && first <= left - 4) || (first > 0 && first <= 31 && second > 0 && second <= left - 8));
}

static bool is_state(int32_t state) {
    return state == -112 || (state >= -1 && state <= 7 && state != 2);
}

static bool is_event(const uint8_t *payload, size_t there, uint32_t size) {
    if (size < 28) {
        return false;
    }
    if (there < 28) {
        return true;
    }
    int32_t kind = int_at(payload + 16), length = int_at(payload + 24);
    return kind >= -1 && kind <= 7 && is_state(int_at(payload + 20)) &&
           size == 28 + (uint64_t)(length > 0 ? length : 0) && (there == 28 || payload[28] == '/');
}

static bool is_reply(const uint8_t *payload, size_t there, uint32_t size) {
    int32_t xid = int_at(payload), err = int_at(payload + 12);
    int64_t zxid = long_at(payload + 4);
    if (xid == XID_EVENT) {
        return err == 0 && is_event(payload, there, size);
    }
    if (xid == XID_PING || xid == XID_AUTH || xid == XID_SET_WATCHES) {
        return size == REPLY_HEAD;
    }
    if (err != 0) {
        return xid > 0 && zxid >= -1 && size == REPLY_HEAD && err < 0 && err >= -200;
    }
    return xid > 0 && zxid > 0 &&
           (size == REPLY_HEAD || size == REPLY_HEAD + 4 || size == REPLY_HEAD + STAT_SIZE ||
            there < (size < 28 ? size : 28) || is_body(payload, there, size));
}

static size_t head_of(uint32_t side) {
    return FRAME_HEAD + (side == ZK_CLIENT ? REQUEST_HEAD : REPLY_HEAD);
}

bool frame_is_plausible(uint32_t side, const uint8_t *frame, size_t there, uint32_t limit) {
    if (there < head_of(side)) {
        return false;
    }
    int32_t length = int_at(frame);
    if (length < 0 || (uint32_t)length > limit || (size_t)length + FRAME_HEAD < head_of(side)) {
        return false;
    }
    uint32_t size = (uint32_t)length;
    size_t payload = there - FRAME_HEAD < size ? there - FRAME_HEAD : size;
    return (side == ZK_CLIENT ? is_request : is_reply)(frame + FRAME_HEAD, payload, size);
}

enum follow { NO, YES, PERHAPS };

/* Whether plausible frames follow one another from this place on; perhaps where more bytes are needed to know it. */
static enum follow frames_follow(uint32_t side, const uint8_t *bytes, size_t length, size_t at, uint32_t limit) {
    for (int seen = 0; at < length && seen < ENOUGH; seen++) {
        size_t there = length - at;
        if (there < head_of(side)) {
            return PERHAPS;
        }
        if (!frame_is_plausible(side, bytes + at, there, limit)) {
            return NO;
        }
        size_t size = FRAME_HEAD + (size_t)int_at(bytes + at);
        if (there < size) {
            return PERHAPS;
        }
        at += size;
    }
    return YES;
}

/* Whether these few bytes may begin the head of a plausible frame. */
static bool may_begin(uint32_t side, const uint8_t *at) {
    if (at[0] > 1) {
        return false;
    }
    int32_t op = int_at(at + 8);
    if (side == ZK_CLIENT) {
        return (op > 0 && op <= 107) || op == OP_CLOSE;
    }
    int64_t zxid = long_at(at + 8);
    int32_t xid = int_at(at + 4), err = int_at(at + 16);
    return xid >= XID_SET_WATCHES && zxid >= -1 && (err == 0 || (err < 0 && err >= -256));
}

struct hole_end hole_end(uint32_t side, const uint8_t *bytes, size_t length, uint32_t limit) {
    size_t head = head_of(side), keep = length < head ? 0 : length - head + 1;
    for (size_t at = 0; at + head <= length; at++) {
        enum follow follow = may_begin(side, bytes + at) ? frames_follow(side, bytes, length, at, limit) : NO;
        if (follow == YES) {
            return (struct hole_end){true, at};
        }
        if (follow == PERHAPS && at < keep) {
            keep = at;
        }
    }
    return (struct hole_end){false, length - keep > MOST_KEPT ? length - MOST_KEPT : keep};
}
