/* A decoder by hand, to measure the library beside: the fields of a conversation's messages, in the same form.
 *
 * It cuts frames, pairs replies with requests, and judges each item as the library does: lengths, booleans, UTF-8, and
 * that nothing follows. It knows the operations of make_recording.py's small mix, and reports no place. */
#include "zk.h"

#include <string.h>

enum { HAND_QUEUE = 65536, HAND_PARTS = 1 << 18, HAND_FRAME = 1 << 22 };

/* Requests that wait for replies in their order; the parts of multis are in a ring of their own. */
struct hand_lane {
    uint32_t first, count;
    int32_t operations[HAND_QUEUE];
};

struct hand {
    const uint8_t *bytes; /* the payload */
    uint32_t at, length, count;
    struct zk_field *out;
    bool good;
    bool connected[2];
    struct hand_lane lanes[2]; /* pings, and all others */
    uint32_t part_first, part_last;
    int32_t parts[HAND_PARTS];
    uint32_t kept[2]; /* bytes of a frame that has come in part */
    uint8_t frames[2][HAND_FRAME + 4];
};

static inline int32_t hand_int_at(const uint8_t *at) {
    return (int32_t)((uint32_t)at[0] << 24 | (uint32_t)at[1] << 16 | (uint32_t)at[2] << 8 | at[3]);
}

static inline int64_t hand_long_at(const uint8_t *at) {
    return (int64_t)((uint64_t)(uint32_t)hand_int_at(at) << 32 | (uint32_t)hand_int_at(at + 4));
}

static inline bool hand_there(struct hand *it, uint32_t size) {
    if (it->length - it->at < size) it->good = false;
    return it->good;
}

static inline void hand_put(struct hand *it, uint32_t length, int64_t number, uint16_t name, uint8_t kind,
                            uint8_t null) {
    it->out[it->count++] = (struct zk_field){it->at, length, number, name, kind, null};
    it->at += length;
}

static inline void hand_int(struct hand *it, uint16_t name) {
    if (hand_there(it, 4)) hand_put(it, 4, hand_int_at(it->bytes + it->at), name, ZK_KIND_INT, 0);
}

static inline void hand_long(struct hand *it, uint16_t name) {
    if (hand_there(it, 8)) hand_put(it, 8, hand_long_at(it->bytes + it->at), name, ZK_KIND_LONG, 0);
}

static inline void hand_bool(struct hand *it, uint16_t name) {
    if (hand_there(it, 1) && it->bytes[it->at] <= 1) hand_put(it, 1, it->bytes[it->at], name, ZK_KIND_BOOL, 0);
    else it->good = false;
}

/* Whether the bytes are UTF-8. */
static bool hand_utf8(const uint8_t *at, uint32_t length) {
    uint32_t i = 0;
    while (i < length) {
        uint64_t eight;
        if (length - i >= 8) {
            memcpy(&eight, at + i, 8);
            if ((eight & 0x8080808080808080u) == 0) {
                i += 8;
                continue;
            }
        }
        uint8_t byte = at[i++];
        if (byte < 0x80) continue;
        uint32_t more = byte < 0xc2 || byte > 0xf4 ? 0 : byte < 0xe0 ? 1 : byte < 0xf0 ? 2 : 3;
        if (more == 0 || length - i < more) return false;
        uint8_t least = byte == 0xe0 ? 0xa0 : byte == 0xf0 ? 0x90 : 0x80;
        uint8_t most = byte == 0xed ? 0x9f : byte == 0xf4 ? 0x8f : 0xbf;
        if (at[i] < least || at[i] > most) return false;
        for (uint32_t j = 1; j < more; j++)
            if ((at[i + j] & 0xc0) != 0x80) return false;
        i += more;
    }
    return true;
}

static inline void hand_bytes(struct hand *it, uint16_t name, uint8_t kind) {
    if (!hand_there(it, 4)) return;
    int32_t length = hand_int_at(it->bytes + it->at);
    it->at += 4;
    if (length == -1) hand_put(it, 0, 0, name, kind, 1);
    else if (length < 0 || it->length - it->at < (uint32_t)length) it->good = false;
    else if (kind == ZK_KIND_TEXT && !hand_utf8(it->bytes + it->at, (uint32_t)length)) it->good = false;
    else hand_put(it, (uint32_t)length, 0, name, kind, 0);
}

static inline void hand_text(struct hand *it, uint16_t name) {
    hand_bytes(it, name, ZK_KIND_TEXT);
}

/* The count of a list; 0 if it is null or isn't there. */
static inline int32_t hand_list(struct hand *it, uint16_t name) {
    if (!hand_there(it, 4)) return 0;
    int32_t count = hand_int_at(it->bytes + it->at);
    if (count < -1) it->good = false;
    else hand_put(it, 4, count < 0 ? 0 : count, name, ZK_KIND_LIST, count < 0);
    return count < 0 ? 0 : count;
}

static void hand_texts(struct hand *it, uint16_t name) {
    for (int32_t left = hand_list(it, name); left > 0 && it->good; left--) hand_text(it, name);
}

static void hand_rights(struct hand *it) {
    for (int32_t left = hand_list(it, ZK_NAME_ACL); left > 0 && it->good; left--) {
        hand_int(it, ZK_NAME_PERMS);
        hand_text(it, ZK_NAME_SCHEME);
        hand_text(it, ZK_NAME_ID);
    }
}

static void hand_stat(struct hand *it) {
    for (uint16_t name = ZK_NAME_CZXID; name <= ZK_NAME_MTIME; name++) hand_long(it, name);
    hand_int(it, ZK_NAME_VERSION);
    hand_int(it, ZK_NAME_CVERSION);
    hand_int(it, ZK_NAME_AVERSION);
    hand_long(it, ZK_NAME_EPHEMERAL_OWNER);
    hand_int(it, ZK_NAME_DATA_LENGTH);
    hand_int(it, ZK_NAME_NUM_CHILDREN);
    hand_long(it, ZK_NAME_PZXID);
}

/* The header of a part or a result: its operation, or 0 for the end. */
static int32_t hand_part(struct hand *it) {
    if (!hand_there(it, 9) || it->bytes[it->at + 4] > 1) {
        it->good = false;
        return 0;
    }
    int32_t operation = hand_int_at(it->bytes + it->at);
    if (it->bytes[it->at + 4] == 1) {
        it->at += 9;
        return 0;
    }
    hand_put(it, 9, operation, ZK_NAME_NONE, ZK_KIND_PART, 0);
    return operation;
}

static void hand_ask(struct hand *it, int32_t operation);

static void hand_multi(struct hand *it) {
    uint32_t from = it->part_last;
    for (int32_t part; (part = hand_part(it)) != 0 && it->good;) {
        if (part != 1 && part != 2 && part != 5 && part != 13) it->good = false;
        else hand_ask(it, part);
        it->parts[it->part_last++ % HAND_PARTS] = part;
    }
    it->good = it->good && it->part_last - from < HAND_PARTS;
    it->parts[it->part_last++ % HAND_PARTS] = 0;
}

/* The body of a request, or of a part. */
static void hand_ask(struct hand *it, int32_t operation) {
    if (operation == 14) {
        hand_multi(it);
        return;
    }
    if (operation == 11) return;
    if (operation == 101) {
        hand_long(it, ZK_NAME_ZXID);
        for (uint16_t name = ZK_NAME_DATA_WATCHES; name <= ZK_NAME_CHILD_WATCHES; name++) hand_texts(it, name);
        return;
    }
    hand_text(it, ZK_NAME_PATH);
    switch (operation) {
    case 1: hand_bytes(it, ZK_NAME_DATA, ZK_KIND_BLOB); hand_rights(it); hand_int(it, ZK_NAME_FLAGS); break;
    case 2: case 13: hand_int(it, ZK_NAME_VERSION); break;
    case 3: case 4: case 8: case 12: hand_bool(it, ZK_NAME_WATCH); break;
    case 5: hand_bytes(it, ZK_NAME_DATA, ZK_KIND_BLOB); hand_int(it, ZK_NAME_VERSION); break;
    case 6: case 9: break;
    case 7: hand_rights(it); hand_int(it, ZK_NAME_VERSION); break;
    default: it->good = false;
    }
}

static void hand_body(struct hand *it, int32_t operation);

static void hand_results(struct hand *it) {
    for (;;) {
        int32_t part = hand_part(it), asked = it->parts[it->part_first++ % HAND_PARTS];
        if (part == -1) hand_int(it, ZK_NAME_ERR);
        else if (part != asked) it->good = false;
        else if (part != 0) hand_body(it, part);
        if (part == 0 || !it->good) return;
    }
}

/* The body of a reply to this operation, or of a result. */
static void hand_body(struct hand *it, int32_t operation) {
    switch (operation) {
    case 1: case 9: hand_text(it, ZK_NAME_PATH); break;
    case 2: case 11: case 13: case 101: break;
    case 3: case 5: case 7: hand_stat(it); break;
    case 4: hand_bytes(it, ZK_NAME_DATA, ZK_KIND_BLOB); hand_stat(it); break;
    case 6: hand_rights(it); hand_stat(it); break;
    case 8: hand_texts(it, ZK_NAME_CHILDREN); break;
    case 12: hand_texts(it, ZK_NAME_CHILDREN); hand_stat(it); break;
    case 14: hand_results(it); break;
    default: it->good = false;
    }
}

static void hand_connect(struct hand *it, uint32_t side) {
    hand_int(it, ZK_NAME_PROTOCOL_VERSION);
    if (side == ZK_CLIENT) hand_long(it, ZK_NAME_LAST_ZXID_SEEN);
    hand_int(it, ZK_NAME_TIME_OUT);
    hand_long(it, ZK_NAME_SESSION_ID);
    hand_bytes(it, ZK_NAME_PASSWD, ZK_KIND_BLOB);
    if (it->good && it->at < it->length) hand_bool(it, ZK_NAME_READ_ONLY);
    it->connected[side] = true;
}

/* Reads the fields of a side's next payload. */
static bool hand_read(struct hand *it, uint32_t side, const uint8_t *payload, uint32_t length) {
    it->bytes = payload;
    it->length = length;
    it->at = it->count = 0;
    it->good = true;
    if (!it->connected[side]) {
        hand_connect(it, side);
    } else if (hand_there(it, side == ZK_CLIENT ? 8 : 16)) {
        int32_t xid = hand_int_at(payload);
        struct hand_lane *lane = &it->lanes[xid != -2];
        if (side == ZK_CLIENT) {
            int32_t operation = hand_int_at(payload + 4);
            it->at = 8;
            it->good = lane->count < HAND_QUEUE;
            lane->operations[(lane->first + lane->count++) % HAND_QUEUE] = operation;
            hand_ask(it, operation);
        } else if (xid == -1) {
            it->at = 16;
            hand_int(it, ZK_NAME_TYPE);
            hand_int(it, ZK_NAME_STATE);
            hand_text(it, ZK_NAME_PATH);
        } else {
            int32_t operation = lane->operations[lane->first++ % HAND_QUEUE];
            it->at = 16;
            it->good = lane->count-- > 0;
            if (hand_int_at(payload + 12) == 0) hand_body(it, operation);
            else if (operation == 14)
                while (it->parts[it->part_first++ % HAND_PARTS] != 0) {}
        }
    }
    return it->good && it->at == length;
}

/* Takes bytes of a side up to the end of a frame; returns how many, 0 for a fault. `whole` says whether fields came. */
static uint32_t hand_step(struct hand *it, uint32_t side, const uint8_t *piece, uint32_t length, bool *whole) {
    uint8_t *frame = it->frames[side];
    uint32_t kept = it->kept[side], used = 0, size;
    *whole = false;
    if (kept == 0 && length >= 4) {
        size = 4 + (uint32_t)hand_int_at(piece);
        if (size > HAND_FRAME) return 0;
        if (length >= size) {
            *whole = true;
            return hand_read(it, side, piece + 4, size - 4) ? size : 0;
        }
    }
    while (kept < 4 && used < length) frame[kept++] = piece[used++];
    if (kept >= 4) {
        size = 4 + (uint32_t)hand_int_at(frame);
        if (size > HAND_FRAME) return 0;
        uint32_t more = size - kept < length - used ? size - kept : length - used;
        memcpy(frame + kept, piece + used, more);
        kept += more;
        used += more;
        *whole = kept == size;
        if (*whole && !hand_read(it, side, frame + 4, size - 4)) return 0;
        if (*whole) kept = 0;
    }
    it->kept[side] = kept;
    return used;
}
