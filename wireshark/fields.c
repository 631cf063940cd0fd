/* fields.c
 * The fields of payloads, by the library's calls. It knows nothing of Wireshark.
 *
 * SPDX-License-Identifier: GPL-2.0-or-later
 */
#include "message.h"

bool message_knows_reply(int32_t op) {
    return zk_judge_reply(op, NULL, 0, NULL, 0).status != ZK_RANGE;
}

/* Reads a reply by its header, as that to a ping has no more; what follows is not read, and is no fault. */
static struct zk_read read_head(const uint8_t *payload, size_t length) {
    struct zk_read read = zk_read_reply(OP_PING, NULL, 0, payload, length, NULL, 0);
    read.operation = 0;
    if (read.status == ZK_TRAILING) {
        read.status = ZK_WELL;
    }
    return read;
}

static struct zk_read read_of(uint32_t kind, uint32_t profile, const struct asked *asked, const uint8_t *payload,
                              size_t length, struct zk_field *out, size_t room) {
    switch (kind) {
    case ZK_CONNECT:
        return zk_read_first(payload, length, out, room);
    case ZK_REQUEST:
        return zk_read_request(profile, payload, length, out, room);
    case ZK_CONNECTED:
        return zk_read_connected(payload, length, out, room);
    case ZK_EVENT:
        return zk_read_event(payload, length, out, room);
    default:
        return asked == NULL ? read_head(payload, length)
                             : zk_read_reply(asked->op, asked->parts, asked->count, payload, length, out, room);
    }
}

/* Where those fields of the header end that are whole in this many bytes. */
static uint32_t head_end(uint32_t kind, size_t length) {
    static const uint32_t of_request[] = {REQUEST_HEAD, 4, 0}, of_reply[] = {REPLY_HEAD, 12, 4, 0};
    if (kind == ZK_CONNECT || kind == ZK_CONNECTED) {
        return 0;
    }
    const uint32_t *end = kind == ZK_REQUEST ? of_request : of_reply;
    while (*end > length) {
        end++;
    }
    return *end;
}

struct message message_read(uint32_t kind, uint32_t profile, const struct asked *asked, const uint8_t *payload,
                            size_t length, struct zk_field *out, size_t room) {
    struct message message;
    if (asked != NULL && !message_knows_reply(asked->op)) {
        asked = NULL;
    }
    message.read = read_of(kind, profile, asked, payload, length, out, room);
    message.head_alone = kind == ZK_REPLY && asked == NULL;
    message.end = head_end(kind, length);
    if (message.read.status == ZK_ROOM) {
        message.read.status = ZK_WELL;
    }
    uint32_t status = message.read.status, count = message.read.count;
    if (status == ZK_WELL && !message.head_alone) {
        message.end = (uint32_t)length;
    } else if (status == ZK_TRAILING) {
        message.end = message.read.place;
    } else if (count > 0 && count <= room) {
        message.end = out[count - 1].place + out[count - 1].length;
    }
    return message;
}

uint32_t message_last_header(const struct message *message, int32_t op) {
    bool whole = message->read.status == ZK_WELL || message->read.status == ZK_TRAILING;
    if (op != OP_MULTI || !whole || message->head_alone || message->read.err != 0) {
        return 0;
    }
    return message->end - PART_HEAD;
}
