/* message.h
 * The fields of a payload of ZooKeeper's client protocol, as the proved library reads them.
 *
 * SPDX-License-Identifier: GPL-2.0-or-later
 */
#ifndef ZOOKEEPER_MESSAGE_H
#define ZOOKEEPER_MESSAGE_H

#include <stdbool.h>
#include <stddef.h>
#include <stdint.h>

#include "zk.h"

/* Operations that this plugin has to know by their numbers. */
enum {
    OP_EXISTS = 3, OP_PING = 11, OP_MULTI = 14, OP_AUTH = 100, OP_SET_WATCHES = 101, OP_SASL = 102, OP_CLOSE = -11,
    OP_FAILED = -1, OP_CONNECT = -10 /* which a server calls createSession; no message has it */
};

/* The profile that has the most operations. */
enum { NEWEST_PROFILE = ZK_PROFILE_37 };

/* An error that is no failure where exists hears it. */
enum { NO_NODE = -101 };

/* Xids of requests that aren't numbered by their client, and of events. */
enum { XID_EVENT = -1, XID_PING = -2, XID_AUTH = -4, XID_SET_WATCHES = -8 };

enum { FRAME_HEAD = 4, REQUEST_HEAD = 8, REPLY_HEAD = 16, STAT_SIZE = 68, PART_HEAD = 9 };

/* What a reply answers: an operation, and of a multi the operations of its parts. */
struct asked {
    int32_t op;
    uint32_t count;
    const int32_t *parts;
};

/* What the library says of a payload. `status` is ZK_WELL also where there are more fields than room. `end` is where
 * the fields that were read end, if there was room for all; `head_alone`: of a reply whose body isn't read. */
struct message {
    struct zk_read read;
    uint32_t end;
    bool head_alone;
};

/* Reads a payload of this kind (ZK_CONNECT and so on), a request under this profile, a reply by what it answers. Of a
 * reply where that is NULL, or where the library has no such operation, the header alone is read. The first `room`
 * fields are written; no memory is taken. */
struct message message_read(uint32_t kind, uint32_t profile, const struct asked *asked, const uint8_t *payload,
                            size_t length, struct zk_field *out, size_t room);

/* Whether the library reads replies to this operation after their header. */
bool message_knows_reply(int32_t op);

/* Where the last header of a multi, or of its results, begins, which the library doesn't list; 0 where it wasn't
 * read. */
uint32_t message_last_header(const struct message *message, int32_t op);

/* The big-endian int at `at`. */
static inline int32_t int_at(const uint8_t *at) {
    return (int32_t)((uint32_t)at[0] << 24 | (uint32_t)at[1] << 16 | (uint32_t)at[2] << 8 | at[3]);
}

static inline int64_t long_at(const uint8_t *at) {
    return (int64_t)((uint64_t)(uint32_t)int_at(at) << 32 | (uint32_t)int_at(at + 4));
}

#endif
