/* pairs.c
 * Requests and their replies: by xid, the oldest first, as a server answers them.
 *
 * SPDX-License-Identifier: GPL-2.0-or-later
 */
#include "zookeeper.h"

#include "names.h"

/* A reply that was captured before its request was captured within this number of messages of it. */
enum { MOST_EARLY = 64 };

/* Xids that a client doesn't choose are those of requests that are answered in an order of their own. */
static gboolean is_own(gint32 xid) {
    return xid != XID_PING && xid != XID_AUTH && xid != XID_SET_WATCHES;
}

static struct queue *queue_of(struct connection *connection, gint32 xid) {
    return (struct queue *)wmem_map_lookup(connection->waiting, GINT_TO_POINTER(xid));
}

static void link_call(struct calls *calls, struct call *call) {
    call->before = calls->newest;
    *(call->before ? &call->before->behind : &calls->oldest) = call;
    calls->newest = call;
}

static void unlink_call(struct calls *calls, struct call *call) {
    *(call->before ? &call->before->behind : &calls->oldest) = call->behind;
    *(call->behind ? &call->behind->before : &calls->newest) = call->before;
    call->before = call->behind = NULL;
}

static void wait_for_reply(struct connection *connection, struct call *call) {
    struct queue *queue = queue_of(connection, call->xid);
    if (!queue) {
        queue = wmem_new0(wmem_file_scope(), struct queue);
        wmem_map_insert(connection->waiting, GINT_TO_POINTER(call->xid), queue);
    }
    *(queue->last ? &queue->last->same : &queue->first) = call;
    queue->last = call;
    if (is_own(call->xid)) {
        link_call(&connection->calls, call);
    }
}

/* The operations of a multi's parts, of a request that has this number of fields. */
static void note_parts(struct call *call, const guint8 *payload, guint32 length, guint32 count) {
    struct zk_field *fields = wmem_alloc_array(NULL, struct zk_field, count);
    message_read(ZK_REQUEST, NEWEST_PROFILE, NULL, payload, length, fields, count);
    for (guint32 k = 0; k < count; k++) {
        call->count += fields[k].kind == ZK_KIND_PART;
    }
    call->parts = wmem_alloc0_array(wmem_file_scope(), gint32, call->count);
    for (guint32 k = 0, part = 0; k < count; k++) {
        if (fields[k].kind == ZK_KIND_PART) {
            call->parts[part++] = (gint32)fields[k].number;
        }
    }
    wmem_free(NULL, fields);
}

/* Whether a multi isn't read to its end since a part of it is an operation of a later release. */
static gboolean has_later_part(const guint8 *payload, guint32 length) {
    struct message message = message_read(ZK_REQUEST, (guint32)pref_profile, NULL, payload, length, NULL, 0);
    guint32 place = message.read.place;
    gboolean is_part = message.read.status == ZK_BAD_PART && length >= 4 && place <= length - 4;
    return is_part && op_is_newer(int_at(payload + place));
}

/* What a request asks: its path, and of a multi the operations of its parts. */
static void note_asked(struct call *call, const guint8 *payload, guint32 length) {
    enum { FIRST = 8 }; /* a path is among the first fields */
    struct zk_field first[FIRST];
    struct message message = message_read(ZK_REQUEST, NEWEST_PROFILE, NULL, payload, length, first, FIRST);
    const struct zk_field *path = field_of(first, MIN(message.read.count, FIRST), ZK_NAME_PATH);
    call->is_known = message.read.status == ZK_WELL;
    if (path && !path->null) {
        call->path = text_of(wmem_file_scope(), payload + path->place, path->length);
    }
    call->later_part = call->op == OP_MULTI && has_later_part(payload, length);
    if (call->op == OP_MULTI && call->is_known) {
        note_parts(call, payload, length, message.read.count);
    }
}

struct call *call_new(struct connection *connection, packet_info *pinfo, struct frame *frame, const guint8 *payload,
                      guint32 length) {
    struct call *call = wmem_new0(wmem_file_scope(), struct call);
    call->xid = int_at(payload);
    call->op = int_at(payload + 4);
    call->asked = pinfo->num;
    call->when = pinfo->abs_ts;
    note_asked(call, payload, length);
    frame->call = call;
    struct frame *early = (struct frame *)wmem_map_lookup(connection->early, GINT_TO_POINTER(call->xid));
    if (early && frame->count - early->count <= MOST_EARLY) {
        wmem_map_remove(connection->early, GINT_TO_POINTER(call->xid));
        early->call = call;
        early->unasked = FALSE;
        call->answered = early->packet;
    } else {
        wait_for_reply(connection, call);
    }
    return call;
}

void call_connect(struct connection *connection, packet_info *pinfo, struct frame *frame) {
    if (!connection->connect) {
        connection->connect = wmem_new0(wmem_file_scope(), struct call);
        connection->connect->op = OP_CONNECT;
    }
    frame->call = connection->connect;
    if (frame->kind == ZK_CONNECT) {
        frame->call->asked = pinfo->num;
        frame->call->when = pinfo->abs_ts;
    } else {
        frame->call->answered = pinfo->num;
    }
}

/* The waiting request that a reply with this xid answers. */
static struct call *take(struct connection *connection, gint32 xid) {
    struct queue *queue = queue_of(connection, xid);
    if (!queue || !queue->first) {
        return NULL;
    }
    struct call *call = queue->first;
    if (xid == XID_PING && connection->late) {
        call = queue->last; /* if a ping was lost, those after it keep their replies */
        queue->first = NULL;
    } else {
        queue->first = call->same;
    }
    if (!queue->first) {
        queue->last = NULL;
    }
    return call;
}

void call_answer(struct connection *connection, packet_info *pinfo, struct frame *frame) {
    struct call *call = take(connection, frame->xid);
    if (!call) {
        frame->unasked = TRUE;
        if (is_own(frame->xid)) {
            wmem_map_insert(connection->early, GINT_TO_POINTER(frame->xid), frame);
        }
        return;
    }
    frame->call = call;
    call->answered = pinfo->num;
    if (!is_own(call->xid)) {
        return;
    }
    struct calls *calls = call->passed ? &connection->passed : &connection->calls;
    if (calls->oldest != call) {
        frame->disordered = TRUE;
        frame->expected = calls->oldest->xid;
    }
    while (!call->passed && calls->oldest != call) {
        struct call *passed = calls->oldest;
        passed->passed = TRUE;
        unlink_call(calls, passed);
        link_call(&connection->passed, passed);
    }
    unlink_call(calls, call);
}
