/* show.c
 * What a packet shows of each of its messages.
 *
 * SPDX-License-Identifier: GPL-2.0-or-later
 */
#include "zookeeper.h"

#include <epan/proto_data.h>
#include <epan/strutil.h>
#include <epan/tap.h>
#include <epan/to_str.h>
#include <string.h>

#include "names.h"

/* A frame, as it is shown. */
struct shown {
    tvbuff_t *tvb;
    packet_info *pinfo;
    proto_item *item;
    proto_tree *tree;
    const struct connection *connection;
    const struct frame *frame;
    guint32 side;
    guint32 there, size; /* of the frame: the bytes that were captured, and all */
    gint32 op;           /* of a request, or of the request that a reply answers */
    const struct zk_field *fields;
    size_t count;
    struct message message;
};

static void generated(proto_item *item) {
    proto_item_set_generated(item);
}

static const struct zk_field *shown_field(const struct shown *shown, guint16 name) {
    return field_of(shown->fields, shown->count, name);
}

static const char *error_text(packet_info *pinfo, gint32 err) {
    const char *name = try_val_to_str((guint32)err, error_names);
    return name ? name : wmem_strdup_printf(pinfo->pool, "error %d", err);
}

static const char *op_text(packet_info *pinfo, gint32 op) {
    const char *name = try_val_to_str((guint32)op, op_names);
    return name ? name : wmem_strdup_printf(pinfo->pool, "operation %d", op);
}

/* The line of a message, without its password or credential where these are hidden. */
static const char *line_of(const struct shown *shown) {
    const char *line = shown->frame->line, *secret = NULL;
    if (shown->frame->kind == ZK_CONNECT || shown->frame->kind == ZK_CONNECTED) {
        secret = strstr(line, " passwd=#");
    } else if (shown->frame->kind == ZK_REQUEST && shown->op == OP_AUTH) {
        secret = strrchr(line, ' '); /* the last item, which has no blank */
    }
    if (!secret || !strchr(secret, '#') || !pref_hide) {
        return line;
    }
    int before = (int)(strchr(secret, '#') - line);
    const char *behind = strchr(secret + 1, ' ');
    return wmem_strdup_printf(shown->pinfo->pool, "%.*s(hidden)%s", before, line, behind ? behind : "");
}

/* Whether all of the header is there, of a message that has one. */
static gboolean has_head(const struct shown *shown) {
    return shown->there >= FRAME_HEAD + (shown->frame->kind == ZK_REQUEST ? REQUEST_HEAD : REPLY_HEAD);
}

/* Divides the words of a packet's messages, in the packet list. */
static void begin_words(packet_info *pinfo) {
    if (p_get_proto_data(pinfo->pool, pinfo, proto_zookeeper, KEY_WORDS)) {
        col_append_str(pinfo->cinfo, COL_INFO, " | ");
    } else {
        p_add_proto_data(pinfo->pool, pinfo, proto_zookeeper, KEY_WORDS, pinfo);
    }
}

/* The words of the packet list. */
static void show_info(const struct shown *shown, const char *path) {
    column_info *cinfo = shown->pinfo->cinfo;
    packet_info *pinfo = shown->pinfo;
    const struct zk_read *read = &shown->message.read;
    const struct zk_field *session = shown_field(shown, ZK_NAME_SESSION_ID), *event = shown_field(shown, ZK_NAME_TYPE);
    const char *xid = shown->there < FRAME_HEAD + 4 ? "?" : wmem_strdup_printf(pinfo->pool, "%d", read->xid);
    guint64 number = session ? (guint64)session->number : 0;
    begin_words(pinfo);
    switch (shown->frame->kind) {
    case ZK_CONNECT:
        col_append_str(cinfo, COL_INFO, "connect");
        if (number) {
            col_append_fstr(cinfo, COL_INFO, " session 0x%" PRIx64, number);
        }
        break;
    case ZK_CONNECTED:
        col_append_fstr(cinfo, COL_INFO, number ? "connected session 0x%" PRIx64
                                         : session ? "not connected" : "connect response", number);
        break;
    case ZK_EVENT:
        col_append_fstr(cinfo, COL_INFO, "event %s", event ? name_of((gint32)event->number, event_kind_names) : "?");
        break;
    case ZK_REQUEST:
        col_append_fstr(cinfo, COL_INFO, "%s #%s", has_head(shown) ? op_text(pinfo, shown->op) : "request", xid);
        break;
    case ZK_REPLY:
        col_append_fstr(cinfo, COL_INFO, "%s #%s %s", shown->frame->call ? op_text(pinfo, shown->op) : "reply", xid,
                        has_head(shown) ? error_text(pinfo, read->err) : "?");
        break;
    default:
        col_append_str(cinfo, COL_INFO, "no frame");
    }
    if (path && *path) {
        col_append_fstr(cinfo, COL_INFO, " %s", format_text(pinfo->pool, (const void *)path, strlen(path)));
    }
}

/* The reason and the place of a fault, marked at its byte. */
static proto_item *show_fault(const struct shown *shown, guint32 reason, guint32 place) {
    guint32 last = shown->there ? shown->there - 1 : 0;
    int at = (int)MIN(FRAME_HEAD + (guint64)place, last);
    proto_item *item = proto_tree_add_uint(shown->tree, hf_reason, shown->tvb, at, 1, reason);
    generated(item);
    generated(proto_tree_add_uint(shown->tree, hf_place, shown->tvb, at, 1, place));
    col_append_fstr(shown->pinfo->cinfo, COL_INFO, " [%s at %u]", val_to_str_const(reason, reason_names, "?"), place);
    return item;
}

/* That the library refuses the conversation here. */
static void show_refusal(const struct shown *shown) {
    const struct zk_fault *fault = &shown->frame->fault;
    proto_item *item = show_fault(shown, fault->reason, fault->place);
    const char *xids = fault->reason != ZK_XID_ORDER ? "" : wmem_strdup_printf(
        shown->pinfo->pool, " expected=%d got=%d", fault->expected, fault->got);
    expert_add_info_format(shown->pinfo, item, &ei_refused, "Refused: side=%s frame=%" PRIu64 " offset=%" PRIu64
                           " place=%u reason=%s%s", side_names[fault->side].strptr, fault->frame, fault->offset,
                           fault->place, val_to_str_const(fault->reason, reason_names, "?"), xids);
    if (shown->frame->passed_over) {
        expert_add_info(shown->pinfo, item, &ei_passed_over);
    }
}

/* Whether a verdict says nothing of a payload. */
static gboolean is_unjudged(enum verdict verdict) {
    return verdict == VERDICT_NONE || verdict == VERDICT_UNSEEN;
}

/* The strict verdict; and, where there is none, why not, and what couldn't be read. */
static void show_verdict(const struct shown *shown) {
    const struct connection *connection = shown->connection;
    packet_info *pinfo = shown->pinfo;
    enum verdict said = shown->frame->verdict;
    guint32 status = shown->message.read.status;
    proto_item *verdict = proto_tree_add_uint(shown->tree, hf_verdict, shown->tvb, 0, 0, said);
    generated(verdict);
    if (said == VERDICT_REFUSED) {
        show_refusal(shown);
        return;
    }
    if (said == VERDICT_NONE && pref_strict) {
        if (connection->refused && connection->refused < pinfo->num) {
            proto_item_append_text(verdict, ": refused in packet %u", connection->refused);
        } else if (connection->unjudged && connection->unjudged <= pinfo->num) {
            proto_item_append_text(verdict, ": since packet %u the connection %s", connection->unjudged,
                                   connection->why);
        }
    }
    if (status == ZK_UNKNOWN_OP && (said == VERDICT_LEFT_OUT || op_is_newer(shown->op))) {
        expert_add_info_format(pinfo, verdict, &ei_newer, "%s is not of the profile: its request is not read",
                               op_text(pinfo, shown->op));
    } else if (status == ZK_BAD_PART && shown->frame->call && shown->frame->call->later_part) {
        expert_add_info(pinfo, verdict, &ei_newer);
    } else if (is_unjudged(said) && status != ZK_WELL && (status != ZK_SHORT || shown->there == shown->size)) {
        expert_add_info(pinfo, show_fault(shown, status, shown->message.read.place), &ei_unread);
    }
}

/* Of a reply: its request, and how long it took. */
static void show_request(const struct shown *shown, const struct call *call) {
    packet_info *pinfo = shown->pinfo;
    proto_tree *tree = shown->tree;
    tvbuff_t *tvb = shown->tvb;
    guint32 asked = call->later && PINFO_FD_VISITED(pinfo) ? call->later : call->asked;
    if (call->op != OP_CONNECT) {
        generated(proto_tree_add_int(tree, hf_field[FIELD_OP], tvb, 0, 0, call->op));
    }
    if (call->path && !shown_field(shown, ZK_NAME_PATH)) {
        generated(proto_tree_add_string(tree, hf_field[FIELD_PATH], tvb, 0, 0, call->path));
    }
    generated(proto_tree_add_uint(tree, hf_response_to, tvb, 0, 0, asked));
    if (nstime_cmp(&pinfo->abs_ts, &call->when) >= 0) {
        nstime_t took;
        nstime_delta(&took, &pinfo->abs_ts, &call->when);
        generated(proto_tree_add_time(tree, hf_response_time, tvb, 0, 0, &took));
    }
    if (call->later_part && !call->is_known) {
        expert_add_info(pinfo, shown->item, &ei_newer);
    } else if (call->op != OP_CONNECT && !message_knows_reply(call->op)) {
        expert_add_info_format(pinfo, shown->item, &ei_newer, "%s is not of the profile: its reply is not read",
                               op_text(pinfo, call->op));
    }
}

/* What belongs to a frame besides its fields: its session, and of a pair the other packet. */
static void show_pair(const struct shown *shown) {
    const struct frame *frame = shown->frame;
    const struct call *call = frame->call;
    if (frame->session && !shown_field(shown, ZK_NAME_SESSION_ID)) {
        generated(proto_tree_add_uint64(shown->tree, hf_field[FIELD_SESSION], shown->tvb, 0, 0, frame->session));
    }
    if (is_asking(frame) && call->answered) {
        generated(proto_tree_add_uint(shown->tree, hf_response_in, shown->tvb, 0, 0, call->answered));
    }
    if (is_answer(frame)) {
        show_request(shown, call);
    }
    if (frame->disordered) {
        generated(proto_tree_add_int(shown->tree, hf_expected_xid, shown->tvb, 0, 0, frame->expected));
        expert_add_info_format(shown->pinfo, shown->item, &ei_order, "The oldest request that waits has xid %d",
                               frame->expected);
    }
    if (frame->unasked) {
        expert_add_info(shown->pinfo, shown->item, &ei_unasked);
    }
}

static void tell(const struct shown *shown) {
    const struct zk_field *event = shown_field(shown, ZK_NAME_TYPE);
    struct told *told = wmem_new0(shown->pinfo->pool, struct told);
    told->kind = shown->frame->kind;
    told->op = shown->op;
    told->err = shown->message.read.err;
    told->event = event ? (gint32)event->number : 0;
    told->is_known = told->kind == ZK_EVENT ? event != NULL : has_head(shown);
    told->call = is_answer(shown->frame) ? shown->frame->call : NULL;
    tap_queue_packet(tap_zookeeper, shown->pinfo, told);
}

/* Reads the payload by what is known of its request. */
static void read_fields(struct shown *shown) {
    static struct zk_field fields[MOST_FIELDS]; /* dissection has one thread */
    const struct call *call = shown->frame->call;
    guint32 length = shown->there - FRAME_HEAD;
    struct asked asked = {0, 0, NULL};
    gboolean is_known = call && (call->is_known || call->op != OP_MULTI);
    if (is_known) {
        asked = (struct asked){call->op, call->count, call->parts};
    }
    shown->message = message_read(shown->frame->kind, (guint32)pref_profile, is_known ? &asked : NULL,
                                  tvb_get_ptr(shown->tvb, 0, (int)shown->there) + FRAME_HEAD, length, fields,
                                  MOST_FIELDS);
    shown->fields = fields;
    shown->count = MIN(shown->message.read.count, MOST_FIELDS);
    shown->op = call ? call->op : shown->frame->kind == ZK_REQUEST ? shown->message.read.operation : 0;
}

/* Whether a zxid of a stat may be this one: none is before that of the node's creation, or after the reply's own. */
static gboolean is_between(const struct shown *shown, int created, int at) {
    gint64 zxid = tvb_get_ntohi64(shown->tvb, at);
    return zxid >= tvb_get_ntohi64(shown->tvb, created) && zxid <= tvb_get_ntohi64(shown->tvb, FRAME_HEAD + 4);
}

/* Whether a reply may be one of SASL, as far as its bytes say it: what follows its header is one text or data, and is
 * no path and no stat. */
static gboolean may_have_token(const struct shown *shown) {
    enum { AT = FRAME_HEAD + REPLY_HEAD, BEHIND = AT + 4, CHANGED = AT + 8, OF_CHILDREN = AT + STAT_SIZE - 8 };
    if (shown->there <= BEHIND || tvb_get_ntohl(shown->tvb, AT) != shown->size - BEHIND ||
        *tvb_get_ptr(shown->tvb, BEHIND, 1) == '/') {
        return FALSE;
    }
    return shown->there != AT + STAT_SIZE || shown->size != shown->there || !is_between(shown, AT, CHANGED) ||
           !is_between(shown, AT, OF_CHILDREN);
}

/* Whether the bytes that weren't read may have a password or a credential, which SASL's tokens of both sides are. */
static gboolean has_unread_secret(const struct shown *shown) {
    if (shown->op == OP_SASL || (shown->frame->kind == ZK_REPLY && !shown->frame->call && may_have_token(shown))) {
        return TRUE;
    }
    if (shown->frame->kind == ZK_CONNECT || shown->frame->kind == ZK_CONNECTED) {
        return !shown_field(shown, ZK_NAME_PASSWD);
    }
    return shown->frame->kind == ZK_REQUEST && shown->op == OP_AUTH && !shown_field(shown, ZK_NAME_AUTH);
}

static void show_unread(const struct shown *shown, int at, int size) {
    if (pref_hide && has_unread_secret(shown)) {
        proto_item_set_text(proto_tree_add_bytes_with_length(shown->tree, hf_unread, shown->tvb, at, size,
                                                             (const guint8 *)"", 0), "Not read: (hidden)");
    } else {
        proto_tree_add_item(shown->tree, hf_unread, shown->tvb, at, size, ENC_NA);
    }
}

static void show_fields(const struct shown *shown) {
    const struct message *message = &shown->message;
    guint32 length = shown->there - FRAME_HEAD;
    tree_head(shown->tvb, shown->tree, shown->frame->kind, length);
    tree_fields(shown->tvb, shown->pinfo, shown->tree, shown->frame->kind, shown->fields, shown->count);
    if (message->read.count > MOST_FIELDS) {
        expert_add_info_format(shown->pinfo, shown->item, &ei_many, "%u fields, of which %d are shown",
                               message->read.count, MOST_FIELDS);
        return;
    }
    guint32 last = message_last_header(message, shown->op);
    if (last) {
        tree_last_header(shown->tvb, shown->tree, last);
    }
    if (message->end < length) {
        show_unread(shown, (int)(FRAME_HEAD + message->end), (int)(length - message->end));
    }
}

/* The path of a message, or of the request that it answers. */
static const char *path_of(const struct shown *shown) {
    const struct call *call = shown->frame->call;
    const struct zk_field *path = shown_field(shown, ZK_NAME_PATH);
    if (path && !path->null) {
        int at = (int)(FRAME_HEAD + path->place), size = (int)path->length;
        return text_of(shown->pinfo->pool, tvb_get_ptr(shown->tvb, at, size), path->length);
    }
    return call ? call->path : NULL;
}

/* Whether a reply with this error says that its request failed: there is no node, where exists asks for one, is an
 * answer. */
static bool is_failure(gint32 op, gint32 err) {
    return err != 0 && !(op == OP_EXISTS && err == NO_NODE);
}

/* What is said of a frame besides its fields. */
static void show_more(const struct shown *shown) {
    const struct frame *frame = shown->frame;
    gint32 err = shown->message.read.err;
    proto_item_append_text(shown->item, ", %s", val_to_str_const(frame->kind, kind_names, "no message"));
    if (frame->call && frame->call->op != OP_CONNECT) {
        proto_item_append_text(shown->item, ", %s", op_text(shown->pinfo, shown->op));
    }
    show_info(shown, path_of(shown));
    show_pair(shown);
    if (is_failure(shown->op, err)) {
        expert_add_info_format(shown->pinfo, shown->item, &ei_error, "The server answers %s",
                               error_text(shown->pinfo, err));
    }
    if (frame->kind && shown->there < shown->size) {
        expert_add_info_format(shown->pinfo, shown->item, &ei_cut, "%u bytes of %u were captured", shown->there,
                               shown->size);
    }
    show_verdict(shown);
    if (frame->line) {
        generated(proto_tree_add_string(shown->tree, hf_line, shown->tvb, 0, 0, line_of(shown)));
    }
}

void show_frame(tvbuff_t *tvb, packet_info *pinfo, proto_tree *top, const struct connection *connection,
                       const struct frame *frame, guint32 side) {
    struct shown shown = {.tvb = tvb, .pinfo = pinfo, .connection = connection, .frame = frame, .side = side};
    shown.there = tvb_captured_length(tvb);
    shown.item = proto_tree_add_item(top, proto_zookeeper, tvb, 0, -1, ENC_NA);
    shown.tree = proto_item_add_subtree(shown.item, ett_message);
    proto_item_set_hidden(proto_tree_add_item(shown.tree, hf_frame, tvb, 0, (int)shown.there, ENC_NA));
    generated(proto_tree_add_uint(shown.tree, hf_side, tvb, 0, 0, side));
    proto_tree_add_item(shown.tree, hf_length, tvb, 0, FRAME_HEAD, ENC_BIG_ENDIAN);
    if (frame->kind) {
        shown.size = FRAME_HEAD + tvb_get_ntohl(tvb, 0);
        generated(proto_tree_add_uint(shown.tree, hf_kind, tvb, 0, 0, frame->kind));
        read_fields(&shown);
        show_fields(&shown);
    }
    show_more(&shown);
    if (frame->kind) {
        tell(&shown);
    }
}

void show_bytes(tvbuff_t *tvb, packet_info *pinfo, proto_tree *top, enum what what, guint32 side) {
    proto_item *item = proto_tree_add_item(top, proto_zookeeper, tvb, 0, -1, ENC_NA);
    proto_tree *tree = proto_item_add_subtree(item, ett_message);
    int size = (int)tvb_captured_length(tvb);
    generated(proto_tree_add_uint(tree, hf_side, tvb, 0, 0, side));
    begin_words(pinfo);
    if (what == WORDS) {
        proto_tree_add_item(tree, hf_words, tvb, 0, size, ENC_UTF_8);
        col_append_fstr(pinfo->cinfo, COL_INFO, "four letters: %s",
                        tvb_format_text(pinfo->pool, tvb, 0, MIN(40, size)));
        return;
    }
    proto_tree_add_item(tree, hf_no_frame, tvb, 0, size, ENC_NA);
    if (what == NO_FRAME) {
        expert_add_info(pinfo, item, &ei_no_frame);
    } else {
        expert_add_info_format(pinfo, item, &ei_again, what == REST ? "The rest of a frame whose front was shown"
                                                                   : "These bytes were captured before");
    }
    col_append_fstr(pinfo->cinfo, COL_INFO, "%d bytes %s", size,
                    what == NO_FRAME ? "without a frame" : what == REST ? "of a frame before" : "again");
}
