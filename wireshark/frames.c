/* frames.c
 * What is found out of each frame on the first pass: which message it is, its pair, and what the library says of it.
 *
 * SPDX-License-Identifier: GPL-2.0-or-later
 */
#include "zookeeper.h"

/* Longer lines are not kept. */
enum { LONGEST_LINE = 1 << 16 };

static void judge_no_more(struct connection *connection, packet_info *pinfo, const char *why) {
    if (!connection->unjudged) {
        connection->unjudged = pinfo->num;
        connection->why = why;
    }
    judge_end(&connection->judge);
}

void be_late(struct connection *connection, packet_info *pinfo, const char *why) {
    connection->late = TRUE;
    judge_no_more(connection, pinfo, why);
}

/* Whether an end acknowledges no byte of the other one, whose SYN was captured. */
static gboolean acknowledges_nothing(packet_info *pinfo, const struct piece *piece) {
    const struct tcp_analysis *tcp = tcp_of(pinfo);
    guint32 other = piece->side == ZK_CLIENT ? ZK_SERVER : ZK_CLIENT, to = piece->tcp->lastackseq;
    return tcp && has_begun(tcp, other) && bytes_before(to, tcp->rev->base_seq) == 0;
}

/* Whether who says this may have read more of the other side than is known here: it acknowledges bytes that make no
 * frame, and not the middle of the next one alone. TCP gives the acknowledgement of the packet that it is at; that of a
 * frame beyond the packet's bytes, which TCP has held back till these came, isn't known. */
static gboolean may_know_more(packet_info *pinfo, const struct way *other, const struct piece *piece) {
    const struct tcpinfo *tcp = piece->tcp;
    gint32 acknowledged = (gint32)(tcp->lastackseq - other->next), next = (gint32)(other->end - other->next);
    if (tcp->is_reassembled && (gint32)(piece->number - tcp->nxtseq) >= 0) {
        return TRUE;
    }
    return other->begun ? acknowledged > 0 && acknowledged >= next : !acknowledges_nothing(pinfo, piece);
}

/* Gives the frame to the judge, and keeps its line. */
static void judge(struct connection *connection, packet_info *pinfo, const struct piece *piece, struct frame *frame,
                  guint32 size) {
    const struct way *other = connection->way + (piece->side == ZK_CLIENT ? ZK_SERVER : ZK_CLIENT);
    struct judge *judge = &connection->judge;
    frame->verdict = VERDICT_NONE;
    if (!judge->judges) {
        return;
    }
    /* The server's first bytes, which may answer four letters that were lost. */
    gboolean is_welcome = piece->side == ZK_SERVER && (frame->kind == ZK_CONNECTED || !frame->kind) &&
                          (!other->begun || other->next == other->first);
    if ((is_welcome || frame->unasked || frame->disordered) && may_know_more(pinfo, other, piece)) {
        be_late(connection, pinfo, "lacks a request that was answered");
        return;
    }
    frame->verdict = judge_take(judge, piece->side, piece->bytes, size, &frame->fault);
    if (frame->verdict == VERDICT_REFUSED && judge->judges) {
        frame->passed_over = TRUE;
    } else if (frame->verdict == VERDICT_REFUSED) {
        connection->refused = pinfo->num;
    } else if (frame->verdict == VERDICT_WELL) {
        gsize length = judge_line_length(judge, piece->side);
        if (length > 0 && length <= LONGEST_LINE) {
            char *line = (char *)wmem_alloc(wmem_file_scope(), length + 1);
            if (judge_line(judge, piece->side, line, length)) {
                line[length] = 0;
                frame->line = line;
            }
        }
    } else if (frame->verdict == VERDICT_NONE) {
        judge_no_more(connection, pinfo, "has more requests that wait than are judged");
    }
}

gboolean is_first(const struct way *way, const struct piece *piece) {
    return way->whole && piece->number == way->first;
}

/* Which message a frame is. */
static guint32 kind_of(const struct way *way, const struct piece *piece) {
    if (is_first(way, piece)) {
        return piece->side == ZK_CLIENT ? ZK_CONNECT : ZK_CONNECTED;
    }
    if (piece->side == ZK_CLIENT) {
        return ZK_REQUEST;
    }
    return piece->there >= FRAME_HEAD + 4 && int_at(piece->bytes + FRAME_HEAD) == XID_EVENT ? ZK_EVENT : ZK_REPLY;
}

struct frame *frame_new(struct connection *connection, packet_info *pinfo, const struct piece *piece,
                               guint32 size) {
    struct way *way = connection->way + piece->side;
    struct frame *frame = wmem_new0(wmem_file_scope(), struct frame);
    const guint8 *payload = piece->bytes + FRAME_HEAD;
    guint32 there = MIN(piece->there, size) - FRAME_HEAD;
    frame->packet = pinfo->num;
    frame->count = connection->frames++;
    frame->kind = kind_of(way, piece);
    if (frame->kind == ZK_REQUEST && there >= REQUEST_HEAD) {
        call_new(connection, pinfo, frame, payload, there);
    } else if (frame->kind == ZK_REPLY && there >= 4) {
        frame->xid = int_at(payload);
        call_answer(connection, pinfo, frame);
        if (frame->call) {
            struct way *client = connection->way + ZK_CLIENT;
            connection->sureness = KNOWN;
            way->sure = TRUE;
            client->sure |= !client->sought && frame->call->asked >= client->since;
        }
    } else if (frame->kind == ZK_CONNECT || frame->kind == ZK_CONNECTED) {
        guint32 place = frame->kind == ZK_CONNECT ? 16 : 8;
        call_connect(connection, pinfo, frame);
        if (there >= place + 8) {
            connection->session = (guint64)long_at(payload + place);
        }
    }
    frame->session = connection->session;
    if (piece->there < size) {
        be_late(connection, pinfo, "has a frame that was not captured whole");
    }
    judge(connection, pinfo, piece, frame, size);
    return frame;
}

struct frame *frame_without_payload(struct connection *connection, packet_info *pinfo, const struct piece *piece) {
    struct frame *frame = wmem_new0(wmem_file_scope(), struct frame);
    frame->packet = pinfo->num;
    frame->session = connection->session;
    judge(connection, pinfo, piece, frame, FRAME_HEAD);
    return frame;
}
