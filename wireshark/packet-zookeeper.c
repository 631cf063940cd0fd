/* packet-zookeeper.c
 * Apache ZooKeeper's client protocol: where Wireshark calls this plugin with a packet.
 *
 * SPDX-License-Identifier: GPL-2.0-or-later
 */
#include "zookeeper.h"

#include <epan/conversation.h>
#include <epan/proto_data.h>

#include "hole.h"

/* What is here, if the first pass didn't come by. */
static struct kept guess(packet_info *pinfo, const struct piece *piece) {
    struct kept kept = {.packet = pinfo->num, .number = piece->number, .what = NO_FRAME, .size = piece->size};
    if (frame_is_plausible(piece->side, piece->bytes, piece->there, pref_limit)) {
        struct frame *frame = wmem_new0(pinfo->pool, struct frame);
        frame->kind = piece->side == ZK_CLIENT ? ZK_REQUEST
                      : int_at(piece->bytes + FRAME_HEAD) == XID_EVENT ? ZK_EVENT : ZK_REPLY;
        frame->verdict = VERDICT_NONE;
        kept.what = A_FRAME;
        kept.size = MIN(FRAME_HEAD + (guint32)int_at(piece->bytes), piece->size);
        kept.frame = frame;
    }
    return kept;
}

/* Names the protocol in the packet list, once for each packet. */
static void begin_columns(packet_info *pinfo) {
    if (!p_get_proto_data(pinfo->pool, pinfo, proto_zookeeper, KEY_BEGUN)) {
        p_add_proto_data(pinfo->pool, pinfo, proto_zookeeper, KEY_BEGUN, pinfo);
        col_set_str(pinfo->cinfo, COL_PROTOCOL, "ZooKeeper");
        col_clear(pinfo->cinfo, COL_INFO);
    }
}

/* Shows what the first bytes of a piece are; how many these are, or 0 where more have to come first. */
static guint32 dissect_piece(tvbuff_t *tvb, packet_info *pinfo, proto_tree *tree, struct connection *connection,
                             const struct piece *piece) {
    struct kept guessed;
    const struct kept *kept = kept_of(connection, pinfo, piece);
    int at = (int)piece->before;
    if (!kept) {
        guessed = guess(pinfo, piece);
        kept = &guessed;
    }
    if (kept->what == MORE) {
        pinfo->desegment_offset = at;
        pinfo->desegment_len = kept->size;
        return 0;
    }
    int part = (int)MIN(kept->size, piece->size), captured = (int)MIN((guint32)part, piece->there);
    if (kept->later ? !PINFO_FD_VISITED(pinfo) : kept->what == AGAIN && piece->tcp->is_reassembled) {
        return (guint32)MAX(part, 1); /* what waits is put together from its first byte on, however much was used */
    }
    tvbuff_t *own = tvb_new_subset_length_caplen(tvb, at, captured, part);
    begin_columns(pinfo);
    if (kept->what == A_FRAME && captured >= FRAME_HEAD) {
        show_frame(own, pinfo, tree, connection, kept->frame, piece->side);
    } else {
        show_bytes(own, pinfo, tree, kept->what, piece->side);
    }
    col_set_fence(pinfo->cinfo, COL_INFO);
    return (guint32)MAX(part, 1);
}

int dissect_zookeeper(tvbuff_t *tvb, packet_info *pinfo, proto_tree *tree, void *data) {
    const struct tcpinfo *tcp = (const struct tcpinfo *)data;
    if (!tcp) {
        return 0;
    }
    struct connection *connection = connection_of(pinfo);
    guint32 there = tvb_captured_length(tvb), size = tvb_reported_length(tvb), used = 1;
    learn_server(connection, pinfo, tvb_get_ptr(tvb, 0, (int)there), there);
    struct piece piece = {tcp, side_of(connection, pinfo), 0, NULL, 0, 0, 0, FALSE};
    for (guint32 at = 0; at < there && used > 0; at += used) {
        piece.number = tcp->seq + at;
        piece.bytes = tvb_get_ptr(tvb, (int)at, (int)(there - at));
        piece.before = at;
        piece.there = there - at;
        piece.size = size - at;
        piece.may_wait = pref_desegment && pinfo->can_desegment && there == size;
        used = dissect_piece(tvb, pinfo, tree, connection, &piece);
    }
    return (int)there;
}

flag dissect_heuristic(tvbuff_t *tvb, packet_info *pinfo, proto_tree *tree, void *data) {
    enum { LEAST = 28 }; /* a connect request whose password is empty */
    guint32 there = tvb_captured_length(tvb);
    if (there < FRAME_HEAD + LEAST || tvb_get_ntohl(tvb, 0) != there - FRAME_HEAD || tvb_get_ntohl(tvb, 4) != 0 ||
        there > FRAME_HEAD + 64) {
        return FALSE;
    }
    if (zk_judge_first(tvb_get_ptr(tvb, FRAME_HEAD, -1), there - FRAME_HEAD).status != ZK_WELL) {
        return FALSE;
    }
    conversation_set_dissector(find_or_create_conversation(pinfo), zookeeper_handle);
    pinfo->match_uint = pinfo->destport;
    dissect_zookeeper(tvb, pinfo, tree, data);
    return TRUE;
}
