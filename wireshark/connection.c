/* connection.c
 * What is kept of a connection, and the places of its frames: found out on the first pass over the packets, looked up
 * on every later one.
 *
 * A side's bytes have TCP's numbers, and a frame begins where the last one ended. So a loss is a number that is too
 * great, and what was captured again one that is too small, whatever TCP's own analysis says of it.
 *
 * SPDX-License-Identifier: GPL-2.0-or-later
 */
#include "zookeeper.h"

#include <epan/conversation.h>

#include "hole.h"

/* Of TCP's conversation_completeness, whose numbers packet-tcp.c keeps to itself: the client's SYN, the server's. */
static const guint8 began[] = {[ZK_CLIENT] = 0x01, [ZK_SERVER] = 0x02};

/* No more gaps of a side are kept. Bytes in which no frame is found wait for others; of those that TCP put together,
 * which it does anew with each segment, only up to here. So does a frame up to MOST_ANEW bytes long. */
enum { MOST_GAPS = 256, MOST_BEFORE = 1 << 10, MOST_ANEW = 1 << 20 };

/* The letters of a word that a client says in place of frames. */
enum { WORD = 4 };

static guint hash_of_kept(gconstpointer of) {
    const struct kept *kept = (const struct kept *)of;
    return kept->packet * 2654435761u ^ kept->number;
}

static gboolean equal_kept(gconstpointer one, gconstpointer other) {
    const struct kept *a = (const struct kept *)one, *b = (const struct kept *)other;
    return a->packet == b->packet && a->number == b->number;
}

static wmem_flag forget(wmem_allocator_t *allocator _U_, wmem_cb_event_t event _U_, void *connection) {
    judge_end(&((struct connection *)connection)->judge);
    return FALSE;
}

struct connection *connection_of(packet_info *pinfo) {
    conversation_t *conversation = find_or_create_conversation(pinfo);
    struct connection *connection =
        (struct connection *)conversation_get_proto_data(conversation, proto_zookeeper);
    if (connection) {
        return connection;
    }
    connection = wmem_new0(wmem_file_scope(), struct connection);
    begin_sides(connection, pinfo);
    connection->waiting = wmem_map_new(wmem_file_scope(), g_direct_hash, g_direct_equal);
    connection->early = wmem_map_new(wmem_file_scope(), g_direct_hash, g_direct_equal);
    connection->kept = wmem_map_new(wmem_file_scope(), hash_of_kept, equal_kept);
    for (int side = 0; side < 2; side++) {
        connection->way[side].gaps = wmem_list_new(wmem_file_scope());
    }
    if (pref_strict) {
        judge_begin(&connection->judge, pref_limit, (guint32)pref_profile);
        if (!connection->judge.judges) {
            connection->unjudged = pinfo->num;
            connection->why = "can't be judged: memory is missing, or the greatest payload isn't 64 to 16777216";
        }
        wmem_register_callback(wmem_file_scope(), forget, connection);
    }
    conversation_add_proto_data(conversation, proto_zookeeper, connection);
    return connection;
}

/* Whether a client's first bytes are a word of four letters. Where the client may have said more before them, letters
 * and more are within a message. */
static gboolean is_word(const struct way *way, const struct piece *piece) {
    enum { WITH_LINE_END = WORD + 2 };
    if (piece->side != ZK_CLIENT || piece->there < WORD || !(is_first(way, piece) || piece->size <= WITH_LINE_END)) {
        return FALSE;
    }
    for (int k = 0; k < WORD; k++) {
        if (!g_ascii_isalpha(piece->bytes[k])) {
            return FALSE;
        }
    }
    return TRUE;
}

gboolean has_begun(const struct tcp_analysis *tcp, guint32 side) {
    return (tcp->conversation_completeness & began[side]) != 0;
}

guint32 bytes_before(guint32 number, guint32 syn) {
    /* TCP's numbers count from 0 where its preference has them so, and from the SYN's own else. */
    return MIN(number - 1, number - (syn + 1));
}

/* A side's first bytes. */
static void begin(struct connection *connection, packet_info *pinfo, struct way *way, const struct piece *piece) {
    const struct tcp_analysis *tcp = tcp_of(pinfo);
    way->begun = TRUE;
    way->first = piece->number;
    way->since = pinfo->num;
    way->whole = tcp && has_begun(tcp, piece->side);
    if (way->whole) {
        way->first = piece->number - bytes_before(piece->number, tcp->fwd->base_seq);
    }
    way->next = way->end = way->first;
    if (is_word(way, piece)) {
        connection->words = TRUE;
        judge_end(&connection->judge);
        return;
    }
    way->whole |= is_connect(piece->side, piece->bytes, piece->there);
    way->sure = way->whole;
    if (!way->whole) {
        way->sought = TRUE;
        be_late(connection, pinfo, "begins before the capture");
    }
}

static struct gap *gap_at(const struct way *way, guint32 number) {
    for (wmem_list_frame_t *at = wmem_list_head(way->gaps); at; at = wmem_list_frame_next(at)) {
        struct gap *gap = (struct gap *)wmem_list_frame_data(at);
        if ((gint32)(number - gap->from) >= 0 && (gint32)(number - gap->to) < 0) {
            return gap;
        }
    }
    return NULL;
}

static void add_gap(struct way *way, guint32 from, guint32 to, gboolean unsure) {
    struct gap *gap = wmem_new(wmem_file_scope(), struct gap);
    *gap = (struct gap){from, to, unsure};
    wmem_list_prepend(way->gaps, gap);
    if (wmem_list_count(way->gaps) > MOST_GAPS) {
        wmem_list_remove_frame(way->gaps, wmem_list_tail(way->gaps));
    }
}

/* The way goes on at this number, and not where its last frame ended. */
static void leap(struct connection *connection, packet_info *pinfo, struct way *way, guint32 number) {
    add_gap(way, way->next, number, FALSE);
    /* If only one frame isn't whole, the next one begins after it. */
    way->sought |= way->end == way->next || way->end != number;
    way->next = way->end = number;
    be_late(connection, pinfo, "lacks bytes that were not captured");
}

static void seek(struct way *way) {
    way->sought = TRUE;
    way->sure = FALSE;
}

static struct kept *keep(struct connection *connection, packet_info *pinfo, const struct piece *piece, enum what what,
                         guint32 size) {
    struct way *way = connection->way + piece->side;
    struct kept *kept = wmem_new0(wmem_file_scope(), struct kept);
    kept->packet = pinfo->num;
    kept->number = piece->number;
    kept->what = what;
    kept->size = size;
    if (what == MORE) {
        way->waited = piece->number + piece->there;
    }
    if (piece->tcp->is_reassembled && (what == A_FRAME || what == NO_FRAME)) {
        struct taken *taken = wmem_new(wmem_file_scope(), struct taken);
        *taken = (struct taken){kept, piece->tcp->seq, way->taken};
        way->taken = taken;
    }
    wmem_map_insert(connection->kept, kept, kept);
    return kept;
}

/* What was found here in fewer of the same bytes that TCP put together; NULL: nothing. */
static const struct kept *taken_here(const struct way *way, const struct piece *piece) {
    const struct taken *taken = piece->tcp->is_reassembled ? way->taken : NULL;
    while (taken && taken->from == piece->tcp->seq && taken->kept->number != piece->number) {
        taken = taken->before;
    }
    return taken && taken->from == piece->tcp->seq ? taken->kept : NULL;
}

/* What was shown of bytes that waited on with others after them: later passes get all of these in this packet. */
static struct kept *keep_later(struct connection *connection, packet_info *pinfo, const struct piece *piece,
                               const struct kept *taken) {
    struct kept *kept = keep(connection, pinfo, piece, taken->what, taken->size);
    kept->frame = taken->frame;
    kept->later = TRUE;
    if (piece->side == ZK_CLIENT && taken->frame && taken->frame->call) {
        taken->frame->call->later = pinfo->num;
    }
    return kept;
}

/* Looks for frames; NULL where one begins here. */
static struct kept *look_for_frames(struct connection *connection, packet_info *pinfo, const struct piece *piece,
                                    struct way *way, guint32 *place) {
    struct hole_end end = hole_end(piece->side, piece->bytes, piece->there, pref_limit);
    gboolean may_wait = piece->may_wait && (!piece->tcp->is_reassembled || piece->before < MOST_BEFORE);
    if (end.found) {
        way->sought = FALSE;
        way->since = pinfo->num;
        if (end.place == 0) {
            return NULL;
        }
    } else if (end.place == 0 && may_wait) {
        return keep(connection, pinfo, piece, MORE, DESEGMENT_ONE_MORE_SEGMENT);
    } else if (!may_wait) {
        end.place = piece->size;
    }
    *place = piece->number + (guint32)end.place;
    return keep(connection, pinfo, piece, NO_FRAME, (guint32)end.place);
}

/* Nothing is known to begin here, so frames are looked for; NULL where one begins here. `filling`: the bytes are in a
 * gap, and say nothing of those after it. The same holds below. */
static struct kept *look_unsure(struct connection *connection, packet_info *pinfo, const struct piece *piece,
                                struct way *way, guint32 *place, gboolean filling) {
    if (piece->there < FRAME_HEAD + REPLY_HEAD && piece->may_wait) {
        return keep(connection, pinfo, piece, MORE, DESEGMENT_ONE_MORE_SEGMENT);
    }
    if (filling) {
        *place = piece->number + piece->size;
        return keep(connection, pinfo, piece, NO_FRAME, piece->size);
    }
    seek(way);
    return look_for_frames(connection, pinfo, piece, way, place);
}

/* Not even the length is there. */
static struct kept *look_at_stub(struct connection *connection, packet_info *pinfo, const struct piece *piece,
                                 struct way *way, guint32 *place, gboolean filling) {
    if (piece->may_wait) {
        return keep(connection, pinfo, piece, MORE, DESEGMENT_ONE_MORE_SEGMENT);
    }
    be_late(connection, pinfo, "has a frame that was not captured whole");
    if (!filling) {
        seek(way);
    }
    *place = piece->number + piece->size;
    return keep(connection, pinfo, piece, NO_FRAME, piece->size);
}

/* The length is no payload's. */
static struct kept *look_at_length(struct connection *connection, packet_info *pinfo, const struct piece *piece,
                                   struct way *way, guint32 *place, gboolean filling) {
    struct kept *kept = keep(connection, pinfo, piece, A_FRAME, FRAME_HEAD);
    kept->frame = frame_without_payload(connection, pinfo, piece);
    if (!filling) {
        seek(way);
    }
    *place = piece->number + (filling ? piece->size : FRAME_HEAD);
    return kept;
}

/* Whether what begins here can wait for more bytes only with those before it, of which something was shown: TCP holds
 * them from the first on, and where the capture ends before it has all, later passes get none of them. If each segment
 * may be the last one, they get what came. */
static gboolean is_held(const struct way *way, const struct piece *piece) {
    return piece->tcp->is_reassembled && piece->before > 0 && (gint32)(piece->number - way->waited) <= 0;
}

/* A frame of this size begins here. */
static struct kept *look_at_frame(struct connection *connection, packet_info *pinfo, const struct piece *piece,
                                  struct way *way, guint32 size, guint32 *place, gboolean filling) {
    if (size > piece->size && piece->may_wait) {
        if (!filling) {
            way->end = piece->number + size;
        }
        guint32 more = is_held(way, piece) && size <= MOST_ANEW ? DESEGMENT_ONE_MORE_SEGMENT : size - piece->size;
        return keep(connection, pinfo, piece, MORE, more);
    }
    if (size > piece->size && !filling) {
        way->rest.from = piece->number;
        way->rest.to = piece->number + size;
    }
    struct kept *kept = keep(connection, pinfo, piece, A_FRAME, MIN(size, piece->size));
    kept->frame = frame_new(connection, pinfo, piece, size);
    *place = piece->number + size;
    return kept;
}

/* What is where a frame may begin; `place` is where the next one does. `gap`: the bytes are in it, NULL: in none. */
static struct kept *look(struct connection *connection, packet_info *pinfo, const struct piece *piece, struct way *way,
                         guint32 *place, const struct gap *gap) {
    gboolean filling = gap != NULL, sure = way->sure && !(gap && gap->unsure);
    if (!sure && !is_first(way, piece) &&
        !frame_is_plausible(piece->side, piece->bytes, piece->there, pref_limit)) {
        struct kept *kept = look_unsure(connection, pinfo, piece, way, place, filling);
        if (kept) {
            return kept;
        }
    }
    if (piece->there < FRAME_HEAD) {
        return look_at_stub(connection, pinfo, piece, way, place, filling);
    }
    guint32 length = (guint32)int_at(piece->bytes);
    if (length > MIN(pref_limit, (guint)G_MAXINT32)) { /* no length is negative, whatever the limit */
        return look_at_length(connection, pinfo, piece, way, place, filling);
    }
    return look_at_frame(connection, pinfo, piece, way, FRAME_HEAD + length, place, filling);
}

/* A byte that was captured before: how many such bytes are here, and whether they are the rest of a frame. */
static struct kept *look_again(struct connection *connection, packet_info *pinfo, const struct piece *piece,
                               const struct way *way) {
    const struct kept *taken = taken_here(way, piece);
    if (taken) {
        return keep_later(connection, pinfo, piece, taken);
    }
    guint32 known = way->next - piece->number;
    for (wmem_list_frame_t *at = wmem_list_head(way->gaps); at; at = wmem_list_frame_next(at)) {
        gint32 before = (gint32)(((struct gap *)wmem_list_frame_data(at))->from - piece->number);
        if (before > 0 && (guint32)before < known) {
            known = (guint32)before;
        }
    }
    gboolean rest = (gint32)(piece->number - way->rest.from) > 0 && (gint32)(piece->number - way->rest.to) < 0;
    return keep(connection, pinfo, piece, rest ? REST : AGAIN, MIN(known, piece->size));
}

/* What was captured before, or is in a gap. So are the bytes before the first ones of a side that begins before the
 * capture; all that was captured is between these and `next`. */
static struct kept *look_back(struct connection *connection, packet_info *pinfo, struct piece *piece, struct way *way) {
    if (!way->whole && piece->number - way->first >= way->next - way->first) {
        add_gap(way, piece->number, way->first, TRUE);
        way->first = piece->number;
    }
    struct gap *gap = gap_at(way, piece->number);
    if (!gap) {
        return look_again(connection, pinfo, piece, way);
    }
    if (gap->from != piece->number) {
        /* The frames of a gap are found from its beginning on; bytes further on wait in vain. */
        return keep(connection, pinfo, piece, NO_FRAME, MIN(gap->to - piece->number, piece->size));
    }
    guint32 most = gap->to - piece->number;
    if (piece->size >= most) {
        /* What follows was captured before, so a frame that goes on there isn't put together any more. */
        piece->may_wait = FALSE;
        piece->size = most;
        piece->there = MIN(piece->there, most);
    }
    struct kept *kept = look(connection, pinfo, piece, way, &gap->from, gap);
    if ((gint32)(gap->from - gap->to) >= 0) {
        wmem_list_remove(way->gaps, gap);
    }
    return kept;
}

const struct kept *kept_of(struct connection *connection, packet_info *pinfo, const struct piece *given) {
    struct piece piece = *given;
    struct way *way = connection->way + piece.side;
    if (PINFO_FD_VISITED(pinfo)) {
        struct kept wanted = {.packet = pinfo->num, .number = piece.number};
        return (const struct kept *)wmem_map_lookup(connection->kept, &wanted);
    }
    if (!way->begun && !connection->words) {
        if (piece.there < WORD && piece.may_wait) { /* which may be a word's first letters */
            return keep(connection, pinfo, &piece, MORE, DESEGMENT_ONE_MORE_SEGMENT);
        }
        begin(connection, pinfo, way, &piece);
    }
    if (connection->words) {
        return keep(connection, pinfo, &piece, WORDS, piece.size);
    }
    gint32 ahead = (gint32)(piece.number - way->next);
    if (ahead < 0) {
        return look_back(connection, pinfo, &piece, way);
    }
    if (ahead > 0) {
        leap(connection, pinfo, way, piece.number);
    }
    if (way->sought) {
        seek(way);
        struct kept *kept = look_for_frames(connection, pinfo, &piece, way, &way->next);
        if (kept) {
            way->end = way->next;
            return kept;
        }
    }
    struct kept *kept = look(connection, pinfo, &piece, way, &way->next, NULL);
    if (kept->what != MORE) {
        way->end = way->next;
    }
    return kept;
}
