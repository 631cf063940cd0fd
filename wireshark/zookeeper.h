/* zookeeper.h
 * What the parts of the plugin share: what is kept of a connection and of each frame, the fields, the preferences.
 *
 * SPDX-License-Identifier: GPL-2.0-or-later
 */
#ifndef ZOOKEEPER_H
#define ZOOKEEPER_H

#include <epan/packet.h>
#include <epan/expert.h>
#include <epan/dissectors/packet-tcp.h>
#include <ws_version.h>

#include "message.h"
#include "verdict.h"

/* What the boolean types of callbacks and preferences are: glib's up to 4.2, C's from 4.4 on; and that of the callbacks
 * of wmem, which is C's from 4.2 on. */
#if WIRESHARK_VERSION_MAJOR > 4 || (WIRESHARK_VERSION_MAJOR == 4 && WIRESHARK_VERSION_MINOR >= 3)
typedef bool flag;
#else
typedef gboolean flag;
#endif
#if WIRESHARK_VERSION_MAJOR > 4 || (WIRESHARK_VERSION_MAJOR == 4 && WIRESHARK_VERSION_MINOR >= 1)
typedef bool wmem_flag;
#else
typedef gboolean wmem_flag;
#endif

/* ---- Connections (connection.c) */

/* A request, or the connect request, and what is known of its reply. */
struct call {
    gint32 xid, op;
    guint32 asked, answered; /* packets; 0: none */
    nstime_t when;
    const char *path;
    guint32 later;           /* the packet of the request on later passes; 0: the same */
    guint32 count;           /* of parts */
    gint32 *parts;
    gboolean is_known;       /* all of it was read */
    gboolean later_part;     /* of a multi: a part is an operation that the profile lacks */
    gboolean passed;         /* a later one was answered before it */
    struct call *same;       /* the next that waits with this xid */
    struct call *before, *behind;
};

/* A frame, as it was met on the first pass. */
struct frame {
    guint32 packet, count;   /* count: the frames before it */
    guint32 kind;            /* ZK_CONNECT and so on; 0: no message */
    gint32 xid;
    struct call *call;       /* of a request and of a reply */
    enum verdict verdict;
    struct zk_fault fault;
    gboolean passed_over;    /* it is refused, and what follows it is judged */
    const char *line;
    guint64 session;
    gboolean unasked, disordered;
    gint32 expected;
};

/* What begins at a byte of a side in a packet, as it was found on the first pass. */
enum what { A_FRAME, NO_FRAME, AGAIN, REST, WORDS, MORE };
struct kept {
    guint32 packet, number;  /* the number is TCP's */
    enum what what;
    guint32 size;            /* its bytes; of MORE those that are missing */
    struct frame *frame;
    gboolean later;          /* it was shown in an earlier packet, whose bytes only this one has on later passes */
};

/* What was found in bytes that TCP put together, and where these begin. */
struct taken {
    const struct kept *kept;
    guint32 from;
    struct taken *before;
};

/* Bytes of a side that weren't captured when those after them were. */
struct gap {
    guint32 from, to;
    gboolean unsure;         /* no frame is known to begin at `from` */
};

struct way {
    gboolean begun, whole;   /* whole: the place of its first byte is known */
    gboolean sure, sought;   /* frames are known to begin at `next`; they have to be found first */
    guint32 first;           /* that place, or that of the first byte that was captured */
    guint32 next, end;       /* after the last frame; after the one that begins there, if that is known */
    guint32 since;           /* since this packet frames follow one another */
    guint32 waited;          /* after the bytes that last waited for others */
    struct gap rest;         /* a frame that isn't whole where its front was captured */
    struct taken *taken;     /* the newest */
    wmem_list_t *gaps;
};

struct queue {
    struct call *first, *last;
};

/* Requests in the order in which they were asked. */
struct calls {
    struct call *oldest, *newest;
};

/* By what it is known which end of a connection is the server: by the lower port, or the front of a frame; by frames
 * within a packet, which a node's data may have, too; by frames from a packet's first byte on; by the SYN, the port of
 * zookeeper.tcp.port, a connect message, or a reply whose request was found. */
enum sureness { GUESSED, WITHIN, FROM_FIRST, KNOWN };

struct connection {
    address server;
    guint32 port;
    enum sureness sureness;  /* of which end is the server */
    struct way way[2];
    gboolean words;          /* the client says words of four letters */
    gboolean late;           /* the connection isn't whole in the capture */
    guint32 unjudged;        /* since this packet it is judged no more; 0: it is */
    const char *why;
    guint32 frames;
    guint64 session;
    struct judge judge;
    guint32 refused;         /* in this packet, and judged no more; 0: nowhere */
    struct call *connect;    /* the connect request, or that which its response answers */
    wmem_map_t *waiting;     /* by xid, a queue */
    struct calls calls, passed; /* that wait, with xids of their own: those that weren't passed, and those that were */
    wmem_map_t *early;       /* by xid, a reply that was captured before its request */
    wmem_map_t *kept;
};

struct connection *connection_of(packet_info *pinfo);

/* A piece of a side's bytes, as TCP gives it. */
struct piece {
    const struct tcpinfo *tcp;
    guint32 side;
    guint32 number;
    const guint8 *bytes;
    guint32 before;          /* the bytes that TCP has given before it */
    guint32 there, size;     /* the bytes that were captured, and all */
    gboolean may_wait;       /* for more after them */
};

/* Whether the SYN of a side was captured; and how many of the bytes of a side whose SYN has this number are before
 * another number of TCP's. */
gboolean has_begun(const struct tcp_analysis *tcp, guint32 side);
guint32 bytes_before(guint32 number, guint32 syn);

/* What these bytes begin with: on the first pass found out, later looked up; NULL: it isn't known. */
const struct kept *kept_of(struct connection *connection, packet_info *pinfo, const struct piece *piece);

/* ---- Sides (sides.c) */

/* What TCP's own code keeps of the connection; NULL: nothing. */
const struct tcp_analysis *tcp_of(packet_info *pinfo);

/* Finds out, of a new connection, which end is the server; where no SYN said it, what is said may yet do so, and turns
 * the two around if it has to. */
void begin_sides(struct connection *connection, packet_info *pinfo);
void learn_server(struct connection *connection, packet_info *pinfo, const guint8 *bytes, guint32 there);

guint32 side_of(const struct connection *connection, const packet_info *pinfo);

/* Whether these bytes begin with a whole connect message of this side. */
gboolean is_connect(guint32 side, const guint8 *bytes, guint32 there);

/* ---- Frames (frames.c) */

/* From here on the connection isn't whole in the capture, for this reason, and is judged no more. */
void be_late(struct connection *connection, packet_info *pinfo, const char *why);

/* Whether a side's first byte is here. */
gboolean is_first(const struct way *way, const struct piece *piece);

/* A frame of this size that begins here, of which perhaps the front alone is there. */
struct frame *frame_new(struct connection *connection, packet_info *pinfo, const struct piece *piece, guint32 size);

/* What begins here has a length that no payload has. */
struct frame *frame_without_payload(struct connection *connection, packet_info *pinfo, const struct piece *piece);

/* ---- Pairs (pairs.c) */

struct call *call_new(struct connection *connection, packet_info *pinfo, struct frame *frame, const guint8 *payload,
                      guint32 length);
void call_answer(struct connection *connection, packet_info *pinfo, struct frame *frame);

/* Takes one of the connect messages, which are a pair. */
void call_connect(struct connection *connection, packet_info *pinfo, struct frame *frame);

/* Whether a frame is a request, or the connect request; and whether it is the reply to one that is known. */
static inline gboolean is_asking(const struct frame *frame) {
    return frame->call && (frame->kind == ZK_REQUEST || frame->kind == ZK_CONNECT);
}

static inline gboolean is_answer(const struct frame *frame) {
    return frame->call && (frame->kind == ZK_REPLY || frame->kind == ZK_CONNECTED) && frame->call->asked;
}

/* ---- Fields (tree.c, values.c, register.c) */

enum { MOST_FIELDS = 4096 };

/* The filterable fields of messages. */
enum name {
    FIELD_XID, FIELD_OP, FIELD_ZXID, FIELD_ERR,
    FIELD_PATH, FIELD_DATA, FIELD_DATA_TEXT, FIELD_VERSION, FIELD_FLAGS, FIELD_EPHEMERAL, FIELD_SEQUENTIAL, FIELD_WATCH,
    FIELD_ACL, FIELD_PERMS, FIELD_PERM_READ, FIELD_PERM_WRITE, FIELD_PERM_CREATE, FIELD_PERM_DELETE, FIELD_PERM_ADMIN,
    FIELD_SCHEME, FIELD_ID, FIELD_AUTH_TYPE, FIELD_AUTH,
    FIELD_CHILDREN, FIELD_CHILD,
    FIELD_TTL, FIELD_WATCH_TYPE, FIELD_MODE, FIELD_COUNT, FIELD_CODE,
    FIELD_JOINING, FIELD_LEAVING, FIELD_MEMBERS, FIELD_CONFIG,
    FIELD_RELATIVE_ZXID, FIELD_DATA_WATCHES, FIELD_EXIST_WATCHES, FIELD_CHILD_WATCHES, FIELD_WATCHED,
    FIELD_EVENT_KIND, FIELD_EVENT_STATE,
    FIELD_PROTOCOL_VERSION, FIELD_LAST_ZXID, FIELD_TIMEOUT, FIELD_SESSION, FIELD_PASSWD, FIELD_READ_ONLY,
    FIELD_PART_OP, FIELD_PART_DONE, FIELD_PART_HEADER_ERR, FIELD_PART_ERR,
    FIELD_CZXID, FIELD_MZXID, FIELD_CTIME, FIELD_MTIME, FIELD_STAT_VERSION, FIELD_CVERSION, FIELD_AVERSION,
    FIELD_EPHEMERAL_OWNER, FIELD_DATA_LENGTH, FIELD_NUM_CHILDREN, FIELD_PZXID,
    FIELD_NAMES
};

extern int proto_zookeeper, proto_tcp, tap_zookeeper;
extern dissector_handle_t zookeeper_handle;
extern int hf_field[FIELD_NAMES];
extern int hf_length, hf_side, hf_kind, hf_frame, hf_unread, hf_no_frame, hf_words;
extern int hf_response_in, hf_response_to, hf_response_time, hf_expected_xid;
extern int hf_verdict, hf_reason, hf_place, hf_line;
extern gint ett_message, ett_list, ett_stat, ett_part, ett_acl, ett_bits;
extern expert_field ei_refused, ei_passed_over, ei_unread, ei_newer, ei_order, ei_unasked, ei_error, ei_no_frame, ei_again, ei_cut,
    ei_many;

/* These bytes of a text as a field's value, which in Wireshark ends at a zero byte: where there is one, that is \00,
 * and a backslash \5c, as in lines. */
char *text_of(wmem_allocator_t *scope, const guint8 *bytes, gsize length);

/* Adds the fields of the header of a message of this kind, as far as `length` bytes of its payload have them. Of this
 * and of what follows: the payload begins after the first FRAME_HEAD bytes. */
void tree_head(tvbuff_t *tvb, proto_tree *tree, guint32 kind, guint32 length);

/* Adds these fields of a payload. */
void tree_fields(tvbuff_t *tvb, packet_info *pinfo, proto_tree *tree, guint32 kind, const struct zk_field *fields,
                 size_t count);

/* Shows what the value of this field means, of which this is the item. */
void show_value(proto_item *item, tvbuff_t *tvb, packet_info *pinfo, enum name name, const struct zk_field *field,
                int at);

/* Adds the header by which a multi, or its results, end. */
void tree_last_header(tvbuff_t *tvb, proto_tree *tree, guint32 place);

/* The first field of this name (ZK_NAME_PATH and so on) before any part, or NULL. */
const struct zk_field *field_of(const struct zk_field *fields, size_t count, guint16 name);

/* ---- Preferences (register.c) */

extern flag pref_desegment, pref_strict, pref_hide;
extern guint pref_limit;
extern gint pref_profile;

/* ---- Dissection (packet-zookeeper.c, show.c) and statistics (statistics.c) */

/* What is kept of a packet while it is dissected. */
enum { KEY_BEGUN, KEY_WORDS };

/* Shows a message, whose bytes as far as they were captured are those of the tvbuff; and bytes that are no frame. */
void show_frame(tvbuff_t *tvb, packet_info *pinfo, proto_tree *top, const struct connection *connection,
                const struct frame *frame, guint32 side);
void show_bytes(tvbuff_t *tvb, packet_info *pinfo, proto_tree *top, enum what what, guint32 side);

int dissect_zookeeper(tvbuff_t *tvb, packet_info *pinfo, proto_tree *tree, void *data);
flag dissect_heuristic(tvbuff_t *tvb, packet_info *pinfo, proto_tree *tree, void *data);

/* What the statistics get of a frame. */
struct told {
    guint32 kind;
    gint32 op, err, event;
    gboolean is_known;       /* its bytes have the op, the err or the event */
    const struct call *call; /* of a reply */
};

void statistics_register(void);
void statistics_handoff(void);

#endif
