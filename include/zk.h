/* A conversation of ZooKeeper's client protocol, parsed as its bytes arrive, by the proved library libzk.
 *
 * The library runs on any x86-64; glibc-hwcaps/x86-64-v2/ beside it has a faster one for processors of that level, which
 * the loader chooses.
 *
 * docs/LIBRARY.md says how to link a program with it, and what each call promises. tests/library checks this header
 * against the library's source (crates/zk_c/src).
 *
 * The caller's duties: a pointer points to as much as the call says; nothing else writes there during the call, and
 * what the call writes overlaps nothing that it reads. A handle is all zeros before its first zk_talk_new
 * (`struct zk_talk talk = ZK_ZEROS;`), only these calls write it, and it is never copied and then used twice. One call
 * at a time uses a handle: another thread may use it once that call has ended, as under a lock. Calls on different
 * handles, and without one, may run at once. Everything else is refused by a status. The functions at the end of this
 * header, which are called in place of the library's own, also refuse a null pointer and a length above PTRDIFF_MAX.
 * A null pointer with the length 0 is no bytes, and accepted. */
#ifndef ZK_H
#define ZK_H

/* The version of this header, in words and as a number: a million for each major release, a thousand for each minor one.
 * zk_version() has that of the library, which is never below that of a header by which a program was compiled. */
#define ZK_VERSION "0.10.0"
#define ZK_VERSION_NUMBER 10000

#include <stdbool.h>
#include <stddef.h>
#include <stdint.h>
#include <string.h>

/* The initializer of an empty handle, in C and in C++. */
#ifdef __cplusplus
#define ZK_ZEROS {}
#else
#define ZK_ZEROS {0}
#endif

#ifdef __cplusplus
extern "C" {
#endif

/* Sides. */
enum { ZK_CLIENT = 0, ZK_SERVER = 1 };

/* Profiles, each the operations of a release: docs/FORMATS.md, section 4.
 * The lines from here on are written by dev/names.py. */
enum { ZK_PROFILE_34 = 34, ZK_PROFILE_35 = 35, ZK_PROFILE_37 = 37 };
/* Up to here. */

/* A status: 0, a reason (docs/REASONS.md), or why a call did nothing. */
enum {
    ZK_WELL = 0,
    ZK_SHORT = 1,
    ZK_BAD_BOOL = 2,
    ZK_BAD_LENGTH = 3,
    ZK_BAD_TEXT = 4,
    ZK_NO_MEMORY = 5, /* of calls that make a handle, write a line or the listing, or say; of no other */
    ZK_TRAILING = 6,
    ZK_UNKNOWN_OP = 7,
    ZK_XID_OP = 8,
    ZK_BAD_PART = 9,
    ZK_EVENT_ERR = 10,
    ZK_LENGTH_RANGE = 11,
    ZK_QUEUE_FULL = 12,
    ZK_UNASKED = 13,
    ZK_XID_ORDER = 14,
    ZK_STREAM_END = 15,
    ZK_EMPTY = 65,     /* the handle holds nothing */
    ZK_IN_USE = 66,    /* the handle holds something already */
    ZK_RANGE = 67,     /* a limit, a profile, a side or a length is out of its range; or what is offered isn't one frame */
    ZK_ROOM = 68,      /* the text is longer than the room */
    ZK_NO_MESSAGE = 69, /* no frame is kept on the side */
    ZK_NULL = 70,      /* a pointer is null */
    ZK_NOT_FIRST = 81, /* a connect message after its side's first message, or another message before the connect one */
    ZK_MISFIT = 82,    /* the xid or the operation isn't allowed, or the reply doesn't fit its request; or the payload's
                          xid is that of the other kind, a reply or an event */
    ZK_TOO_LONG = 83,  /* the payload is longer than its side's limit */
    ZK_LINE_WORD = 91, /* a line is no message's (docs/REASONS.md): its column is reported */
    ZK_LINE_NUMBER = 92,
    ZK_LINE_TEXT = 93,
    ZK_LINE_BLOB = 94,
    ZK_LINE_NAME = 95,
    ZK_LINE_REST = 96,
    ZK_LINE_ENDING = 97
};

/* A handle: a talk, or nothing where it is all zeros. Its fields are the library's. */
struct zk_talk {
    void *held;
    bool live;
};

/* A handle: a speaker, or nothing where it is all zeros. Its fields are the library's. */
struct zk_speaker {
    void *held;
    bool live;
};

/* A handle: a passage, or nothing where it is all zeros. Its fields are the library's. */
struct zk_through {
    void *held;
    bool live;
};

/* Why a conversation is refused, and where; all 0 where it isn't. expected and got are of ZK_XID_ORDER. */
struct zk_fault {
    uint64_t frame;
    uint64_t offset;
    uint32_t side;
    uint32_t place;
    uint32_t reason;
    int32_t expected;
    int32_t got;
};

/* What a step returns: the bytes used of the piece, and whether the last of them completed a frame. Of a step that is
 * refused, none are used; zk_through_resume returns how many of them are the refused frame's. */
struct zk_step {
    size_t used;
    uint32_t status;
    bool whole;
    struct zk_fault fault;
};

/* What became of the bytes of a passage's step. */
enum {
    ZK_WITHIN = 0,   /* no frame is whole */
    ZK_MESSAGE = 1,  /* a frame is whole: a message */
    ZK_ASKED = 2,    /* a request is whole whose operation the profile lacks: it is left out */
    ZK_ANSWERED = 3, /* the reply to such a request is whole: it is left out */
    ZK_FULL = 4,     /* with the client's frame more would wait than may: nothing of its piece was used */
    ZK_UNSEEN = 5    /* a reply to a request that wasn't seen is whole: it is left out (zk_through_join) */
};

/* What a passage's step, or an offer, returns: the bytes used of the piece, none of a refused one, and what became of them. xid,
 * operation and frame are those of the request of ZK_ASKED and ZK_ANSWERED: frame is the number of the client's frame,
 * from 0. xid, zxid and err are the header's of ZK_UNSEEN. Else they are 0. */
struct zk_passed {
    size_t used;
    uint32_t status;
    uint32_t went;
    int32_t xid;
    int32_t operation;
    struct zk_fault fault;
    uint64_t frame;
    int64_t zxid;
    int32_t err;
};

/* Kinds of an ending. */
enum { ZK_WHOLE = 1, ZK_CUT = 2, ZK_REFUSED = 3 };

/* How a conversation ends: unanswered of ZK_WHOLE; side, got and frame of ZK_CUT; fault of ZK_REFUSED. */
struct zk_ending {
    uint32_t status;
    uint32_t kind;
    uint32_t unanswered;
    uint32_t side;
    uint32_t got;
    uint64_t frame;
    struct zk_fault fault;
};

/* Kinds of a message. */
enum { ZK_CONNECT = 1, ZK_REQUEST = 2, ZK_CONNECTED = 3, ZK_REPLY = 4, ZK_EVENT = 5 };

/* What message a frame is. operation is that of a request, or of the request that a reply answers; err and zxid are those
 * of a reply or an event, else 0; frame is the number of the side's frame, from 0. The frame's bytes, its length
 * included, are the last `size` that were used of its side when it became whole. answers is the number of the client's
 * frame that a ZK_REPLY answers. It is 0 for ZK_CONNECTED, which answers that frame, and for what answers none. */
struct zk_message {
    uint32_t status;
    uint32_t kind;
    int32_t xid;
    int32_t operation;
    uint32_t size;
    int32_t err;
    int64_t zxid;
    uint64_t frame;
    uint64_t answers;
};

/* How many requests wait for their replies, and their weight, which `waiting` of zk_talk_new bounds: 1 each, and 1 more for
 * each part of a multi. A connect request isn't among them. */
struct zk_waiting {
    uint32_t status;
    uint32_t requests;
    uint32_t weight;
};

/* How many bytes of a side are held of a frame that isn't whole, or is refused, its length included. */
struct zk_held {
    uint32_t status;
    uint32_t bytes;
};

/* A text's length; it is written where there is room for all of it (ZK_WELL, else ZK_ROOM). */
struct zk_line {
    uint32_t status;
    size_t length;
};

/* Whether a line was said: the length of its frame, or the column of the fault, from 1, if it is no message's. */
struct zk_say {
    uint32_t status;
    size_t length;
    uint32_t column;
};

/* Whether a payload is a message's, and where its first fault is. */
struct zk_payload {
    uint32_t status;
    uint32_t place;
};

/* Kinds of a field. */
enum {
    ZK_KIND_INT = 1,
    ZK_KIND_LONG = 2,
    ZK_KIND_BOOL = 3,
    ZK_KIND_TEXT = 4,
    ZK_KIND_BLOB = 5,
    ZK_KIND_LIST = 6, /* a list's count; its elements' fields follow */
    ZK_KIND_PART = 7  /* the header of a part of a multi, or of a result; the fields of its record follow */
};

/* Names of a field (docs/FORMATS.md, sections 3 and 4; data, type, id and children are jute's). The elements of a list
 * have the list's name, except that each field of an access right has its own; the header of a part has none. */
/* The lines from here on are written by dev/names.py. */
enum {
    ZK_NAME_NONE = 0,
    ZK_NAME_PATH = 1,
    ZK_NAME_DATA = 2,
    ZK_NAME_ACL = 3,
    ZK_NAME_FLAGS = 4,
    ZK_NAME_VERSION = 5,
    ZK_NAME_WATCH = 6,
    ZK_NAME_PERMS = 7,
    ZK_NAME_SCHEME = 8,
    ZK_NAME_ID = 9,
    ZK_NAME_TYPE = 10,
    ZK_NAME_STATE = 11,
    ZK_NAME_AUTH = 12,
    ZK_NAME_CZXID = 13,
    ZK_NAME_MZXID = 14,
    ZK_NAME_CTIME = 15,
    ZK_NAME_MTIME = 16,
    ZK_NAME_CVERSION = 17,
    ZK_NAME_AVERSION = 18,
    ZK_NAME_EPHEMERAL_OWNER = 19,
    ZK_NAME_DATA_LENGTH = 20,
    ZK_NAME_NUM_CHILDREN = 21,
    ZK_NAME_PZXID = 22,
    ZK_NAME_CHILDREN = 23,
    ZK_NAME_ZXID = 24,
    ZK_NAME_DATA_WATCHES = 25,
    ZK_NAME_EXIST_WATCHES = 26,
    ZK_NAME_CHILD_WATCHES = 27,
    ZK_NAME_PROTOCOL_VERSION = 28,
    ZK_NAME_LAST_ZXID_SEEN = 29,
    ZK_NAME_TIME_OUT = 30,
    ZK_NAME_SESSION_ID = 31,
    ZK_NAME_PASSWD = 32,
    ZK_NAME_READ_ONLY = 33,
    ZK_NAME_ERR = 34,
    ZK_NAME_TTL = 35,
    ZK_NAME_MODE = 36,
    ZK_NAME_COUNT = 37,
    ZK_NAME_JOINING = 38,
    ZK_NAME_LEAVING = 39,
    ZK_NAME_MEMBERS = 40,
    ZK_NAME_CONFIG = 41,
    ZK_NAME_CODE = 42
};
/* Up to here. */

/* Numbers that messages have, also of releases that no profile has.
 * The lines from here on are written by dev/names.py. */
/* An operation, or of a part of a multi. */
enum {
    ZK_OP_CLOSE_SESSION = -11, ZK_OP_CREATE = 1, ZK_OP_DELETE = 2, ZK_OP_EXISTS = 3, ZK_OP_GET_DATA = 4,
    ZK_OP_SET_DATA = 5, ZK_OP_GET_ACL = 6, ZK_OP_SET_ACL = 7, ZK_OP_GET_CHILDREN = 8, ZK_OP_SYNC = 9, ZK_OP_PING = 11,
    ZK_OP_GET_CHILDREN2 = 12, ZK_OP_CHECK = 13, ZK_OP_MULTI = 14, ZK_OP_CREATE2 = 15, ZK_OP_RECONFIG = 16,
    ZK_OP_CHECK_WATCHES = 17, ZK_OP_REMOVE_WATCHES = 18, ZK_OP_CREATE_CONTAINER = 19, ZK_OP_DELETE_CONTAINER = 20,
    ZK_OP_CREATE_TTL = 21, ZK_OP_MULTI_READ = 22, ZK_OP_AUTH = 100, ZK_OP_SET_WATCHES = 101, ZK_OP_SASL = 102,
    ZK_OP_GET_EPHEMERALS = 103, ZK_OP_GET_ALL_CHILDREN_NUMBER = 104, ZK_OP_SET_WATCHES2 = 105, ZK_OP_ADD_WATCH = 106,
    ZK_OP_WHO_AM_I = 107
};

/* A reply's err. */
enum {
    ZK_ERR_OK = 0, ZK_ERR_SYSTEM_ERROR = -1, ZK_ERR_RUNTIME_INCONSISTENCY = -2, ZK_ERR_DATA_INCONSISTENCY = -3,
    ZK_ERR_CONNECTION_LOSS = -4, ZK_ERR_MARSHALLING_ERROR = -5, ZK_ERR_UNIMPLEMENTED = -6,
    ZK_ERR_OPERATION_TIMEOUT = -7, ZK_ERR_BAD_ARGUMENTS = -8, ZK_ERR_UNKNOWN_SESSION = -12,
    ZK_ERR_NEW_CONFIG_NO_QUORUM = -13, ZK_ERR_RECONFIG_IN_PROGRESS = -14, ZK_ERR_API_ERROR = -100,
    ZK_ERR_NO_NODE = -101, ZK_ERR_NO_AUTH = -102, ZK_ERR_BAD_VERSION = -103, ZK_ERR_NO_CHILDREN_FOR_EPHEMERALS = -108,
    ZK_ERR_NODE_EXISTS = -110, ZK_ERR_NOT_EMPTY = -111, ZK_ERR_SESSION_EXPIRED = -112, ZK_ERR_INVALID_CALLBACK = -113,
    ZK_ERR_INVALID_ACL = -114, ZK_ERR_AUTH_FAILED = -115, ZK_ERR_SESSION_MOVED = -118, ZK_ERR_NOT_READ_ONLY = -119,
    ZK_ERR_EPHEMERAL_ON_LOCAL_SESSION = -120, ZK_ERR_NO_WATCHER = -121, ZK_ERR_REQUEST_TIMEOUT = -122,
    ZK_ERR_RECONFIG_DISABLED = -123, ZK_ERR_SESSION_CLOSED_REQUIRE_SASL_AUTH = -124, ZK_ERR_QUOTA_EXCEEDED = -125,
    ZK_ERR_THROTTLED_OP = -127
};

/* An event's type. */
enum {
    ZK_EVENT_NONE = -1, ZK_EVENT_NODE_CREATED = 1, ZK_EVENT_NODE_DELETED = 2, ZK_EVENT_NODE_DATA_CHANGED = 3,
    ZK_EVENT_NODE_CHILDREN_CHANGED = 4, ZK_EVENT_DATA_WATCH_REMOVED = 5, ZK_EVENT_CHILD_WATCH_REMOVED = 6,
    ZK_EVENT_PERSISTENT_WATCH_REMOVED = 7
};

/* An event's state. */
enum {
    ZK_STATE_EXPIRED = -112, ZK_STATE_UNKNOWN = -1, ZK_STATE_DISCONNECTED = 0, ZK_STATE_NO_SYNC_CONNECTED = 1,
    ZK_STATE_SYNC_CONNECTED = 3, ZK_STATE_AUTH_FAILED = 4, ZK_STATE_CONNECTED_READ_ONLY = 5,
    ZK_STATE_SASL_AUTHENTICATED = 6, ZK_STATE_CLOSED = 7
};

/* The flags of a create request. */
enum {
    ZK_CREATE_PERSISTENT = 0, ZK_CREATE_EPHEMERAL = 1, ZK_CREATE_PERSISTENT_SEQUENTIAL = 2,
    ZK_CREATE_EPHEMERAL_SEQUENTIAL = 3, ZK_CREATE_CONTAINER = 4, ZK_CREATE_PERSISTENT_WITH_TTL = 5,
    ZK_CREATE_PERSISTENT_SEQUENTIAL_WITH_TTL = 6
};

/* What an access right permits. */
enum {
    ZK_PERMISSION_READ = 1, ZK_PERMISSION_WRITE = 2, ZK_PERMISSION_CREATE = 4, ZK_PERMISSION_DELETE = 8,
    ZK_PERMISSION_ADMIN = 16, ZK_PERMISSION_ALL = 31
};
/* Up to here. */

/* A field of a message: an item of its payload. Its content is the `length` bytes of the payload from `place` on: for a
 * text or a blob those after its length, for all else the whole item. `number` is that of an int, a long or a boolean
 * (1: true), a list's count, or the operation in a part's header (-1: a result that is an error). `null` is 1 for a text,
 * a blob or a list that is null, whose `number` is 0; else 0. */
struct zk_field {
    uint32_t place;
    uint32_t length;
    int64_t number;
    uint16_t name;
    uint8_t kind;
    uint8_t null;
};

/* The message of a payload, and how many fields it has. The fields are written as far as there is room; the status is
 * ZK_WELL, or ZK_ROOM if `count` is more than that. kind is one of ZK_CONNECT to ZK_EVENT; xid, operation (that of a
 * request, or of the request that a reply answers), err and zxid (of a reply or an event) are 0 if the message has none.
 * If the payload is no message's, the status is the reason, `place` the place of the fault, and kind 0; the fields are
 * those of the items that end before it; xid, operation, err and zxid are those of the header, as far as it is there. A
 * reply's header has no operation, so a faulty reply has 0 there, and the caller knows which it asked about. */
struct zk_read {
    uint32_t status;
    uint32_t place;
    uint32_t count;
    uint32_t kind;
    int32_t xid;
    int32_t operation;
    int32_t err;
    int64_t zxid;
};

/* Whether a frame was written. ZK_WELL: `length` bytes of the room. ZK_ROOM: the frame has `length` bytes, more than the
 * room. ZK_RANGE: the field of this index says nothing, since its kind is none, its number doesn't fit its kind or is
 * said to be null, its content isn't in the content, its text isn't UTF-8, or it is an error's header in a reply and no
 * int follows.
 * ZK_TOO_LONG: with the field of this index the payload has more than 2147483647 bytes. */
struct zk_written {
    uint32_t status;
    size_t length;
    size_t index;
};

/* A number of bytes of a side, for zk_listing. */
struct zk_piece {
    uint32_t side;
    size_t length;
};

/* The version of the library, as ZK_VERSION_NUMBER is that of the header. */
uint32_t zk_version(void);

/* Makes a talk. client and server are the greatest payloads of the sides (64 to 16777216 bytes), waiting is how many
 * requests and parts may wait (1 to 1048576). Returns ZK_WELL, ZK_IN_USE, ZK_RANGE or ZK_NO_MEMORY. */
uint32_t zk_talk_new(struct zk_talk *talk, uint32_t client, uint32_t server, uint32_t waiting, uint32_t profile);

/* Begins the talk anew with its limits, as zk_talk_new makes it, whatever came before; for who has many short
 * conversations. It never allocates. Returns ZK_WELL or ZK_EMPTY. */
uint32_t zk_talk_renew(struct zk_talk *talk);

/* Takes bytes of a side up to the end of the first frame that becomes whole, or all of them. It never allocates. */
struct zk_step zk_talk_step(struct zk_talk *talk, uint32_t side, const uint8_t *piece, size_t length);

/* The same, and it keeps no frame: for who needs no message. It doesn't copy a frame that is whole in the piece, unless a
 * first look at it is undecided. */
struct zk_step zk_talk_pass(struct zk_talk *talk, uint32_t side, const uint8_t *piece, size_t length);

/* Offers the side's next frame, whole, its length included. It is taken if it may come next, as a step would take it
 * (ZK_WELL, whole, and all bytes used), and kept. Else nothing changes, and another may be offered: the status is the reason
 * with which a step would refuse it, and fault says where. ZK_RANGE, and nothing is judged, if the bytes aren't just one
 * frame, or if the side has begun another. It never allocates. */
struct zk_step zk_talk_offer(struct zk_talk *talk, uint32_t side, const uint8_t *frame, size_t length);

/* The message whose frame the side keeps: the one that its last step, or an offer since, completed. */
struct zk_message zk_talk_view(struct zk_talk *talk, uint32_t side);

/* Writes that message's line (docs/FORMATS.md, section 9), without line feed. */
struct zk_line zk_talk_line(struct zk_talk *talk, uint32_t side, uint8_t *out, size_t room);

/* Writes that message's payload, which is its frame without the length, in whatever pieces it came. */
struct zk_line zk_talk_payload(struct zk_talk *talk, uint32_t side, uint8_t *out, size_t room);

/* Writes the fields of that message, as zk_read_request and its like; their places are those in the payload. */
struct zk_read zk_talk_fields(struct zk_talk *talk, uint32_t side, struct zk_field *out, size_t room);

/* How many requests wait for their replies; after a fault, those before the byte that decided it. */
struct zk_waiting zk_talk_waiting(struct zk_talk *talk);

/* How many bytes the side has sent of a frame that isn't whole, or is refused. */
struct zk_held zk_talk_held(struct zk_talk *talk, uint32_t side);

/* How the conversation ends if nothing more comes. */
struct zk_ending zk_talk_finish(struct zk_talk *talk);

/* Writes the line of the ending (section 11), without line feed. */
struct zk_line zk_talk_ending_line(struct zk_talk *talk, uint8_t *out, size_t room);

/* Frees the talk; the handle is then empty. An empty handle is freed by doing nothing, so freeing twice is harmless. */
void zk_talk_free(struct zk_talk *talk);

/* Makes a passage: a talk that goes on where the profile ends. The numbers are those of zk_talk_new. What is judged is the
 * conversation without the requests whose operations the profile lacks, without multis with a part create2, createContainer
 * or createTTL after good parts, and without the replies to them. Requests under the xids of pings, auths and events are
 * never left out. It holds twice the memory of a talk, and the requests that wait. All else that a talk refuses is refused
 * by a passage, too: an auth under an ordinary xid, as the client in Go sends it, a text that isn't UTF-8, and words of four
 * letters, such as `ruok`. */
uint32_t zk_through_new(struct zk_through *through, uint32_t client, uint32_t server, uint32_t waiting, uint32_t profile);

/* Makes a passage of a connection that is seen late, for who attaches to one in the middle: as zk_through_new, but a connect
 * request and its answer have come that nobody sent, whose numbers are -1 and whose passwords are null: frame 0 of each side,
 * of 32 and 24 bytes. Then give it all that the client sends from the beginning of a frame on, and what the server sends
 * from the beginning of a frame on, of which none may be missing that came after the client's first.
 *
 * A reply to a request before that is ZK_UNSEEN. It is known by its xid, until a reply is to a request that was seen; from
 * then on another xid than that of the oldest that waits is ZK_XID_ORDER, and a reply where none waits ZK_UNASKED, as ever.
 * Before, ZK_XID_ORDER is a reply to a request that was seen, but isn't the oldest. Pings (-2) have one xid, and so have
 * auths (-4) and setWatches (-8): a reply of theirs is ZK_UNSEEN where none of theirs waits. */
uint32_t zk_through_join(struct zk_through *through, uint32_t client, uint32_t server, uint32_t waiting, uint32_t profile);

/* Begins anew with the same limits, as zk_through_new makes it; it never allocates. Returns ZK_WELL or ZK_EMPTY. */
uint32_t zk_through_renew(struct zk_through *through);

/* Takes a piece as zk_talk_step does. A fault's frame and offset are the side's own, those left out counted. After ZK_FULL
 * the server's bytes come first, up to the end of its next reply: then give the client's piece again, before the server's
 * next bytes, which may answer it. So no frame is refused with ZK_QUEUE_FULL. Where all requests have their replies, the
 * frame alone weighs more than may wait. */
struct zk_passed zk_through_step(struct zk_through *through, uint32_t side, const uint8_t *piece, size_t length);

/* The same, and the side shows no message and keeps no payload then: for who needs neither. */
struct zk_passed zk_through_pass(struct zk_through *through, uint32_t side, const uint8_t *piece, size_t length);

/* Offers the side's next frame, whole, its length included. It is taken if it may come next, as zk_through_step would take
 * it: all bytes are used, and what became of them is ZK_MESSAGE, ZK_ASKED, ZK_ANSWERED or ZK_UNSEEN. Else nothing changes,
 * also what the side shows, and another may be offered. The status is the reason with which a step would refuse it, and fault
 * says where. Or it is ZK_WELL with ZK_FULL: with the client's frame more would wait than may, and after the next reply it
 * may be offered again. ZK_RANGE, and nothing is judged, if the bytes aren't just one frame, or if the side has begun
 * another. It never allocates. */
struct zk_passed zk_through_offer(struct zk_through *through, uint32_t side, const uint8_t *frame, size_t length);

/* Goes on after a refusal, from the end of the refused frame on, as a connection that is seen late: as zk_through_join, with
 * the passage's own limits and memory. It never allocates. `used` is how many bytes of the refused piece the refused frame
 * has: give those after them next. Each side begins anew at the beginning of a frame. So what the other side had begun of
 * one, as many bytes as zk_through_held returned before this call, is to be given again, from its beginning on. Frame 0 of
 * each side and its first 32 and 24 bytes are those that nobody sent, no request waits, and a reply to a request before the
 * end of the refused frame is ZK_UNSEEN. After a refused connect request its answer is taken for a reply.
 *
 * The status is the fault's reason, with the fault, where the refused frame has no end: ZK_LENGTH_RANGE and ZK_STREAM_END.
 * Then nothing is changed. Where nothing is refused nothing is changed either: ZK_WELL, with 0 used. */
struct zk_step zk_through_resume(struct zk_through *through);

/* The message of the side's newest whole frame, also while bytes of the next one come; ZK_NO_MESSAGE if that was left
 * out, or if the side's last step was refused. A step of no bytes keeps it. */
struct zk_message zk_through_view(struct zk_through *through, uint32_t side);

/* Writes that message's line, as zk_talk_line. */
struct zk_line zk_through_line(struct zk_through *through, uint32_t side, uint8_t *out, size_t room);

/* The fields of that message, as zk_talk_fields writes them. */
struct zk_read zk_through_fields(struct zk_through *through, uint32_t side, struct zk_field *out, size_t room);

/* Writes the payload of the frame that the side's last step left out, also of ZK_UNSEEN; else that of the message which
 * zk_through_view returns, as zk_talk_payload does. ZK_NO_MESSAGE if there is neither. */
struct zk_line zk_through_payload(struct zk_through *through, uint32_t side, uint8_t *out, size_t room);

/* How many requests wait for their replies, also those left out, which weigh 1 each; after a fault, those before the refused
 * frame. */
struct zk_waiting zk_through_waiting(struct zk_through *through);

/* How many bytes the side has sent of a frame that isn't whole, or is refused. */
struct zk_held zk_through_held(struct zk_through *through, uint32_t side);

/* How the conversation ends if nothing more comes. Frames that are left out count: as unanswered, a request without its
 * reply; as cut, a frame that isn't whole. */
struct zk_ending zk_through_finish(struct zk_through *through);

/* Writes the line of that ending, as zk_talk_ending_line. */
struct zk_line zk_through_ending_line(struct zk_through *through, uint8_t *out, size_t room);

/* Frees the passage; the handle is then empty. */
void zk_through_free(struct zk_through *through);

/* Makes a speaker, which has said nothing; the numbers are those of zk_talk_new. */
uint32_t zk_speaker_new(struct zk_speaker *speaker, uint32_t client, uint32_t server, uint32_t waiting, uint32_t profile);

/* Begins the speaker anew with its limits: it has said nothing. It never allocates. Returns ZK_WELL or ZK_EMPTY. */
uint32_t zk_speaker_renew(struct zk_speaker *speaker);

/* Says the message of a line, without line feed, if it may come next; its frame is kept until the next call that says. */
struct zk_say zk_speaker_say(struct zk_speaker *speaker, const uint8_t *line, size_t length);

/* The same for the side's message of which the bytes are the payload. The payload's own fault is returned with its place,
 * however long it is; ZK_TOO_LONG, ZK_QUEUE_FULL and ZK_NO_MEMORY as for the message's line. Only the frame is allocated. */
struct zk_payload zk_speaker_say_payload(struct zk_speaker *speaker, uint32_t side, const uint8_t *bytes, size_t length);

/* Writes that frame; no bytes where none is kept. */
struct zk_line zk_speaker_frame(struct zk_speaker *speaker, uint8_t *out, size_t room);

/* Frees the speaker; the handle is then empty. */
void zk_speaker_free(struct zk_speaker *speaker);

/* Whether the payload is that of a connect request. */
struct zk_payload zk_judge_first(const uint8_t *bytes, size_t length);

/* Whether the payload is that of a request of this profile. */
struct zk_payload zk_judge_request(uint32_t profile, const uint8_t *bytes, size_t length);

/* Whether the payload is that of the answer to a connect request. */
struct zk_payload zk_judge_connected(const uint8_t *bytes, size_t length);

/* Whether the payload is that of a reply to a request of this operation; for a multi, parts are the operations of its
 * count parts. ZK_RANGE if a number is unknown or another operation has parts; ZK_MISFIT if all of the header is there and
 * its xid is an event's, -1. */
struct zk_payload zk_judge_reply(int32_t operation, const int32_t *parts, size_t count, const uint8_t *bytes, size_t length);

/* Whether the payload is that of an event. ZK_MISFIT if all of the header is there and its xid isn't -1: a reply's. */
struct zk_payload zk_judge_event(const uint8_t *bytes, size_t length);

/* Writes the fields of a connect request's payload into `out`, which has room for `room` fields and doesn't overlap it.
 * It never allocates. ZK_RANGE if the payload has 4 GiB or more. */
struct zk_read zk_read_first(const uint8_t *payload, size_t length, struct zk_field *out, size_t room);

/* The same for a request of this profile; ZK_RANGE if it is no profile. */
struct zk_read zk_read_request(uint32_t profile, const uint8_t *payload, size_t length, struct zk_field *out, size_t room);

/* The same for the answer to a connect request. */
struct zk_read zk_read_connected(const uint8_t *payload, size_t length, struct zk_field *out, size_t room);

/* The same for a reply; operation and parts, ZK_RANGE and ZK_MISFIT as for zk_judge_reply. But where no operation has the
 * number, the answer has the numbers of the header, and is ZK_UNKNOWN_OP at 16, where the body begins. */
struct zk_read zk_read_reply(int32_t operation, const int32_t *parts, size_t count, const uint8_t *payload, size_t length, struct zk_field *out, size_t room);

/* The same for an event; ZK_MISFIT as for zk_judge_event. */
struct zk_read zk_read_event(const uint8_t *payload, size_t length, struct zk_field *out, size_t room);

/* Writes the frame of a request: its length, xid and operation, what the fields say, and a multi's end marker. The fields
 * are those that zk_read_request returns for such a request, in the same order. A text or a blob has its bytes in
 * `content`, at its place and length, and a list its count; a part of a multi has its operation. Names are not read. Of
 * the fields that were read of a payload, and that payload as content, its frame is written again. Nothing is allocated,
 * and where the status isn't ZK_WELL the room is unchanged; it doesn't overlap the content.
 *
 * Whether a frame may come next is judged by a talk: give it to zk_talk_offer as the client's, send it if that is ZK_WELL,
 * and give the talk all that the server sends by zk_talk_step. A frame that is refused isn't sent, and the talk goes on as
 * if it had never been (a passage, by zk_through_offer, also where operations are asked that the profile lacks). So one talk judges both sides, gives each reply its request's operation, and its queue empties as
 * replies come. examples/client_frames.c does this. */
struct zk_written zk_write_request(int32_t xid, int32_t operation, const struct zk_field *fields, size_t count, const uint8_t *content, size_t length, uint8_t *out, size_t room);

/* The same for a connect request, which has no header. */
struct zk_written zk_write_first(const struct zk_field *fields, size_t count, const uint8_t *content, size_t length, uint8_t *out, size_t room);

/* The same for a reply to a request of this operation: its length, xid, zxid and err, what the fields say, and, if err is
 * 0, a multi's end marker. The fields are those that zk_read_reply returns; a reply whose err isn't 0 has none. A result
 * of a multi has its part's operation, and an error -1 and then its number as an int. A talk that is given the client's
 * bytes says what to answer, and judges the answer as ZK_SERVER: examples/server.c. */
struct zk_written zk_write_reply(int32_t xid, int64_t zxid, int32_t err, int32_t operation, const struct zk_field *fields, size_t count, const uint8_t *content, size_t length, uint8_t *out, size_t room);

/* The same for an event, whose xid is -1 and whose err is 0; a server's zxid is -1. */
struct zk_written zk_write_event(int64_t zxid, const struct zk_field *fields, size_t count, const uint8_t *content, size_t length, uint8_t *out, size_t room);

/* The same for the answer to a connect request, which has no header. */
struct zk_written zk_write_connected(const struct zk_field *fields, size_t count, const uint8_t *content, size_t length, uint8_t *out, size_t room);

/* Writes the listing of a whole conversation: the line of each message and of the ending, each with a line feed. The
 * pieces are in the order in which they came, and bytes are those of all, one after the other; the numbers are those of
 * zk_talk_new. ZK_RANGE if one is out of range, or the pieces aren't just the bytes; ZK_ROOM with the length that is
 * needed, and out as it was. It allocates all messages and the text. */
struct zk_line zk_listing(const struct zk_piece *pieces, size_t count, const uint8_t *bytes, size_t length, uint32_t client, uint32_t server, uint32_t waiting, uint32_t profile, uint8_t *out, size_t room);

/* ---- Structs that may grow
 *
 * A later release under the same name of the shared library may have more at the end of struct zk_message, struct
 * zk_passed and struct zk_ending. So it has no calls that return these: it has those below, which fill the first `size`
 * bytes of a struct, with zeros where its own ends before. The functions of this header, which are called by the names
 * above, give the size that the struct has here. */
#ifndef ZK_BY_VALUE
void zk_talk_view_into(struct zk_talk *talk, uint32_t side, struct zk_message *out, size_t size);
void zk_talk_finish_into(struct zk_talk *talk, struct zk_ending *out, size_t size);
void zk_through_step_into(struct zk_through *through, uint32_t side, const uint8_t *piece, size_t length, struct zk_passed *out, size_t size);
void zk_through_pass_into(struct zk_through *through, uint32_t side, const uint8_t *piece, size_t length, struct zk_passed *out, size_t size);
void zk_through_offer_into(struct zk_through *through, uint32_t side, const uint8_t *frame, size_t length, struct zk_passed *out, size_t size);
void zk_through_view_into(struct zk_through *through, uint32_t side, struct zk_message *out, size_t size);
void zk_through_finish_into(struct zk_through *through, struct zk_ending *out, size_t size);
#else /* the proved library alone, which returns them: for measurements */
static inline void zk_talk_view_into(struct zk_talk *talk, uint32_t side, struct zk_message *out, size_t size) {
    (void)size;
    *out = zk_talk_view(talk, side);
}
static inline void zk_talk_finish_into(struct zk_talk *talk, struct zk_ending *out, size_t size) {
    (void)size;
    *out = zk_talk_finish(talk);
}
static inline void zk_through_step_into(struct zk_through *through, uint32_t side, const uint8_t *piece, size_t length, struct zk_passed *out, size_t size) {
    (void)size;
    *out = zk_through_step(through, side, piece, length);
}
static inline void zk_through_pass_into(struct zk_through *through, uint32_t side, const uint8_t *piece, size_t length, struct zk_passed *out, size_t size) {
    (void)size;
    *out = zk_through_pass(through, side, piece, length);
}
static inline void zk_through_offer_into(struct zk_through *through, uint32_t side, const uint8_t *frame, size_t length, struct zk_passed *out, size_t size) {
    (void)size;
    *out = zk_through_offer(through, side, frame, length);
}
static inline void zk_through_view_into(struct zk_through *through, uint32_t side, struct zk_message *out, size_t size) {
    (void)size;
    *out = zk_through_view(through, side);
}
static inline void zk_through_finish_into(struct zk_through *through, struct zk_ending *out, size_t size) {
    (void)size;
    *out = zk_through_finish(through);
}
#endif

/* The functions that this marks are the library's, too, for who loads it. */
#ifndef ZK_ALSO
#define ZK_ALSO static inline
#endif

/* ---- Fields to write, for zk_write_request and its like
 *
 *     struct zk_builder a = zk_build(fields, 64, content, sizeof content);
 *     zk_add_text(&a, "/a");
 *     zk_add_number(&a, ZK_KIND_BOOL, 1);
 *     if (a.status == ZK_WELL)
 *         zk_write_request(1, ZK_OP_EXISTS, a.fields, a.count, a.content, a.length, frame, sizeof frame);
 *
 * A builder has room for fields, and for the bytes of texts and blobs. Where one has no more, or would be longer than a
 * payload may be, the status is ZK_ROOM or ZK_TOO_LONG, and nothing is added from then on. */
struct zk_builder {
    struct zk_field *fields;
    size_t room;
    size_t count;
    uint8_t *content;
    size_t size;
    size_t length;
    uint32_t status;
};

/* Begins with no fields, for `room` fields and `size` bytes. */
ZK_ALSO struct zk_builder zk_build(struct zk_field *fields, size_t room, uint8_t *content, size_t size) {
    struct zk_builder to = ZK_ZEROS;
    to.fields = fields;
    to.room = room;
    to.content = content;
    to.size = size;
    return to;
}

/* The next field, of this kind; null if there is no room. */
static inline struct zk_field *zk_added(struct zk_builder *to, uint8_t kind) {
    static const struct zk_field empty = ZK_ZEROS;
    if (to->status == ZK_WELL && to->count == to->room) {
        to->status = ZK_ROOM;
    }
    if (to->status != ZK_WELL) {
        return NULL;
    }
    struct zk_field *field = &to->fields[to->count++];
    *field = empty;
    field->kind = kind;
    return field;
}

/* Adds an int, a long, a boolean, a list's count, or the operation of a part of a multi. */
ZK_ALSO void zk_add_number(struct zk_builder *to, uint8_t kind, int64_t number) {
    struct zk_field *field = zk_added(to, kind);
    if (field != NULL) {
        field->number = number;
    }
}

/* Adds a text, a blob or a list that is null. */
ZK_ALSO void zk_add_null(struct zk_builder *to, uint8_t kind) {
    struct zk_field *field = zk_added(to, kind);
    if (field != NULL) {
        field->null = 1;
    }
}

/* Adds a text or a blob of these bytes. */
ZK_ALSO void zk_add_bytes(struct zk_builder *to, uint8_t kind, const void *bytes, size_t length) {
    struct zk_field *field = zk_added(to, kind);
    if (field == NULL) {
        return;
    }
    if (length > INT32_MAX || to->length > INT32_MAX - length || length > to->size - to->length) {
        to->status = length > to->size - to->length ? (uint32_t)ZK_ROOM : (uint32_t)ZK_TOO_LONG;
        to->count--;
        return;
    }
    field->place = (uint32_t)to->length;
    field->length = (uint32_t)length;
    if (length > 0) {
        memcpy(to->content + to->length, bytes, length);
    }
    to->length += length;
}

/* Adds a text that ends with a zero byte. */
static inline void zk_add_text(struct zk_builder *to, const char *text) {
    zk_add_bytes(to, ZK_KIND_TEXT, text, strlen(text));
}

/* Adds the fields of an access right; before those of all rights their list's count is added. */
static inline void zk_add_right(struct zk_builder *to, int32_t permissions, const char *scheme, const char *id) {
    zk_add_number(to, ZK_KIND_INT, permissions);
    zk_add_text(to, scheme);
    zk_add_text(to, id);
}

/* ---- Names of numbers; "" where a number has none */

/* The lines from here on are written by dev/names.py. */
/* Of an operation, or of a part of a multi. */
ZK_ALSO const char *zk_operation_name(int32_t number) {
    switch (number) {
    case -11: return "closeSession";
    case 1: return "create";
    case 2: return "delete";
    case 3: return "exists";
    case 4: return "getData";
    case 5: return "setData";
    case 6: return "getACL";
    case 7: return "setACL";
    case 8: return "getChildren";
    case 9: return "sync";
    case 11: return "ping";
    case 12: return "getChildren2";
    case 13: return "check";
    case 14: return "multi";
    case 15: return "create2";
    case 16: return "reconfig";
    case 17: return "checkWatches";
    case 18: return "removeWatches";
    case 19: return "createContainer";
    case 20: return "deleteContainer";
    case 21: return "createTTL";
    case 22: return "multiRead";
    case 100: return "auth";
    case 101: return "setWatches";
    case 102: return "sasl";
    case 103: return "getEphemerals";
    case 104: return "getAllChildrenNumber";
    case 105: return "setWatches2";
    case 106: return "addWatch";
    case 107: return "whoAmI";
    default: return "";
    }
}

/* Of a reply's err. */
ZK_ALSO const char *zk_error_name(int32_t number) {
    switch (number) {
    case 0: return "OK";
    case -1: return "SYSTEMERROR";
    case -2: return "RUNTIMEINCONSISTENCY";
    case -3: return "DATAINCONSISTENCY";
    case -4: return "CONNECTIONLOSS";
    case -5: return "MARSHALLINGERROR";
    case -6: return "UNIMPLEMENTED";
    case -7: return "OPERATIONTIMEOUT";
    case -8: return "BADARGUMENTS";
    case -12: return "UNKNOWNSESSION";
    case -13: return "NEWCONFIGNOQUORUM";
    case -14: return "RECONFIGINPROGRESS";
    case -100: return "APIERROR";
    case -101: return "NONODE";
    case -102: return "NOAUTH";
    case -103: return "BADVERSION";
    case -108: return "NOCHILDRENFOREPHEMERALS";
    case -110: return "NODEEXISTS";
    case -111: return "NOTEMPTY";
    case -112: return "SESSIONEXPIRED";
    case -113: return "INVALIDCALLBACK";
    case -114: return "INVALIDACL";
    case -115: return "AUTHFAILED";
    case -118: return "SESSIONMOVED";
    case -119: return "NOTREADONLY";
    case -120: return "EPHEMERALONLOCALSESSION";
    case -121: return "NOWATCHER";
    case -122: return "REQUESTTIMEOUT";
    case -123: return "RECONFIGDISABLED";
    case -124: return "SESSIONCLOSEDREQUIRESASLAUTH";
    case -125: return "QUOTAEXCEEDED";
    case -127: return "THROTTLEDOP";
    default: return "";
    }
}

/* Of an event's type. */
ZK_ALSO const char *zk_event_name(int64_t number) {
    switch (number) {
    case -1: return "None";
    case 1: return "NodeCreated";
    case 2: return "NodeDeleted";
    case 3: return "NodeDataChanged";
    case 4: return "NodeChildrenChanged";
    case 5: return "DataWatchRemoved";
    case 6: return "ChildWatchRemoved";
    case 7: return "PersistentWatchRemoved";
    default: return "";
    }
}

/* Of an event's state. */
ZK_ALSO const char *zk_state_name(int64_t number) {
    switch (number) {
    case -112: return "Expired";
    case -1: return "Unknown";
    case 0: return "Disconnected";
    case 1: return "NoSyncConnected";
    case 3: return "SyncConnected";
    case 4: return "AuthFailed";
    case 5: return "ConnectedReadOnly";
    case 6: return "SaslAuthenticated";
    case 7: return "Closed";
    default: return "";
    }
}

/* Of the flags of a create request. */
ZK_ALSO const char *zk_flags_name(int64_t number) {
    switch (number) {
    case 0: return "persistent";
    case 1: return "ephemeral";
    case 2: return "persistentSequential";
    case 3: return "ephemeralSequential";
    case 4: return "container";
    case 5: return "persistentWithTTL";
    case 6: return "persistentSequentialWithTTL";
    default: return "";
    }
}

/* Of a field's name. */
ZK_ALSO const char *zk_field_name(uint16_t number) {
    switch (number) {
    case ZK_NAME_PATH: return "path";
    case ZK_NAME_DATA: return "data";
    case ZK_NAME_ACL: return "acl";
    case ZK_NAME_FLAGS: return "flags";
    case ZK_NAME_VERSION: return "version";
    case ZK_NAME_WATCH: return "watch";
    case ZK_NAME_PERMS: return "perms";
    case ZK_NAME_SCHEME: return "scheme";
    case ZK_NAME_ID: return "id";
    case ZK_NAME_TYPE: return "type";
    case ZK_NAME_STATE: return "state";
    case ZK_NAME_AUTH: return "auth";
    case ZK_NAME_CZXID: return "czxid";
    case ZK_NAME_MZXID: return "mzxid";
    case ZK_NAME_CTIME: return "ctime";
    case ZK_NAME_MTIME: return "mtime";
    case ZK_NAME_CVERSION: return "cversion";
    case ZK_NAME_AVERSION: return "aversion";
    case ZK_NAME_EPHEMERAL_OWNER: return "ephemeral_owner";
    case ZK_NAME_DATA_LENGTH: return "data_length";
    case ZK_NAME_NUM_CHILDREN: return "num_children";
    case ZK_NAME_PZXID: return "pzxid";
    case ZK_NAME_CHILDREN: return "children";
    case ZK_NAME_ZXID: return "zxid";
    case ZK_NAME_DATA_WATCHES: return "data_watches";
    case ZK_NAME_EXIST_WATCHES: return "exist_watches";
    case ZK_NAME_CHILD_WATCHES: return "child_watches";
    case ZK_NAME_PROTOCOL_VERSION: return "protocol_version";
    case ZK_NAME_LAST_ZXID_SEEN: return "last_zxid_seen";
    case ZK_NAME_TIME_OUT: return "time_out";
    case ZK_NAME_SESSION_ID: return "session_id";
    case ZK_NAME_PASSWD: return "passwd";
    case ZK_NAME_READ_ONLY: return "read_only";
    case ZK_NAME_ERR: return "err";
    case ZK_NAME_TTL: return "ttl";
    case ZK_NAME_MODE: return "mode";
    case ZK_NAME_COUNT: return "count";
    case ZK_NAME_JOINING: return "joining";
    case ZK_NAME_LEAVING: return "leaving";
    case ZK_NAME_MEMBERS: return "members";
    case ZK_NAME_CONFIG: return "config";
    case ZK_NAME_CODE: return "code";
    default: return "";
    }
}

/* Of a status: that of its number above, without its beginning. */
ZK_ALSO const char *zk_status_name(uint32_t number) {
    switch (number) {
    case ZK_WELL: return "WELL";
    case ZK_SHORT: return "SHORT";
    case ZK_BAD_BOOL: return "BAD_BOOL";
    case ZK_BAD_LENGTH: return "BAD_LENGTH";
    case ZK_BAD_TEXT: return "BAD_TEXT";
    case ZK_NO_MEMORY: return "NO_MEMORY";
    case ZK_TRAILING: return "TRAILING";
    case ZK_UNKNOWN_OP: return "UNKNOWN_OP";
    case ZK_XID_OP: return "XID_OP";
    case ZK_BAD_PART: return "BAD_PART";
    case ZK_EVENT_ERR: return "EVENT_ERR";
    case ZK_LENGTH_RANGE: return "LENGTH_RANGE";
    case ZK_QUEUE_FULL: return "QUEUE_FULL";
    case ZK_UNASKED: return "UNASKED";
    case ZK_XID_ORDER: return "XID_ORDER";
    case ZK_STREAM_END: return "STREAM_END";
    case ZK_EMPTY: return "EMPTY";
    case ZK_IN_USE: return "IN_USE";
    case ZK_RANGE: return "RANGE";
    case ZK_ROOM: return "ROOM";
    case ZK_NO_MESSAGE: return "NO_MESSAGE";
    case ZK_NULL: return "NULL";
    case ZK_NOT_FIRST: return "NOT_FIRST";
    case ZK_MISFIT: return "MISFIT";
    case ZK_TOO_LONG: return "TOO_LONG";
    case ZK_LINE_WORD: return "LINE_WORD";
    case ZK_LINE_NUMBER: return "LINE_NUMBER";
    case ZK_LINE_TEXT: return "LINE_TEXT";
    case ZK_LINE_BLOB: return "LINE_BLOB";
    case ZK_LINE_NAME: return "LINE_NAME";
    case ZK_LINE_REST: return "LINE_REST";
    case ZK_LINE_ENDING: return "LINE_ENDING";
    default: return "";
    }
}
/* Up to here. */

/* ---- Null pointers, and lengths of more than PTRDIFF_MAX bytes
 *
 * The library's calls take no null pointer. The functions below check each pointer and length first, and return ZK_NULL
 * or ZK_RANGE, which changes nothing; from here on the names above call them. Where the length is 0, a null pointer is
 * replaced by another pointer. */

/* ZK_NULL or ZK_RANGE for `count` elements of `size` bytes at a pointer, or ZK_WELL. */
static inline uint32_t zk_fault_at(const void *at, size_t count, size_t size) {
    if (at == NULL) {
        return ZK_NULL;
    }
    return count > (size_t)PTRDIFF_MAX / size ? ZK_RANGE : ZK_WELL;
}

/* The same, but 0 elements are ZK_WELL with any pointer. */
static inline uint32_t zk_fault_of(const void *at, size_t count, size_t size) {
    return count == 0 ? (uint32_t)ZK_WELL : zk_fault_at(at, count, size);
}

/* A pointer to read from, which isn't null; aligned for all that the library reads. */
static inline const void *zk_from(const void *at) {
    static const uint64_t none = 0;
    return at != NULL ? at : &none;
}

/* A pointer to write nothing to, which isn't null, aligned likewise. */
static inline void *zk_into(void *at) {
    static const uint64_t none = 0;
    return at != NULL ? at : (void *)(uintptr_t)&none;
}

/* The first of two statuses that isn't ZK_WELL. */
static inline uint32_t zk_first_of(uint32_t one, uint32_t other) {
    return one != ZK_WELL ? one : other;
}

static inline uint32_t zk_safe_talk_new(struct zk_talk *talk, uint32_t client, uint32_t server, uint32_t waiting, uint32_t profile) {
    uint32_t fault = zk_fault_at(talk, 1, sizeof *talk);
    return fault != ZK_WELL ? fault : zk_talk_new(talk, client, server, waiting, profile);
}

static inline uint32_t zk_safe_talk_renew(struct zk_talk *talk) {
    uint32_t fault = zk_fault_at(talk, 1, sizeof *talk);
    return fault != ZK_WELL ? fault : zk_talk_renew(talk);
}

static inline struct zk_step zk_safe_talk_step(struct zk_talk *talk, uint32_t side, const uint8_t *piece, size_t length) {
    struct zk_step answer = ZK_ZEROS;
    answer.status = zk_first_of(zk_fault_at(talk, 1, sizeof *talk), zk_fault_of(piece, length, sizeof *piece));
    return answer.status != ZK_WELL ? answer : zk_talk_step(talk, side, (const uint8_t *)zk_from(piece), length);
}

static inline struct zk_step zk_safe_talk_pass(struct zk_talk *talk, uint32_t side, const uint8_t *piece, size_t length) {
    struct zk_step answer = ZK_ZEROS;
    answer.status = zk_first_of(zk_fault_at(talk, 1, sizeof *talk), zk_fault_of(piece, length, sizeof *piece));
    return answer.status != ZK_WELL ? answer : zk_talk_pass(talk, side, (const uint8_t *)zk_from(piece), length);
}

static inline struct zk_step zk_safe_talk_offer(struct zk_talk *talk, uint32_t side, const uint8_t *frame, size_t length) {
    struct zk_step answer = ZK_ZEROS;
    answer.status = zk_first_of(zk_fault_at(talk, 1, sizeof *talk), zk_fault_of(frame, length, sizeof *frame));
    return answer.status != ZK_WELL ? answer : zk_talk_offer(talk, side, (const uint8_t *)zk_from(frame), length);
}

static inline struct zk_message zk_safe_talk_view(struct zk_talk *talk, uint32_t side) {
    struct zk_message answer = ZK_ZEROS;
    answer.status = zk_fault_at(talk, 1, sizeof *talk);
    if (answer.status == ZK_WELL) {
        zk_talk_view_into(talk, side, &answer, sizeof answer);
    }
    return answer;
}

static inline struct zk_line zk_safe_talk_line(struct zk_talk *talk, uint32_t side, uint8_t *out, size_t room) {
    struct zk_line answer = ZK_ZEROS;
    answer.status = zk_first_of(zk_fault_at(talk, 1, sizeof *talk), zk_fault_of(out, room, sizeof *out));
    return answer.status != ZK_WELL ? answer : zk_talk_line(talk, side, (uint8_t *)zk_into(out), room);
}

static inline struct zk_line zk_safe_talk_payload(struct zk_talk *talk, uint32_t side, uint8_t *out, size_t room) {
    struct zk_line answer = ZK_ZEROS;
    answer.status = zk_first_of(zk_fault_at(talk, 1, sizeof *talk), zk_fault_of(out, room, sizeof *out));
    return answer.status != ZK_WELL ? answer : zk_talk_payload(talk, side, (uint8_t *)zk_into(out), room);
}

static inline struct zk_read zk_safe_talk_fields(struct zk_talk *talk, uint32_t side, struct zk_field *out, size_t room) {
    struct zk_read answer = ZK_ZEROS;
    answer.status = zk_first_of(zk_fault_at(talk, 1, sizeof *talk), zk_fault_of(out, room, sizeof *out));
    return answer.status != ZK_WELL ? answer : zk_talk_fields(talk, side, (struct zk_field *)zk_into(out), room);
}

static inline struct zk_waiting zk_safe_talk_waiting(struct zk_talk *talk) {
    struct zk_waiting answer = ZK_ZEROS;
    answer.status = zk_fault_at(talk, 1, sizeof *talk);
    return answer.status != ZK_WELL ? answer : zk_talk_waiting(talk);
}

static inline struct zk_held zk_safe_talk_held(struct zk_talk *talk, uint32_t side) {
    struct zk_held answer = ZK_ZEROS;
    answer.status = zk_fault_at(talk, 1, sizeof *talk);
    return answer.status != ZK_WELL ? answer : zk_talk_held(talk, side);
}

static inline struct zk_ending zk_safe_talk_finish(struct zk_talk *talk) {
    struct zk_ending answer = ZK_ZEROS;
    answer.status = zk_fault_at(talk, 1, sizeof *talk);
    if (answer.status == ZK_WELL) {
        zk_talk_finish_into(talk, &answer, sizeof answer);
    }
    return answer;
}

static inline struct zk_line zk_safe_talk_ending_line(struct zk_talk *talk, uint8_t *out, size_t room) {
    struct zk_line answer = ZK_ZEROS;
    answer.status = zk_first_of(zk_fault_at(talk, 1, sizeof *talk), zk_fault_of(out, room, sizeof *out));
    return answer.status != ZK_WELL ? answer : zk_talk_ending_line(talk, (uint8_t *)zk_into(out), room);
}

static inline void zk_safe_talk_free(struct zk_talk *talk) {
    if (zk_fault_at(talk, 1, sizeof *talk) == ZK_WELL) {
        zk_talk_free(talk);
    }
}

static inline uint32_t zk_safe_through_new(struct zk_through *through, uint32_t client, uint32_t server, uint32_t waiting, uint32_t profile) {
    uint32_t fault = zk_fault_at(through, 1, sizeof *through);
    return fault != ZK_WELL ? fault : zk_through_new(through, client, server, waiting, profile);
}

static inline uint32_t zk_safe_through_join(struct zk_through *through, uint32_t client, uint32_t server, uint32_t waiting, uint32_t profile) {
    uint32_t fault = zk_fault_at(through, 1, sizeof *through);
    return fault != ZK_WELL ? fault : zk_through_join(through, client, server, waiting, profile);
}

static inline uint32_t zk_safe_through_renew(struct zk_through *through) {
    uint32_t fault = zk_fault_at(through, 1, sizeof *through);
    return fault != ZK_WELL ? fault : zk_through_renew(through);
}

static inline struct zk_passed zk_safe_through_step(struct zk_through *through, uint32_t side, const uint8_t *piece, size_t length) {
    struct zk_passed answer = ZK_ZEROS;
    answer.status = zk_first_of(zk_fault_at(through, 1, sizeof *through), zk_fault_of(piece, length, sizeof *piece));
    if (answer.status == ZK_WELL) {
        zk_through_step_into(through, side, (const uint8_t *)zk_from(piece), length, &answer, sizeof answer);
    }
    return answer;
}

static inline struct zk_passed zk_safe_through_pass(struct zk_through *through, uint32_t side, const uint8_t *piece, size_t length) {
    struct zk_passed answer = ZK_ZEROS;
    answer.status = zk_first_of(zk_fault_at(through, 1, sizeof *through), zk_fault_of(piece, length, sizeof *piece));
    if (answer.status == ZK_WELL) {
        zk_through_pass_into(through, side, (const uint8_t *)zk_from(piece), length, &answer, sizeof answer);
    }
    return answer;
}

static inline struct zk_passed zk_safe_through_offer(struct zk_through *through, uint32_t side, const uint8_t *frame, size_t length) {
    struct zk_passed answer = ZK_ZEROS;
    answer.status = zk_first_of(zk_fault_at(through, 1, sizeof *through), zk_fault_of(frame, length, sizeof *frame));
    if (answer.status == ZK_WELL) {
        zk_through_offer_into(through, side, (const uint8_t *)zk_from(frame), length, &answer, sizeof answer);
    }
    return answer;
}

static inline struct zk_step zk_safe_through_resume(struct zk_through *through) {
    struct zk_step answer = ZK_ZEROS;
    answer.status = zk_fault_at(through, 1, sizeof *through);
    return answer.status != ZK_WELL ? answer : zk_through_resume(through);
}

static inline struct zk_message zk_safe_through_view(struct zk_through *through, uint32_t side) {
    struct zk_message answer = ZK_ZEROS;
    answer.status = zk_fault_at(through, 1, sizeof *through);
    if (answer.status == ZK_WELL) {
        zk_through_view_into(through, side, &answer, sizeof answer);
    }
    return answer;
}

static inline struct zk_line zk_safe_through_line(struct zk_through *through, uint32_t side, uint8_t *out, size_t room) {
    struct zk_line answer = ZK_ZEROS;
    answer.status = zk_first_of(zk_fault_at(through, 1, sizeof *through), zk_fault_of(out, room, sizeof *out));
    return answer.status != ZK_WELL ? answer : zk_through_line(through, side, (uint8_t *)zk_into(out), room);
}

static inline struct zk_read zk_safe_through_fields(struct zk_through *through, uint32_t side, struct zk_field *out, size_t room) {
    struct zk_read answer = ZK_ZEROS;
    answer.status = zk_first_of(zk_fault_at(through, 1, sizeof *through), zk_fault_of(out, room, sizeof *out));
    return answer.status != ZK_WELL ? answer : zk_through_fields(through, side, (struct zk_field *)zk_into(out), room);
}

static inline struct zk_line zk_safe_through_payload(struct zk_through *through, uint32_t side, uint8_t *out, size_t room) {
    struct zk_line answer = ZK_ZEROS;
    answer.status = zk_first_of(zk_fault_at(through, 1, sizeof *through), zk_fault_of(out, room, sizeof *out));
    return answer.status != ZK_WELL ? answer : zk_through_payload(through, side, (uint8_t *)zk_into(out), room);
}

static inline struct zk_waiting zk_safe_through_waiting(struct zk_through *through) {
    struct zk_waiting answer = ZK_ZEROS;
    answer.status = zk_fault_at(through, 1, sizeof *through);
    return answer.status != ZK_WELL ? answer : zk_through_waiting(through);
}

static inline struct zk_held zk_safe_through_held(struct zk_through *through, uint32_t side) {
    struct zk_held answer = ZK_ZEROS;
    answer.status = zk_fault_at(through, 1, sizeof *through);
    return answer.status != ZK_WELL ? answer : zk_through_held(through, side);
}

static inline struct zk_ending zk_safe_through_finish(struct zk_through *through) {
    struct zk_ending answer = ZK_ZEROS;
    answer.status = zk_fault_at(through, 1, sizeof *through);
    if (answer.status == ZK_WELL) {
        zk_through_finish_into(through, &answer, sizeof answer);
    }
    return answer;
}

static inline struct zk_line zk_safe_through_ending_line(struct zk_through *through, uint8_t *out, size_t room) {
    struct zk_line answer = ZK_ZEROS;
    answer.status = zk_first_of(zk_fault_at(through, 1, sizeof *through), zk_fault_of(out, room, sizeof *out));
    return answer.status != ZK_WELL ? answer : zk_through_ending_line(through, (uint8_t *)zk_into(out), room);
}

static inline void zk_safe_through_free(struct zk_through *through) {
    if (zk_fault_at(through, 1, sizeof *through) == ZK_WELL) {
        zk_through_free(through);
    }
}

static inline uint32_t zk_safe_speaker_new(struct zk_speaker *speaker, uint32_t client, uint32_t server, uint32_t waiting, uint32_t profile) {
    uint32_t fault = zk_fault_at(speaker, 1, sizeof *speaker);
    return fault != ZK_WELL ? fault : zk_speaker_new(speaker, client, server, waiting, profile);
}

static inline uint32_t zk_safe_speaker_renew(struct zk_speaker *speaker) {
    uint32_t fault = zk_fault_at(speaker, 1, sizeof *speaker);
    return fault != ZK_WELL ? fault : zk_speaker_renew(speaker);
}

static inline struct zk_say zk_safe_speaker_say(struct zk_speaker *speaker, const uint8_t *line, size_t length) {
    struct zk_say answer = ZK_ZEROS;
    answer.status = zk_first_of(zk_fault_at(speaker, 1, sizeof *speaker), zk_fault_of(line, length, sizeof *line));
    return answer.status != ZK_WELL ? answer : zk_speaker_say(speaker, (const uint8_t *)zk_from(line), length);
}

static inline struct zk_payload zk_safe_speaker_say_payload(struct zk_speaker *speaker, uint32_t side, const uint8_t *bytes,
                                                            size_t length) {
    struct zk_payload answer = ZK_ZEROS;
    answer.status = zk_first_of(zk_fault_at(speaker, 1, sizeof *speaker), zk_fault_of(bytes, length, sizeof *bytes));
    return answer.status != ZK_WELL ? answer : zk_speaker_say_payload(speaker, side, (const uint8_t *)zk_from(bytes), length);
}

static inline struct zk_line zk_safe_speaker_frame(struct zk_speaker *speaker, uint8_t *out, size_t room) {
    struct zk_line answer = ZK_ZEROS;
    answer.status = zk_first_of(zk_fault_at(speaker, 1, sizeof *speaker), zk_fault_of(out, room, sizeof *out));
    return answer.status != ZK_WELL ? answer : zk_speaker_frame(speaker, (uint8_t *)zk_into(out), room);
}

static inline void zk_safe_speaker_free(struct zk_speaker *speaker) {
    if (zk_fault_at(speaker, 1, sizeof *speaker) == ZK_WELL) {
        zk_speaker_free(speaker);
    }
}

static inline struct zk_payload zk_safe_judge_first(const uint8_t *bytes, size_t length) {
    struct zk_payload answer = ZK_ZEROS;
    answer.status = zk_fault_of(bytes, length, sizeof *bytes);
    return answer.status != ZK_WELL ? answer : zk_judge_first((const uint8_t *)zk_from(bytes), length);
}

static inline struct zk_payload zk_safe_judge_request(uint32_t profile, const uint8_t *bytes, size_t length) {
    struct zk_payload answer = ZK_ZEROS;
    answer.status = zk_fault_of(bytes, length, sizeof *bytes);
    return answer.status != ZK_WELL ? answer : zk_judge_request(profile, (const uint8_t *)zk_from(bytes), length);
}

static inline struct zk_payload zk_safe_judge_connected(const uint8_t *bytes, size_t length) {
    struct zk_payload answer = ZK_ZEROS;
    answer.status = zk_fault_of(bytes, length, sizeof *bytes);
    return answer.status != ZK_WELL ? answer : zk_judge_connected((const uint8_t *)zk_from(bytes), length);
}

static inline struct zk_payload zk_safe_judge_reply(int32_t operation, const int32_t *parts, size_t count, const uint8_t *bytes, size_t length) {
    struct zk_payload answer = ZK_ZEROS;
    answer.status = zk_first_of(zk_fault_of(parts, count, sizeof *parts), zk_fault_of(bytes, length, sizeof *bytes));
    return answer.status != ZK_WELL ? answer : zk_judge_reply(operation, (const int32_t *)zk_from(parts), count, (const uint8_t *)zk_from(bytes), length);
}

static inline struct zk_payload zk_safe_judge_event(const uint8_t *bytes, size_t length) {
    struct zk_payload answer = ZK_ZEROS;
    answer.status = zk_fault_of(bytes, length, sizeof *bytes);
    return answer.status != ZK_WELL ? answer : zk_judge_event((const uint8_t *)zk_from(bytes), length);
}

static inline struct zk_read zk_safe_read_first(const uint8_t *payload, size_t length, struct zk_field *out, size_t room) {
    struct zk_read answer = ZK_ZEROS;
    answer.status = zk_first_of(zk_fault_of(payload, length, sizeof *payload), zk_fault_of(out, room, sizeof *out));
    return answer.status != ZK_WELL ? answer : zk_read_first((const uint8_t *)zk_from(payload), length, (struct zk_field *)zk_into(out), room);
}

static inline struct zk_read zk_safe_read_request(uint32_t profile, const uint8_t *payload, size_t length, struct zk_field *out, size_t room) {
    struct zk_read answer = ZK_ZEROS;
    answer.status = zk_first_of(zk_fault_of(payload, length, sizeof *payload), zk_fault_of(out, room, sizeof *out));
    return answer.status != ZK_WELL ? answer : zk_read_request(profile, (const uint8_t *)zk_from(payload), length, (struct zk_field *)zk_into(out), room);
}

static inline struct zk_read zk_safe_read_connected(const uint8_t *payload, size_t length, struct zk_field *out, size_t room) {
    struct zk_read answer = ZK_ZEROS;
    answer.status = zk_first_of(zk_fault_of(payload, length, sizeof *payload), zk_fault_of(out, room, sizeof *out));
    return answer.status != ZK_WELL ? answer : zk_read_connected((const uint8_t *)zk_from(payload), length, (struct zk_field *)zk_into(out), room);
}

static inline struct zk_read zk_safe_read_reply(int32_t operation, const int32_t *parts, size_t count, const uint8_t *payload, size_t length, struct zk_field *out, size_t room) {
    struct zk_read answer = ZK_ZEROS;
    answer.status = zk_first_of(zk_fault_of(parts, count, sizeof *parts), zk_first_of(zk_fault_of(payload, length, sizeof *payload), zk_fault_of(out, room, sizeof *out)));
    return answer.status != ZK_WELL ? answer : zk_read_reply(operation, (const int32_t *)zk_from(parts), count, (const uint8_t *)zk_from(payload), length, (struct zk_field *)zk_into(out), room);
}

static inline struct zk_read zk_safe_read_event(const uint8_t *payload, size_t length, struct zk_field *out, size_t room) {
    struct zk_read answer = ZK_ZEROS;
    answer.status = zk_first_of(zk_fault_of(payload, length, sizeof *payload), zk_fault_of(out, room, sizeof *out));
    return answer.status != ZK_WELL ? answer : zk_read_event((const uint8_t *)zk_from(payload), length, (struct zk_field *)zk_into(out), room);
}

static inline struct zk_written zk_safe_write_request(int32_t xid, int32_t operation, const struct zk_field *fields, size_t count, const uint8_t *content, size_t length, uint8_t *out, size_t room) {
    struct zk_written answer = ZK_ZEROS;
    answer.status = zk_first_of(zk_fault_of(fields, count, sizeof *fields), zk_first_of(zk_fault_of(content, length, sizeof *content), zk_fault_of(out, room, sizeof *out)));
    return answer.status != ZK_WELL ? answer : zk_write_request(xid, operation, (const struct zk_field *)zk_from(fields), count, (const uint8_t *)zk_from(content), length, (uint8_t *)zk_into(out), room);
}

static inline struct zk_written zk_safe_write_first(const struct zk_field *fields, size_t count, const uint8_t *content, size_t length, uint8_t *out, size_t room) {
    struct zk_written answer = ZK_ZEROS;
    answer.status = zk_first_of(zk_fault_of(fields, count, sizeof *fields), zk_first_of(zk_fault_of(content, length, sizeof *content), zk_fault_of(out, room, sizeof *out)));
    return answer.status != ZK_WELL ? answer : zk_write_first((const struct zk_field *)zk_from(fields), count, (const uint8_t *)zk_from(content), length, (uint8_t *)zk_into(out), room);
}

static inline struct zk_written zk_safe_write_reply(int32_t xid, int64_t zxid, int32_t err, int32_t operation, const struct zk_field *fields, size_t count, const uint8_t *content, size_t length, uint8_t *out, size_t room) {
    struct zk_written answer = ZK_ZEROS;
    answer.status = zk_first_of(zk_fault_of(fields, count, sizeof *fields), zk_first_of(zk_fault_of(content, length, sizeof *content), zk_fault_of(out, room, sizeof *out)));
    return answer.status != ZK_WELL ? answer : zk_write_reply(xid, zxid, err, operation, (const struct zk_field *)zk_from(fields), count, (const uint8_t *)zk_from(content), length, (uint8_t *)zk_into(out), room);
}

static inline struct zk_written zk_safe_write_event(int64_t zxid, const struct zk_field *fields, size_t count, const uint8_t *content, size_t length, uint8_t *out, size_t room) {
    struct zk_written answer = ZK_ZEROS;
    answer.status = zk_first_of(zk_fault_of(fields, count, sizeof *fields), zk_first_of(zk_fault_of(content, length, sizeof *content), zk_fault_of(out, room, sizeof *out)));
    return answer.status != ZK_WELL ? answer : zk_write_event(zxid, (const struct zk_field *)zk_from(fields), count, (const uint8_t *)zk_from(content), length, (uint8_t *)zk_into(out), room);
}

static inline struct zk_written zk_safe_write_connected(const struct zk_field *fields, size_t count, const uint8_t *content, size_t length, uint8_t *out, size_t room) {
    struct zk_written answer = ZK_ZEROS;
    answer.status = zk_first_of(zk_fault_of(fields, count, sizeof *fields), zk_first_of(zk_fault_of(content, length, sizeof *content), zk_fault_of(out, room, sizeof *out)));
    return answer.status != ZK_WELL ? answer : zk_write_connected((const struct zk_field *)zk_from(fields), count, (const uint8_t *)zk_from(content), length, (uint8_t *)zk_into(out), room);
}

static inline struct zk_line zk_safe_listing(const struct zk_piece *pieces, size_t count, const uint8_t *bytes, size_t length, uint32_t client, uint32_t server, uint32_t waiting, uint32_t profile, uint8_t *out, size_t room) {
    struct zk_line answer = ZK_ZEROS;
    answer.status = zk_first_of(zk_fault_of(pieces, count, sizeof *pieces), zk_first_of(zk_fault_of(bytes, length, sizeof *bytes), zk_fault_of(out, room, sizeof *out)));
    return answer.status != ZK_WELL ? answer : zk_listing((const struct zk_piece *)zk_from(pieces), count, (const uint8_t *)zk_from(bytes), length, client, server, waiting, profile, (uint8_t *)zk_into(out), room);
}

#define zk_talk_new zk_safe_talk_new
#define zk_talk_renew zk_safe_talk_renew
#define zk_talk_step zk_safe_talk_step
#define zk_talk_pass zk_safe_talk_pass
#define zk_talk_offer zk_safe_talk_offer
#define zk_talk_view zk_safe_talk_view
#define zk_talk_line zk_safe_talk_line
#define zk_talk_payload zk_safe_talk_payload
#define zk_talk_fields zk_safe_talk_fields
#define zk_talk_waiting zk_safe_talk_waiting
#define zk_talk_held zk_safe_talk_held
#define zk_talk_finish zk_safe_talk_finish
#define zk_talk_ending_line zk_safe_talk_ending_line
#define zk_talk_free zk_safe_talk_free
#define zk_through_new zk_safe_through_new
#define zk_through_join zk_safe_through_join
#define zk_through_renew zk_safe_through_renew
#define zk_through_step zk_safe_through_step
#define zk_through_pass zk_safe_through_pass
#define zk_through_offer zk_safe_through_offer
#define zk_through_resume zk_safe_through_resume
#define zk_through_view zk_safe_through_view
#define zk_through_line zk_safe_through_line
#define zk_through_fields zk_safe_through_fields
#define zk_through_payload zk_safe_through_payload
#define zk_through_waiting zk_safe_through_waiting
#define zk_through_held zk_safe_through_held
#define zk_through_finish zk_safe_through_finish
#define zk_through_ending_line zk_safe_through_ending_line
#define zk_through_free zk_safe_through_free
#define zk_speaker_new zk_safe_speaker_new
#define zk_speaker_renew zk_safe_speaker_renew
#define zk_speaker_say zk_safe_speaker_say
#define zk_speaker_say_payload zk_safe_speaker_say_payload
#define zk_speaker_frame zk_safe_speaker_frame
#define zk_speaker_free zk_safe_speaker_free
#define zk_judge_first zk_safe_judge_first
#define zk_judge_request zk_safe_judge_request
#define zk_judge_connected zk_safe_judge_connected
#define zk_judge_reply zk_safe_judge_reply
#define zk_judge_event zk_safe_judge_event
#define zk_read_first zk_safe_read_first
#define zk_read_request zk_safe_read_request
#define zk_read_connected zk_safe_read_connected
#define zk_read_reply zk_safe_read_reply
#define zk_read_event zk_safe_read_event
#define zk_write_request zk_safe_write_request
#define zk_write_first zk_safe_write_first
#define zk_write_reply zk_safe_write_reply
#define zk_write_event zk_safe_write_event
#define zk_write_connected zk_safe_write_connected
#define zk_listing zk_safe_listing

/* ---- Many messages by one call, for who pays for each call, as from Python */

/* A message, as zk_talk_view has it: its payload is `length` of the bytes from `place` on, its fields are `count` from
 * `first` on. */
struct zk_entry {
    uint32_t kind;
    int32_t xid;
    int32_t operation;
    int32_t err;
    int64_t zxid;
    uint64_t frame;
    uint64_t answers;
    uint32_t place;
    uint32_t length;
    uint32_t first;
    uint32_t count;
};

/* What a block has: the bytes used of the piece, and how many messages. If there is more, one more is whole, for which
 * the rooms were too small: zk_talk_view and its like have it. The status and the fault are those of the last step. */
struct zk_block {
    size_t used;
    size_t entries;
    uint32_t status;
    bool more;
    struct zk_fault fault;
};

/* Takes a piece by zk_talk_step, up to its end, a fault, or as many messages as there is room for. */
ZK_ALSO struct zk_block zk_talk_block(struct zk_talk *talk, uint32_t side, const uint8_t *piece, size_t length, struct zk_entry *entries, size_t most, uint8_t *bytes, size_t size, struct zk_field *fields, size_t room) {
    struct zk_block block = ZK_ZEROS;
    size_t placed = 0, counted = 0;
    do {
        struct zk_step step = zk_talk_step(talk, side, piece + block.used, length - block.used);
        block.status = step.status;
        block.fault = step.fault;
        block.used += step.used;
        if (step.status != ZK_WELL || !step.whole) {
            return block;
        }
        struct zk_message message = zk_talk_view(talk, side);
        struct zk_line payload = zk_talk_payload(talk, side, bytes + placed, size - placed);
        struct zk_read read = zk_talk_fields(talk, side, fields + counted, room - counted);
        block.more = payload.status != ZK_WELL || read.status != ZK_WELL;
        if (block.more) {
            return block;
        }
        struct zk_entry *entry = &entries[block.entries++];
        entry->kind = message.kind;
        entry->xid = message.xid;
        entry->operation = message.operation;
        entry->err = message.err;
        entry->zxid = message.zxid;
        entry->frame = message.frame;
        entry->answers = message.answers;
        entry->place = (uint32_t)placed;
        entry->length = (uint32_t)payload.length;
        entry->first = (uint32_t)counted;
        entry->count = read.count;
        placed += payload.length;
        counted += read.count;
    } while (block.used < length && block.entries < most);
    return block;
}

#ifdef __cplusplus
}
#endif

#endif
