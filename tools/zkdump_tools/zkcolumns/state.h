/* What is known of the recording so far, and the blocks that are written of it (columns.c, messages.c). */
#ifndef STATE_H
#define STATE_H

#include "columns.h"

enum { BLOCK_NAMES = 0, BLOCK_MESSAGES = 1, BLOCK_END = 2 };
enum {
    FLAG_ERROR = 1,
    FLAG_XID = 2,
    FLAG_PATH = 4,
    FLAG_NULL_PATH = 8,
    FLAG_CHOSEN = 16,
    FLAG_WATCH = 32,
    FLAG_MADE_UP = 64,
    FLAG_BY_NUMBER = 128
};
/* In place of an operation's number. */
enum { OP_CONNECT = INT32_MIN, OP_EVENT = INT32_MIN + 1 };

/* Of a block. `first` and `last` are the least and the greatest time where a double isn't exact. */
struct head {
    uint32_t kind, records, patches, known;
    uint64_t paths, text, session, backwards;
    double begun, ended;
    int64_t first, last;
};

/* A message. Of a reply path, path_length, FLAG_CHOSEN, asked_moment and `of` are those of its request. Times are
 * milliseconds since 1970, and NAN where there is none. */
struct record {
    uint64_t n, of;
    double moment, asked_moment, microseconds;
    int64_t zxid;
    uint64_t text;
    uint32_t text_length, at_length, path, path_length;
    int32_t xid, operation, error;
    uint16_t flags;
    uint8_t side, spare;
};

struct state {
    struct zk_through through;
    struct recording recording;
    uint32_t limit, waiting, profile;
    const char *json, **chosen;
    bool lines;
    size_t chosen_count, fields_room;
    struct zk_field *fields;
    struct bytes records, patches, paths, text, frames[2], line, of_message;
    struct lane lanes[LANES];
    struct head head;
    bool is_full; /* one more request came than may wait */
    uint64_t n, whole[2], taken[2]; /* of each side the whole frames, and the bytes that were taken */
};

/* Writes what was put to standard output. */
void write_bytes(struct bytes *bytes);

/* Writes what was gathered as a block of this kind. */
void write_block(struct state *state, uint32_t kind);

/* Takes the message of a side's whole frame, which has this payload. */
void take_message(struct state *state, uint32_t side, const uint8_t *payload);

/* Takes a whole frame that is left out: a request whose operation the profile lacks, or the reply to it. */
void take_left_out(struct state *state, uint32_t side, const struct zk_passed *passed, const uint8_t *payload);

/* Puts the line of a side's message. */
void put_line(struct state *state, uint32_t side, struct bytes *to);

/* Puts the ending line. */
void put_ending(struct state *state, bool refused);

/* Reads pieces as they come on standard input, up to its end, or to a refusal of a frame that has no end. The lines of
 * the messages whose last byte has come are written before the next read, and so is the ending line at a refusal. From
 * there on all is dropped, up to a piece of no bytes of the side R: then the passage goes on, as of a connection that is
 * seen late (zk_through_resume). */
void follow(struct state *state);

/* The path of a request that has one, in the block's paths. */
void put_path(struct state *state, struct record *record, const struct asked *asked, const uint8_t *paths);

#endif
