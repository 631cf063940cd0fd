/* What the files of zkcolumns share: growing bytes, the recording that is read, the requests that wait, and JSON
 * (state.h has the rest). */
#ifndef COLUMNS_H
#define COLUMNS_H

#include "in_lines.h"
#include "zk.h"

#include <math.h>
#include <stdio.h>
#include <stdlib.h>
#include <string.h>

/* Statuses beside 0: what Python alone reports, before anything was written, and what the system refuses. */
enum { STATUS_WORDS = 2, STATUS_SYSTEM = 3, STATUS_NOT_READ = 4 };
enum { LARGEST_PIECE = 16777220, LONGEST_TIME = 32, BLOCK = 1 << 16, MULTI = 14 };
/* The greatest payload of a frame, and how many requests may wait. */
enum { LARGEST_FRAME = 16777216, MOST_WAITING = 1048576 };
/* From these milliseconds on a double has not each of them. */
#define TOO_COARSE 9007199254740992.0

/* Ends the program with a line on standard error. */
_Noreturn void stop(int status, const char *what);

/* Bytes that grow as they are put. Those before `begin` have been taken. */
struct bytes {
    uint8_t *at;
    size_t begin, end, room;
};

/* Room for `more` bytes at the end, and where they go. */
uint8_t *room_for(struct bytes *bytes, size_t more);
void put(struct bytes *bytes, const void *from, size_t length);
void put_text(struct bytes *bytes, const char *text);
void put_number(struct bytes *bytes, int64_t number);

/* ---- The recording, and the times of its pieces (recording.c) */

/* A file that is read in blocks. */
struct source {
    FILE *file;
    uint8_t *at, *block;
    size_t left;
};

/* A recording that is being read, and what is known of its present piece: its side, its size, how many of its bytes are
 * still to come, and its time, which is NAN if there is none, with its spelling, and in `time` as the head of a piece
 * has it. `damage` is the reason of a damage, at `offset`. The bounds in the head of a ZKR2 recording are not used. */
struct recording {
    struct source bytes, times;
    bool is_zkr2, has_times;
    uint32_t side;
    uint64_t offset;
    size_t size, left;
    double moment;
    int64_t time;
    char spelled[LONGEST_TIME];
    const char *damage;
};

/* Opens a recording and the file of its times, if there is one. STATUS_NOT_READ if the head is damaged, or the times
 * aren't one for each piece, or so late that a double has not each microsecond. */
void open_recording(struct recording *recording, const char *path, const char *times);

/* Goes to the next piece; false at the end and at a damage. */
bool next_piece(struct recording *recording);

/* The next bytes of the piece, at most `*length`; none at its end and at a damage. */
const uint8_t *piece_bytes(struct recording *recording, size_t *length);

/* ---- The requests that wait for their replies (waiting.c) */

/* A request that waits. `paths` is the size of its paths, `count` of them, of which the lane's bytes have the length
 * (-1 for null) and the bytes of each. */
struct asked {
    uint64_t n;
    double moment;
    int64_t time;
    int32_t xid, operation;
    uint32_t flags, count;
    size_t paths;
};

/* Requests in the order in which they are answered. */
struct lane {
    struct bytes asked, paths;
};

enum { LANES = 5 };

/* The lane of a message. */
struct lane *lane_of(struct lane *lanes, uint32_t kind, int32_t xid);
void ask(struct lane *lane, struct asked asked, const struct bytes *paths);

/* Takes the oldest request of a lane, which has one. `*paths` are its paths, until the lane's next change. */
struct asked answer(struct lane *lane, const uint8_t **paths);

/* The next of several paths; its length is -1 for null. */
const uint8_t *next_path(const uint8_t **paths, int32_t *length);

/* ---- Names (names.c) */

/* The names of operations and errors that the library may lack, as NUMBER=NAME with commas between them. */
extern const char *more_operations, *more_errors;

/* Puts the name of an operation, or else its number. */
void put_operation(struct bytes *out, int32_t number);

/* Puts the name of an error after this text, if it has one; whether it has. */
bool put_error(struct bytes *out, const char *before, int32_t number);

/* ---- JSON (json.c) */

/* What Python writes in place of bytes of the text, which isn't ASCII: a text that is part of a value, one as a whole,
 * or data. */
enum { PATCH_TEXT = 1, PATCH_WHOLE_TEXT = 2, PATCH_DATA = 3 };

struct patch {
    uint64_t at;
    uint32_t length, kind;
};

/* A message with its fields; where it is shown by number, it has none. `paths` are those of the request that it answers,
 * if `asked` isn't null; `is_long` says that its line as `zkdump show` writes it, or its request's path there, has more
 * than BLOCK characters. */
struct message {
    struct zk_message view;
    uint64_t n;
    uint32_t side;
    const uint8_t *payload;
    const struct zk_field *fields;
    size_t count;
    bool is_long, by_number;
    const char *at;
    double microseconds;
    int64_t took; /* whole milliseconds; 0 where the times are not whole */
    const struct asked *asked;
    const uint8_t *paths;
};

/* Writes a message as zkjson.py does (short and pieces there), after `head`, which names the connection. */
void put_json(struct bytes *out, struct bytes *patches, const char *head, const struct message *message);

/* The length of a field's content; -1 for null. */
int32_t length_of(const struct zk_field *field);

#endif
