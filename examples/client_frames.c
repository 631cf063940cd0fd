/* A client's frames, written from fields, and judged by one talk with what the server sends.
 *
 *     client_frames
 *
 * Prints a line for each message: what the client says, and what a server would send. The status is 0 if all may be
 * said but a request with the xid of an event, which is refused and not sent, nothing waits at the end, and all is
 * written. */
#include "zk.h"

#include <inttypes.h>
#include <stdio.h>
#include <string.h>

enum { ROOM = 256 };

static const uint8_t password[16];

/* The bytes that a server would send: the session, and the replies to the requests below. */
static const uint8_t welcome[40] = {0, 0, 0, 36, 0, 0, 0, 0, 0, 0, 0x75, 0x30, 0, 0, 0, 0, 0, 0, 0, 1, 0, 0, 0, 16};
static const uint8_t no_node[] = {0, 0, 0, 16, 0, 0, 0, 1, 0, 0, 0, 0, 0, 0, 0, 5, 0xff, 0xff, 0xff, 0x9b};
static const uint8_t created[] = {0, 0, 0, 22, 0, 0, 0, 2, 0, 0, 0, 0, 0, 0, 0, 6, 0, 0, 0, 0, 0, 0, 0, 2, '/', 'a'};

/* Prints the line of the message that the side's step or offer completed, or why it was refused. */
static uint32_t show(struct zk_talk *talk, uint32_t side, struct zk_step step) {
    uint8_t text[ROOM];
    if (step.status != ZK_WELL) {
        printf("refused: %s at byte %" PRIu32 " of the payload\n", zk_status_name(step.status), step.fault.place);
        return step.status;
    }
    struct zk_line line = zk_talk_line(talk, side, text, sizeof text);
    if (line.status == ZK_WELL) printf("%.*s\n", (int)line.length, (const char *)text);
    return line.status;
}

/* Gives the server's bytes to the talk. */
static uint32_t hear(struct zk_talk *talk, const uint8_t *bytes, size_t length) {
    return show(talk, ZK_SERVER, zk_talk_step(talk, ZK_SERVER, bytes, length));
}

/* Says what was written: it is sent if the talk takes it. What is refused isn't, and the talk goes on. */
static uint32_t say(struct zk_talk *talk, struct zk_written written, const uint8_t *frame) {
    if (written.status != ZK_WELL) return written.status;
    return show(talk, ZK_CLIENT, zk_talk_offer(talk, ZK_CLIENT, frame, written.length));
}

/* The frame of an exists of /a, with a watch. */
static struct zk_written written_exists(int32_t xid, uint8_t *frame, size_t room) {
    struct zk_field fields[2];
    uint8_t content[ROOM];
    struct zk_builder exists = zk_build(fields, 2, content, sizeof content);
    zk_add_text(&exists, "/a");
    zk_add_number(&exists, ZK_KIND_BOOL, 1);
    return zk_write_request(xid, ZK_OP_EXISTS, fields, exists.count, content, exists.length, frame, room);
}

int main(void) {
    struct zk_talk talk = ZK_ZEROS;
    uint8_t frame[ROOM];
    if (zk_talk_new(&talk, 4096, 4096, 1, ZK_PROFILE_34) != ZK_WELL) return 1;

    struct zk_field fields[ROOM];
    uint8_t content[ROOM];
    struct zk_builder hello = zk_build(fields, ROOM, content, sizeof content);
    zk_add_number(&hello, ZK_KIND_INT, 0);     /* the version of the protocol */
    zk_add_number(&hello, ZK_KIND_LONG, 0);    /* the last zxid that was seen */
    zk_add_number(&hello, ZK_KIND_INT, 30000); /* the session's milliseconds */
    zk_add_number(&hello, ZK_KIND_LONG, 0);    /* no earlier session */
    zk_add_bytes(&hello, ZK_KIND_BLOB, password, sizeof password);
    uint32_t first = say(&talk, zk_write_first(fields, hello.count, content, hello.length, frame, sizeof frame), frame);
    first = first != ZK_WELL ? first : hear(&talk, welcome, sizeof welcome);

    /* One request may wait: the second is taken, since the reply to the first has come. */
    uint32_t second = say(&talk, written_exists(1, frame, sizeof frame), frame);
    second = second != ZK_WELL ? second : hear(&talk, no_node, sizeof no_node);

    uint32_t refused = say(&talk, written_exists(-1, frame, sizeof frame), frame);

    struct zk_builder create = zk_build(fields, ROOM, content, sizeof content);
    zk_add_text(&create, "/a");
    zk_add_bytes(&create, ZK_KIND_BLOB, NULL, 0);
    zk_add_number(&create, ZK_KIND_LIST, 1);
    zk_add_right(&create, ZK_PERMISSION_ALL, "world", "anyone");
    zk_add_number(&create, ZK_KIND_INT, ZK_CREATE_PERSISTENT);
    uint32_t third = say(&talk, zk_write_request(2, ZK_OP_CREATE, fields, create.count, content, create.length, frame,
                                                 sizeof frame), frame);
    third = third != ZK_WELL ? third : hear(&talk, created, sizeof created);

    struct zk_ending ending = zk_talk_finish(&talk);
    zk_talk_free(&talk);
    if (ferror(stdout) || fflush(stdout) != 0) {
        fputs("client_frames: standard output can't be written\n", stderr);
        return 1;
    }
    int good = first == ZK_WELL && second == ZK_WELL && third == ZK_WELL && ending.kind == ZK_WHOLE;
    return good && ending.unanswered == 0 && refused == ZK_XID_OP ? 0 : 1;
}
