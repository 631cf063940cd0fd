/* A client that creates a node, reads it, and changes it by a multi.
 *
 *     client SERVER PORT PATH DATA [ROUNDS]
 *
 * It writes requests from fields and reads the fields of replies, and prints what the replies have. One talk judges both
 * sides: it refuses a request that may not come next, before that is sent. Then the client reads the node ROUNDS times,
 * and opens and closes ROUNDS sessions, for each of which the talk is begun anew; it prints how many microseconds one
 * takes. The status is 0 if the server answered each request, with an error or without, 1 if a request or a reply was
 * refused, 2 if there is no connection or not all is written. */
#define _POSIX_C_SOURCE 200809L
#include "zk.h"

#include <ctype.h>
#include <errno.h>
#include <inttypes.h>
#include <netdb.h>
#include <netinet/in.h>
#include <netinet/tcp.h>
#include <stdio.h>
#include <stdlib.h>
#include <string.h>
#include <sys/socket.h>
#include <time.h>
#include <unistd.h>

enum { LIMIT = 1 << 20, WAITING = 64, FIELDS = 64 };

/* A session: the talk knows both sides, so a reply frees the place of its request. */
static struct zk_talk talk = ZK_ZEROS;
static int server = -1;
static int32_t xid;
/* The next request's fields, over these, and their texts and blobs. */
static struct zk_field said[FIELDS];
static uint8_t content[LIMIT];
static struct zk_builder asked;
/* What came of the server; the bytes from `used` to `came` aren't read yet. */
static uint8_t came_bytes[65536];
static size_t used, came;
/* The newest reply: its payload, and its fields. */
static uint8_t payload[LIMIT];
static struct zk_field fields[FIELDS];

static void fail(int status, const char *what) {
    fprintf(stderr, "client: %s\n", what);
    exit(status);
}

static void well(uint32_t status) {
    if (status != ZK_WELL) fail(1, zk_status_name(status));
}

/* ---- What is said */

/* Sends the frame that was written, if it may come next. */
static void say(const uint8_t *frame, struct zk_written written) {
    well(written.status);
    struct zk_step step = zk_talk_step(&talk, ZK_CLIENT, frame, written.length);
    well(step.status);
    for (size_t at = 0; at < written.length;) {
        ssize_t wrote = send(server, frame + at, written.length - at, MSG_NOSIGNAL);
        if (wrote <= 0) fail(2, "the connection to the server is broken");
        at += (size_t)wrote;
    }
    asked = zk_build(said, FIELDS, content, sizeof content);
}

static uint8_t frame[LIMIT + 4];

/* Ends the program where a field had no room. */
static void all_added(void) {
    if (asked.status != ZK_WELL) fail(2, "a request that is too long");
}

/* Says the request of the fields that were added. */
static void ask(int32_t operation) {
    all_added();
    say(frame, zk_write_request(++xid, operation, said, asked.count, content, asked.length, frame, sizeof frame));
}

/* ---- What comes */

/* Waits for the server's next message. */
static struct zk_message next(void) {
    for (;;) {
        if (used == came) {
            ssize_t got = recv(server, came_bytes, sizeof came_bytes, 0);
            if (got <= 0) fail(2, "the server has ended the connection");
            used = 0;
            came = (size_t)got;
        }
        struct zk_step step = zk_talk_step(&talk, ZK_SERVER, came_bytes + used, came - used);
        well(step.status);
        used += step.used;
        if (step.whole) return zk_talk_view(&talk, ZK_SERVER);
    }
}

/* The next reply, with its payload and fields. */
static struct zk_read answer(void) {
    struct zk_message message = next();
    while (message.kind == ZK_EVENT) message = next();
    well(zk_talk_payload(&talk, ZK_SERVER, payload, sizeof payload).status);
    struct zk_read read = zk_talk_fields(&talk, ZK_SERVER, fields, FIELDS);
    if (read.status != ZK_ROOM) well(read.status);
    else read.count = FIELDS;
    return read;
}

/* The first field of a name, or null. */
static const struct zk_field *field(const struct zk_read *read, uint16_t name) {
    for (uint32_t i = 0; i < read->count; i++)
        if (fields[i].name == name) return &fields[i];
    return NULL;
}

/* Prints what a reply has of these names. */
static void show(const struct zk_read *read, uint16_t content, uint16_t number) {
    printf("%s: %s", zk_operation_name(read->operation), zk_error_name(read->err));
    const struct zk_field *text = field(read, content), *value = field(read, number);
    if (text != NULL) {
        printf(" %s=", zk_field_name(content));
        for (uint32_t i = 0; i < text->length; i++) { /* a peer chose these bytes */
            uint8_t byte = payload[text->place + i];
            putchar(byte >= ' ' && byte <= '~' ? byte : '?');
        }
    }
    if (value != NULL) printf(" %s=%" PRId64, zk_field_name(number), value->number);
    putchar('\n');
}

/* ---- Sessions and requests */

static int connection(const char *host, const char *port) {
    struct addrinfo wanted = {0}, *found = NULL;
    int to = -1, yes = 1;
    wanted.ai_socktype = SOCK_STREAM;
    if (strtoul(port, NULL, 10) > UINT16_MAX) fail(2, "PORT is above 65535"); /* of which getaddrinfo takes 16 bits */
    int failed = getaddrinfo(host, port, &wanted, &found);
    if (failed != 0) fail(2, gai_strerror(failed));
    for (struct addrinfo *each = found; each != NULL; each = each->ai_next) { /* the first address that answers */
        to = socket(each->ai_family, each->ai_socktype, each->ai_protocol);
        if (to >= 0 && connect(to, each->ai_addr, each->ai_addrlen) == 0) break;
        if (each->ai_next == NULL) fail(2, strerror(errno));
        if (to >= 0) close(to);
    }
    if (setsockopt(to, IPPROTO_TCP, TCP_NODELAY, &yes, sizeof yes) != 0) fail(2, strerror(errno));
    freeaddrinfo(found);
    return to;
}

/* Opens a session: the first one makes the talk, and each later one begins it anew. */
static struct zk_read begin(const char *host, const char *port) {
    static const char password[16];
    uint32_t status = zk_talk_renew(&talk);
    well(status != ZK_EMPTY ? status : zk_talk_new(&talk, LIMIT, LIMIT, WAITING, ZK_PROFILE_34));
    server = connection(host, port);
    xid = 0;
    used = came = 0;
    asked = zk_build(said, FIELDS, content, sizeof content);
    zk_add_number(&asked, ZK_KIND_INT, 0);      /* the version of the protocol */
    zk_add_number(&asked, ZK_KIND_LONG, 0);     /* the last zxid that was seen */
    zk_add_number(&asked, ZK_KIND_INT, 10000);  /* the session's milliseconds */
    zk_add_number(&asked, ZK_KIND_LONG, 0);     /* no earlier session, and no password of one */
    zk_add_bytes(&asked, ZK_KIND_BLOB, password, sizeof password);
    zk_add_number(&asked, ZK_KIND_BOOL, 0);     /* not only to read */
    all_added();
    say(frame, zk_write_first(said, asked.count, content, asked.length, frame, sizeof frame));
    return answer();
}

static struct zk_read end(void) {
    ask(ZK_OP_CLOSE_SESSION);
    struct zk_read read = answer();
    close(server);
    return read;
}

static void create(const char *path, const char *data) {
    zk_add_text(&asked, path);
    zk_add_bytes(&asked, ZK_KIND_BLOB, data, strlen(data));
    zk_add_number(&asked, ZK_KIND_LIST, 1);
    zk_add_right(&asked, ZK_PERMISSION_ALL, "world", "anyone");
    zk_add_number(&asked, ZK_KIND_INT, 0);
    ask(ZK_OP_CREATE);
    struct zk_read read = answer();
    show(&read, ZK_NAME_PATH, ZK_NAME_NONE);
}

static struct zk_read get(const char *path) {
    zk_add_text(&asked, path);
    zk_add_number(&asked, ZK_KIND_BOOL, 0);
    ask(ZK_OP_GET_DATA);
    return answer();
}

/* Changes the node, if it has the version 0, and creates one below it. */
static void change(const char *path, const char *data) {
    static char below[LIMIT];
    if (snprintf(below, sizeof below, "%s/below", path) >= LIMIT) fail(2, "a request that is too long");
    zk_add_number(&asked, ZK_KIND_PART, ZK_OP_CHECK);
    zk_add_text(&asked, path);
    zk_add_number(&asked, ZK_KIND_INT, 0);
    zk_add_number(&asked, ZK_KIND_PART, ZK_OP_SET_DATA);
    zk_add_text(&asked, path);
    zk_add_bytes(&asked, ZK_KIND_BLOB, data, strlen(data));
    zk_add_number(&asked, ZK_KIND_INT, 0);
    zk_add_number(&asked, ZK_KIND_PART, ZK_OP_CREATE);
    zk_add_text(&asked, below);
    zk_add_null(&asked, ZK_KIND_BLOB);
    zk_add_number(&asked, ZK_KIND_LIST, 1);
    zk_add_right(&asked, ZK_PERMISSION_ALL, "world", "anyone");
    zk_add_number(&asked, ZK_KIND_INT, 0);
    ask(ZK_OP_MULTI);
    struct zk_read read = answer();
    printf("multi: %s", zk_error_name(read.err));
    for (uint32_t i = 0; i < read.count; i++) {
        int64_t number = fields[i].number;
        if (fields[i].kind == ZK_KIND_PART) printf(" %s", number < 0 ? "failed" : zk_operation_name((int32_t)number));
        if (fields[i].name == ZK_NAME_ERR) printf("=%s", zk_error_name((int32_t)number));
        if (fields[i].name == ZK_NAME_VERSION) printf(" version=%" PRId64, number);
    }
    putchar('\n');
}

/* ---- Times */

static double microseconds(void) {
    struct timespec time;
    clock_gettime(CLOCK_MONOTONIC, &time);
    return (double)time.tv_sec * 1e6 + (double)time.tv_nsec / 1e3;
}

/* Prints how many microseconds a getData takes, as a mean. */
static void measure(const char *path, long rounds) {
    double begun = microseconds();
    for (long i = 0; i < rounds; i++) get(path);
    printf("getData: %.1f microseconds, the mean of %ld\n", (microseconds() - begun) / (double)rounds, rounds);
}

/* The same of a session that asks nothing. */
static void measure_sessions(const char *host, const char *port, long rounds) {
    double begun = microseconds();
    for (long i = 0; i < rounds; i++) {
        begin(host, port);
        end();
    }
    printf("session: %.1f microseconds, the mean of %ld\n", (microseconds() - begun) / (double)rounds, rounds);
}

int main(int given, char **words) {
    char *rest = NULL;
    long rounds = given == 6 ? strtol(words[5], &rest, 10) : 0;
    if ((given != 5 && given != 6) || (rest != NULL && (!isdigit((unsigned char)*words[5]) || *rest != 0)))
        fail(2, "usage: client SERVER PORT PATH DATA [ROUNDS]");
    struct zk_read read = begin(words[1], words[2]);
    printf("connected: time_out=%" PRId64 "\n", field(&read, ZK_NAME_TIME_OUT)->number);
    create(words[3], words[4]);
    read = get(words[3]);
    show(&read, ZK_NAME_DATA, ZK_NAME_VERSION);
    change(words[3], "changed");
    read = get("/missing");
    show(&read, ZK_NAME_DATA, ZK_NAME_VERSION);
    if (rounds > 0) measure(words[3], rounds);
    read = end();
    show(&read, ZK_NAME_NONE, ZK_NAME_NONE);
    if (rounds > 0) measure_sessions(words[1], words[2], rounds);
    zk_talk_free(&talk);
    if (ferror(stdout) || fflush(stdout) != 0) fail(2, "standard output can't be written");
    return 0;
}
