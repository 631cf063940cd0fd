/* A fake server for one client: a server that has no node.
 *
 *     server [PORT]
 *
 * It listens at 127.0.0.1 (0, or no PORT: any free port), prints the port, and answers one client until that ends the
 * connection. Its frames are written from fields. One talk judges both sides: it refuses what the client may not send,
 * and what this server may not answer. The status is 0 if the client has ended between two messages, 1 if one was
 * refused or the connection broke, 2 if there is no connection. */
#define _POSIX_C_SOURCE 200809L
#include "zk.h"

#include <arpa/inet.h>
#include <ctype.h>
#include <errno.h>
#include <netinet/in.h>
#include <stdio.h>
#include <stdlib.h>
#include <string.h>
#include <sys/socket.h>
#include <unistd.h>

enum { LIMIT = 1 << 20, WAITING = 1024, ROOM = 256 };

/* The frame that answers a message of the client: a session, and to each request that there is no such node. */
static struct zk_written answer(struct zk_message asked, uint8_t *out, size_t room) {
    bool done = asked.operation == ZK_OP_PING || asked.operation == ZK_OP_CLOSE_SESSION;
    int32_t err = done ? ZK_ERR_OK : ZK_ERR_NO_NODE;
    if (asked.kind != ZK_CONNECT) return zk_write_reply(asked.xid, 1, err, asked.operation, NULL, 0, NULL, 0, out, room);
    static const uint8_t password[16];
    struct zk_field fields[4];
    uint8_t content[sizeof password];
    struct zk_builder session = zk_build(fields, 4, content, sizeof content);
    zk_add_number(&session, ZK_KIND_INT, 0);     /* the version of the protocol */
    zk_add_number(&session, ZK_KIND_INT, 30000); /* the session's milliseconds, its number, and its password */
    zk_add_number(&session, ZK_KIND_LONG, 1);
    zk_add_bytes(&session, ZK_KIND_BLOB, password, sizeof password);
    return zk_write_connected(fields, session.count, content, session.length, out, room);
}

static bool sent(int client, const uint8_t *bytes, size_t length) {
    while (length > 0) {
        ssize_t count = send(client, bytes, length, MSG_NOSIGNAL);
        if (count <= 0) return false;
        bytes += count;
        length -= (size_t)count;
    }
    return true;
}

/* Answers each message that these bytes of the client complete. */
static bool serve(struct zk_talk *talk, int client, const uint8_t *bytes, size_t length) {
    uint8_t frame[ROOM];
    while (length > 0) {
        struct zk_step step = zk_talk_step(talk, ZK_CLIENT, bytes, length);
        if (step.status != ZK_WELL) return false;
        bytes += step.used;
        length -= step.used;
        if (!step.whole) continue;
        struct zk_written written = answer(zk_talk_view(talk, ZK_CLIENT), frame, sizeof frame);
        if (written.status != ZK_WELL) return false;
        if (zk_talk_step(talk, ZK_SERVER, frame, written.length).status != ZK_WELL) return false;
        if (!sent(client, frame, written.length)) return false;
    }
    return true;
}

/* The first client of a port, which is printed. */
static int first_client(unsigned long port) {
    struct sockaddr_in at = {.sin_family = AF_INET, .sin_port = htons((uint16_t)port)};
    socklen_t size = sizeof at;
    at.sin_addr.s_addr = htonl(INADDR_LOOPBACK);
    int listener = socket(AF_INET, SOCK_STREAM, 0), yes = 1;
    if (listener < 0 || setsockopt(listener, SOL_SOCKET, SO_REUSEADDR, &yes, sizeof yes) != 0) return -1;
    if (bind(listener, (struct sockaddr *)&at, size) != 0 || listen(listener, 1) != 0) return -1;
    if (getsockname(listener, (struct sockaddr *)&at, &size) != 0) return -1;
    printf("%u\n", (unsigned)ntohs(at.sin_port));
    if (fflush(stdout) != 0) return -1;
    int client = accept(listener, NULL, NULL);
    close(listener);
    return client;
}

/* Reports what went wrong; the status that is then due. */
static int failed(const char *what) {
    fprintf(stderr, "server: %s\n", what);
    return 2;
}

int main(int count, char **words) {
    static uint8_t bytes[65536], text[256];
    struct zk_talk talk = ZK_ZEROS;
    const char *word = count == 2 ? words[1] : "0";
    char *end;
    unsigned long port = strtoul(word, &end, 10);
    if (count > 2) return failed("usage: server [PORT]");
    if (!isdigit((unsigned char)*word) || *end != 0 || port > UINT16_MAX) return failed("PORT is no number up to 65535");
    int client = first_client(port);
    if (client < 0) return failed(ferror(stdout) ? "standard output can't be written" : strerror(errno));
    if (zk_talk_new(&talk, LIMIT, LIMIT, WAITING, ZK_PROFILE_34) != ZK_WELL) return failed("out of memory");
    ssize_t came = 0;
    bool good = true;
    while (good && (came = recv(client, bytes, sizeof bytes, 0)) > 0) good = serve(&talk, client, bytes, (size_t)came);
    const char *broke = came < 0 ? strerror(errno) : NULL;
    struct zk_ending ending = zk_talk_finish(&talk);
    struct zk_line line = zk_talk_ending_line(&talk, text, sizeof text);
    if (ending.kind != ZK_WHOLE) fprintf(stderr, "server: %.*s\n", (int)line.length, (const char *)text);
    else if (broke != NULL) failed(broke);
    else if (!good) failed("the client has ended the connection before its answer");
    zk_talk_free(&talk);
    close(client);
    return good && broke == NULL && ending.kind == ZK_WHOLE ? 0 : 1;
}
