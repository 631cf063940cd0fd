/* A proxy between ZooKeeper's clients and a server, which prints each message that goes through it.
 *
 *     proxy PORT SERVER SERVERPORT
 *
 * It listens at 127.0.0.1:PORT, or at a free port if PORT is 0; its first line names the port. Then it prints a line
 * for each message: the number of the connection, the microseconds from a request to its reply (else -), and the
 * message's line (docs/FORMATS.md, section 9). A request whose operation the profile lacks is left out, as is its
 * reply: their lines have the xid and the operation's number. A connection's last line is that of its ending (section
 * 11). What was refused is passed on all the same, unseen. It ends with SIGINT or SIGTERM. Where lines can't be written
 * it says so and passes on; the status is then 2, else 0.
 *
 * One thread serves all connections, and no call blocks. Of each direction at most PIECE bytes are kept; while the
 * receiver takes none of them, nothing more is read from the sender, whose own sending then waits. A client of which
 * WAITING requests wait is held up likewise, until the server replies; its next is refused if no reply can come. If
 * one end has sent all, the other end learns so, and its own direction goes on. */
#define _POSIX_C_SOURCE 200809L
#include "zk.h"

#include <arpa/inet.h>
#include <ctype.h>
#include <errno.h>
#include <fcntl.h>
#include <inttypes.h>
#include <netdb.h>
#include <netinet/in.h>
#include <netinet/tcp.h>
#include <poll.h>
#include <signal.h>
#include <stdio.h>
#include <stdlib.h>
#include <string.h>
#include <sys/socket.h>
#include <time.h>
#include <unistd.h>

enum { MOST = 1000, PIECE = 65536, WAITING = 1024, LIMIT = 1 << 22, LANES = 4, SPARES = 16 };

/* What came from one end, and isn't yet passed on to the other; of that, what was seen. */
struct way {
    size_t from, seen, to;
    uint64_t frames, offset; /* how many frames and bytes were seen, of all that came */
    bool ended;              /* nothing more comes */
    bool shut;               /* and the other end knows it */
    uint8_t bytes[PIECE];
};

/* When requests came that have no reply yet, the oldest first. */
struct lane {
    size_t first, count;
    int64_t times[WAITING + 1]; /* the connect request, too */
};

/* What reads a conversation. */
struct reader {
    struct zk_through through;
    size_t unanswered; /* requests of all lanes */
    struct lane lanes[LANES];
};

/* A connection; ends and ways are numbered by the side that speaks there. */
struct connection {
    unsigned long number;
    int ends[2];
    const struct addrinfo *next; /* the server's address that is tried next */
    bool connected;              /* to the server */
    struct reader *reader;       /* NULL: what comes is passed on unseen */
    struct way ways[2];
};

static struct connection *all[MOST];
/* Readers that are over, which the next connections begin anew. What was touched of their memory stays with them. */
static struct reader *spares[SPARES];
static size_t count, spare_count, room;
static struct addrinfo *server;
static uint8_t *text;
static volatile sig_atomic_t over;

static void stop(int number) {
    over = number;
}

static void fail(const char *what, const char *why) {
    fprintf(stderr, "proxy: %s: %s\n", what, why);
    exit(2);
}

static int64_t now(void) {
    struct timespec time;
    clock_gettime(CLOCK_MONOTONIC, &time);
    return (int64_t)time.tv_sec * 1000000 + time.tv_nsec / 1000;
}

static void free_reader(struct reader *reader) {
    zk_through_free(&reader->through);
    free(reader);
}

/* A reader of which nothing has come; NULL if there is no memory for one. */
static struct reader *new_reader(void) {
    if (spare_count > 0) return spares[--spare_count];
    struct reader *reader = calloc(1, sizeof *reader);
    if (reader == NULL || zk_through_new(&reader->through, LIMIT, LIMIT, WAITING, ZK_PROFILE_37) == ZK_WELL) return reader;
    free(reader);
    return NULL;
}

/* Takes a connection's reader away. */
static void end_reader(struct connection *it) {
    struct reader *reader = it->reader;
    it->reader = NULL;
    if (spare_count < SPARES) {
        zk_through_renew(&reader->through);
        memset(reader->lanes, 0, sizeof reader->lanes);
        reader->unanswered = 0;
        spares[spare_count++] = reader;
    } else free_reader(reader);
}

/* The replies of a lane come in the order of its requests. */
static struct lane *lane_of(struct reader *reader, int32_t xid) {
    return &reader->lanes[xid == -2 ? 1 : xid == -4 ? 2 : xid == -8 ? 3 : 0]; /* pings, auths, setWatches, all else */
}

/* Notes a request's time, or returns how long ago the request of a reply came; else -1. */
static int64_t latency(struct reader *reader, uint32_t kind, int32_t xid) {
    struct lane *lane = lane_of(reader, xid);
    if (kind == ZK_CONNECT || kind == ZK_REQUEST) {
        reader->unanswered++;
        if (lane->count <= WAITING) lane->times[(lane->first + lane->count++) % (WAITING + 1)] = now();
    } else if (kind != ZK_EVENT && lane->count > 0) {
        int64_t asked = lane->times[lane->first];
        lane->first = (lane->first + 1) % (WAITING + 1);
        lane->count--;
        reader->unanswered--;
        return now() - asked;
    }
    return -1;
}

/* ---- What is printed */

static void begin_line(const struct connection *it, int64_t waited) {
    if (waited < 0) printf("%lu - ", it->number);
    else printf("%lu %" PRId64 " ", it->number, waited);
}

/* Whether all lines were written; says so once if not. */
static bool written(void) {
    static bool lost;
    if (lost || (!ferror(stdout) && fflush(stdout) == 0)) return !lost;
    fputs("proxy: standard output can't be written\n", stderr);
    lost = true;
    return false;
}

/* Prints the message whose frame a side has completed. */
static void put_message(struct connection *it, uint32_t side) {
    struct zk_through *through = &it->reader->through;
    struct zk_message message = zk_through_view(through, side);
    begin_line(it, latency(it->reader, message.kind, message.xid));
    struct zk_line line = zk_through_line(through, side, text, room);
    if (line.status == ZK_ROOM) { /* none before it was so long */
        text = realloc(text, room = line.length);
        if (text == NULL) fail("memory", strerror(errno));
        line = zk_through_line(through, side, text, room);
    }
    if (line.status == ZK_WELL) fwrite(text, 1, line.length, stdout);
    putchar('\n');
}

/* Prints that such a frame is left out. */
static void put_left_out(struct connection *it, uint32_t side, const struct zk_passed *passed) {
    begin_line(it, latency(it->reader, side == ZK_CLIENT ? ZK_REQUEST : ZK_REPLY, passed->xid));
    printf("%c %" PRId32 " operation %" PRId32 ", left out\n", "CS"[side], passed->xid, passed->operation);
}

/* Prints the name of a reason, as lines have it: BadText for BAD_TEXT. */
static void put_reason(uint32_t reason) {
    const char *name = zk_status_name(reason);
    for (const char *at = name; *at != 0; at++)
        if (*at != '_') putchar(at == name || at[-1] == '_' ? *at : tolower((unsigned char)*at));
}

/* Prints how the conversation ended, by a fault if there was one, and reads it no more. */
static void put_ending(struct connection *it, struct zk_ending ending) {
    const struct zk_fault *fault = &ending.fault;
    begin_line(it, -1);
    if (ending.kind == ZK_REFUSED) {
        printf(". refused side=%c frame=%" PRIu64 " offset=%" PRIu64 " place=%" PRIu32 " reason=", "CS"[fault->side],
               fault->frame, fault->offset, fault->place);
        put_reason(fault->reason);
        if (fault->reason == ZK_XID_ORDER) printf(" expected=%" PRId32 " got=%" PRId32, fault->expected, fault->got);
    } else if (ending.kind == ZK_CUT) {
        printf(". cut side=%c frame=%" PRIu64 " got=%" PRIu32, "CS"[ending.side], ending.frame, ending.got);
    } else {
        printf(". whole unanswered=%" PRIu32, ending.unanswered);
    }
    putchar('\n');
    end_reader(it);
}

/* The ending by the client's next frame, for which there is no place: the rest of it is what wasn't seen. */
static struct zk_ending full(struct zk_through *through, struct way *way) {
    do way->offset++;
    while (zk_through_step(through, ZK_CLIENT, way->bytes + way->seen++, 1).went != ZK_FULL && way->seen < way->to);
    return (struct zk_ending){.kind = ZK_REFUSED, .fault = {way->frames, way->offset, ZK_CLIENT, 0, ZK_QUEUE_FULL, 0, 0}};
}

/* Prints what came from a side and wasn't seen. While as many requests wait as may, the client's next stays unseen. */
static void see(struct connection *it, uint32_t side) {
    struct way *way = &it->ways[side];
    while (it->reader != NULL && way->seen < way->to) {
        struct zk_through *through = &it->reader->through;
        struct zk_passed passed = zk_through_step(through, side, way->bytes + way->seen, way->to - way->seen);
        if (passed.status != ZK_WELL) {
            put_ending(it, zk_through_finish(through));
        } else if (passed.went != ZK_FULL) {
            if (passed.went == ZK_MESSAGE) put_message(it, side);
            else if (passed.went != ZK_WITHIN) put_left_out(it, side, &passed);
            way->seen += passed.used;
            way->offset += passed.used;
            way->frames += passed.went != ZK_WITHIN;
            if (side == ZK_SERVER) see(it, ZK_CLIENT); /* what waited may be answered in the same piece */
        } else if (!it->ways[ZK_SERVER].ended && it->reader->unanswered > 0) {
            return;
        } else { /* no reply comes */
            put_ending(it, full(through, way));
        }
    }
    way->seen = way->to;
}

/* ---- What is passed on; each function returns false if the connection has to be given up */

static bool later(void) {
    return errno == EAGAIN || errno == EWOULDBLOCK || errno == EINTR;
}

/* Writes what was seen of a side to the other end, as far as that takes it. */
static bool pass(struct connection *it, uint32_t side) {
    struct way *way = &it->ways[side];
    int to = it->ends[side == ZK_CLIENT ? ZK_SERVER : ZK_CLIENT];
    if (!it->connected) return true;
    while (way->from < way->seen) {
        ssize_t wrote = send(to, way->bytes + way->from, way->seen - way->from, MSG_NOSIGNAL);
        if (wrote < 0) return later();
        way->from += (size_t)wrote;
    }
    if (way->ended && !way->shut) {
        way->shut = true;
        return shutdown(to, SHUT_WR) == 0 || errno == ENOTCONN;
    }
    return true;
}

/* Reads from a side, whose way is empty. */
static bool take(struct connection *it, uint32_t side) {
    struct way *way = &it->ways[side];
    ssize_t got = recv(it->ends[side], way->bytes, PIECE, 0);
    if (got < 0) return later();
    way->ended = got == 0;
    way->from = way->seen = 0;
    way->to = (size_t)got;
    see(it, side);
    if (side == ZK_SERVER) see(it, ZK_CLIENT); /* which may have waited for a reply */
    return pass(it, side);
}

/* No call blocks, and a small piece is passed on at once, though an earlier one isn't acknowledged yet. */
static bool ready(int socket) {
    int flags = fcntl(socket, F_GETFL), yes = 1;
    if (flags < 0 || fcntl(socket, F_SETFL, flags | O_NONBLOCK) != 0) return false;
    return setsockopt(socket, IPPROTO_TCP, TCP_NODELAY, &yes, sizeof yes) == 0;
}

/* Begins to connect to the next of the server's addresses; false if there is none. */
static bool reach(struct connection *it) {
    int *end = &it->ends[ZK_SERVER];
    for (const struct addrinfo *to; (to = it->next) != NULL;) {
        it->next = to->ai_next;
        if (*end >= 0) close(*end);
        *end = socket(to->ai_family, to->ai_socktype, to->ai_protocol);
        if (ready(*end) && (connect(*end, to->ai_addr, to->ai_addrlen) == 0 || errno == EINPROGRESS)) return true;
    }
    return false;
}

/* The server has accepted the connection, or hasn't. */
static bool connected(struct connection *it) {
    int fault = 0;
    socklen_t size = sizeof fault;
    it->connected = getsockopt(it->ends[ZK_SERVER], SOL_SOCKET, SO_ERROR, &fault, &size) == 0 && fault == 0;
    return it->connected ? pass(it, ZK_CLIENT) : reach(it);
}

/* What is to be waited for at an end. */
static short awaited(const struct connection *it, uint32_t side) {
    const struct way *own = &it->ways[side], *other = &it->ways[side == ZK_CLIENT ? ZK_SERVER : ZK_CLIENT];
    bool connecting = side == ZK_SERVER && !it->connected;
    int events = other->from < other->seen || connecting ? POLLOUT : 0;
    if (!own->ended && own->from == own->to && !connecting) events |= POLLIN;
    return (short)events;
}

/* What has happened at an end. */
static bool serve(struct connection *it, uint32_t side, short asked, short happened) {
    if (happened == 0) return true;
    if (side == ZK_SERVER && !it->connected) return connected(it);
    if ((asked & POLLOUT) && !pass(it, side == ZK_CLIENT ? ZK_SERVER : ZK_CLIENT)) return false;
    return !(asked & POLLIN) || !(happened & (POLLIN | POLLHUP | POLLERR)) || take(it, side);
}

/* ---- Connections */

static void give_up(size_t at) {
    struct connection *it = all[at];
    if (it->reader != NULL) put_ending(it, zk_through_finish(&it->reader->through));
    for (uint32_t side = ZK_CLIENT; side <= ZK_SERVER; side++)
        if (it->ends[side] >= 0) close(it->ends[side]);
    free(it);
    all[at] = all[--count];
}

/* Begins a connection to the server for a client. */
static void begin(int client) {
    static unsigned long number;
    struct connection *it = calloc(1, sizeof *it);
    if (it == NULL) {
        close(client);
        return;
    }
    it->number = ++number;
    it->ends[ZK_CLIENT] = client;
    it->ends[ZK_SERVER] = -1;
    it->next = server;
    it->reader = new_reader();
    all[count++] = it;
    if (!ready(client) || !reach(it)) give_up(count - 1);
}

/* Waits until something happens, and does what is then to do. */
static void turn(int listener) {
    static struct pollfd waited[1 + 2 * MOST];
    static int64_t resumes; /* when clients are taken again, as none could be */
    size_t served = count;
    waited[0] = (struct pollfd){count < MOST && now() >= resumes ? listener : -1, POLLIN, 0};
    for (size_t i = 0; i < 2 * served; i++) {
        short events = awaited(all[i / 2], i % 2);
        waited[1 + i] = (struct pollfd){events ? all[i / 2]->ends[i % 2] : -1, events, 0};
    }
    if (poll(waited, 1 + 2 * served, 100) <= 0) return;
    for (size_t i = served; i-- > 0;) { /* backwards, as giving up moves the last one */
        struct connection *it = all[i];
        const struct pollfd *end = &waited[1 + 2 * i];
        bool good = serve(it, ZK_CLIENT, end[ZK_CLIENT].events, end[ZK_CLIENT].revents)
                    && serve(it, ZK_SERVER, end[ZK_SERVER].events, end[ZK_SERVER].revents);
        if (!good || (it->ways[ZK_CLIENT].shut && it->ways[ZK_SERVER].shut)) give_up(i);
    }
    if (waited[0].revents & POLLIN) {
        int client = accept(listener, NULL, NULL);
        if (client >= 0) begin(client);
        else if (!later()) resumes = now() + 100000;
    }
}

static int listening(const char *port) {
    char *end;
    unsigned long number = strtoul(port, &end, 10);
    if (!isdigit((unsigned char)*port) || *end != 0 || number > UINT16_MAX) fail(port, "no port");
    struct sockaddr_in at = {.sin_family = AF_INET, .sin_port = htons((uint16_t)number),
                             .sin_addr.s_addr = htonl(INADDR_LOOPBACK)};
    socklen_t size = sizeof at;
    int listener = socket(AF_INET, SOCK_STREAM, 0), yes = 1;
    bool good = listener >= 0 && setsockopt(listener, SOL_SOCKET, SO_REUSEADDR, &yes, sizeof yes) == 0;
    good = good && bind(listener, (struct sockaddr *)&at, sizeof at) == 0 && listen(listener, 128) == 0;
    good = good && ready(listener) && getsockname(listener, (struct sockaddr *)&at, &size) == 0;
    if (!good) fail(port, strerror(errno));
    printf("listening on 127.0.0.1:%u\n", (unsigned)ntohs(at.sin_port));
    return listener;
}

int main(int given, char **words) {
    struct addrinfo wanted = {.ai_socktype = SOCK_STREAM};
    struct sigaction ending = {.sa_handler = stop};
    if (given != 4) fail("usage", "proxy PORT SERVER SERVERPORT");
    if (strtoul(words[3], NULL, 10) > UINT16_MAX) fail(words[3], "no port"); /* getaddrinfo takes 16 bits of it */
    int failed = getaddrinfo(words[2], words[3], &wanted, &server);
    if (failed != 0) fail(words[2], gai_strerror(failed));
    if (sigaction(SIGINT, &ending, NULL) != 0 || sigaction(SIGTERM, &ending, NULL) != 0) fail("sigaction", strerror(errno));
    signal(SIGPIPE, SIG_IGN); /* whoever reads the lines may go away */
    setvbuf(stdout, NULL, _IOLBF, BUFSIZ);
    int listener = listening(words[1]);
    if (!written()) over = 1;
    for (; !over; written()) turn(listener);
    while (count > 0) give_up(count - 1);
    while (spare_count > 0) free_reader(spares[--spare_count]);
    freeaddrinfo(server);
    free(text);
    return written() ? 0 : 2;
}
