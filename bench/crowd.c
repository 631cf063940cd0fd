/* The server and the clients of measure_crowd.py, each in a thread of its own: so the time that they measure is the
 * proxy's, and little of it theirs.
 *
 *     crowd BUSY PAUSE NEW ALONE
 *
 * It prints the port of a server that echoes. From standard input it reads the port of a proxy in front of that server,
 * and the number of the proxy's process. BUSY clients ask through the proxy, each again PAUSE milliseconds after its
 * answer. ALONE milliseconds later NEW others come all at once, and each asks once. When all have an answer it prints a
 * line for each answer: `first`, `before` or `meanwhile`, and the milliseconds that it took, by the clock and of the
 * proxy's processor time. Answers to busy clients count from the last half of ALONE on. */

#define _GNU_SOURCE
#include <arpa/inet.h>
#include <errno.h>
#include <fcntl.h>
#include <netinet/tcp.h>
#include <pthread.h>
#include <stdatomic.h>
#include <stdio.h>
#include <stdlib.h>
#include <string.h>
#include <sys/epoll.h>
#include <sys/resource.h>
#include <sys/socket.h>
#include <time.h>
#include <unistd.h>

enum { SIZE = 100, MOST = 512, ROOM = 1 << 20, MOST_FILES = 16383 };

struct moment {
    double clock, processor;
};

struct client {
    int end, got;
    struct moment asked;
};

struct answer {
    struct moment at, took;
};

static const char ask[SIZE] = {0, 0, 0, 96};
static struct sockaddr_in proxy;
static clockid_t processor;
static int busy_count, new_count;
static double pause_ms;
static struct answer answers[ROOM];
static int answer_count;
static atomic_bool over, begun;

static void need(int good, const char *what) {
    if (!good) {
        perror(what);
        exit(1);
    }
}

static double milliseconds(clockid_t which) {
    struct timespec now;
    need(clock_gettime(which, &now) == 0, "clock_gettime");
    return (double)now.tv_sec * 1e3 + (double)now.tv_nsec / 1e6;
}

static struct moment moment(void) {
    return (struct moment){milliseconds(CLOCK_MONOTONIC), milliseconds(processor)};
}

static struct moment since(struct moment then) {
    struct moment now = moment();
    return (struct moment){now.clock - then.clock, now.processor - then.processor};
}

static void no_delay(int end) {
    int one = 1;
    need(setsockopt(end, IPPROTO_TCP, TCP_NODELAY, &one, sizeof one) == 0, "setsockopt");
}

static void await(int ready, int end, uint32_t events, void *what, int how) {
    struct epoll_event event = {.events = events, .data.ptr = what};
    need(epoll_ctl(ready, how, end, &event) == 0, "epoll_ctl");
}

/* Echoes what each client sends. */
static void *serve(void *data) {
    int listener = *(int *)data, ready = epoll_create1(0);
    struct epoll_event found[MOST];
    char bytes[65536];
    await(ready, listener, EPOLLIN, NULL, EPOLL_CTL_ADD);
    for (;;) {
        int count = epoll_wait(ready, found, MOST, -1);
        for (int at = 0; at < count; at++) {
            int end = (int)(long)found[at].data.ptr - 1;
            if (end < 0) {
                while ((end = accept4(listener, NULL, NULL, 0)) >= 0) {
                    no_delay(end);
                    await(ready, end, EPOLLIN, (void *)(long)(end + 1), EPOLL_CTL_ADD);
                }
                continue;
            }
            ssize_t size = recv(end, bytes, sizeof bytes, 0);
            if (size <= 0 || send(end, bytes, (size_t)size, MSG_NOSIGNAL) != size)
                close(end);
        }
    }
    return NULL;
}

static void send_ask(struct client *client) {
    client->got = 0;
    client->asked = moment();
    need(send(client->end, ask, SIZE, MSG_NOSIGNAL) == SIZE, "send");
}

/* Whether a client has its answer. */
static int has_answer(struct client *client) {
    char bytes[SIZE];
    ssize_t size = recv(client->end, bytes, sizeof bytes, 0);
    need(size > 0, "recv");
    return (client->got += (int)size) == SIZE;
}

/* The busy clients, until all is over. */
static void *be_busy(void *data) {
    struct client *clients = calloc((size_t)busy_count, sizeof *clients);
    struct client **due = calloc((size_t)busy_count, sizeof *due);      /* those that rest, from `first` on */
    int ready = epoll_create1(0), first = 0, waiting = 0;
    struct epoll_event found[MOST];
    (void)data;
    for (int number = 0; number < busy_count; number++) {
        struct client *client = clients + number;
        client->end = socket(AF_INET, SOCK_STREAM, 0);
        need(connect(client->end, (struct sockaddr *)&proxy, sizeof proxy) == 0, "connect");
        no_delay(client->end);
        await(ready, client->end, EPOLLIN, client, EPOLL_CTL_ADD);
        send_ask(client);
    }
    atomic_store(&begun, 1);
    while (!atomic_load(&over)) {
        int count = epoll_wait(ready, found, MOST, waiting ? 1 : 100);
        for (int at = 0; at < count; at++) {
            struct client *client = found[at].data.ptr;
            if (!has_answer(client))
                continue;
            struct moment took = since(client->asked);
            struct moment now = {client->asked.clock + took.clock, client->asked.processor + took.processor};
            if (answer_count < ROOM)
                answers[answer_count++] = (struct answer){now, took};
            if (pause_ms > 0) {
                client->asked = now;
                due[(first + waiting++) % busy_count] = client;
            } else {
                send_ask(client);
            }
        }
        while (waiting && milliseconds(CLOCK_MONOTONIC) - due[first]->asked.clock >= pause_ms) {
            send_ask(due[first]);
            first = (first + 1) % busy_count;
            waiting--;
        }
    }
    return NULL;
}

/* The others come all at once; how long the answer to each took. */
static void come(struct moment *took) {
    struct client *clients = calloc((size_t)new_count, sizeof *clients);
    int ready = epoll_create1(0), left = new_count;
    struct epoll_event found[MOST];
    struct moment start = moment();
    for (int number = 0; number < new_count; number++) {
        struct client *client = clients + number;
        client->end = socket(AF_INET, SOCK_STREAM | SOCK_NONBLOCK, 0);
        need(connect(client->end, (struct sockaddr *)&proxy, sizeof proxy) == 0 || errno == EINPROGRESS, "connect");
        await(ready, client->end, EPOLLOUT, client, EPOLL_CTL_ADD);
    }
    while (left) {
        int count = epoll_wait(ready, found, MOST, 60000);
        need(count > 0, "no answer for a minute");
        for (int at = 0; at < count; at++) {
            struct client *client = found[at].data.ptr;
            if (found[at].events & EPOLLOUT) {
                send_ask(client);
                await(ready, client->end, EPOLLIN, client, EPOLL_CTL_MOD);
            } else if (has_answer(client)) {
                *took++ = since(start);
                left--;
            }
        }
    }
}

static void print(const char *kind, struct moment took) {
    printf("%s %.3f %.3f\n", kind, took.clock, took.processor);
}

int main(int count, char **words) {
    int pid, port, listener = socket(AF_INET, SOCK_STREAM | SOCK_NONBLOCK, 0);
    struct sockaddr_in own = {.sin_family = AF_INET, .sin_addr.s_addr = htonl(INADDR_LOOPBACK)};
    socklen_t size = sizeof own;
    struct rlimit most;
    pthread_t server, clients;
    if (count != 5)
        return 2;
    getrlimit(RLIMIT_NOFILE, &most);
    most.rlim_cur = most.rlim_max;
    setrlimit(RLIMIT_NOFILE, &most);
    /* The table of descriptors grows here, since later that would stop the threads that open one, for some 20 ms. */
    close(fcntl(0, F_DUPFD, MOST_FILES));
    busy_count = atoi(words[1]);
    pause_ms = atof(words[2]);
    new_count = atoi(words[3]);
    double alone = atof(words[4]);
    need(bind(listener, (struct sockaddr *)&own, sizeof own) == 0 && listen(listener, 4096) == 0, "listen");
    getsockname(listener, (struct sockaddr *)&own, &size);
    printf("%d\n", ntohs(own.sin_port));
    fflush(stdout);
    need(pthread_create(&server, NULL, serve, &listener) == 0, "pthread_create");
    need(scanf("%d %d", &port, &pid) == 2, "scanf");
    proxy = own;
    proxy.sin_port = htons((uint16_t)port);
    processor = (clockid_t)(~(unsigned)pid << 3 | 2);
    need(pthread_create(&clients, NULL, be_busy, NULL) == 0, "pthread_create");
    while (!atomic_load(&begun))
        usleep(1000);
    usleep((useconds_t)(alone * 1000));
    struct moment *first = calloc((size_t)new_count, sizeof *first);
    double came = milliseconds(CLOCK_MONOTONIC);
    come(first);
    double ended = milliseconds(CLOCK_MONOTONIC);
    atomic_store(&over, 1);
    pthread_join(clients, NULL);
    for (int number = 0; number < new_count; number++)
        print("first", first[number]);
    for (int number = 0; number < answer_count; number++) {
        double at = answers[number].at.clock;
        if (at > came - alone / 2 && at < ended)
            print(at < came ? "before" : "meanwhile", answers[number].took);
    }
    return 0;
}
