/* A name has one address more, before the others: port 1, where nobody listens. A program is compiled with this before it. */
#define _POSIX_C_SOURCE 200809L
#include <netdb.h>
#include <stddef.h>

static struct addrinfo *first;

static int refused_first(const char *host, const char *port, const struct addrinfo *wanted, struct addrinfo **found) {
    int failed = getaddrinfo(host, "1", wanted, &first);
    if (failed == 0) failed = getaddrinfo(host, port, wanted, &first->ai_next);
    *found = first;
    return failed;
}

#define getaddrinfo refused_first
#define freeaddrinfo(list) (void)(list)
