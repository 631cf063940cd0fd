/* Growing bytes, and the requests that wait for their replies, in the lanes in which a server answers them
 * (docs/CONVERSATION.md), as zkdump_tools/listing.py has them. */
#include "columns.h"

uint8_t *room_for(struct bytes *bytes, size_t more) {
    if (bytes->room - bytes->end < more && bytes->begin > 0 && bytes->begin >= bytes->end - bytes->begin) {
        memcpy(bytes->at, bytes->at + bytes->begin, bytes->end - bytes->begin);
        bytes->end -= bytes->begin;
        bytes->begin = 0;
    }
    if (bytes->room - bytes->end < more) {
        size_t room = 2 * bytes->room < bytes->end + more ? bytes->end + more + 1024 : 2 * bytes->room;
        uint8_t *larger = realloc(bytes->at, room);
        if (larger == NULL) stop(STATUS_SYSTEM, "out of memory");
        bytes->at = larger;
        bytes->room = room;
    }
    return bytes->at + bytes->end;
}

void put(struct bytes *bytes, const void *from, size_t length) {
    if (length == 0) return;
    memcpy(room_for(bytes, length), from, length);
    bytes->end += length;
}

void put_text(struct bytes *bytes, const char *text) { put(bytes, text, strlen(text)); }

void put_number(struct bytes *bytes, int64_t number) {
    char digits[24];
    size_t at = sizeof digits;
    uint64_t left = number < 0 ? 0 - (uint64_t)number : (uint64_t)number;
    do digits[--at] = (char)('0' + left % 10);
    while ((left /= 10) > 0);
    if (number < 0) digits[--at] = '-';
    put(bytes, digits + at, sizeof digits - at);
}

struct lane *lane_of(struct lane *lanes, uint32_t kind, int32_t xid) {
    if (kind == ZK_CONNECT || kind == ZK_CONNECTED) return lanes;
    return lanes + (xid == -2 ? 1 : xid == -4 ? 2 : xid == -8 ? 3 : 4);
}

void ask(struct lane *lane, struct asked asked, const struct bytes *paths) {
    asked.paths = paths->end;
    put(&lane->asked, &asked, sizeof asked);
    put(&lane->paths, paths->at, paths->end);
}

struct asked answer(struct lane *lane, const uint8_t **paths) {
    struct asked asked;
    if (lane->asked.end - lane->asked.begin < sizeof asked) stop(STATUS_SYSTEM, "a reply without its request");
    memcpy(&asked, lane->asked.at + lane->asked.begin, sizeof asked);
    *paths = lane->paths.at == NULL ? NULL : lane->paths.at + lane->paths.begin;
    lane->asked.begin += sizeof asked;
    lane->paths.begin += asked.paths;
    return asked;
}

const uint8_t *next_path(const uint8_t **paths, int32_t *length) {
    memcpy(length, *paths, sizeof *length);
    const uint8_t *path = *paths + sizeof *length;
    *paths = path + (*length > 0 ? *length : 0);
    return path;
}
