/* What tests/library/calls.c gives to calls: limits, sides, profiles, operations, pieces and rooms, right or wrong, at random. */
#include "calls.h"

enum { ROOM = 1 << 16, FIELDS = 300 };

static struct input bytes, numbers, cuts, items;
static struct output text, fields;
static unsigned long statuses[128];

/* Counts a call; its status is one that the header has. */
static uint32_t answered(uint32_t status) {
    counted++;
    must(zk_status_name(status)[0] != 0, "a status without a name");
    statuses[status]++;
    return status;
}

/* ---- Bytes */

/* Damages the bytes of an input that were copied, and returns how many they are then. */
static size_t damaged(uint8_t *copy, size_t length) {
    switch (chance(6)) {
    case 0: return (size_t)chance(length + 1);
    case 1:
        for (size_t more = 1 + (size_t)chance(9); more > 0; more--) copy[length++] = (uint8_t)chance(256);
        return length;
    case 2:
        for (size_t i = 0; i < length; i++) copy[i] = (uint8_t)chance(256);
        return length;
    default:
        for (size_t times = 1 + (size_t)chance(3); length > 0 && times > 0; times--)
            copy[chance(length)] = (uint8_t)PICK(0, 1, 2, 127, 128, 255, (int64_t)chance(256));
        return length;
    }
}

/* Some of these bytes, damaged once in `rarely` times. */
static void put_bytes(const uint8_t *from, size_t length, uint64_t rarely) {
    memcpy(bytes.copy, from, length);
    put(&bytes, one_in(rarely) ? damaged(bytes.copy, length) : length);
}

/* A pointer, now and then null; and a length, now and then too large. What is then expected. */
static uint32_t astray(const uint8_t **at, size_t *length) {
    if (one_in(100) && *length > 0) {
        *at = NULL;
        return ZK_NULL;
    }
    if (one_in(100) && *at != NULL) {
        *length = (size_t)PTRDIFF_MAX + 1 + (size_t)chance(1000);
        return ZK_RANGE;
    }
    return ZK_WELL;
}

static uint32_t any_side(void) {
    return one_in(50) ? (uint32_t)PICK(2, 3, UINT32_MAX) : (uint32_t)chance(2);
}

/* Profiles. The lines from here on are written by dev/names.py. */
enum { NEWEST = 37 };

static uint32_t any_profile(void) {
    return one_in(20) ? (uint32_t)PICK(0, 33, 36, 38, UINT32_MAX) : (uint32_t)PICK(34, 35, 37);
}

static bool is_profile(uint32_t number) {
    return number == 34 || number == 35 || number == 37;
}
/* Up to here. */

static int32_t any_operation(void) {
    /* The lines from here on are written by dev/names.py. */
    return (int32_t)PICK(1, 2, 3, 4, 5, 6, 7, 8, 9, 11, 12, 13, 14, 15, 16, 17, 18, 19, 21, 100, 101, 103, 104, 106,
                         -11, 0, 10, -1, INT32_MIN, INT32_MAX);
    /* Up to here. */
}

/* A limit that is mostly enough for the recordings, and seldom in need of much memory. */
static uint32_t any_limit(void) {
    if (one_in(300)) return (uint32_t)PICK(1 << 24, (1 << 24) - 1);
    if (one_in(60)) return (uint32_t)PICK(0, 63, 16777217, UINT32_MAX);
    return (uint32_t)PICK(64, 100, 4096, 65536, 65536, 262144, 262144, 262144);
}

static uint32_t any_waiting(void) {
    if (one_in(60)) return (uint32_t)PICK(0, 1048577, UINT32_MAX);
    return one_in(300) ? 1 << 20 : (uint32_t)PICK(1, 2, 16, 1000, 1000, 1000);
}

static size_t any_room(void) {
    return (size_t)PICK(0, 1, (int64_t)chance(300), (int64_t)chance(300), ROOM, ROOM);
}
