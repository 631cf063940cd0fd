/* The fields of a payload, as a dissector shows them.
 *
 *     fields first|connected|event HEX
 *     fields request PROFILE HEX
 *     fields reply OPERATION [PART ..] HEX
 *
 * PARTs are the operations of a multi's parts, by their numbers. A line for the message, or for what is wrong and where,
 * and then a line a field. Of a payload that is no message's the fields before the fault are shown. The status is 0 for a
 * message's payload, else 1, and 2 for other arguments or if not all is written. */
#include "zk.h"

#include <ctype.h>
#include <errno.h>
#include <inttypes.h>
#include <stdio.h>
#include <stdlib.h>
#include <string.h>

static const char *const messages[] = {"fault", "connect request", "request", "connect response", "reply", "event"};

static const char USAGE[] = "usage: fields first|connected|event HEX, fields request PROFILE HEX, "
                            "or fields reply OPERATION [PART ..] HEX";

static _Noreturn void fail(const char *what) {
    fprintf(stderr, "fields: %s\n", what);
    exit(2);
}

/* The number of a word that is one. */
static int32_t number_of(const char *word) {
    char *end = NULL;
    errno = 0;
    long number = strtol(word, &end, 10);
    if (end == word || *end != 0 || errno != 0 || number < INT32_MIN || number > INT32_MAX) fail(USAGE);
    return (int32_t)number;
}

/* The payload of hexadecimal digits; its length, or SIZE_MAX if they are no whole bytes. */
static size_t payload_of(const char *digits, uint8_t *payload) {
    size_t count = strlen(digits);
    if (count % 2 != 0) return SIZE_MAX;
    for (size_t i = 0; i < count; i += 2) {
        unsigned byte;
        if (!isxdigit((unsigned char)digits[i]) || !isxdigit((unsigned char)digits[i + 1])) return SIZE_MAX;
        if (sscanf(digits + i, "%2x", &byte) != 1) return SIZE_MAX;
        payload[i / 2] = (uint8_t)byte;
    }
    return count / 2;
}

/* A peer chose these bytes, so what a terminal may take for a command is escaped. */
static void put_text(const uint8_t *bytes, uint32_t length) {
    fputs(" \"", stdout);
    for (uint32_t i = 0; i < length; i++) {
        if (bytes[i] >= ' ' && bytes[i] <= '~' && bytes[i] != '"' && bytes[i] != '\\') putchar(bytes[i]);
        else printf("\\x%02x", bytes[i]);
    }
    puts("\"");
}

static void put_field(const uint8_t *payload, const struct zk_field *field) {
    printf("%" PRIu32 "+%" PRIu32, field->place, field->length);
    if (field->name != ZK_NAME_NONE) printf(" %s", zk_field_name(field->name));
    if (field->null) {
        puts(" null");
        return;
    }
    switch (field->kind) {
    case ZK_KIND_TEXT:
        put_text(payload + field->place, field->length);
        break;
    case ZK_KIND_BLOB:
        fputs(" #", stdout);
        for (uint32_t i = 0; i < field->length; i++) printf("%02x", payload[field->place + i]);
        putchar('\n');
        break;
    case ZK_KIND_PART:
        printf(" %s\n", field->number < 0 ? "error" : zk_operation_name((int32_t)field->number));
        break;
    default: /* a number, a list's count */
        printf(" %" PRId64 "\n", field->number);
    }
}

/* A reply to a request of this operation; the words are those of its parts. */
static struct zk_read read_reply(int32_t operation, char **words, size_t count, const uint8_t *payload, size_t length,
                                 struct zk_field *out, size_t room) {
    int32_t *parts = malloc((count + 1) * sizeof *parts);
    if (parts == NULL) fail("out of memory");
    for (size_t i = 0; i < count; i++) parts[i] = number_of(words[i]);
    struct zk_read read = zk_read_reply(operation, parts, count, payload, length, out, room);
    free(parts);
    return read;
}

/* A payload that is named by one word, or by a word and numbers. */
static struct zk_read read_fields(int count, char **words, const uint8_t *payload, size_t length, struct zk_field *out, size_t room) {
    const char *name = words[1];
    if (count == 3 && strcmp(name, "first") == 0) return zk_read_first(payload, length, out, room);
    if (count == 3 && strcmp(name, "connected") == 0) return zk_read_connected(payload, length, out, room);
    if (count == 3 && strcmp(name, "event") == 0) return zk_read_event(payload, length, out, room);
    if (count == 4 && strcmp(name, "request") == 0) return zk_read_request((uint32_t)number_of(words[2]), payload, length, out, room);
    if (count >= 4 && strcmp(name, "reply") == 0)
        return read_reply(number_of(words[2]), words + 3, (size_t)count - 4, payload, length, out, room);
    fail(USAGE);
}

int main(int count, char **words) {
    if (count < 3) fail(USAGE);
    uint8_t *payload = malloc(strlen(words[count - 1]) + 1);
    if (payload == NULL) fail("out of memory");
    size_t length = payload_of(words[count - 1], payload), room = 8;
    if (length == SIZE_MAX) {
        free(payload);
        fail("HEX isn't pairs of hexadecimal digits");
    }
    struct zk_field *fields = malloc(room * sizeof *fields);
    if (fields == NULL) fail("out of memory");
    struct zk_read read = read_fields(count, words, payload, length, fields, room);
    if (read.count > room) { /* the room is too small: the answer says how large it has to be */
        room = read.count;
        free(fields);
        fields = malloc(room * sizeof *fields);
        if (fields == NULL) fail("out of memory");
        read = read_fields(count, words, payload, length, fields, room);
    }
    if (read.status == ZK_RANGE) fail(USAGE); /* no profile or part has this number */
    printf("%s %s xid=%" PRId32, messages[read.kind], zk_operation_name(read.operation), read.xid);
    if (read.kind == ZK_REPLY) printf(" zxid=%" PRId64 " err=%" PRId32 " %s", read.zxid, read.err, zk_error_name(read.err));
    if (read.kind == 0) printf(" %s at %" PRIu32, zk_status_name(read.status), read.place);
    putchar('\n');
    for (uint32_t i = 0; i < read.count; i++) put_field(payload, &fields[i]);
    free(fields);
    free(payload);
    if (ferror(stdout) || fflush(stdout) != 0) fail("standard output can't be written");
    return read.kind == 0;
}
