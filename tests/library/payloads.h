/* Calls on a payload: it is judged, read into fields, and written again from them. */
#include "chosen.h"

/* Judges fields that a call has written: as many as there is room for, each within the payload. */
static void fitting(struct zk_read read, size_t room, size_t length) {
    size_t count = read.count < room ? read.count : room;
    answered(read.status);
    within(&fields, count * sizeof(struct zk_field));
    must((read.status == ZK_WELL || read.status == ZK_ROOM) == (read.kind != 0), "a kind");
    must(read.status != ZK_WELL || read.count <= room, "more fields than there is room");
    must(read.status != ZK_ROOM || read.count > room, "fewer fields than there is room");
    for (size_t i = 0; i < count; i++) {
        struct zk_field it = ((struct zk_field *)(void *)fields.at)[i];
        must(it.place <= length && it.length <= length - it.place, "a field outside of the payload");
        must(it.kind >= ZK_KIND_INT && it.kind <= ZK_KIND_PART && it.null <= 1, "a field's kind");
        must(it.name == ZK_NAME_NONE ? it.kind == ZK_KIND_PART : zk_field_name(it.name)[0] != 0, "a field's name");
        must(!it.null || it.number == 0, "a number of null");
    }
}

static struct zk_field *room_for(size_t *room) {
    *room = one_in(3) ? FIELDS : (size_t)chance(30);
    clear(&fields, *room * sizeof(struct zk_field));
    return (struct zk_field *)(void *)fields.at;
}

/* The parts of a reply: mostly none, for a multi some. */
static void put_parts(int32_t operation) {
    int32_t *parts = (int32_t *)(void *)numbers.copy;
    size_t count = operation == 14 ? (size_t)chance(6) : one_in(40) ? 1 : 0;
    for (size_t i = 0; i < count; i++) parts[i] = one_in(30) ? any_operation() : (int32_t)PICK(1, 2, 5, 13);
    put(&numbers, count * sizeof *parts);
}

/* Judges a payload, and reads its fields; both find the same fault. */
static void read_payload(void) {
    const struct payload *it = &payloads[chance(payload_count)];
    uint32_t kind = one_in(8) ? 1 + (uint32_t)chance(5) : it->kind, profile = any_profile();
    int32_t operation = one_in(8) ? any_operation() : it->operation;
    size_t room;
    struct zk_field *out = room_for(&room);
    put_bytes(it->bytes, it->length, 2);
    put_parts(operation);
    const uint8_t *at = bytes.at;
    const int32_t *parts = (const int32_t *)(const void *)numbers.at;
    size_t length = bytes.length, count = numbers.length / sizeof *parts;
    uint32_t expected = astray(&at, &length);
    struct zk_payload judged = kind == ZK_CONNECT     ? zk_judge_first(at, length)
                               : kind == ZK_REQUEST   ? zk_judge_request(profile, at, length)
                               : kind == ZK_CONNECTED ? zk_judge_connected(at, length)
                               : kind == ZK_REPLY     ? zk_judge_reply(operation, parts, count, at, length)
                                                      : zk_judge_event(at, length);
    answered(judged.status);
    struct zk_read read = kind == ZK_CONNECT     ? zk_read_first(at, length, out, room)
                          : kind == ZK_REQUEST   ? zk_read_request(profile, at, length, out, room)
                          : kind == ZK_CONNECTED ? zk_read_connected(at, length, out, room)
                          : kind == ZK_REPLY     ? zk_read_reply(operation, parts, count, at, length, out, room)
                                                 : zk_read_event(at, length, out, room);
    fitting(read, room, bytes.length);
    unchanged(&bytes);
    unchanged(&numbers);
    must(expected == ZK_WELL || read.status == expected, "a pointer or a length astray");
    if (kind == ZK_REPLY && judged.status == ZK_RANGE && read.status != ZK_RANGE) {
        /* Of no operation: the header is read. */
        must(read.status == ZK_UNKNOWN_OP ? read.place == 16 : read.status == ZK_SHORT || read.status == ZK_MISFIT,
             "no header");
        must(read.count == 0 && read.kind == 0 && read.operation == 0, "more than a header");
        return;
    }
    must(read.status == ZK_ROOM ? judged.status == ZK_WELL : judged.status == read.status,
         "judged otherwise than read");
    must(judged.place == read.place && (read.kind == 0 || read.kind == kind), "another place or kind");
}

/* The fields of a payload. A multi's results are for the parts that their headers name; an error is for any part. */
static struct zk_read fields_of(const struct payload *it, struct zk_field *all) {
    int32_t parts[16];
    if (it->kind == ZK_CONNECT) return zk_read_first(it->bytes, it->length, all, FIELDS);
    if (it->kind == ZK_REQUEST) return zk_read_request(NEWEST, it->bytes, it->length, all, FIELDS);
    if (it->kind == ZK_CONNECTED) return zk_read_connected(it->bytes, it->length, all, FIELDS);
    if (it->kind == ZK_EVENT) return zk_read_event(it->bytes, it->length, all, FIELDS);
    for (size_t count = 0;; count++) {
        struct zk_read read = zk_read_reply(it->operation, parts, count, it->bytes, it->length, all, FIELDS);
        if (it->operation != 14 || read.status != ZK_BAD_PART || count == 16) return read;
        int32_t part = number_at(it->bytes + read.place);
        parts[count] = part < 0 ? 1 : part;
    }
}

/* The fields of a payload, right or damaged, and how many there are. Whether they are right. */
static bool put_fields(const struct payload *it, size_t *count) {
    struct zk_field *all = (struct zk_field *)(void *)items.copy;
    struct zk_read read = fields_of(it, all);
    bool good = answered(read.status) == ZK_WELL;
    *count = read.count < FIELDS ? read.count : FIELDS;
    for (size_t times = one_in(3) ? 1 + (size_t)chance(3) : 0; times > 0 && *count > 0; times--) {
        uint8_t *at = items.copy + chance(*count * sizeof *all);
        *at = (uint8_t)PICK(0, 1, 2, 7, 127, 255, (int64_t)chance(256));
        good = false;
    }
    if (one_in(20) && *count > 0) good = false, *count = (size_t)chance(*count);
    put(&items, *count * sizeof *all);
    return good;
}

/* Writes the frame of fields, with the header of the payload. */
static struct zk_written write_fields(const struct payload *it, size_t count, const uint8_t *at, size_t length) {
    const struct zk_field *from = (const struct zk_field *)(const void *)items.at;
    bool headed = it->length >= 16;
    int32_t xid = it->length >= 4 ? number_at(it->bytes) : 0, err = headed ? number_at(it->bytes + 12) : 0;
    uint64_t high = headed ? (uint32_t)number_at(it->bytes + 4) : 0;
    uint64_t low = headed ? (uint32_t)number_at(it->bytes + 8) : 0;
    int64_t zxid = (int64_t)(high << 32 | low);
    switch (it->kind) {
    case ZK_CONNECT: return zk_write_first(from, count, at, length, text.at, text.room);
    case ZK_REQUEST: return zk_write_request(xid, it->operation, from, count, at, length, text.at, text.room);
    case ZK_CONNECTED: return zk_write_connected(from, count, at, length, text.at, text.room);
    case ZK_EVENT: return zk_write_event(zxid, from, count, at, length, text.at, text.room);
    default: return zk_write_reply(xid, zxid, err, it->operation, from, count, at, length, text.at, text.room);
    }
}

/* What an answer of these may be, of fields that are right or damaged. */
static void fitting_frame(struct zk_written written, size_t count) {
    bool index = written.status == ZK_RANGE || written.status == ZK_TOO_LONG;
    must(index ? written.index < count : written.index == 0, "the index of a field");
    must(written.status != ZK_ROOM || written.length > text.room, "a frame for which there is room");
    must(written.status == ZK_WELL || written.status == ZK_ROOM || index, "a status that this call has not");
}

/* Writes the frame of a message from its fields, which are right or damaged. */
static void write_payload(void) {
    const struct payload *it = &payloads[chance(payload_count)];
    size_t count, size = it->length + 4;
    bool good = put_fields(it, &count);
    put_bytes(it->bytes, it->length, 9);
    good = good && bytes.length == it->length && memcmp(bytes.copy, it->bytes, it->length) == 0;
    const uint8_t *at = bytes.at;
    size_t length = bytes.length;
    uint32_t expected = astray(&at, &length);
    clear(&text, one_in(2) && size < SIZE ? size : any_room());
    struct zk_written written = write_fields(it, count, at, length);
    answered(written.status);
    unchanged(&items);
    unchanged(&bytes);
    within(&text, written.status == ZK_WELL ? written.length : 0);
    if (expected != ZK_WELL) {
        must(written.status == expected, "a pointer or a length astray");
        return;
    }
    fitting_frame(written, count);
    if (!good) return;
    must(written.status == (text.room < size ? ZK_ROOM : ZK_WELL) && written.length == size, "the frame of its fields");
    if (written.status != ZK_WELL) return;
    must((size_t)number_at(text.at) == it->length && memcmp(text.at + 4, it->bytes, it->length) == 0, "another frame");
}
