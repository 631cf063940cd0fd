/* What zk.h and the libraries have besides the proved calls: structs that are filled by their size, the builder of fields,
 * and many messages by one call. The status is 0 if all is as zk.h says; else the number of the line that isn't is printed. */
#include "zk.h"

#include <stdio.h>
#include <stdlib.h>

static void must(int good, int line) {
    if (good) return;
    printf("beside.c:%d\n", line);
    exit(1);
}

#define MUST(good) must(good, __LINE__)

static const uint8_t hello[] = {0, 0, 0, 28, 0, 0, 0, 0, 0, 0, 0, 0, 0, 0, 0, 0, 0, 0, 0x75, 0x30,
                                0, 0, 0, 0,  0, 0, 0, 0, 0, 0, 0, 0};

/* A frame of an exists of a path of `length` letters. */
static size_t put_exists(uint8_t *out, int32_t xid, size_t length) {
    struct zk_field fields[2];
    uint8_t content[512];
    struct zk_builder it = zk_build(fields, 2, content, sizeof content);
    memset(content, 'a', length);
    char path[512] = "/";
    memset(path + 1, 'a', length - 1);
    zk_add_bytes(&it, ZK_KIND_TEXT, path, length);
    zk_add_number(&it, ZK_KIND_BOOL, 1);
    MUST(it.status == ZK_WELL && it.count == 2 && it.length == length);
    struct zk_written written = zk_write_request(xid, ZK_OP_EXISTS, fields, it.count, content, it.length, out, 600);
    MUST(written.status == ZK_WELL && written.length == 17 + length);
    return written.length;
}

static void build(void) {
    struct zk_field fields[4];
    uint8_t content[8];
    struct zk_builder it = zk_build(fields, 4, content, sizeof content);
    zk_add_text(&it, "abc");
    zk_add_bytes(&it, ZK_KIND_BLOB, NULL, 0);
    zk_add_bytes(&it, ZK_KIND_BLOB, "defgh", 5);
    MUST(it.status == ZK_WELL && it.count == 3 && it.length == 8 && memcmp(content, "abcdefgh", 8) == 0);
    MUST(fields[1].place == 3 && fields[1].length == 0 && fields[2].place == 3 && fields[2].length == 5);
    MUST(fields[0].kind == ZK_KIND_TEXT && fields[0].null == 0 && fields[0].number == 0 && fields[0].name == 0);
    zk_add_text(&it, "i");
    MUST(it.status == ZK_ROOM && it.count == 3 && it.length == 8);
    zk_add_number(&it, ZK_KIND_INT, 1);
    MUST(it.status == ZK_ROOM && it.count == 3);
    it = zk_build(fields, 4, content, sizeof content);
    zk_add_right(&it, ZK_PERMISSION_ALL, "w", "any");
    zk_add_null(&it, ZK_KIND_LIST);
    MUST(it.status == ZK_WELL && it.count == 4 && fields[0].number == 31 && fields[2].length == 3 && fields[3].null == 1);
    zk_add_null(&it, ZK_KIND_LIST);
    MUST(it.status == ZK_ROOM && it.count == 4);
    it = zk_build(fields, 4, content, SIZE_MAX);
    zk_add_bytes(&it, ZK_KIND_BLOB, content, (size_t)INT32_MAX + 1);
    MUST(it.status == ZK_TOO_LONG && it.count == 0 && it.length == 0);
    it = zk_build(fields, 0, content, sizeof content);
    zk_add_number(&it, ZK_KIND_INT, 1);
    MUST(it.status == ZK_ROOM && it.count == 0);
}

/* A struct of a newer header, or of an older one. */
static void fill(void) {
    struct zk_talk talk = ZK_ZEROS;
    struct zk_through through = ZK_ZEROS;
    struct { struct zk_message message; uint8_t more[16]; } newer;
    struct { struct zk_passed passed; uint8_t more[16]; } passed;
    MUST(zk_talk_new(&talk, 4096, 4096, 8, ZK_PROFILE_34) == ZK_WELL);
    MUST(zk_through_new(&through, 4096, 4096, 8, ZK_PROFILE_34) == ZK_WELL);
    MUST(zk_talk_step(&talk, ZK_CLIENT, hello, sizeof hello).whole);
    struct zk_message wanted = zk_talk_view(&talk, ZK_CLIENT);
    MUST(wanted.status == ZK_WELL && wanted.kind == ZK_CONNECT && wanted.size == sizeof hello);
    memset(&newer, 0xff, sizeof newer);
    zk_talk_view_into(&talk, ZK_CLIENT, &newer.message, sizeof newer);
    MUST(memcmp(&newer.message, &wanted, sizeof wanted) == 0 && newer.more[0] == 0 && newer.more[15] == 0);
    memset(&newer, 0xff, sizeof newer);
    zk_talk_view_into(&talk, ZK_CLIENT, &newer.message, offsetof(struct zk_message, answers));
    MUST(newer.message.size == wanted.size && newer.message.answers == UINT64_MAX && newer.more[0] == 0xff);
    zk_talk_view_into(&talk, ZK_CLIENT, &newer.message, 0);
    MUST(newer.message.size == wanted.size);
    memset(&passed, 0xff, sizeof passed);
    zk_through_step_into(&through, ZK_CLIENT, hello, sizeof hello, &passed.passed, sizeof passed);
    MUST(passed.passed.used == sizeof hello && passed.passed.went == ZK_MESSAGE && passed.more[0] == 0);
    struct zk_ending ending;
    memset(&ending, 0xff, sizeof ending);
    zk_talk_finish_into(&talk, &ending, offsetof(struct zk_ending, side));
    MUST(ending.kind == ZK_WHOLE && ending.unanswered == 1 && ending.side == UINT32_MAX);
    zk_through_finish_into(&through, &ending, sizeof ending);
    MUST(ending.kind == ZK_WHOLE && ending.unanswered == 1 && ending.side == 0);
    zk_through_view_into(&through, ZK_CLIENT, &newer.message, sizeof newer.message);
    MUST(memcmp(&newer.message, &wanted, sizeof wanted) == 0);
    zk_talk_free(&talk);
    zk_talk_free(&talk);
    zk_through_free(&through);
}

/* Messages by one call, in rooms of which each is once too small. */
static void take(size_t most, size_t size, size_t room) {
    static uint8_t piece[65536], bytes[4096];
    struct zk_entry entries[64];
    struct zk_field fields[64];
    struct zk_talk talk = ZK_ZEROS;
    size_t length = sizeof hello, at = 0, found = 0;
    memcpy(piece, hello, sizeof hello);
    for (int32_t xid = 1; xid < 20; xid++) length += put_exists(piece + length, xid, (size_t)xid * 4);
    MUST(zk_talk_new(&talk, 4096, 4096, 64, ZK_PROFILE_34) == ZK_WELL);
    while (at < length) {
        struct zk_block block = zk_talk_block(&talk, ZK_CLIENT, piece + at, length - at, entries, most, bytes, size, fields, room);
        MUST(block.status == ZK_WELL && block.used > 0 && block.entries <= most);
        for (size_t i = 0; i < block.entries; i++, found++) {
            MUST(entries[i].frame == found && entries[i].xid == (int32_t)found && entries[i].kind == (found ? ZK_REQUEST : ZK_CONNECT));
            if (found == 0) continue;
            const struct zk_field *path = &fields[entries[i].first];
            MUST(entries[i].count == 2 && path->length == found * 4 && entries[i].length == 13 + found * 4);
            MUST(bytes[entries[i].place + path->place] == '/' && path[1].number == 1 && entries[i].operation == ZK_OP_EXISTS);
        }
        if (block.more) MUST(zk_talk_view(&talk, ZK_CLIENT).frame == found++);
        at += block.used;
    }
    MUST(at == length && found == 20);
    MUST(zk_talk_block(&talk, ZK_CLIENT, NULL, 0, entries, most, bytes, size, fields, room).entries == 0);
    static const uint8_t wrong[] = {0xff, 0xff, 0xff, 0xff};
    struct zk_block refused = zk_talk_block(&talk, ZK_CLIENT, wrong, 4, entries, most, bytes, size, fields, room);
    MUST(refused.status == ZK_LENGTH_RANGE && refused.fault.frame == 20 && refused.entries == 0);
    zk_talk_free(&talk);
}

int main(void) {
    build();
    fill();
    take(64, 4096, 64);
    take(1, 4096, 64);
    take(3, 4096, 64);
    take(64, 100, 64);
    take(64, 4096, 5);
    take(64, 0, 0);
    MUST(zk_version() >= ZK_VERSION_NUMBER);
    MUST(strcmp(zk_operation_name(ZK_OP_ADD_WATCH), "addWatch") == 0 && strcmp(zk_state_name(ZK_STATE_EXPIRED), "Expired") == 0);
    MUST(strcmp(zk_error_name(ZK_ERR_QUOTA_EXCEEDED), "QUOTAEXCEEDED") == 0 && *zk_flags_name(7) == 0);
    return 0;
}
