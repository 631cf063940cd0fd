/* Calls of every function of zk.h, chosen at random from a seed.
 *
 *     calls SEED COUNT FILE ..
 *
 * FILEs are recordings and listings of captures/. Handles are used in any order, empty or not; pieces of recordings,
 * payloads, fields and lines come as they are or damaged (payloads.h); limits, sides, profiles and operations are right
 * or wrong; rooms are ample, exact, too small or none; pointers are null with 0 and without (chosen.h). What is read and
 * written is between guard pages (calls.h). It prints the first answer that can't be, and how often each status came,
 * and what became of passages' bytes; the status is 0 if all could. */
#include "offers.h"

/* ---- Steps */

/* How often each of ZK_WITHIN to ZK_UNSEEN came. */
static unsigned long wents[ZK_UNSEEN + 1];

/* What any step may answer; whether it was made. */
static bool stepped(struct played *it, struct given given, uint32_t status, size_t used, struct zk_fault fault) {
    answered(status);
    unchanged(&bytes);
    if (given.expected != ZK_WELL) {
        must(status == given.expected && used == 0, "a pointer or a length astray");
        return false;
    }
    refused(status, it->live, given.side <= ZK_SERVER);
    must(used <= given.length, "more is used than came");
    must((fault.reason != 0) == (status != ZK_WELL && status <= ZK_STREAM_END), "a fault");
    if (status != ZK_WELL || !given.next) it->broken = true;
    else if ((it->used += used) >= pieces[it->recording->first + it->piece].length) { /* damage may add bytes */
        it->used = 0;
        it->piece++;
    }
    return true;
}

static void step(struct played *it) {
    struct given given = give(it, 0);
    bool passes = one_in(4);
    struct zk_step step = passes ? zk_talk_pass(&it->talk, given.side, given.at, given.length)
                                 : zk_talk_step(&it->talk, given.side, given.at, given.length);
    if (!stepped(it, given, step.status, step.used, step.fault)) return;
    must(!step.whole || (step.used > 0 && step.status == ZK_WELL), "a whole frame of nothing, or one that is refused");
    if (!step.whole) return;
    must(zk_talk_view(&it->talk, given.side).status == (passes ? ZK_NO_MESSAGE : ZK_WELL), "the frame kept");
}

/* Messages by one call: each has its payload and its fields within the rooms. */
static void take_block(struct played *it) {
    static struct zk_entry entries[4];
    struct given given = give(it, 0);
    size_t room, most = 1 + (size_t)chance(4);
    struct zk_field *out = room_for(&room);
    clear(&text, any_room());
    struct zk_block block = zk_talk_block(&it->talk, given.side, given.at, given.length, entries, most, text.at, text.room, out, room);
    if (!stepped(it, given, block.status, block.used, block.fault)) return;
    must(block.entries <= most && (!block.more || block.status == ZK_WELL), "more messages than there is room for");
    must(block.used == given.length || block.more || block.status != ZK_WELL || block.entries == most, "a block that ends early");
    size_t placed = 0, counted_fields = 0;
    for (size_t i = 0; i < block.entries; i++) {
        must(entries[i].place == placed && entries[i].first == counted_fields, "a message that follows another");
        placed += entries[i].length;
        counted_fields += entries[i].count;
    }
    must(placed <= text.room && counted_fields <= room, "payloads or fields beyond their room");
}

/* What waits and is held. */
static void count_all(struct played *it, enum kind kind, uint32_t side) {
    struct zk_waiting waiting = kind == TALK ? zk_talk_waiting(&it->talk) : zk_through_waiting(&it->through);
    answered(waiting.status);
    refused(waiting.status, it->live, true);
    must(waiting.requests <= waiting.weight && waiting.weight <= 1 << 20, "more requests wait than may");
    struct zk_held held = kind == TALK ? zk_talk_held(&it->talk, side) : zk_through_held(&it->through, side);
    answered(held.status);
    refused(held.status, it->live, side <= ZK_SERVER);
    must(held.bytes <= 4 + (1 << 24), "more bytes are held than a frame has");
}

static void finish(struct played *it, enum kind kind) {
    bool none = one_in(50);
    struct zk_ending ending = kind == TALK ? zk_talk_finish(none ? NULL : &it->talk)
                                           : zk_through_finish(none ? NULL : &it->through);
    answered(ending.status);
    if (ending.status != ZK_NULL) refused(ending.status, it->live, true);
    must((ending.status == ZK_WELL) == (ending.kind != 0), "an ending without a kind");
    must((ending.kind == ZK_REFUSED) == (ending.fault.reason != 0), "a refusal without its fault");
}

/* Judges a text that a call has written: all of it, or nothing. */
static void wrote(struct zk_line line, const char *what) {
    answered(line.status);
    within(&text, line.status == ZK_WELL ? line.length : 0);
    must(line.status != ZK_ROOM || line.length > text.room, what);
    must(line.status == ZK_WELL || line.status == ZK_ROOM || line.length == 0, what);
}

typedef struct zk_line written_call(struct played *it, uint32_t side, uint8_t *out, size_t room);

static struct zk_line line(struct played *it, uint32_t side, uint8_t *out, size_t room) {
    return zk_talk_line(&it->talk, side, out, room);
}

static struct zk_line payload(struct played *it, uint32_t side, uint8_t *out, size_t room) {
    return zk_talk_payload(&it->talk, side, out, room);
}

static struct zk_line passed_line(struct played *it, uint32_t side, uint8_t *out, size_t room) {
    return zk_through_line(&it->through, side, out, room);
}

static struct zk_line left_out(struct played *it, uint32_t side, uint8_t *out, size_t room) {
    return zk_through_payload(&it->through, side, out, room);
}

static struct zk_line passed_ending_line(struct played *it, uint32_t side, uint8_t *out, size_t room) {
    (void)side;
    return zk_through_ending_line(&it->through, out, room);
}

static struct zk_line ending_line(struct played *it, uint32_t side, uint8_t *out, size_t room) {
    (void)side;
    return zk_talk_ending_line(&it->talk, out, room);
}

/* A call that writes a text; again with just the room that it needs. What it returned last. */
static struct zk_line write_text(struct played *it, written_call *call, uint32_t side) {
    clear(&text, any_room());
    struct zk_line line = call(it, side, text.at, text.room);
    wrote(line, "a text's length");
    refused(line.status, it->live, side <= ZK_SERVER);
    if (line.status != ZK_ROOM || line.length > SIZE / 2) return line;
    size_t length = line.length;
    clear(&text, length);
    line = call(it, side, text.at, text.room);
    wrote(line, "a text's length again");
    must(line.status == ZK_WELL && line.length == length, "a text with just its room");
    return line;
}

static void show_fields(struct played *it, enum kind kind, uint32_t side) {
    size_t room;
    struct zk_field *out = room_for(&room);
    struct zk_message message = kind == TALK ? zk_talk_view(&it->talk, side) : zk_through_view(&it->through, side);
    answered(message.status);
    refused(message.status, it->live, side <= ZK_SERVER);
    struct zk_read read = kind == TALK ? zk_talk_fields(&it->talk, side, out, room)
                                       : zk_through_fields(&it->through, side, out, room);
    fitting(read, room, message.size);
    must(read.kind == message.kind && read.xid == message.xid && read.operation == message.operation,
         "another message");
    must(read.err == message.err && read.zxid == message.zxid, "other numbers of the header");
    must((message.answers != 0) == (message.kind == ZK_REPLY), "the frame that is answered");
}

/* A step of a passage: what became of the bytes, and what is then shown and left out. */
static void pass_through(struct played *it) {
    struct given given = give(it, 6);
    uint32_t side = given.side, shown = zk_through_view(&it->through, side).status;
    bool passes = one_in(6);
    struct zk_passed step = passes ? zk_through_pass(&it->through, side, given.at, given.length)
                                   : zk_through_step(&it->through, side, given.at, given.length);
    if (!stepped(it, given, step.status, step.used, step.fault)) return;
    if (step.went <= ZK_UNSEEN) wents[step.went]++;
    bool asked = step.went == ZK_ASKED, answers = step.went == ZK_ANSWERED, unseen = step.went == ZK_UNSEEN;
    bool left = asked || answers || unseen;
    must(step.went <= ZK_UNSEEN && (step.status == ZK_WELL || step.went == ZK_WITHIN), "what became of the bytes");
    must(step.status != ZK_QUEUE_FULL, "a passage that is refused where more would wait than may");
    must(left || (step.xid == 0 && step.operation == 0 && step.frame == 0), "a request that wasn't left out");
    must((asked || answers) == (step.frame > 0), "the number of the frame of what is left out");
    must(unseen || (step.zxid == 0 && step.err == 0), "a header of what was seen");
    must(!unseen || (it->late && side == ZK_SERVER && step.operation == 0), "a reply that wasn't seen");
    must(!asked || side == ZK_CLIENT, "a request of the server");
    must(!answers || side == ZK_SERVER, "a reply of the client");
    must(step.went != ZK_FULL || (side == ZK_CLIENT && step.used == 0), "bytes that are used where none may wait");
    must(step.went != ZK_WITHIN || step.status != ZK_WELL || step.used == given.length, "bytes that aren't used");
    must(!(left || step.went == ZK_MESSAGE) || step.used > 0, "a whole frame of nothing");
    if (step.went == ZK_FULL && one_in(9)) it->broken = true;
    struct zk_line found = write_text(it, left_out, side);
    uint32_t shows = answered(zk_through_view(&it->through, side).status);
    if (step.status != ZK_WELL) return;
    bool whole = left || step.went == ZK_MESSAGE, kept = !passes && (left || shows == ZK_WELL);
    must((found.status == ZK_NO_MESSAGE) != kept, "the payload of what is left out, or shown");
    must(shows == (passes || left ? ZK_NO_MESSAGE : whole ? ZK_WELL : shown), "the message shown");
    if (passes) return;
    if (!left || found.status != ZK_WELL) return;
    must(found.length >= 8 && number_at(text.at) == step.xid, "the xid of what is left out");
    must(!asked || number_at(text.at + 4) == step.operation, "the operation of what is left out");
    must(!unseen || number_at(text.at + 4) == (int32_t)(step.zxid >> 32), "the zxid of what is left out");
    must(!unseen || number_at(text.at + 12) == step.err, "the err of what is left out");
}

/* ---- Lines and listings */

static void say(struct played *it) {
    bool next = it->live && !it->broken && it->piece < it->recording->count && !one_in(40);
    const struct piece *line = next ? &lines[it->recording->first + it->piece] : &lines[chance(line_count)];
    put_bytes(line->bytes, line->length, next ? 60 : 3);
    const uint8_t *at = bytes.at;
    size_t length = bytes.length;
    uint32_t expected = astray(&at, &length);
    struct zk_say said = zk_speaker_say(&it->speaker, at, length);
    answered(said.status);
    unchanged(&bytes);
    if (expected != ZK_WELL) must(said.status == expected, "a pointer or a length astray");
    else refused(said.status, it->live, true);
    must((said.column != 0) == (said.status >= ZK_LINE_WORD), "a column");
    must(said.column <= bytes.length + 1, "a column after the line");
    if (said.status == ZK_WELL) it->piece += next;
    clear(&text, said.status == ZK_WELL && one_in(2) ? said.length : any_room());
    struct zk_line frame = zk_speaker_frame(&it->speaker, text.at, text.room);
    wrote(frame, "a frame's length");
    refused(frame.status, it->live, true);
    if (said.status != ZK_WELL || frame.status != ZK_WELL) return;
    must(frame.length == said.length && number_at(text.at) == (int32_t)said.length - 4, "a frame's length in it");
}

/* Says a payload of a recording: it is the frame that is then kept. */
static void say_payload(struct played *it) {
    const struct payload *chosen = &payloads[chance(payload_count)];
    uint32_t side = one_in(20) ? any_side() : chosen->kind <= ZK_REQUEST ? ZK_CLIENT : ZK_SERVER;
    put_bytes(chosen->bytes, chosen->length, 9);
    const uint8_t *at = bytes.at;
    size_t length = bytes.length;
    uint32_t expected = astray(&at, &length);
    struct zk_payload said = zk_speaker_say_payload(&it->speaker, side, at, length);
    answered(said.status);
    unchanged(&bytes);
    if (expected != ZK_WELL) must(said.status == expected, "a pointer or a length astray");
    else refused(said.status, it->live, side <= ZK_SERVER);
    must(said.place <= bytes.length && (said.status != ZK_WELL || said.place == 0), "a place outside of the payload");
    if (said.status == ZK_WELL) it->broken = true; /* the listing's next line is another conversation's */
    clear(&text, one_in(2) ? bytes.length + 4 : any_room());
    struct zk_line frame = zk_speaker_frame(&it->speaker, text.at, text.room);
    wrote(frame, "a frame's length");
    refused(frame.status, it->live, true);
    if (said.status != ZK_WELL || frame.status != ZK_WELL) return;
    must(frame.length == length + 4 && number_at(text.at) == (int32_t)length, "a frame's length in it");
    must(memcmp(text.at + 4, bytes.at, length) == 0, "another payload");
}

static void list(void) {
    const struct recording *it = &recordings[chance(recording_count)];
    size_t count = (size_t)chance(it->count + 1), length = 0;
    if (count > 40) count = 40;
    struct zk_piece *cut = (struct zk_piece *)(void *)cuts.copy;
    for (size_t i = 0; i < count; i++) {
        const struct piece *piece = &pieces[it->first + i];
        memset(&cut[i], 0, sizeof *cut);
        cut[i].side = one_in(500) ? 2 : piece->side;
        cut[i].length = one_in(500) ? (size_t)PICK(0, 1, -1) : piece->length;
        memcpy(bytes.copy + length, piece->bytes, piece->length);
        length += piece->length;
    }
    put(&cuts, count * sizeof *cut);
    put(&bytes, one_in(9) ? damaged(bytes.copy, length) : length);
    uint32_t client = any_limit(), server = any_limit(), waiting = any_waiting(), profile = any_profile();
    size_t room = any_room();
    for (int times = 0; times < 2; times++) {
        clear(&text, room);
        struct zk_line line = zk_listing((const struct zk_piece *)(const void *)cuts.at, count, bytes.at, bytes.length,
                                         client, server, waiting, profile, text.at, text.room);
        wrote(line, "a listing's length");
        if (line.status != ZK_ROOM || line.length > SIZE / 2) break;
        must(times == 0, "a listing with just its room");
        room = line.length;
    }
    unchanged(&cuts);
    unchanged(&bytes);
}

static void name(void) {
    int32_t number = one_in(2) ? any_operation() : (int32_t)chance(300) - 150;
    must(zk_operation_name(number) != NULL && zk_error_name(number) != NULL, "no name");
    must(zk_event_name(number) != NULL, "no name");
    must(zk_field_name((uint16_t)number) != NULL && zk_status_name((uint32_t)number) != NULL, "no name");
    counted += 5;
}

/* ---- The program */

static void call_talk(struct played *it) {
    uint32_t side = any_side();
    switch (chance(24)) {
    case 0: begin(it, TALK); break;
    case 1: if (one_in(it->broken ? 8 : 40)) end(it, TALK);
            else if (one_in(it->broken ? 4 : 40)) renew(it, TALK);
            break;
    case 2: finish(it, TALK); break;
    case 3: write_text(it, ending_line, ZK_CLIENT); break;
    case 4: case 5: write_text(it, line, side); break;
    case 6: case 7: write_text(it, payload, side); break;
    case 8: case 9: show_fields(it, TALK, side); break;
    case 10: count_all(it, TALK, side); break;
    case 11: case 12: take_block(it); break;
    case 13: case 14: offer(it); break;
    default: step(it);
    }
}

static void call_passage(struct played *it) {
    uint32_t side = any_side();
    switch (chance(18)) {
    case 0: begin(it, PASSAGE); break;
    case 1: if (one_in(it->broken ? 8 : 40)) end(it, PASSAGE);
            else if (one_in(it->broken ? 3 : 40)) renew(it, PASSAGE);
            break;
    case 2: write_text(it, left_out, side); break;
    case 3: show_fields(it, PASSAGE, side); break;
    case 4: finish(it, PASSAGE); break;
    case 5: write_text(it, passed_line, side); break;
    case 6: write_text(it, passed_ending_line, ZK_CLIENT); break;
    case 7: count_all(it, PASSAGE, side); break;
    case 8: resume(it); break;
    case 9: case 10: offer_passage(it); break;
    default: pass_through(it);
    }
}

static void call_speaker(struct played *it) {
    switch (chance(12)) {
    case 0: begin(it, SPEAKER); break;
    case 1: if (one_in(40)) end(it, SPEAKER);
            else if (one_in(it->broken ? 4 : 20)) renew(it, SPEAKER);
            break;
    case 2: say_payload(it); break;
    default: say(it);
    }
}

static void call(void) {
    switch (chance(20)) {
    case 0: case 1: case 2: case 3: read_payload(); break;
    case 4: write_payload(); break;
    case 5: case 6: case 7: call_speaker(&speakers[chance(SPEAKERS)]); break;
    case 8: if (one_in(40)) list(); else name(); break;
    case 9: case 10: case 11: case 12: call_passage(&passages[chance(PASSAGES)]); break;
    default: call_talk(&talks[chance(TALKS)]);
    }
}

int main(int given, char **words) {
    if (given < 4) return 2;
    state = seed = strtoul(words[1], NULL, 10);
    for (int i = 3; i < given; i++) add_file(words[i]);
    if (payload_count == 0 || line_count == 0) return 2;
    bytes.copy = malloc(SIZE);
    numbers.copy = malloc(PAGE);
    cuts.copy = malloc(PAGE);
    items.copy = malloc(FIELDS * sizeof(struct zk_field));
    if (bytes.copy == NULL || numbers.copy == NULL || cuts.copy == NULL || items.copy == NULL) return 2;
    while (counted < strtoul(words[2], NULL, 10)) call();
    for (size_t i = 0; i < TALKS; i++) zk_talk_free(&talks[i].talk);
    for (size_t i = 0; i < PASSAGES; i++) zk_through_free(&passages[i].through);
    for (size_t i = 0; i < SPEAKERS; i++) zk_speaker_free(&speakers[i].speaker);
    while (kept_count > 0) free(kept[--kept_count]);
    free(pieces), free(lines), free(payloads);
    free(bytes.copy), free(numbers.copy), free(cuts.copy), free(items.copy);
    printf("%lu calls from the seed %lu:", counted, seed);
    for (uint32_t i = 0; i < 128; i++)
        if (statuses[i] > 0) printf(" %s %lu", zk_status_name(i), statuses[i]);
    printf("; of passages, asked %lu, answered %lu, full %lu", wents[ZK_ASKED], wents[ZK_ANSWERED], wents[ZK_FULL]);
    printf(", unseen %lu\n", wents[ZK_UNSEEN]);
    return 0;
}
