/* Messages: their records, and their text. */
#include "state.h"

enum { MOST_RECORDS = 16384, MOST_TEXT = 1 << 20, PATH_FIELDS = 2 };

/* The fields of a side's message: all of them, or the first ones. */
static size_t read_fields(struct state *state, uint32_t side, bool all) {
    struct zk_read read = zk_through_fields(&state->through, side, state->fields, state->fields_room);
    if (read.status == ZK_ROOM && all) {
        struct zk_field *larger = realloc(state->fields, read.count * sizeof *larger);
        if (larger == NULL) stop(STATUS_SYSTEM, "out of memory");
        state->fields = larger;
        state->fields_room = read.count;
        read = zk_through_fields(&state->through, side, state->fields, state->fields_room);
    }
    if (read.status != ZK_WELL && read.status != ZK_ROOM) stop(STATUS_SYSTEM, "a message without its fields");
    return read.status == ZK_ROOM ? state->fields_room : read.count;
}

void put_line(struct state *state, uint32_t side, struct bytes *to) {
    struct zk_line line = zk_through_line(&state->through, side, room_for(to, 256), to->room - to->end);
    if (line.status == ZK_ROOM) line = zk_through_line(&state->through, side, room_for(to, line.length), line.length);
    if (line.status != ZK_WELL) stop(STATUS_SYSTEM, "out of memory");
    to->end += line.length;
}

/* Whether a text has more than BLOCK characters in a line, with its quotes. */
static bool is_long_text(const uint8_t *at, int32_t length) {
    int64_t spelled = 2;
    for (int32_t i = 0; i < length; i++)
        spelled += at[i] < 0x20 || at[i] > 0x7e || at[i] == '"' || at[i] == '\\' ? 3 : 1;
    return spelled > BLOCK;
}

/* Whether the line of a message is longer than BLOCK, or the path that it answers. A byte of a payload has 4 characters
 * in a line at most. */
static bool is_long(struct state *state, uint32_t side, uint32_t size, const struct asked *asked,
                    const uint8_t *paths) {
    if (asked != NULL && asked->count > 0 && asked->operation != MULTI) {
        int32_t length;
        const uint8_t *path = next_path(&paths, &length);
        if (is_long_text(path, length)) return true;
    }
    if (size < BLOCK / 4 - 64) return false;
    state->line.end = 0;
    put_line(state, side, &state->line);
    return state->line.end > BLOCK;
}

static bool takes_path(const struct state *state, const uint8_t *path, int32_t length) {
    for (size_t i = 0; i < state->chosen_count && length >= 0; i++) {
        size_t size = strlen(state->chosen[i]);
        if ((size_t)length >= size && memcmp(path, state->chosen[i], size) == 0 &&
            ((size_t)length == size || path[size] == '/'))
            return true;
    }
    return false;
}

/* Keeps the paths of a request, or of its parts; whether one of them is chosen. */
static bool keep_paths(struct state *state, const uint8_t *payload, size_t count, bool parts, struct asked *asked) {
    bool chosen = false;
    state->of_message.end = 0;
    for (size_t i = 0; i < count; i++) {
        const struct zk_field *field = state->fields + i;
        if (field->name != ZK_NAME_PATH || !(parts || i == 0)) continue;
        int32_t length = length_of(field);
        put(&state->of_message, &length, sizeof length);
        put(&state->of_message, payload + field->place, field->null ? 0 : field->length);
        chosen |= takes_path(state, payload + field->place, length);
        asked->count++;
    }
    return chosen;
}

/* The error of a multi: that of the part that failed itself, or else the last one. */
static void find_failed_part(struct state *state, size_t count, struct record *record) {
    bool found = false;
    for (size_t i = 0; i + 1 < count && !found; i++) {
        if (state->fields[i].kind != ZK_KIND_PART || state->fields[i].number != -1) continue;
        record->error = (int32_t)state->fields[i + 1].number;
        record->flags |= FLAG_ERROR;
        found = record->error != 0 && record->error != -2;
    }
}

void put_path(struct state *state, struct record *record, const struct asked *asked, const uint8_t *paths) {
    record->flags |= asked->flags & FLAG_CHOSEN;
    if (asked->count == 0 || asked->operation == MULTI) return;
    int32_t length;
    const uint8_t *path = next_path(&paths, &length);
    record->flags |= length < 0 ? FLAG_PATH | FLAG_NULL_PATH : FLAG_PATH;
    record->path = (uint32_t)state->paths.end;
    record->path_length = length < 0 ? 0 : (uint32_t)length;
    put(&state->paths, path, record->path_length);
}

/* Takes the session of a connect message, unless pcap2zkr made that up: all its numbers are -1. */
static void take_connect(struct state *state, const struct zk_message *view, struct asked *asked) {
    uint64_t session = 0;
    bool made_up = true;
    size_t count = read_fields(state, view->kind == ZK_CONNECT ? ZK_CLIENT : ZK_SERVER, true);
    for (size_t i = 0; i < count; i++) {
        const struct zk_field *field = state->fields + i;
        if (field->name == ZK_NAME_SESSION_ID) session = (uint64_t)field->number;
        made_up &= field->kind == ZK_KIND_BLOB ? field->null == 1 : field->kind != ZK_KIND_BOOL && field->number == -1;
    }
    state->head.known = view->kind == ZK_CONNECTED;
    if (made_up) asked->flags |= FLAG_MADE_UP;
    else if (session != 0) state->head.session = session;
}

static void take_time(struct state *state, struct record *record) {
    record->moment = state->recording.moment;
    record->asked_moment = record->microseconds = (double)NAN;
    if (isnan(record->moment)) return;
    state->head.begun = fmin(state->head.begun, record->moment);
    state->head.ended = fmax(state->head.ended, record->moment);
    int64_t time = state->recording.time;
    if (time < state->head.first) state->head.first = time;
    if (time > state->head.last) state->head.last = time;
}

/* Takes the request of a reply, and how long that took. */
static struct asked take_reply(struct state *state, const struct zk_message *view, size_t count, struct record *record,
                               const uint8_t **paths) {
    struct asked asked = answer(lane_of(state->lanes, view->kind, view->xid), paths);
    record->of = asked.n;
    record->asked_moment = asked.moment;
    double took = record->moment - asked.moment;
    if (record->moment >= TOO_COARSE && !isnan(asked.moment)) took = (double)(state->recording.time - asked.time);
    double microseconds = nearbyint(took * 1000);
    if (microseconds < 0) state->head.backwards++;
    else record->microseconds = microseconds;
    put_path(state, record, &asked, *paths);
    record->error = view->err;
    if (view->err != 0) record->flags |= FLAG_ERROR;
    else if (view->kind == ZK_REPLY && view->operation == MULTI) find_failed_part(state, count, record);
    return asked;
}

static void take_event(struct state *state, const uint8_t *payload, size_t count, struct record *record) {
    const struct zk_field *path = state->fields + count - 1;
    record->error = (int32_t)state->fields[0].number;
    record->flags |= FLAG_ERROR;
    if (takes_path(state, payload + path->place, length_of(path))) record->flags |= FLAG_CHOSEN;
}

static void take_request(struct state *state, const struct zk_message *view, const uint8_t *payload, size_t count,
                         struct record *record, struct asked asked) {
    bool ordinary = view->kind == ZK_REQUEST;
    asked.moment = record->moment;
    asked.time = state->recording.time;
    if (ordinary && keep_paths(state, payload, count, view->operation == MULTI, &asked)) asked.flags |= FLAG_CHOSEN;
    put_path(state, record, &asked, state->of_message.at);
    if (ordinary && count == PATH_FIELDS && state->fields[1].name == ZK_NAME_WATCH && state->fields[1].number)
        record->flags |= FLAG_WATCH;
    ask(lane_of(state->lanes, view->kind, view->xid), asked, ordinary ? &state->of_message : &(struct bytes){0});
}

/* The line of a message that is shown by number, as zkdump_tools/passages.py has it. */
static void put_line_by_number(struct bytes *out, const struct message *message) {
    put_text(out, message->side == ZK_CLIENT ? "C " : "S ");
    put_number(out, message->view.xid);
    put_text(out, " ?");
    put_operation(out, message->view.operation);
    if (message->side == ZK_CLIENT) return;
    put_text(out, " zxid=");
    put_number(out, message->view.zxid);
    if (message->view.err == 0) return;
    put_text(out, " err=");
    put_number(out, message->view.err);
    put_error(out, "/", message->view.err);
}

/* Appends a message: its text, and its record. Of a reply there is what it answers, with its paths. */
static void put_message(struct state *state, const struct message *message, struct record *record) {
    record->text = state->text.end;
    if (state->json != NULL) {
        put_json(&state->text, &state->patches, state->json, message);
    } else if (state->lines || record->moment >= TOO_COARSE) {
        put_text(&state->text, message->at);
        record->at_length = (uint32_t)strlen(message->at);
        if (state->lines && message->by_number) put_line_by_number(&state->text, message);
        else if (state->lines) put_line(state, message->side, &state->text);
        else if (message->asked != NULL) put_number(&state->text, message->asked->time);
    }
    record->text_length = (uint32_t)(state->text.end - record->text);
    put(&state->records, record, sizeof *record);
    if (state->records.end >= MOST_RECORDS * sizeof *record || state->text.end >= MOST_TEXT ||
        state->paths.end >= MOST_TEXT)
        write_block(state, BLOCK_MESSAGES);
}

void take_message(struct state *state, uint32_t side, const uint8_t *payload) {
    struct zk_message view = zk_through_view(&state->through, side);
    struct record record = {.n = ++state->n, .zxid = view.zxid, .side = side == ZK_CLIENT ? 'C' : 'S'};
    bool ordinary = view.kind == ZK_REQUEST || view.kind == ZK_REPLY, parts = ordinary && view.operation == MULTI;
    bool is_event = view.kind == ZK_EVENT, is_asked = view.kind == ZK_REPLY || view.kind == ZK_CONNECTED;
    struct asked asked = {.n = state->n, .xid = view.xid};
    const uint8_t *paths = NULL;
    record.operation = asked.operation = ordinary ? view.operation : is_event ? OP_EVENT : OP_CONNECT;
    record.xid = ordinary ? view.xid : 0;
    take_time(state, &record);
    if (!ordinary && !is_event) take_connect(state, &view, &asked);
    record.flags = (uint16_t)(asked.flags | (ordinary ? FLAG_XID : 0));
    size_t count = 0;
    if (state->json != NULL || view.kind != ZK_REPLY || parts)
        count = read_fields(state, side, state->json != NULL || parts);
    if (is_event) take_event(state, payload, count, &record);
    else if (is_asked) asked = take_reply(state, &view, count, &record, &paths);
    else take_request(state, &view, payload, count, &record, asked);
    struct message message = {.view = view, .n = state->n, .side = side, .payload = payload, .fields = state->fields,
                              .count = count, .at = isnan(record.moment) ? "" : state->recording.spelled,
                              .microseconds = record.microseconds,
                              .took = is_asked && !state->recording.has_times ? state->recording.time - asked.time : 0,
                              .asked = is_asked ? &asked : NULL, .paths = paths};
    message.is_long = state->json != NULL && is_long(state, side, view.size, message.asked, paths);
    put_message(state, &message, &record);
}

static int64_t number_at(const uint8_t *at, size_t size) {
    uint64_t number = 0;
    for (size_t i = 0; i < size; i++) number = number << 8 | at[i];
    return (int64_t)number;
}

void take_left_out(struct state *state, uint32_t side, const struct zk_passed *passed, const uint8_t *payload) {
    bool is_reply = passed->went == ZK_ANSWERED;
    struct zk_message view = {.kind = is_reply ? ZK_REPLY : ZK_REQUEST, .xid = passed->xid,
                              .operation = passed->operation};
    if (is_reply) {
        view.zxid = number_at(payload + 4, 8);
        view.err = (int32_t)number_at(payload + 12, 4);
    }
    struct record record = {.n = ++state->n, .zxid = view.zxid, .side = side == ZK_CLIENT ? 'C' : 'S', .xid = view.xid,
                            .operation = view.operation, .flags = FLAG_XID | FLAG_BY_NUMBER};
    struct asked asked = {.n = state->n, .xid = view.xid, .operation = view.operation, .flags = FLAG_BY_NUMBER};
    const uint8_t *paths = NULL;
    take_time(state, &record);
    if (is_reply) {
        asked = take_reply(state, &view, 0, &record, &paths);
    } else {
        asked.moment = record.moment;
        asked.time = state->recording.time;
        ask(lane_of(state->lanes, view.kind, view.xid), asked, &(struct bytes){0});
    }
    struct message message = {.view = view, .n = state->n, .side = side, .by_number = true,
                              .at = isnan(record.moment) ? "" : state->recording.spelled,
                              .microseconds = record.microseconds,
                              .took = is_reply && !state->recording.has_times ? state->recording.time - asked.time : 0,
                              .asked = is_reply ? &asked : NULL, .paths = paths};
    put_message(state, &message, &record);
}
