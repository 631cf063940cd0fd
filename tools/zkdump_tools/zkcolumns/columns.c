/* The messages of a recording as columns, for the tools in Python beside it.
 *
 *     zkcolumns [--json HEAD] [--lines] [--times FILE] [--limit N] [--waiting N] [--profile RELEASE]
 *         [--operations NAMES] [--errors NAMES] [--path PATH ..] RECORDING
 *     zkcolumns [--limit N] [--waiting N] [--profile RELEASE] --follow
 *
 * Standard output gets blocks, each a `struct head`, then its records, patches, paths and text. The first block has
 * names of numbers as text, and the last one the requests that wait and the ending line. A message's text is its JSON
 * after HEAD (--json), or its time as it is spelled and its line (--lines), or where a double isn't exact its time and
 * that of its request. zkdump_tools/columns.py reads the blocks, and zkdump_tools/listing.py, over the lines of `zkdump show`, is the
 * plain form of all that is said here. The status is 4 if nothing was written since the recording's head or its times
 * are for the plain form to report.
 *
 * With --follow standard input has the recording, as it comes, and standard output gets the lines of `zkdump show`
 * (follow.c, and zkdump_tools/lister.py). */
#include "state.h"

_Noreturn void stop(int status, const char *what) {
    fprintf(stderr, "zkcolumns: %s\n", what);
    exit(status);
}

/* ---- Blocks */

void write_bytes(struct bytes *bytes) {
    if (bytes->end > 0 && fwrite(bytes->at, 1, bytes->end, stdout) != bytes->end) stop(STATUS_SYSTEM, "write failed");
    bytes->end = 0;
}

void write_block(struct state *state, uint32_t kind) {
    state->head.kind = kind;
    state->head.records = (uint32_t)(state->records.end / sizeof(struct record));
    state->head.patches = (uint32_t)(state->patches.end / sizeof(struct patch));
    state->head.paths = state->paths.end;
    state->head.text = state->text.end;
    if (fwrite(&state->head, sizeof state->head, 1, stdout) != 1) stop(STATUS_SYSTEM, "write failed");
    write_bytes(&state->records);
    write_bytes(&state->patches);
    write_bytes(&state->paths);
    write_bytes(&state->text);
}

static void put_name(struct bytes *out, const char *before, int32_t number, const char *name) {
    if (*name == 0) return;
    put_text(out, before);
    put_text(out, "\"");
    put_number(out, number);
    put_text(out, "\":\"");
    put_text(out, name);
    put_text(out, "\"");
}

static void write_names(struct state *state) {
    struct bytes *out = &state->text;
    put_text(out, "{\"operations\":{");
    put_name(out, "", OP_CONNECT, "connect");
    put_name(out, ",", OP_EVENT, "event");
    for (int32_t number = -200; number <= 200; number++) put_name(out, ",", number, line_operation_name(number));
    put_text(out, "},\"events\":{\"\":\"\"");
    for (int32_t number = -200; number <= 200; number++) put_name(out, ",", number, line_event_name(number));
    put_text(out, "}}");
    write_block(state, BLOCK_NAMES);
}

/* Takes what a side's step used of the bytes. A frame that isn't whole is kept. */
static void take_step(struct state *state, uint32_t side, const uint8_t *bytes, const struct zk_passed *passed) {
    struct bytes *frame = state->frames + side;
    state->taken[side] += passed->used;
    if (passed->went == ZK_WITHIN || frame->end > 0) put(frame, bytes, passed->used);
    if (passed->went == ZK_WITHIN) return;
    const uint8_t *payload = (frame->end > 0 ? frame->at : bytes) + 4;
    state->whole[side]++;
    if (passed->went == ZK_MESSAGE) take_message(state, side, payload);
    else take_left_out(state, side, passed, payload);
    frame->end = 0;
}

/* Takes bytes of a side; false at a fault, and where a request would be one more than may wait. */
static bool take_bytes(struct state *state, uint32_t side, const uint8_t *bytes, size_t length) {
    while (length > 0) {
        struct zk_passed passed = zk_through_step(&state->through, side, bytes, length);
        if (passed.status != ZK_WELL) return false;
        if (passed.went == ZK_FULL) {
            state->is_full = true;
            do state->taken[side]++;
            while (zk_through_step(&state->through, side, bytes++, 1).went == ZK_WITHIN);
            return false;
        }
        take_step(state, side, bytes, &passed);
        bytes += passed.used;
        length -= passed.used;
    }
    return true;
}

/* ---- The end */

static int by_number(const void *one, const void *other) {
    uint64_t a = ((const struct record *)one)->n, b = ((const struct record *)other)->n;
    return a < b ? -1 : a > b;
}

static void put_field(struct bytes *out, const char *before, int64_t number) {
    put_text(out, before);
    put_number(out, number);
}

/* The name of a reason, as lines have it: BadText for BAD_TEXT. */
static void put_reason(struct bytes *out, const char *name) {
    for (const char *at = name; *at != 0; at++) {
        bool first = at == name || at[-1] == '_';
        char letter = first || *at < 'A' || *at > 'Z' ? *at : (char)(*at - 'A' + 'a');
        if (*at != '_') put(out, &letter, 1);
    }
}

static void put_refusal(struct bytes *out, const struct zk_fault *fault) {
    put_text(out, ". refused side=");
    put_text(out, fault->side == ZK_CLIENT ? "C" : "S");
    put_field(out, " frame=", (int64_t)fault->frame);
    put_field(out, " offset=", (int64_t)fault->offset);
    put_field(out, " place=", fault->place);
    put_text(out, " reason=");
    put_reason(out, zk_status_name(fault->reason));
    if (fault->reason != ZK_XID_ORDER) return;
    put_field(out, " expected=", fault->expected);
    put_field(out, " got=", fault->got);
}

void put_ending(struct state *state, bool refused) {
    struct bytes *out = &state->text;
    struct zk_ending ending = zk_through_finish(&state->through);
    if (state->is_full) {
        put_refusal(out, &(struct zk_fault){.frame = state->whole[ZK_CLIENT], .offset = state->taken[ZK_CLIENT],
                                            .side = ZK_CLIENT, .reason = ZK_QUEUE_FULL});
    } else if (state->recording.damage != NULL && !refused) {
        put_field(out, ". recording offset=", (int64_t)state->recording.offset);
        put_text(out, " reason=");
        put_text(out, state->recording.damage);
    } else if (ending.kind == ZK_REFUSED) {
        put_refusal(out, &ending.fault);
    } else if (ending.kind == ZK_CUT) {
        put_text(out, ". cut side=");
        put_text(out, ending.side == ZK_CLIENT ? "C" : "S");
        put_field(out, " frame=", (int64_t)ending.frame);
        put_field(out, " got=", ending.got);
    } else {
        put_field(out, ". whole unanswered=", ending.unanswered);
    }
}

static void write_end(struct state *state, bool refused) {
    if (state->records.end > 0) write_block(state, BLOCK_MESSAGES);
    for (size_t i = 0; i < LANES; i++) {
        struct lane *lane = state->lanes + i;
        while (lane->asked.begin < lane->asked.end) {
            const uint8_t *paths;
            struct asked asked = answer(lane, &paths);
            struct record record = {.n = asked.n, .moment = asked.moment, .asked_moment = (double)NAN, .side = 'C',
                                    .microseconds = (double)NAN, .xid = asked.xid, .operation = asked.operation};
            record.flags = asked.operation == OP_CONNECT ? asked.flags & FLAG_MADE_UP
                                                         : FLAG_XID | (asked.flags & FLAG_BY_NUMBER);
            put_path(state, &record, &asked, paths);
            put(&state->records, &record, sizeof record);
        }
    }
    if (state->records.end > 0)
        qsort(state->records.at, state->records.end / sizeof(struct record), sizeof(struct record), by_number);
    put_ending(state, refused);
    write_block(state, BLOCK_END);
    if (fflush(stdout) != 0) stop(STATUS_SYSTEM, "write failed");
}

static void let_go(struct state *state) {
    struct bytes *all[] = {&state->records, &state->patches, &state->paths, &state->text, state->frames,
                           state->frames + 1, &state->line, &state->of_message};
    for (size_t i = 0; i < sizeof all / sizeof *all; i++) free(all[i]->at);
    for (size_t i = 0; i < LANES; i++) {
        free(state->lanes[i].asked.at);
        free(state->lanes[i].paths.at);
    }
    struct source *sources[] = {&state->recording.bytes, &state->recording.times};
    for (size_t i = 0; i < 2; i++) {
        free(sources[i]->block);
        if (sources[i]->file != NULL) fclose(sources[i]->file);
    }
    free(state->fields);
    free(state->chosen);
    zk_through_free(&state->through);
}

/* ---- The words */

#define USAGE "usage: zkcolumns [OPTION ..] RECORDING, or --follow in place of RECORDING"

/* The number of a profile: its release without the point. */
static uint32_t profile_of(const char *release) {
    return strlen(release) == 3 ? (uint32_t)(10 * (release[0] - '0') + release[2] - '0') : 0;
}

static const char *words_of(struct state *state, int count, char **words, const char **times) {
    int at = 1;
    for (; at < count - 1 && strncmp(words[at], "--", 2) == 0; at++) {
        const char *word = words[at];
        if (strcmp(word, "--lines") == 0) state->lines = true;
        else if (strcmp(word, "--json") == 0) state->json = words[++at];
        else if (strcmp(word, "--times") == 0) *times = words[++at];
        else if (strcmp(word, "--limit") == 0) state->limit = (uint32_t)strtoul(words[++at], NULL, 10);
        else if (strcmp(word, "--waiting") == 0) state->waiting = (uint32_t)strtoul(words[++at], NULL, 10);
        else if (strcmp(word, "--profile") == 0) state->profile = profile_of(words[++at]);
        else if (strcmp(word, "--operations") == 0) more_operations = words[++at];
        else if (strcmp(word, "--errors") == 0) more_errors = words[++at];
        else if (strcmp(word, "--path") == 0) state->chosen[state->chosen_count++] = words[++at];
        else stop(STATUS_WORDS, USAGE);
    }
    if (at != count - 1) stop(STATUS_WORDS, USAGE);
    return words[at];
}

/* Writes the blocks of the recording. */
static void list(struct state *state) {
    struct recording *recording = &state->recording;
    write_names(state);
    bool good = true;
    while (good && next_piece(recording)) {
        size_t length = LARGEST_PIECE;
        const uint8_t *bytes;
        while (good && (bytes = piece_bytes(recording, &length)) != NULL) {
            good = take_bytes(state, recording->side, bytes, length);
            length = LARGEST_PIECE;
        }
    }
    write_end(state, !good);
}

int main(int count, char **words) {
    struct state state = {.fields_room = 64, .limit = LARGEST_FRAME, .waiting = MOST_WAITING, .profile = ZK_PROFILE_34};
    struct recording *recording = &state.recording;
    state.head.begun = state.head.ended = (double)NAN;
    state.head.first = INT64_MAX;
    state.chosen = calloc((size_t)count + 1, sizeof *state.chosen);
    state.fields = malloc(state.fields_room * sizeof *state.fields);
    if (state.chosen == NULL || state.fields == NULL) stop(STATUS_SYSTEM, "out of memory");
    const char *times = NULL, *path = words_of(&state, count, words, &times);
    bool follows = strcmp(path, "--follow") == 0;
    if (!follows) open_recording(recording, path, times);
    uint32_t status = zk_through_new(&state.through, state.limit, state.limit, state.waiting, state.profile);
    if (status != ZK_WELL) stop(status == ZK_RANGE ? STATUS_WORDS : STATUS_SYSTEM, zk_status_name(status));
    if (follows) follow(&state);
    else list(&state);
    let_go(&state);
    return 0;
}
