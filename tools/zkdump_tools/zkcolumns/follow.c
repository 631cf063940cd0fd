/* A connection that is read while it lasts: the lines of the pieces on standard input. */
#include "state.h"

#include <unistd.h>

enum { MARK = 4, PIECE_HEAD = 5 };

/* What was read of standard input, and is left to take. */
struct input {
    uint8_t block[BLOCK];
    size_t at, end;
};

static void write_lines(struct state *state) {
    write_bytes(&state->text);
    if (fflush(stdout) != 0) stop(STATUS_SYSTEM, "write failed");
}

/* Has at least a byte; false at the end. No line waits while this waits. */
static bool has_more(struct state *state, struct input *input) {
    if (input->at < input->end) return true;
    write_lines(state);
    ssize_t got = read(STDIN_FILENO, input->block, sizeof input->block);
    if (got < 0) stop(STATUS_SYSTEM, "read failed");
    input->at = 0;
    input->end = (size_t)got;
    return got > 0;
}

/* Takes as many bytes; false if the input ends before the first. */
static bool take_head(struct state *state, struct input *input, uint8_t *head, size_t size) {
    for (size_t i = 0; i < size; i++) {
        if (has_more(state, input)) head[i] = input->block[input->at++];
        else if (i == 0) return false;
        else stop(STATUS_NOT_READ, "the head of a piece is cut");
    }
    return true;
}

/* Reads bytes of a side, and puts the line of each message; false at a refusal. */
static bool read_bytes(struct state *state, uint32_t side, const uint8_t *bytes, size_t length) {
    while (length > 0) {
        struct zk_passed passed = zk_through_step(&state->through, side, bytes, length);
        state->is_full = passed.went == ZK_FULL;
        if (passed.status != ZK_WELL || state->is_full) return false;
        bytes += passed.used;
        length -= passed.used;
        if (passed.went == ZK_WITHIN) continue;
        if (passed.went != ZK_MESSAGE) stop(STATUS_NOT_READ, "a frame is left out, which has no line");
        put_line(state, side, &state->text);
        put_text(&state->text, "\n");
        if (state->text.end > BLOCK) write_lines(state);
    }
    return true;
}

/* Goes on after the refused frame, as of a connection that is seen late; false if that frame has no end. */
static bool goes_on(struct state *state) {
    if (!state->is_full) return zk_through_resume(&state->through).status == ZK_WELL;
    state->is_full = false; /* of which the passage refuses nothing */
    zk_through_free(&state->through);
    if (zk_through_join(&state->through, state->limit, state->limit, state->waiting, state->profile) != ZK_WELL)
        stop(STATUS_SYSTEM, "out of memory");
    return true;
}

static void put_ending_line(struct state *state) {
    put_ending(state, false);
    put_text(&state->text, "\n");
    write_lines(state);
}

void follow(struct state *state) {
    struct input input = {.at = 0};
    uint8_t head[PIECE_HEAD];
    bool is_dropped = false;
    if (!take_head(state, &input, head, MARK) || memcmp(head, "ZKR1", MARK) != 0)
        stop(STATUS_NOT_READ, "the head is damaged");
    while (take_head(state, &input, head, PIECE_HEAD)) {
        size_t left = 0;
        for (size_t i = 1; i < PIECE_HEAD; i++) left = left << 8 | head[i];
        if (head[0] == 'R') is_dropped = false;
        while (left > 0 && has_more(state, &input)) {
            const uint8_t *bytes = input.block + input.at;
            size_t length = input.end - input.at < left ? input.end - input.at : left;
            input.at += length;
            left -= length;
            if (is_dropped || read_bytes(state, head[0] == 'C' ? ZK_CLIENT : ZK_SERVER, bytes, length)) continue;
            put_ending_line(state);
            if (!goes_on(state)) return;
            is_dropped = true;
        }
    }
    if (!is_dropped) put_ending_line(state);
}
