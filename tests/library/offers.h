/* What the steps of tests/library/calls.c are given, and offers of it. */
#include "handles.h"

/* Whether the handle's recording goes on, and its next bytes. */
static bool goes_on(const struct played *it, uint32_t *side, const uint8_t **from, size_t *length) {
    if (!it->live || it->broken || it->piece >= it->recording->count) return false;
    const struct piece *piece = &pieces[it->recording->first + it->piece];
    *side = piece->side;
    *from = piece->bytes + it->used;
    *length = piece->length - it->used;
    return true;
}

/* What a step or an offer is given. */
struct given {
    uint32_t side, expected;
    const uint8_t *at;
    size_t length;
    bool next; /* the bytes are the recording's next ones */
};

/* The recording's next bytes or any payload, as they are or damaged. Once in `foreign` times, if that isn't 0, the
 * client asks what no profile has. */
static struct given give(struct played *it, uint64_t foreign) {
    struct given given = {any_side(), 0, NULL, 0, false};
    const struct payload *any = &payloads[chance(payload_count)];
    const uint8_t *from = any->bytes;
    size_t length = any->length;
    given.next = !one_in(60) && goes_on(it, &given.side, &from, &length);
    if (length > 0 && one_in(3)) length = 1 + (size_t)chance(length);
    memcpy(bytes.copy, from, length);
    bool asks = given.next && given.side == ZK_CLIENT && it->used == 0 && it->piece > 0 && length >= 12;
    if (foreign > 0 && asks && one_in(foreign)) memcpy(bytes.copy + 10, "\x27\x0f", 2); /* 9999, if a frame begins */
    put(&bytes, one_in(given.next ? 400 : 2) ? damaged(bytes.copy, length) : length);
    given.at = bytes.at;
    given.length = bytes.length;
    given.expected = astray(&given.at, &given.length);
    return given;
}

/* What a talk or a passage says of itself and of a side. */
struct told {
    uint32_t kind, unanswered, requests, weight, held, shown;
    uint64_t frame, got;
};

static struct told told(struct played *it, uint32_t side) {
    struct zk_ending ending = zk_talk_finish(&it->talk);
    struct zk_waiting waiting = zk_talk_waiting(&it->talk);
    struct zk_message message = zk_talk_view(&it->talk, side);
    struct told told = {ending.kind, ending.unanswered, waiting.requests, waiting.weight, zk_talk_held(&it->talk, side).bytes,
                        message.status, message.frame, ending.got};
    return told;
}

static bool same_told(struct told one, struct told other) {
    return one.kind == other.kind && one.unanswered == other.unanswered && one.requests == other.requests
           && one.weight == other.weight && one.held == other.held && one.shown == other.shown && one.frame == other.frame
           && one.got == other.got;
}

static bool same_fault(struct zk_fault one, struct zk_fault other) {
    return one.frame == other.frame && one.offset == other.offset && one.side == other.side && one.place == other.place
           && one.reason == other.reason && one.expected == other.expected && one.got == other.got;
}

static struct told passage_told(struct played *it, uint32_t side) {
    struct zk_ending ending = zk_through_finish(&it->through);
    struct zk_waiting waiting = zk_through_waiting(&it->through);
    struct zk_message message = zk_through_view(&it->through, side);
    struct told told = {ending.kind, ending.unanswered, waiting.requests, waiting.weight, zk_through_held(&it->through, side).bytes,
                        message.status, message.frame, ending.got};
    return told;
}

/* A frame that was offered has been taken. */
static void comes_on(struct played *it, struct given given, size_t used) {
    if (!given.next) it->broken = true;
    else if ((it->used += used) >= pieces[it->recording->first + it->piece].length) {
        it->used = 0;
        it->piece++;
    }
}

/* An offer takes all of a frame, or leaves the talk as it was; a step then refuses what an offer refused. */
static void offer(struct played *it) {
    struct given given = give(it, 0);
    struct told before = told(it, given.side);
    struct zk_step step = zk_talk_offer(&it->talk, given.side, given.at, given.length);
    bool taken = answered(step.status) == ZK_WELL;
    unchanged(&bytes);
    must(step.whole == taken && step.used == (taken ? given.length : 0), "an offer that is taken in part");
    must(taken || same_told(before, told(it, given.side)), "an offer that isn't taken and changes something");
    if (given.expected != ZK_WELL) {
        must(step.status == given.expected, "a pointer or a length astray");
        return;
    }
    refused(step.status, it->live, given.side <= ZK_SERVER);
    bool faulty = step.status != ZK_WELL && step.status <= ZK_STREAM_END;
    must(step.fault.reason == (faulty ? step.status : 0), "the fault of an offer");
    if (taken) {
        must(zk_talk_view(&it->talk, given.side).status == ZK_WELL, "the frame kept");
        comes_on(it, given, step.used);
    } else if (faulty && one_in(4)) {
        struct zk_step again = zk_talk_step(&it->talk, given.side, given.at, given.length);
        must(answered(again.status) == step.status && same_fault(again.fault, step.fault), "a step refuses otherwise");
        it->broken = true;
    }
}

/* The same of a passage, which doesn't take a frame either for which there is no room. */
static void offer_passage(struct played *it) {
    struct given given = give(it, 6);
    struct told before = passage_told(it, given.side);
    struct zk_passed step = zk_through_offer(&it->through, given.side, given.at, given.length);
    bool well = answered(step.status) == ZK_WELL, full = well && step.went == ZK_FULL, taken = well && !full;
    unchanged(&bytes);
    must(step.used == (taken ? given.length : 0), "an offer to a passage that is taken in part");
    must((step.went == ZK_WITHIN) == !well, "what became of an offer to a passage");
    must(taken || same_told(before, passage_told(it, given.side)), "an offer to a passage that isn't taken and changes something");
    if (given.expected != ZK_WELL) {
        must(step.status == given.expected, "a pointer or a length astray");
        return;
    }
    refused(step.status, it->live, given.side <= ZK_SERVER);
    bool faulty = !well && step.status <= ZK_STREAM_END;
    must(step.fault.reason == (faulty ? step.status : 0) && step.status != ZK_QUEUE_FULL, "the fault of an offer to a passage");
    if (taken) {
        bool shown = zk_through_view(&it->through, given.side).status == ZK_WELL;
        must(shown == (step.went == ZK_MESSAGE), "the message of an offer");
        comes_on(it, given, step.used);
    } else if ((faulty || full) && one_in(4)) {
        struct zk_passed again = zk_through_step(&it->through, given.side, given.at, given.length);
        must(answered(again.status) == step.status && same_fault(again.fault, step.fault), "a step of a passage refuses otherwise");
        must(again.went == step.went && again.used == 0, "a step of a passage for which there is room");
        it->broken = true;
    }
}
