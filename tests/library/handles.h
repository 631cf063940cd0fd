/* The handles of tests/library/calls.c: they are made, begun anew and freed in any order. */
#include "payloads.h"

enum { TALKS = 6, PASSAGES = 4, SPEAKERS = 3 };
enum kind { TALK, PASSAGE, SPEAKER };

/* A handle, and how far it has come in a recording or a listing. */
struct played {
    struct zk_talk talk;
    struct zk_through through;
    struct zk_speaker speaker;
    bool live, broken, late;
    const struct recording *recording;
    size_t piece, used;
};

static struct played talks[TALKS], passages[PASSAGES], speakers[SPEAKERS];

/* What a call on a handle may answer: an empty one is refused, and a side or a profile that is none. */
static void refused(uint32_t status, bool live, bool side) {
    if (!side) must(status == ZK_RANGE, "a side that is none");
    else if (!live) must(status == ZK_EMPTY, "an empty handle");
    else must(status != ZK_EMPTY && status != ZK_NULL && status != ZK_IN_USE, "a status that this call has not");
}

/* A handle that has taken or said nothing begins with a recording or a listing. */
static void choose(struct played *it, enum kind kind) {
    it->broken = it->late = false;
    it->recording = kind == SPEAKER ? &listings[chance(listing_count)] : &recordings[chance(recording_count)];
    it->piece = it->used = 0;
}

static void begin(struct played *it, enum kind kind) {
    uint32_t client = any_limit(), server = any_limit(), waiting = any_waiting(), profile = any_profile();
    bool good = client >= 64 && client <= 1 << 24 && server >= 64 && server <= 1 << 24 && waiting >= 1
                && waiting <= 1 << 20 && is_profile(profile);
    bool late = kind == PASSAGE && one_in(3);
    uint32_t status = answered(kind == TALK      ? zk_talk_new(&it->talk, client, server, waiting, profile)
                               : late            ? zk_through_join(&it->through, client, server, waiting, profile)
                               : kind == PASSAGE ? zk_through_new(&it->through, client, server, waiting, profile)
                                                 : zk_speaker_new(&it->speaker, client, server, waiting, profile));
    must(status == (it->live ? ZK_IN_USE : good ? ZK_WELL : ZK_RANGE), "a handle that is made");
    if (status != ZK_WELL) return;
    it->live = true;
    choose(it, kind);
    it->late = late;
    if (late) it->piece = (size_t)chance(it->recording->count + 1);
}

/* A handle that is begun anew has the answers of a new one. */
static void is_new_speaker(struct played *it) {
    clear(&text, any_room());
    struct zk_line frame = zk_speaker_frame(&it->speaker, text.at, text.room);
    answered(frame.status);
    within(&text, 0);
    must(frame.status == ZK_WELL && frame.length == 0, "a frame of a speaker that has said nothing");
}

static void is_new_ending(struct zk_ending ending) {
    answered(ending.status);
    must(ending.kind == ZK_WHOLE && ending.unanswered == 0, "an ending of before the handle was begun anew");
}

static void is_new_passage(struct played *it) {
    for (uint32_t side = ZK_CLIENT; side <= ZK_SERVER; side++) {
        must(answered(zk_through_view(&it->through, side).status) == ZK_NO_MESSAGE, "a message of before");
        must(answered(zk_through_payload(&it->through, side, NULL, 0).status) == ZK_NO_MESSAGE, "a payload of before");
        struct zk_passed step = zk_through_step(&it->through, side, NULL, 0);
        must(answered(step.status) == ZK_WELL && step.went == ZK_WITHIN, "a fault of before");
    }
    is_new_ending(zk_through_finish(&it->through));
    must(zk_through_waiting(&it->through).weight == 0, "a request that waits since before");
}

static void is_new_talk(struct played *it) {
    struct zk_waiting waiting = zk_talk_waiting(&it->talk);
    answered(waiting.status);
    must(waiting.requests == 0 && waiting.weight == 0, "a request that waits since before the talk was begun anew");
    for (uint32_t side = ZK_CLIENT; side <= ZK_SERVER; side++) {
        struct zk_held held = zk_talk_held(&it->talk, side);
        answered(held.status);
        must(held.bytes == 0, "bytes of before the talk was begun anew");
        must(answered(zk_talk_view(&it->talk, side).status) == ZK_NO_MESSAGE, "a frame of before");
    }
    is_new_ending(zk_talk_finish(&it->talk));
}

/* The handle is begun anew, whatever came before. */
static void renew(struct played *it, enum kind kind) {
    bool none = one_in(50);
    uint32_t status = answered(kind == TALK      ? zk_talk_renew(none ? NULL : &it->talk)
                               : kind == PASSAGE ? zk_through_renew(none ? NULL : &it->through)
                                                 : zk_speaker_renew(none ? NULL : &it->speaker));
    must(status == (none ? ZK_NULL : it->live ? ZK_WELL : ZK_EMPTY), "a handle that is begun anew");
    if (status != ZK_WELL) return;
    choose(it, kind);
    if (kind == TALK) is_new_talk(it);
    else if (kind == PASSAGE) is_new_passage(it);
    else is_new_speaker(it);
}

/* A passage that is refused goes on after the frame as one that is seen late; where no frame ends it stays refused. */
static void resume(struct played *it) {
    bool none = one_in(50);
    struct zk_ending ending = zk_through_finish(&it->through);
    uint32_t reason = ending.kind == ZK_REFUSED ? ending.fault.reason : ZK_WELL;
    bool ends = reason != ZK_WELL && reason != ZK_LENGTH_RANGE && reason != ZK_STREAM_END;
    struct zk_step step = zk_through_resume(none ? NULL : &it->through);
    answered(step.status);
    must(step.status == (none ? ZK_NULL : !it->live ? ZK_EMPTY : ends ? ZK_WELL : reason), "a passage that goes on");
    must(!step.whole && (step.used > 0) == (ends && !none), "the bytes of a refused frame");
    must((step.fault.reason != 0) == (step.status != ZK_WELL && step.status <= ZK_STREAM_END), "a fault that stays");
    if (step.used == 0) return;
    it->late = true;
    is_new_passage(it);
}

static void end(struct played *it, enum kind kind) {
    bool none = one_in(50);
    counted++;
    if (kind == TALK) zk_talk_free(none ? NULL : &it->talk);
    else if (kind == PASSAGE) zk_through_free(none ? NULL : &it->through);
    else zk_speaker_free(none ? NULL : &it->speaker);
    it->live = kind == TALK ? it->talk.live : kind == PASSAGE ? it->through.live : it->speaker.live;
}
