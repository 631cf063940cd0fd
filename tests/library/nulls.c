/* Null pointers, lengths above PTRDIFF_MAX and empty handles are refused by a status and change nothing; a null pointer
 * with the length 0 is no bytes. It prints each call that returns something else. */
#include "zk.h"

#include <stdio.h>

static const uint8_t byte = 0;
static const int32_t part = 1;
static const struct zk_piece piece = {ZK_CLIENT, 1};
static const uint8_t ping[] = {0xff, 0xff, 0xff, 0xfe, 0, 0, 0, 11};
static const uint8_t exists[] = {0, 0, 0, 1, 0, 0, 0, 3, 0, 0, 0, 2, '/', 'a', 0};
static const size_t room = 1, most = (size_t)PTRDIFF_MAX, more = (size_t)PTRDIFF_MAX + 1;
static uint8_t out[1] = {7};
static struct zk_field field = {7, 7, 7, 7, 7, 7};
static struct zk_talk talk = ZK_ZEROS;
static struct zk_through through = ZK_ZEROS;
static struct zk_speaker speaker = ZK_ZEROS;
static int failures;

static void expect(const char *call, uint32_t status, uint32_t expected) {
    if (status != expected) {
        printf("%s: %u, not %u\n", call, (unsigned)status, (unsigned)expected);
        failures++;
    }
}

static void handles_that_are_null(void) {
    expect("zk_talk_new", zk_talk_new(NULL, 64, 64, 1, 34), ZK_NULL);
    expect("zk_talk_renew", zk_talk_renew(NULL), ZK_NULL);
    expect("zk_talk_step", zk_talk_step(NULL, ZK_CLIENT, &byte, 1).status, ZK_NULL);
    expect("zk_talk_pass", zk_talk_pass(NULL, ZK_CLIENT, &byte, 1).status, ZK_NULL);
    expect("zk_talk_offer", zk_talk_offer(NULL, ZK_CLIENT, &byte, 1).status, ZK_NULL);
    expect("zk_talk_waiting", zk_talk_waiting(NULL).status, ZK_NULL);
    expect("zk_talk_held", zk_talk_held(NULL, ZK_CLIENT).status, ZK_NULL);
    expect("zk_talk_view", zk_talk_view(NULL, ZK_CLIENT).status, ZK_NULL);
    expect("zk_talk_line", zk_talk_line(NULL, ZK_CLIENT, out, room).status, ZK_NULL);
    expect("zk_talk_payload", zk_talk_payload(NULL, ZK_CLIENT, out, room).status, ZK_NULL);
    expect("zk_talk_fields", zk_talk_fields(NULL, ZK_CLIENT, &field, 1).status, ZK_NULL);
    expect("zk_talk_finish", zk_talk_finish(NULL).status, ZK_NULL);
    expect("zk_talk_ending_line", zk_talk_ending_line(NULL, out, room).status, ZK_NULL);
    zk_talk_free(NULL);
    expect("zk_through_new", zk_through_new(NULL, 64, 64, 1, 34), ZK_NULL);
    expect("zk_through_join", zk_through_join(NULL, 64, 64, 1, 34), ZK_NULL);
    expect("zk_through_renew", zk_through_renew(NULL), ZK_NULL);
    expect("zk_through_step", zk_through_step(NULL, ZK_CLIENT, &byte, 1).status, ZK_NULL);
    expect("zk_through_pass", zk_through_pass(NULL, ZK_CLIENT, &byte, 1).status, ZK_NULL);
    expect("zk_through_offer", zk_through_offer(NULL, ZK_CLIENT, &byte, 1).status, ZK_NULL);
    expect("zk_through_resume", zk_through_resume(NULL).status, ZK_NULL);
    expect("zk_through_waiting", zk_through_waiting(NULL).status, ZK_NULL);
    expect("zk_through_held", zk_through_held(NULL, ZK_CLIENT).status, ZK_NULL);
    expect("zk_through_ending_line", zk_through_ending_line(NULL, out, room).status, ZK_NULL);
    expect("zk_through_view", zk_through_view(NULL, ZK_CLIENT).status, ZK_NULL);
    expect("zk_through_line", zk_through_line(NULL, ZK_CLIENT, out, room).status, ZK_NULL);
    expect("zk_through_fields", zk_through_fields(NULL, ZK_CLIENT, &field, 1).status, ZK_NULL);
    expect("zk_through_payload", zk_through_payload(NULL, ZK_CLIENT, out, room).status, ZK_NULL);
    expect("zk_through_finish", zk_through_finish(NULL).status, ZK_NULL);
    zk_through_free(NULL);
    expect("zk_speaker_new", zk_speaker_new(NULL, 64, 64, 1, 34), ZK_NULL);
    expect("zk_speaker_renew", zk_speaker_renew(NULL), ZK_NULL);
    expect("zk_speaker_say", zk_speaker_say(NULL, &byte, 1).status, ZK_NULL);
    expect("zk_speaker_say_payload", zk_speaker_say_payload(NULL, ZK_CLIENT, &byte, 1).status, ZK_NULL);
    expect("zk_speaker_frame", zk_speaker_frame(NULL, out, room).status, ZK_NULL);
    zk_speaker_free(NULL);
}

static void pieces(void) {
    struct zk_step step;

    expect("zk_talk_new, well", zk_talk_new(&talk, 64, 64, 1, 34), ZK_WELL);
    expect("zk_talk_step, null", zk_talk_step(&talk, ZK_CLIENT, NULL, 1).status, ZK_NULL);
    step = zk_talk_step(&talk, ZK_CLIENT, NULL, 0);
    expect("zk_talk_step, no bytes", step.status, ZK_WELL);
    expect("zk_talk_step, no bytes, used", (uint32_t)step.used, 0);
    expect("zk_talk_step, no bytes, whole", step.whole, false);
    expect("zk_talk_step, no bytes, no side", zk_talk_step(&talk, 2, NULL, 0).status, ZK_RANGE);
    expect("zk_talk_step, too long", zk_talk_step(&talk, ZK_CLIENT, &byte, more).status, ZK_RANGE);
    expect("zk_talk_pass, null", zk_talk_pass(&talk, ZK_CLIENT, NULL, 1).status, ZK_NULL);
    expect("zk_talk_pass, no bytes", zk_talk_pass(&talk, ZK_CLIENT, NULL, 0).status, ZK_WELL);
    expect("zk_talk_pass, no bytes, no side", zk_talk_pass(&talk, 2, NULL, 0).status, ZK_RANGE);
    expect("zk_talk_pass, too long", zk_talk_pass(&talk, ZK_CLIENT, &byte, more).status, ZK_RANGE);
    expect("zk_talk_offer, null", zk_talk_offer(&talk, ZK_CLIENT, NULL, 1).status, ZK_NULL);
    expect("zk_talk_offer, no bytes", zk_talk_offer(&talk, ZK_CLIENT, NULL, 0).status, ZK_RANGE);
    expect("zk_talk_offer, no side", zk_talk_offer(&talk, 2, &byte, 1).status, ZK_RANGE);
    expect("zk_talk_offer, too long", zk_talk_offer(&talk, ZK_CLIENT, &byte, more).status, ZK_RANGE);
    expect("zk_talk_held, no side", zk_talk_held(&talk, 2).status, ZK_RANGE);
}

static void messages(void) {
    expect("zk_talk_line, null", zk_talk_line(&talk, ZK_CLIENT, NULL, 1).status, ZK_NULL);
    expect("zk_talk_line, no room", zk_talk_line(&talk, ZK_CLIENT, NULL, 0).status, ZK_NO_MESSAGE);
    expect("zk_talk_line, too long", zk_talk_line(&talk, ZK_CLIENT, out, more).status, ZK_RANGE);
    expect("zk_talk_payload, null", zk_talk_payload(&talk, ZK_CLIENT, NULL, 1).status, ZK_NULL);
    expect("zk_talk_payload, no room", zk_talk_payload(&talk, ZK_CLIENT, NULL, 0).status, ZK_NO_MESSAGE);
    expect("zk_talk_payload, too long", zk_talk_payload(&talk, ZK_CLIENT, out, more).status, ZK_RANGE);
    expect("zk_talk_fields, null", zk_talk_fields(&talk, ZK_CLIENT, NULL, 1).status, ZK_NULL);
    expect("zk_talk_fields, no room", zk_talk_fields(&talk, ZK_CLIENT, NULL, 0).status, ZK_NO_MESSAGE);
    expect("zk_talk_fields, too much room", zk_talk_fields(&talk, ZK_CLIENT, &field, most / sizeof field + 1).status, ZK_RANGE);
    expect("zk_talk_ending_line, null", zk_talk_ending_line(&talk, NULL, 1).status, ZK_NULL);
    expect("zk_talk_ending_line, no room", zk_talk_ending_line(&talk, NULL, 0).status, ZK_ROOM);
    expect("zk_talk_ending_line, no room, length", (uint32_t)zk_talk_ending_line(&talk, NULL, 0).length, sizeof ". whole unanswered=0" - 1);
    expect("zk_talk_ending_line, too long", zk_talk_ending_line(&talk, out, more).status, ZK_RANGE);
    expect("zk_talk_finish, nothing came", zk_talk_finish(&talk).kind, ZK_WHOLE);
    expect("zk_talk_step, well", zk_talk_step(&talk, ZK_CLIENT, &byte, 1).status, ZK_WELL);
    expect("zk_talk_finish, a byte came", zk_talk_finish(&talk).kind, ZK_CUT);
    expect("zk_talk_held, a byte came", zk_talk_held(&talk, ZK_CLIENT).bytes, 1);
    expect("zk_talk_held, of the other side", zk_talk_held(&talk, ZK_SERVER).bytes, 0);
    expect("zk_talk_waiting, nothing waits", zk_talk_waiting(&talk).requests, 0);
    expect("zk_talk_renew", zk_talk_renew(&talk), ZK_WELL);
    expect("zk_talk_held, begun anew", zk_talk_held(&talk, ZK_CLIENT).bytes, 0);
    zk_talk_free(&talk);
    expect("zk_talk_renew, no talk", zk_talk_renew(&talk), ZK_EMPTY);
    expect("zk_talk_pass, no talk", zk_talk_pass(&talk, ZK_CLIENT, &byte, 1).status, ZK_EMPTY);
    expect("zk_talk_offer, no talk", zk_talk_offer(&talk, ZK_CLIENT, &byte, 1).status, ZK_EMPTY);
    expect("zk_talk_waiting, no talk", zk_talk_waiting(&talk).status, ZK_EMPTY);
    expect("zk_talk_held, no talk", zk_talk_held(&talk, ZK_CLIENT).status, ZK_EMPTY);
}

static void empty_passages(void) {
    expect("zk_through_renew, no passage", zk_through_renew(&through), ZK_EMPTY);
    expect("zk_through_step, no passage", zk_through_step(&through, ZK_CLIENT, &byte, 1).status, ZK_EMPTY);
    expect("zk_through_step, no passage, used", (uint32_t)zk_through_step(&through, ZK_CLIENT, &byte, 1).used, 0);
    expect("zk_through_step, no passage, no side", zk_through_step(&through, 2, &byte, 1).status, ZK_RANGE);
    expect("zk_through_pass, no passage", zk_through_pass(&through, ZK_CLIENT, &byte, 1).status, ZK_EMPTY);
    expect("zk_through_pass, no passage, no side", zk_through_pass(&through, 2, &byte, 1).status, ZK_RANGE);
    expect("zk_through_offer, no passage", zk_through_offer(&through, ZK_CLIENT, &byte, 1).status, ZK_EMPTY);
    expect("zk_through_offer, no passage, no side", zk_through_offer(&through, 2, &byte, 1).status, ZK_RANGE);
    expect("zk_through_resume, no passage", zk_through_resume(&through).status, ZK_EMPTY);
    expect("zk_through_resume, no passage, used", (uint32_t)zk_through_resume(&through).used, 0);
    expect("zk_through_waiting, no passage", zk_through_waiting(&through).status, ZK_EMPTY);
    expect("zk_through_held, no passage", zk_through_held(&through, ZK_CLIENT).status, ZK_EMPTY);
    expect("zk_through_held, no passage, no side", zk_through_held(&through, 2).status, ZK_RANGE);
    expect("zk_through_ending_line, no passage", zk_through_ending_line(&through, out, room).status, ZK_EMPTY);
    expect("zk_through_view, no passage", zk_through_view(&through, ZK_CLIENT).status, ZK_EMPTY);
    expect("zk_through_line, no passage", zk_through_line(&through, ZK_CLIENT, out, room).status, ZK_EMPTY);
    expect("zk_through_fields, no passage", zk_through_fields(&through, ZK_CLIENT, &field, 1).status, ZK_EMPTY);
    expect("zk_through_payload, no passage", zk_through_payload(&through, ZK_CLIENT, out, room).status, ZK_EMPTY);
    expect("zk_through_finish, no passage", zk_through_finish(&through).status, ZK_EMPTY);
    expect("zk_through_finish, no passage, kind", zk_through_finish(&through).kind, 0);
    zk_through_free(&through);
}

static void passages(void) {
    struct zk_passed step;

    empty_passages();
    expect("zk_through_new, a limit out of range", zk_through_new(&through, 63, 64, 1, 34), ZK_RANGE);
    expect("zk_through_new, no profile", zk_through_new(&through, 64, 64, 1, 36), ZK_RANGE);
    expect("zk_through_new, well", zk_through_new(&through, 64, 64, 1, 34), ZK_WELL);
    expect("zk_through_new, in use", zk_through_new(&through, 64, 64, 1, 34), ZK_IN_USE);
    expect("zk_through_step, null", zk_through_step(&through, ZK_CLIENT, NULL, 1).status, ZK_NULL);
    step = zk_through_step(&through, ZK_CLIENT, NULL, 0);
    expect("zk_through_step, no bytes", step.status, ZK_WELL);
    expect("zk_through_step, no bytes, used", (uint32_t)step.used, 0);
    expect("zk_through_step, no bytes, went", step.went, ZK_WITHIN);
    expect("zk_through_step, no bytes, no side", zk_through_step(&through, 2, NULL, 0).status, ZK_RANGE);
    expect("zk_through_step, too long", zk_through_step(&through, ZK_CLIENT, &byte, more).status, ZK_RANGE);
    expect("zk_through_view, no message", zk_through_view(&through, ZK_CLIENT).status, ZK_NO_MESSAGE);
    expect("zk_through_view, no side", zk_through_view(&through, 2).status, ZK_RANGE);
    expect("zk_through_line, null", zk_through_line(&through, ZK_CLIENT, NULL, 1).status, ZK_NULL);
    expect("zk_through_line, no room", zk_through_line(&through, ZK_CLIENT, NULL, 0).status, ZK_NO_MESSAGE);
    expect("zk_through_line, no side", zk_through_line(&through, 2, out, room).status, ZK_RANGE);
    expect("zk_through_line, too long", zk_through_line(&through, ZK_CLIENT, out, more).status, ZK_RANGE);
    expect("zk_through_fields, null", zk_through_fields(&through, ZK_CLIENT, NULL, 1).status, ZK_NULL);
    expect("zk_through_fields, no room", zk_through_fields(&through, ZK_CLIENT, NULL, 0).status, ZK_NO_MESSAGE);
    expect("zk_through_fields, no side", zk_through_fields(&through, 2, &field, 1).status, ZK_RANGE);
    expect("zk_through_fields, too much room", zk_through_fields(&through, ZK_CLIENT, &field, most / sizeof field + 1).status, ZK_RANGE);
    expect("zk_through_payload, null", zk_through_payload(&through, ZK_CLIENT, NULL, 1).status, ZK_NULL);
    expect("zk_through_payload, no room", zk_through_payload(&through, ZK_CLIENT, NULL, 0).status, ZK_NO_MESSAGE);
    expect("zk_through_payload, no side", zk_through_payload(&through, 2, out, room).status, ZK_RANGE);
    expect("zk_through_payload, too long", zk_through_payload(&through, ZK_CLIENT, out, more).status, ZK_RANGE);
    expect("zk_through_finish, nothing came", zk_through_finish(&through).kind, ZK_WHOLE);
    expect("zk_through_step, well", zk_through_step(&through, ZK_CLIENT, &byte, 1).status, ZK_WELL);
    expect("zk_through_finish, a byte came", zk_through_finish(&through).kind, ZK_CUT);
    expect("zk_through_held, a byte came", zk_through_held(&through, ZK_CLIENT).bytes, 1);
    expect("zk_through_held, of the other side", zk_through_held(&through, ZK_SERVER).bytes, 0);
    expect("zk_through_held, no side", zk_through_held(&through, 2).status, ZK_RANGE);
    expect("zk_through_waiting, nothing waits", zk_through_waiting(&through).weight, 0);
    expect("zk_through_resume, nothing is refused", zk_through_resume(&through).status, ZK_WELL);
    expect("zk_through_resume, the byte stays", zk_through_held(&through, ZK_CLIENT).bytes, 1);
    expect("zk_through_ending_line, null", zk_through_ending_line(&through, NULL, 1).status, ZK_NULL);
    expect("zk_through_ending_line, no room", (uint32_t)zk_through_ending_line(&through, NULL, 0).length, sizeof ". cut side=C frame=0 got=1" - 1);
    expect("zk_through_ending_line, too long", zk_through_ending_line(&through, out, more).status, ZK_RANGE);
    expect("zk_through_pass, null", zk_through_pass(&through, ZK_CLIENT, NULL, 1).status, ZK_NULL);
    expect("zk_through_pass, too long", zk_through_pass(&through, ZK_CLIENT, &byte, more).status, ZK_RANGE);
    expect("zk_through_pass, well", (uint32_t)zk_through_pass(&through, ZK_CLIENT, &byte, 1).used, 1);
    expect("zk_through_offer, null", zk_through_offer(&through, ZK_CLIENT, NULL, 1).status, ZK_NULL);
    expect("zk_through_offer, no bytes", zk_through_offer(&through, ZK_CLIENT, NULL, 0).status, ZK_RANGE);
    expect("zk_through_offer, no side", zk_through_offer(&through, 2, &byte, 1).status, ZK_RANGE);
    expect("zk_through_offer, too long", zk_through_offer(&through, ZK_CLIENT, &byte, more).status, ZK_RANGE);
    expect("zk_through_renew", zk_through_renew(&through), ZK_WELL);
    expect("zk_through_finish, begun anew", zk_through_finish(&through).kind, ZK_WHOLE);
    zk_through_free(&through);
    empty_passages();
}

static void passages_that_join(void) {
    /* An exists request, the reply to another before it, and the reply to it. */
    static const uint8_t asks[] = {0, 0, 0, 15, 0, 0, 0, 2, 0, 0, 0, 3, 0, 0, 0, 2, '/', 'a', 0};
    static const uint8_t earlier[20] = {0, 0, 0, 16, 0, 0, 0, 1, 0, 0, 0, 0, 0, 0, 0, 9, 0xff, 0xff, 0xff, 0x9b};
    static const uint8_t reply[20] = {0, 0, 0, 16, 0, 0, 0, 2, 0, 0, 0, 0, 0, 0, 0, 10, 0xff, 0xff, 0xff, 0x9b};
    struct zk_passed step;

    expect("zk_through_join, a limit out of range", zk_through_join(&through, 63, 64, 1, 34), ZK_RANGE);
    expect("zk_through_join, no profile", zk_through_join(&through, 64, 64, 1, 36), ZK_RANGE);
    expect("zk_through_join, well", zk_through_join(&through, 64, 64, 1, 34), ZK_WELL);
    expect("zk_through_join, in use", zk_through_join(&through, 64, 64, 1, 34), ZK_IN_USE);
    expect("zk_through_join, no message", zk_through_view(&through, ZK_CLIENT).status, ZK_NO_MESSAGE);
    expect("zk_through_join, nothing is unanswered", zk_through_finish(&through).unanswered, 0);
    step = zk_through_step(&through, ZK_CLIENT, asks, sizeof asks);
    expect("zk_through_join, a request", step.went, ZK_MESSAGE);
    expect("zk_through_join, its frame", (uint32_t)zk_through_view(&through, ZK_CLIENT).frame, 1);
    step = zk_through_step(&through, ZK_SERVER, earlier, sizeof earlier);
    expect("zk_through_join, an earlier request's reply", step.went, ZK_UNSEEN);
    expect("zk_through_join, its xid", (uint32_t)step.xid, 1);
    expect("zk_through_join, its zxid", (uint32_t)step.zxid, 9);
    expect("zk_through_join, its err", (uint32_t)-step.err, 101);
    expect("zk_through_join, no message of it", zk_through_view(&through, ZK_SERVER).status, ZK_NO_MESSAGE);
    expect("zk_through_join, its payload", (uint32_t)zk_through_payload(&through, ZK_SERVER, NULL, 0).length, 16);
    step = zk_through_step(&through, ZK_SERVER, reply, sizeof reply);
    expect("zk_through_join, the request's reply", step.went, ZK_MESSAGE);
    expect("zk_through_join, its frame", (uint32_t)zk_through_view(&through, ZK_SERVER).frame, 2);
    step = zk_through_step(&through, ZK_SERVER, earlier, sizeof earlier);
    expect("zk_through_join, an earlier one's again", step.status, ZK_UNASKED);
    expect("zk_through_join, its place", (uint32_t)step.fault.offset, 84);
    expect("zk_through_join, begun anew", zk_through_renew(&through), ZK_WELL);
    step = zk_through_step(&through, ZK_SERVER, earlier, sizeof earlier);
    expect("zk_through_join, begun anew, no request", step.status, ZK_UNASKED);
    zk_through_free(&through);
    empty_passages();
}

static void speakers(void) {
    expect("zk_speaker_new, well", zk_speaker_new(&speaker, 64, 64, 1, 34), ZK_WELL);
    expect("zk_speaker_say, null", zk_speaker_say(&speaker, NULL, 1).status, ZK_NULL);
    expect("zk_speaker_say, no line", zk_speaker_say(&speaker, NULL, 0).status, ZK_LINE_WORD);
    expect("zk_speaker_say, no line, column", zk_speaker_say(&speaker, NULL, 0).column, 1);
    expect("zk_speaker_say, too long", zk_speaker_say(&speaker, &byte, more).status, ZK_RANGE);
    expect("zk_speaker_say_payload, null", zk_speaker_say_payload(&speaker, ZK_CLIENT, NULL, 1).status, ZK_NULL);
    expect("zk_speaker_say_payload, no bytes", zk_speaker_say_payload(&speaker, ZK_CLIENT, NULL, 0).status, ZK_SHORT);
    expect("zk_speaker_say_payload, no side", zk_speaker_say_payload(&speaker, 2, &byte, 1).status, ZK_RANGE);
    expect("zk_speaker_say_payload, too long", zk_speaker_say_payload(&speaker, ZK_CLIENT, &byte, more).status, ZK_RANGE);
    expect("zk_speaker_frame, null", zk_speaker_frame(&speaker, NULL, 1).status, ZK_NULL);
    expect("zk_speaker_frame, no room for no frame", zk_speaker_frame(&speaker, NULL, 0).status, ZK_WELL);
    expect("zk_speaker_frame, no frame", (uint32_t)zk_speaker_frame(&speaker, out, room).length, 0);
    expect("zk_speaker_frame, too long", zk_speaker_frame(&speaker, out, more).status, ZK_RANGE);
    expect("zk_speaker_renew", zk_speaker_renew(&speaker), ZK_WELL);
    zk_speaker_free(&speaker);
    expect("zk_speaker_renew, no speaker", zk_speaker_renew(&speaker), ZK_EMPTY);
    expect("zk_speaker_say_payload, no speaker", zk_speaker_say_payload(&speaker, ZK_CLIENT, &byte, 1).status, ZK_EMPTY);
    expect("zk_speaker_say_payload, no speaker, no side", zk_speaker_say_payload(&speaker, 2, &byte, 1).status, ZK_RANGE);
}

static void judged_payloads(void) {
    expect("zk_judge_first, null", zk_judge_first(NULL, 1).status, ZK_NULL);
    expect("zk_judge_first, no bytes", zk_judge_first(NULL, 0).status, ZK_SHORT);
    expect("zk_judge_request, null", zk_judge_request(34, NULL, 1).status, ZK_NULL);
    expect("zk_judge_request, no bytes", zk_judge_request(34, NULL, 0).status, ZK_SHORT);
    expect("zk_judge_connected, null", zk_judge_connected(NULL, 1).status, ZK_NULL);
    expect("zk_judge_connected, no bytes", zk_judge_connected(NULL, 0).status, ZK_SHORT);
    expect("zk_judge_event, null", zk_judge_event(NULL, 1).status, ZK_NULL);
    expect("zk_judge_event, no bytes", zk_judge_event(NULL, 0).status, ZK_SHORT);
    expect("zk_judge_event", zk_judge_event(&byte, more).status, ZK_RANGE);
    expect("zk_judge_event, no byte", zk_judge_event(&byte, 0).status, ZK_SHORT);
    expect("zk_judge_reply, null parts", zk_judge_reply(14, NULL, 1, &byte, 1).status, ZK_NULL);
    expect("zk_judge_reply, null", zk_judge_reply(14, &part, 1, NULL, 1).status, ZK_NULL);
    expect("zk_judge_reply, no parts", zk_judge_reply(14, NULL, 0, &byte, 1).status, ZK_SHORT);
    expect("zk_judge_reply, no bytes", zk_judge_reply(14, &part, 1, NULL, 0).status, ZK_SHORT);
    expect("zk_judge_reply, nothing", zk_judge_reply(14, NULL, 0, NULL, 0).status, ZK_SHORT);
    expect("zk_judge_reply, too many parts", zk_judge_reply(14, &part, most / 4 + 1, &byte, 1).status, ZK_RANGE);
    expect("zk_judge_reply, no byte", zk_judge_reply(14, &part, 1, &byte, 0).status, ZK_SHORT);
}

static void read_payloads(void) {
    expect("zk_read_first, null", zk_read_first(NULL, 1, &field, 1).status, ZK_NULL);
    expect("zk_read_first, null room", zk_read_first(&byte, 1, NULL, 1).status, ZK_NULL);
    expect("zk_read_first, no bytes", zk_read_first(NULL, 0, &field, 1).status, ZK_SHORT);
    expect("zk_read_first, nothing", zk_read_first(NULL, 0, NULL, 0).status, ZK_SHORT);
    expect("zk_read_request, too long", zk_read_request(34, &byte, more, &field, 1).status, ZK_RANGE);
    expect("zk_read_request, no room", zk_read_request(34, ping, sizeof ping, NULL, 0).status, ZK_WELL);
    expect("zk_read_request, no room for one", zk_read_request(34, exists, sizeof exists, NULL, 0).status, ZK_ROOM);
    expect("zk_read_request, count", zk_read_request(34, exists, sizeof exists, NULL, 0).count, 2);
    expect("zk_read_connected, too much room", zk_read_connected(&byte, 1, &field, most / sizeof field + 1).status, ZK_RANGE);
    expect("zk_read_reply, null parts", zk_read_reply(14, NULL, 1, &byte, 1, &field, 1).status, ZK_NULL);
    expect("zk_read_reply, no parts", zk_read_reply(14, NULL, 0, &byte, 1, &field, 1).status, ZK_SHORT);
    expect("zk_read_reply, null", zk_read_reply(14, &part, 1, NULL, 1, &field, 1).status, ZK_NULL);
    expect("zk_read_event, no byte", zk_read_event(&byte, 0, &field, 1).status, ZK_SHORT);
    expect("the field", field.place, 7);
}

static void written_frames(void) {
    expect("zk_write_first, null fields", zk_write_first(NULL, 1, &byte, 1, out, room).status, ZK_NULL);
    expect("zk_write_first, null", zk_write_first(&field, 1, NULL, 1, out, room).status, ZK_NULL);
    expect("zk_write_first, null room", zk_write_first(&field, 1, &byte, 1, NULL, 1).status, ZK_NULL);
    expect("zk_write_first, too long", zk_write_first(&field, 1, &byte, more, out, room).status, ZK_RANGE);
    expect("zk_write_request, nothing", zk_write_request(1, 11, NULL, 0, NULL, 0, NULL, 0).status, ZK_ROOM);
    expect("zk_write_request, nothing, length", (uint32_t)zk_write_request(1, 11, NULL, 0, NULL, 0, NULL, 0).length, 12);
    expect("zk_write_request, too many fields", zk_write_request(1, 3, &field, most / sizeof field + 1, &byte, 1, out, room).status, ZK_RANGE);
    expect("zk_write_reply, null fields", zk_write_reply(1, 5, 0, 1, NULL, 1, &byte, 1, out, room).status, ZK_NULL);
    expect("zk_write_reply, null", zk_write_reply(1, 5, 0, 1, &field, 1, NULL, 1, out, room).status, ZK_NULL);
    expect("zk_write_reply, nothing", zk_write_reply(1, 5, -101, 3, NULL, 0, NULL, 0, NULL, 0).status, ZK_ROOM);
    expect("zk_write_reply, nothing, length", (uint32_t)zk_write_reply(1, 5, -101, 3, NULL, 0, NULL, 0, NULL, 0).length, 20);
    expect("zk_write_event, null room", zk_write_event(-1, &field, 1, &byte, 1, NULL, 1).status, ZK_NULL);
    expect("zk_write_event, too long", zk_write_event(-1, &field, 1, &byte, more, out, room).status, ZK_RANGE);
    expect("zk_write_connected, null fields", zk_write_connected(NULL, 1, &byte, 1, out, room).status, ZK_NULL);
    expect("zk_write_connected, too much room", zk_write_connected(&field, 1, &byte, 1, out, more).status, ZK_RANGE);
}

static void listings(void) {
    expect("zk_listing, null pieces", zk_listing(NULL, 1, &byte, 1, 64, 64, 1, 34, out, room).status, ZK_NULL);
    expect("zk_listing, null", zk_listing(&piece, 1, NULL, 1, 64, 64, 1, 34, out, room).status, ZK_NULL);
    expect("zk_listing, null room", zk_listing(&piece, 1, &byte, 1, 64, 64, 1, 34, NULL, 1).status, ZK_NULL);
    expect("zk_listing, no pieces", zk_listing(NULL, 0, &byte, 1, 64, 64, 1, 34, out, room).status, ZK_RANGE);
    expect("zk_listing, no bytes", zk_listing(&piece, 1, NULL, 0, 64, 64, 1, 34, out, room).status, ZK_RANGE);
    expect("zk_listing, no room", zk_listing(&piece, 1, &byte, 1, 64, 64, 1, 34, NULL, 0).status, ZK_ROOM);
    expect("zk_listing, nothing", zk_listing(NULL, 0, NULL, 0, 64, 64, 1, 34, NULL, 0).status, ZK_ROOM);
    expect("zk_listing, too many pieces", zk_listing(&piece, most / 16 + 1, &byte, 1, 64, 64, 1, 34, out, room).status, ZK_RANGE);
    expect("zk_listing, too small", zk_listing(&piece, 1, &byte, 1, 64, 64, 1, 34, out, room).status, ZK_ROOM);
}

int main(void) {
    handles_that_are_null();
    pieces();
    messages();
    passages();
    passages_that_join();
    speakers();
    judged_payloads();
    read_payloads();
    written_frames();
    listings();
    expect("the room", out[0], 7);
    return failures != 0;
}
