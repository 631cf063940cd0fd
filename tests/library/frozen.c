/* What programs rely on that were compiled with zk.h of 0.10.0, and need libzk.so.2. Written by packaging/freeze.py. */
#include <stddef.h>
#include <zk.h>

#define SAME(has, type) __builtin_types_compatible_p(__typeof__(has), type)
#define STRUCT(name, size) _Static_assert(sizeof(struct name) == (size), #name)
#define GROWN(name, size) _Static_assert(sizeof(struct name) >= (size), #name)
#define FIELD(name, field, place, type) \
    _Static_assert(offsetof(struct name, field) == (place) && SAME(((struct name *)0)->field, type), #name "." #field)
#define CONSTANT(name, number) _Static_assert((name) == (number), #name)
#define CALL(name, type) _Static_assert(SAME(name, type), #name)

STRUCT(zk_talk, 16);
FIELD(zk_talk, held, 0, void *); FIELD(zk_talk, live, 8, bool);
STRUCT(zk_speaker, 16);
FIELD(zk_speaker, held, 0, void *); FIELD(zk_speaker, live, 8, bool);
STRUCT(zk_through, 16);
FIELD(zk_through, held, 0, void *); FIELD(zk_through, live, 8, bool);
STRUCT(zk_fault, 40);
FIELD(zk_fault, frame, 0, uint64_t); FIELD(zk_fault, offset, 8, uint64_t); FIELD(zk_fault, side, 16, uint32_t);
FIELD(zk_fault, place, 20, uint32_t); FIELD(zk_fault, reason, 24, uint32_t); FIELD(zk_fault, expected, 28, int32_t);
FIELD(zk_fault, got, 32, int32_t);
STRUCT(zk_step, 56);
FIELD(zk_step, used, 0, size_t); FIELD(zk_step, status, 8, uint32_t); FIELD(zk_step, whole, 12, bool);
FIELD(zk_step, fault, 16, struct zk_fault);
GROWN(zk_passed, 88);
FIELD(zk_passed, used, 0, size_t); FIELD(zk_passed, status, 8, uint32_t); FIELD(zk_passed, went, 12, uint32_t);
FIELD(zk_passed, xid, 16, int32_t); FIELD(zk_passed, operation, 20, int32_t);
FIELD(zk_passed, fault, 24, struct zk_fault); FIELD(zk_passed, frame, 64, uint64_t);
FIELD(zk_passed, zxid, 72, int64_t); FIELD(zk_passed, err, 80, int32_t);
GROWN(zk_ending, 72);
FIELD(zk_ending, status, 0, uint32_t); FIELD(zk_ending, kind, 4, uint32_t); FIELD(zk_ending, unanswered, 8, uint32_t);
FIELD(zk_ending, side, 12, uint32_t); FIELD(zk_ending, got, 16, uint32_t); FIELD(zk_ending, frame, 24, uint64_t);
FIELD(zk_ending, fault, 32, struct zk_fault);
GROWN(zk_message, 48);
FIELD(zk_message, status, 0, uint32_t); FIELD(zk_message, kind, 4, uint32_t); FIELD(zk_message, xid, 8, int32_t);
FIELD(zk_message, operation, 12, int32_t); FIELD(zk_message, size, 16, uint32_t); FIELD(zk_message, err, 20, int32_t);
FIELD(zk_message, zxid, 24, int64_t); FIELD(zk_message, frame, 32, uint64_t); FIELD(zk_message, answers, 40, uint64_t);
STRUCT(zk_waiting, 12);
FIELD(zk_waiting, status, 0, uint32_t); FIELD(zk_waiting, requests, 4, uint32_t);
FIELD(zk_waiting, weight, 8, uint32_t);
STRUCT(zk_held, 8);
FIELD(zk_held, status, 0, uint32_t); FIELD(zk_held, bytes, 4, uint32_t);
STRUCT(zk_line, 16);
FIELD(zk_line, status, 0, uint32_t); FIELD(zk_line, length, 8, size_t);
STRUCT(zk_say, 24);
FIELD(zk_say, status, 0, uint32_t); FIELD(zk_say, length, 8, size_t); FIELD(zk_say, column, 16, uint32_t);
STRUCT(zk_payload, 8);
FIELD(zk_payload, status, 0, uint32_t); FIELD(zk_payload, place, 4, uint32_t);
STRUCT(zk_field, 24);
FIELD(zk_field, place, 0, uint32_t); FIELD(zk_field, length, 4, uint32_t); FIELD(zk_field, number, 8, int64_t);
FIELD(zk_field, name, 16, uint16_t); FIELD(zk_field, kind, 18, uint8_t); FIELD(zk_field, null, 19, uint8_t);
STRUCT(zk_read, 40);
FIELD(zk_read, status, 0, uint32_t); FIELD(zk_read, place, 4, uint32_t); FIELD(zk_read, count, 8, uint32_t);
FIELD(zk_read, kind, 12, uint32_t); FIELD(zk_read, xid, 16, int32_t); FIELD(zk_read, operation, 20, int32_t);
FIELD(zk_read, err, 24, int32_t); FIELD(zk_read, zxid, 32, int64_t);
STRUCT(zk_written, 24);
FIELD(zk_written, status, 0, uint32_t); FIELD(zk_written, length, 8, size_t); FIELD(zk_written, index, 16, size_t);
STRUCT(zk_piece, 16);
FIELD(zk_piece, side, 0, uint32_t); FIELD(zk_piece, length, 8, size_t);
STRUCT(zk_builder, 56);
FIELD(zk_builder, fields, 0, struct zk_field *); FIELD(zk_builder, room, 8, size_t);
FIELD(zk_builder, count, 16, size_t); FIELD(zk_builder, content, 24, uint8_t *); FIELD(zk_builder, size, 32, size_t);
FIELD(zk_builder, length, 40, size_t); FIELD(zk_builder, status, 48, uint32_t);
STRUCT(zk_entry, 56);
FIELD(zk_entry, kind, 0, uint32_t); FIELD(zk_entry, xid, 4, int32_t); FIELD(zk_entry, operation, 8, int32_t);
FIELD(zk_entry, err, 12, int32_t); FIELD(zk_entry, zxid, 16, int64_t); FIELD(zk_entry, frame, 24, uint64_t);
FIELD(zk_entry, answers, 32, uint64_t); FIELD(zk_entry, place, 40, uint32_t); FIELD(zk_entry, length, 44, uint32_t);
FIELD(zk_entry, first, 48, uint32_t); FIELD(zk_entry, count, 52, uint32_t);
STRUCT(zk_block, 64);
FIELD(zk_block, used, 0, size_t); FIELD(zk_block, entries, 8, size_t); FIELD(zk_block, status, 16, uint32_t);
FIELD(zk_block, more, 20, bool); FIELD(zk_block, fault, 24, struct zk_fault);

CONSTANT(ZK_CLIENT, 0); CONSTANT(ZK_SERVER, 1); CONSTANT(ZK_PROFILE_34, 34); CONSTANT(ZK_PROFILE_35, 35);
CONSTANT(ZK_WELL, 0); CONSTANT(ZK_SHORT, 1); CONSTANT(ZK_BAD_BOOL, 2); CONSTANT(ZK_BAD_LENGTH, 3);
CONSTANT(ZK_BAD_TEXT, 4); CONSTANT(ZK_NO_MEMORY, 5); CONSTANT(ZK_TRAILING, 6); CONSTANT(ZK_UNKNOWN_OP, 7);
CONSTANT(ZK_XID_OP, 8); CONSTANT(ZK_BAD_PART, 9); CONSTANT(ZK_EVENT_ERR, 10); CONSTANT(ZK_LENGTH_RANGE, 11);
CONSTANT(ZK_QUEUE_FULL, 12); CONSTANT(ZK_UNASKED, 13); CONSTANT(ZK_XID_ORDER, 14); CONSTANT(ZK_STREAM_END, 15);
CONSTANT(ZK_EMPTY, 65); CONSTANT(ZK_IN_USE, 66); CONSTANT(ZK_RANGE, 67); CONSTANT(ZK_ROOM, 68);
CONSTANT(ZK_NO_MESSAGE, 69); CONSTANT(ZK_NULL, 70); CONSTANT(ZK_NOT_FIRST, 81); CONSTANT(ZK_MISFIT, 82);
CONSTANT(ZK_TOO_LONG, 83); CONSTANT(ZK_LINE_WORD, 91); CONSTANT(ZK_LINE_NUMBER, 92); CONSTANT(ZK_LINE_TEXT, 93);
CONSTANT(ZK_LINE_BLOB, 94); CONSTANT(ZK_LINE_NAME, 95); CONSTANT(ZK_LINE_REST, 96); CONSTANT(ZK_LINE_ENDING, 97);
CONSTANT(ZK_WITHIN, 0); CONSTANT(ZK_MESSAGE, 1); CONSTANT(ZK_ASKED, 2); CONSTANT(ZK_ANSWERED, 3); CONSTANT(ZK_FULL, 4);
CONSTANT(ZK_UNSEEN, 5); CONSTANT(ZK_WHOLE, 1); CONSTANT(ZK_CUT, 2); CONSTANT(ZK_REFUSED, 3); CONSTANT(ZK_CONNECT, 1);
CONSTANT(ZK_REQUEST, 2); CONSTANT(ZK_CONNECTED, 3); CONSTANT(ZK_REPLY, 4); CONSTANT(ZK_EVENT, 5);
CONSTANT(ZK_KIND_INT, 1); CONSTANT(ZK_KIND_LONG, 2); CONSTANT(ZK_KIND_BOOL, 3); CONSTANT(ZK_KIND_TEXT, 4);
CONSTANT(ZK_KIND_BLOB, 5); CONSTANT(ZK_KIND_LIST, 6); CONSTANT(ZK_KIND_PART, 7); CONSTANT(ZK_NAME_NONE, 0);
CONSTANT(ZK_NAME_PATH, 1); CONSTANT(ZK_NAME_DATA, 2); CONSTANT(ZK_NAME_ACL, 3); CONSTANT(ZK_NAME_FLAGS, 4);
CONSTANT(ZK_NAME_VERSION, 5); CONSTANT(ZK_NAME_WATCH, 6); CONSTANT(ZK_NAME_PERMS, 7); CONSTANT(ZK_NAME_SCHEME, 8);
CONSTANT(ZK_NAME_ID, 9); CONSTANT(ZK_NAME_TYPE, 10); CONSTANT(ZK_NAME_STATE, 11); CONSTANT(ZK_NAME_AUTH, 12);
CONSTANT(ZK_NAME_CZXID, 13); CONSTANT(ZK_NAME_MZXID, 14); CONSTANT(ZK_NAME_CTIME, 15); CONSTANT(ZK_NAME_MTIME, 16);
CONSTANT(ZK_NAME_CVERSION, 17); CONSTANT(ZK_NAME_AVERSION, 18); CONSTANT(ZK_NAME_EPHEMERAL_OWNER, 19);
CONSTANT(ZK_NAME_DATA_LENGTH, 20); CONSTANT(ZK_NAME_NUM_CHILDREN, 21); CONSTANT(ZK_NAME_PZXID, 22);
CONSTANT(ZK_NAME_CHILDREN, 23); CONSTANT(ZK_NAME_ZXID, 24); CONSTANT(ZK_NAME_DATA_WATCHES, 25);
CONSTANT(ZK_NAME_EXIST_WATCHES, 26); CONSTANT(ZK_NAME_CHILD_WATCHES, 27); CONSTANT(ZK_NAME_PROTOCOL_VERSION, 28);
CONSTANT(ZK_NAME_LAST_ZXID_SEEN, 29); CONSTANT(ZK_NAME_TIME_OUT, 30); CONSTANT(ZK_NAME_SESSION_ID, 31);
CONSTANT(ZK_NAME_PASSWD, 32); CONSTANT(ZK_NAME_READ_ONLY, 33); CONSTANT(ZK_NAME_ERR, 34);
CONSTANT(ZK_OP_CLOSE_SESSION, -11); CONSTANT(ZK_OP_CREATE, 1); CONSTANT(ZK_OP_DELETE, 2); CONSTANT(ZK_OP_EXISTS, 3);
CONSTANT(ZK_OP_GET_DATA, 4); CONSTANT(ZK_OP_SET_DATA, 5); CONSTANT(ZK_OP_GET_ACL, 6); CONSTANT(ZK_OP_SET_ACL, 7);
CONSTANT(ZK_OP_GET_CHILDREN, 8); CONSTANT(ZK_OP_SYNC, 9); CONSTANT(ZK_OP_PING, 11); CONSTANT(ZK_OP_GET_CHILDREN2, 12);
CONSTANT(ZK_OP_CHECK, 13); CONSTANT(ZK_OP_MULTI, 14); CONSTANT(ZK_OP_CREATE2, 15); CONSTANT(ZK_OP_RECONFIG, 16);
CONSTANT(ZK_OP_CHECK_WATCHES, 17); CONSTANT(ZK_OP_REMOVE_WATCHES, 18); CONSTANT(ZK_OP_CREATE_CONTAINER, 19);
CONSTANT(ZK_OP_DELETE_CONTAINER, 20); CONSTANT(ZK_OP_CREATE_TTL, 21); CONSTANT(ZK_OP_MULTI_READ, 22);
CONSTANT(ZK_OP_AUTH, 100); CONSTANT(ZK_OP_SET_WATCHES, 101); CONSTANT(ZK_OP_SASL, 102);
CONSTANT(ZK_OP_GET_EPHEMERALS, 103); CONSTANT(ZK_OP_GET_ALL_CHILDREN_NUMBER, 104); CONSTANT(ZK_OP_SET_WATCHES2, 105);
CONSTANT(ZK_OP_ADD_WATCH, 106); CONSTANT(ZK_OP_WHO_AM_I, 107); CONSTANT(ZK_ERR_OK, 0);
CONSTANT(ZK_ERR_SYSTEM_ERROR, -1); CONSTANT(ZK_ERR_RUNTIME_INCONSISTENCY, -2); CONSTANT(ZK_ERR_DATA_INCONSISTENCY, -3);
CONSTANT(ZK_ERR_CONNECTION_LOSS, -4); CONSTANT(ZK_ERR_MARSHALLING_ERROR, -5); CONSTANT(ZK_ERR_UNIMPLEMENTED, -6);
CONSTANT(ZK_ERR_OPERATION_TIMEOUT, -7); CONSTANT(ZK_ERR_BAD_ARGUMENTS, -8); CONSTANT(ZK_ERR_UNKNOWN_SESSION, -12);
CONSTANT(ZK_ERR_NEW_CONFIG_NO_QUORUM, -13); CONSTANT(ZK_ERR_RECONFIG_IN_PROGRESS, -14);
CONSTANT(ZK_ERR_API_ERROR, -100); CONSTANT(ZK_ERR_NO_NODE, -101); CONSTANT(ZK_ERR_NO_AUTH, -102);
CONSTANT(ZK_ERR_BAD_VERSION, -103); CONSTANT(ZK_ERR_NO_CHILDREN_FOR_EPHEMERALS, -108);
CONSTANT(ZK_ERR_NODE_EXISTS, -110); CONSTANT(ZK_ERR_NOT_EMPTY, -111); CONSTANT(ZK_ERR_SESSION_EXPIRED, -112);
CONSTANT(ZK_ERR_INVALID_CALLBACK, -113); CONSTANT(ZK_ERR_INVALID_ACL, -114); CONSTANT(ZK_ERR_AUTH_FAILED, -115);
CONSTANT(ZK_ERR_SESSION_MOVED, -118); CONSTANT(ZK_ERR_NOT_READ_ONLY, -119);
CONSTANT(ZK_ERR_EPHEMERAL_ON_LOCAL_SESSION, -120); CONSTANT(ZK_ERR_NO_WATCHER, -121);
CONSTANT(ZK_ERR_REQUEST_TIMEOUT, -122); CONSTANT(ZK_ERR_RECONFIG_DISABLED, -123);
CONSTANT(ZK_ERR_SESSION_CLOSED_REQUIRE_SASL_AUTH, -124); CONSTANT(ZK_ERR_QUOTA_EXCEEDED, -125);
CONSTANT(ZK_ERR_THROTTLED_OP, -127); CONSTANT(ZK_EVENT_NONE, -1); CONSTANT(ZK_EVENT_NODE_CREATED, 1);
CONSTANT(ZK_EVENT_NODE_DELETED, 2); CONSTANT(ZK_EVENT_NODE_DATA_CHANGED, 3);
CONSTANT(ZK_EVENT_NODE_CHILDREN_CHANGED, 4); CONSTANT(ZK_EVENT_DATA_WATCH_REMOVED, 5);
CONSTANT(ZK_EVENT_CHILD_WATCH_REMOVED, 6); CONSTANT(ZK_EVENT_PERSISTENT_WATCH_REMOVED, 7);
CONSTANT(ZK_STATE_EXPIRED, -112); CONSTANT(ZK_STATE_UNKNOWN, -1); CONSTANT(ZK_STATE_DISCONNECTED, 0);
CONSTANT(ZK_STATE_NO_SYNC_CONNECTED, 1); CONSTANT(ZK_STATE_SYNC_CONNECTED, 3); CONSTANT(ZK_STATE_AUTH_FAILED, 4);
CONSTANT(ZK_STATE_CONNECTED_READ_ONLY, 5); CONSTANT(ZK_STATE_SASL_AUTHENTICATED, 6); CONSTANT(ZK_STATE_CLOSED, 7);
CONSTANT(ZK_CREATE_PERSISTENT, 0); CONSTANT(ZK_CREATE_EPHEMERAL, 1); CONSTANT(ZK_CREATE_PERSISTENT_SEQUENTIAL, 2);
CONSTANT(ZK_CREATE_EPHEMERAL_SEQUENTIAL, 3); CONSTANT(ZK_CREATE_CONTAINER, 4);
CONSTANT(ZK_CREATE_PERSISTENT_WITH_TTL, 5); CONSTANT(ZK_CREATE_PERSISTENT_SEQUENTIAL_WITH_TTL, 6);
CONSTANT(ZK_PERMISSION_READ, 1); CONSTANT(ZK_PERMISSION_WRITE, 2); CONSTANT(ZK_PERMISSION_CREATE, 4);
CONSTANT(ZK_PERMISSION_DELETE, 8); CONSTANT(ZK_PERMISSION_ADMIN, 16); CONSTANT(ZK_PERMISSION_ALL, 31);

#undef zk_version
CALL(zk_version, uint32_t(void));
#undef zk_talk_new
CALL(zk_talk_new, uint32_t(struct zk_talk *talk, uint32_t client, uint32_t server, uint32_t waiting, uint32_t profile));
#undef zk_talk_renew
CALL(zk_talk_renew, uint32_t(struct zk_talk *talk));
#undef zk_talk_step
CALL(zk_talk_step, struct zk_step(struct zk_talk *talk, uint32_t side, const uint8_t *piece, size_t length));
#undef zk_talk_pass
CALL(zk_talk_pass, struct zk_step(struct zk_talk *talk, uint32_t side, const uint8_t *piece, size_t length));
#undef zk_talk_offer
CALL(zk_talk_offer, struct zk_step(struct zk_talk *talk, uint32_t side, const uint8_t *frame, size_t length));
#undef zk_talk_line
CALL(zk_talk_line, struct zk_line(struct zk_talk *talk, uint32_t side, uint8_t *out, size_t room));
#undef zk_talk_payload
CALL(zk_talk_payload, struct zk_line(struct zk_talk *talk, uint32_t side, uint8_t *out, size_t room));
#undef zk_talk_fields
CALL(zk_talk_fields, struct zk_read(struct zk_talk *talk, uint32_t side, struct zk_field *out, size_t room));
#undef zk_talk_waiting
CALL(zk_talk_waiting, struct zk_waiting(struct zk_talk *talk));
#undef zk_talk_held
CALL(zk_talk_held, struct zk_held(struct zk_talk *talk, uint32_t side));
#undef zk_talk_ending_line
CALL(zk_talk_ending_line, struct zk_line(struct zk_talk *talk, uint8_t *out, size_t room));
#undef zk_talk_free
CALL(zk_talk_free, void(struct zk_talk *talk));
#undef zk_through_new
CALL(zk_through_new, uint32_t(struct zk_through *through, uint32_t client, uint32_t server, uint32_t waiting, uint32_t profile));
#undef zk_through_join
CALL(zk_through_join, uint32_t(struct zk_through *through, uint32_t client, uint32_t server, uint32_t waiting, uint32_t profile));
#undef zk_through_renew
CALL(zk_through_renew, uint32_t(struct zk_through *through));
#undef zk_through_resume
CALL(zk_through_resume, struct zk_step(struct zk_through *through));
#undef zk_through_line
CALL(zk_through_line, struct zk_line(struct zk_through *through, uint32_t side, uint8_t *out, size_t room));
#undef zk_through_fields
CALL(zk_through_fields, struct zk_read(struct zk_through *through, uint32_t side, struct zk_field *out, size_t room));
#undef zk_through_payload
CALL(zk_through_payload, struct zk_line(struct zk_through *through, uint32_t side, uint8_t *out, size_t room));
#undef zk_through_waiting
CALL(zk_through_waiting, struct zk_waiting(struct zk_through *through));
#undef zk_through_held
CALL(zk_through_held, struct zk_held(struct zk_through *through, uint32_t side));
#undef zk_through_ending_line
CALL(zk_through_ending_line, struct zk_line(struct zk_through *through, uint8_t *out, size_t room));
#undef zk_through_free
CALL(zk_through_free, void(struct zk_through *through));
#undef zk_speaker_new
CALL(zk_speaker_new, uint32_t(struct zk_speaker *speaker, uint32_t client, uint32_t server, uint32_t waiting, uint32_t profile));
#undef zk_speaker_renew
CALL(zk_speaker_renew, uint32_t(struct zk_speaker *speaker));
#undef zk_speaker_say
CALL(zk_speaker_say, struct zk_say(struct zk_speaker *speaker, const uint8_t *line, size_t length));
#undef zk_speaker_say_payload
CALL(zk_speaker_say_payload, struct zk_payload(struct zk_speaker *speaker, uint32_t side, const uint8_t *bytes, size_t length));
#undef zk_speaker_frame
CALL(zk_speaker_frame, struct zk_line(struct zk_speaker *speaker, uint8_t *out, size_t room));
#undef zk_speaker_free
CALL(zk_speaker_free, void(struct zk_speaker *speaker));
#undef zk_judge_first
CALL(zk_judge_first, struct zk_payload(const uint8_t *bytes, size_t length));
#undef zk_judge_request
CALL(zk_judge_request, struct zk_payload(uint32_t profile, const uint8_t *bytes, size_t length));
#undef zk_judge_connected
CALL(zk_judge_connected, struct zk_payload(const uint8_t *bytes, size_t length));
#undef zk_judge_reply
CALL(zk_judge_reply, struct zk_payload(int32_t operation, const int32_t *parts, size_t count, const uint8_t *bytes, size_t length));
#undef zk_judge_event
CALL(zk_judge_event, struct zk_payload(const uint8_t *bytes, size_t length));
#undef zk_read_first
CALL(zk_read_first, struct zk_read(const uint8_t *payload, size_t length, struct zk_field *out, size_t room));
#undef zk_read_request
CALL(zk_read_request, struct zk_read(uint32_t profile, const uint8_t *payload, size_t length, struct zk_field *out, size_t room));
#undef zk_read_connected
CALL(zk_read_connected, struct zk_read(const uint8_t *payload, size_t length, struct zk_field *out, size_t room));
#undef zk_read_reply
CALL(zk_read_reply, struct zk_read(int32_t operation, const int32_t *parts, size_t count, const uint8_t *payload, size_t length, struct zk_field *out, size_t room));
#undef zk_read_event
CALL(zk_read_event, struct zk_read(const uint8_t *payload, size_t length, struct zk_field *out, size_t room));
#undef zk_write_request
CALL(zk_write_request, struct zk_written(int32_t xid, int32_t operation, const struct zk_field *fields, size_t count, const uint8_t *content, size_t length, uint8_t *out, size_t room));
#undef zk_write_first
CALL(zk_write_first, struct zk_written(const struct zk_field *fields, size_t count, const uint8_t *content, size_t length, uint8_t *out, size_t room));
#undef zk_write_reply
CALL(zk_write_reply, struct zk_written(int32_t xid, int64_t zxid, int32_t err, int32_t operation, const struct zk_field *fields, size_t count, const uint8_t *content, size_t length, uint8_t *out, size_t room));
#undef zk_write_event
CALL(zk_write_event, struct zk_written(int64_t zxid, const struct zk_field *fields, size_t count, const uint8_t *content, size_t length, uint8_t *out, size_t room));
#undef zk_write_connected
CALL(zk_write_connected, struct zk_written(const struct zk_field *fields, size_t count, const uint8_t *content, size_t length, uint8_t *out, size_t room));
#undef zk_listing
CALL(zk_listing, struct zk_line(const struct zk_piece *pieces, size_t count, const uint8_t *bytes, size_t length, uint32_t client, uint32_t server, uint32_t waiting, uint32_t profile, uint8_t *out, size_t room));
#undef zk_talk_view_into
CALL(zk_talk_view_into, void(struct zk_talk *talk, uint32_t side, struct zk_message *out, size_t size));
#undef zk_talk_finish_into
CALL(zk_talk_finish_into, void(struct zk_talk *talk, struct zk_ending *out, size_t size));
#undef zk_through_step_into
CALL(zk_through_step_into, void(struct zk_through *through, uint32_t side, const uint8_t *piece, size_t length, struct zk_passed *out, size_t size));
#undef zk_through_pass_into
CALL(zk_through_pass_into, void(struct zk_through *through, uint32_t side, const uint8_t *piece, size_t length, struct zk_passed *out, size_t size));
#undef zk_through_offer_into
CALL(zk_through_offer_into, void(struct zk_through *through, uint32_t side, const uint8_t *frame, size_t length, struct zk_passed *out, size_t size));
#undef zk_through_view_into
CALL(zk_through_view_into, void(struct zk_through *through, uint32_t side, struct zk_message *out, size_t size));
#undef zk_through_finish_into
CALL(zk_through_finish_into, void(struct zk_through *through, struct zk_ending *out, size_t size));
#undef zk_build
CALL(zk_build, struct zk_builder(struct zk_field *fields, size_t room, uint8_t *content, size_t size));
#undef zk_add_number
CALL(zk_add_number, void(struct zk_builder *to, uint8_t kind, int64_t number));
#undef zk_add_null
CALL(zk_add_null, void(struct zk_builder *to, uint8_t kind));
#undef zk_add_bytes
CALL(zk_add_bytes, void(struct zk_builder *to, uint8_t kind, const void *bytes, size_t length));
#undef zk_operation_name
CALL(zk_operation_name, const char *(int32_t number));
#undef zk_error_name
CALL(zk_error_name, const char *(int32_t number));
#undef zk_event_name
CALL(zk_event_name, const char *(int64_t number));
#undef zk_state_name
CALL(zk_state_name, const char *(int64_t number));
#undef zk_flags_name
CALL(zk_flags_name, const char *(int64_t number));
#undef zk_field_name
CALL(zk_field_name, const char *(uint16_t number));
#undef zk_status_name
CALL(zk_status_name, const char *(uint32_t number));
#undef zk_talk_block
CALL(zk_talk_block, struct zk_block(struct zk_talk *talk, uint32_t side, const uint8_t *piece, size_t length, struct zk_entry *entries, size_t most, uint8_t *bytes, size_t size, struct zk_field *fields, size_t room));
