/* register.c
 * The plugin: its fields, what it notes on packets, its preferences, and where it is called.
 *
 * SPDX-License-Identifier: GPL-2.0-or-later
 */
#define WS_BUILD_DLL
#include "zookeeper.h"

#include <epan/prefs.h>

#include "names.h"

int proto_zookeeper = -1, proto_tcp = -1, tap_zookeeper = -1;
dissector_handle_t zookeeper_handle;
int hf_field[FIELD_NAMES];
int hf_length = -1, hf_side = -1, hf_kind = -1, hf_frame = -1, hf_unread = -1, hf_no_frame = -1, hf_words = -1;
int hf_response_in = -1, hf_response_to = -1, hf_response_time = -1, hf_expected_xid = -1;
int hf_verdict = -1, hf_reason = -1, hf_place = -1, hf_line = -1;
gint ett_message = -1, ett_list = -1, ett_stat = -1, ett_part = -1, ett_acl = -1, ett_bits = -1;
expert_field ei_refused = EI_INIT, ei_passed_over = EI_INIT, ei_unread = EI_INIT, ei_newer = EI_INIT,
             ei_order = EI_INIT, ei_unasked = EI_INIT, ei_error = EI_INIT, ei_no_frame = EI_INIT, ei_again = EI_INIT,
             ei_cut = EI_INIT, ei_many = EI_INIT;

flag pref_desegment = TRUE, pref_strict = TRUE, pref_hide = TRUE;
guint pref_limit = 4194304;
gint pref_profile = NEWEST_PROFILE;

/* The lines from here on are written by dev/names.py. */
static const enum_val_t profiles[] = {
    {"3.4", "ZooKeeper 3.4", ZK_PROFILE_34}, {"3.5", "ZooKeeper 3.5 (create2)", ZK_PROFILE_35},
    {"3.7", "ZooKeeper 3.7 (reconfig, checkWatches, others)", ZK_PROFILE_37}, {NULL, NULL, 0},
};
/* Up to here. */

#define HF(to, text, abbreviation, type, base, strings, blurb) \
    {&(to), {text, "zookeeper." abbreviation, type, base, strings, 0, blurb, HFILL}}
#define PLAIN(name, text, abbreviation, type, base) HF(hf_field[name], text, abbreviation, type, base, NULL, NULL)
#define NAMED(name, text, abbreviation, names) \
    HF(hf_field[name], text, abbreviation, FT_INT32, BASE_DEC, VALS(names), NULL)
#define INT(name, text, abbreviation) PLAIN(name, text, abbreviation, FT_INT32, BASE_DEC)
#define LONG(name, text, abbreviation) PLAIN(name, text, abbreviation, FT_INT64, BASE_DEC)
#define HEX(name, text, abbreviation) PLAIN(name, text, abbreviation, FT_UINT64, BASE_HEX)
#define BOOL(name, text, abbreviation) PLAIN(name, text, abbreviation, FT_BOOLEAN, BASE_NONE)
#define BIT(name, text, abbreviation, mask) \
    {&(hf_field[name]), {text, "zookeeper." abbreviation, FT_BOOLEAN, 8, NULL, mask, NULL, HFILL}}
#define TEXT(name, text, abbreviation) PLAIN(name, text, abbreviation, FT_STRING, BASE_NONE)
#define BLOB(name, text, abbreviation) PLAIN(name, text, abbreviation, FT_BYTES, BASE_NONE)
#define TIME(name, text, abbreviation) PLAIN(name, text, abbreviation, FT_ABSOLUTE_TIME, ABSOLUTE_TIME_UTC)

static hf_register_info fields[] = {
    HF(hf_length, "Length", "length", FT_INT32, BASE_DEC, NULL, "Bytes of the payload behind this length"),
    HF(hf_side, "Side", "side", FT_UINT8, BASE_DEC, VALS(side_names), "Who says it"),
    HF(hf_kind, "Message", "kind", FT_UINT8, BASE_DEC, VALS(kind_names), NULL),
    HF(hf_frame, "Frame", "frame", FT_BYTES, BASE_NONE, NULL, "All bytes of the message, its length included"),
    HF(hf_unread, "Not read", "unread", FT_BYTES, BASE_NONE, NULL, "What follows the fields that were read"),
    HF(hf_no_frame, "Bytes without a frame", "no_frame", FT_BYTES, BASE_NONE, NULL, NULL),
    HF(hf_words, "Four letters", "four_letters", FT_STRING, BASE_NONE, NULL,
       "A command of four letters, or its answer"),
    HF(hf_response_in, "Response in", "response_in", FT_FRAMENUM, BASE_NONE, FRAMENUM_TYPE(FT_FRAMENUM_RESPONSE), NULL),
    HF(hf_response_to, "Response to", "response_to", FT_FRAMENUM, BASE_NONE, FRAMENUM_TYPE(FT_FRAMENUM_REQUEST), NULL),
    HF(hf_response_time, "Response time", "response_time", FT_RELATIVE_TIME, BASE_NONE, NULL,
       "From the request's last packet to the reply's"),
    HF(hf_expected_xid, "Expected xid", "expected_xid", FT_INT32, BASE_DEC, NULL,
       "That of the oldest request that waits"),
    HF(hf_verdict, "Conversation", "verdict", FT_UINT8, BASE_DEC, VALS(verdict_names), "What the proved library says"),
    HF(hf_reason, "Reason", "reason", FT_UINT32, BASE_DEC, VALS(reason_names), "Why a payload isn't one"),
    HF(hf_place, "Place", "place", FT_UINT32, BASE_DEC, NULL, "Where in the payload, from 0"),
    HF(hf_line, "Line", "line", FT_STRING, BASE_NONE, NULL, "As zkdump show writes it"),
    INT(FIELD_XID, "Xid", "xid"),
    NAMED(FIELD_OP, "Operation", "op", op_names),
    HEX(FIELD_ZXID, "Zxid", "zxid"),
    NAMED(FIELD_ERR, "Error", "err", error_names),
    TEXT(FIELD_PATH, "Path", "path"),
    BLOB(FIELD_DATA, "Data", "data"),
    TEXT(FIELD_DATA_TEXT, "Text", "data.text"),
    INT(FIELD_VERSION, "Version", "version"),
    NAMED(FIELD_FLAGS, "Flags", "flags", mode_names),
    BIT(FIELD_EPHEMERAL, "Ephemeral", "flags.ephemeral", 1),
    BIT(FIELD_SEQUENTIAL, "Sequential", "flags.sequential", 2),
    BOOL(FIELD_WATCH, "Watch", "watch"),
    INT(FIELD_ACL, "Access list", "acl"),
    HF(hf_field[FIELD_PERMS], "Permissions", "acl.perms", FT_INT32, BASE_DEC, NULL,
       "READ 1, WRITE 2, CREATE 4, DELETE 8, ADMIN 16"),
    BIT(FIELD_PERM_READ, "READ", "acl.perms.read", 1),
    BIT(FIELD_PERM_WRITE, "WRITE", "acl.perms.write", 2),
    BIT(FIELD_PERM_CREATE, "CREATE", "acl.perms.create", 4),
    BIT(FIELD_PERM_DELETE, "DELETE", "acl.perms.delete", 8),
    BIT(FIELD_PERM_ADMIN, "ADMIN", "acl.perms.admin", 16),
    TEXT(FIELD_SCHEME, "Scheme", "scheme"),
    TEXT(FIELD_ID, "Id", "acl.id"),
    INT(FIELD_AUTH_TYPE, "Type", "auth.type"),
    BLOB(FIELD_AUTH, "Credential", "auth"),
    INT(FIELD_CHILDREN, "Children", "children"),
    TEXT(FIELD_CHILD, "Child", "child"),
    LONG(FIELD_TTL, "Time to live", "ttl"),
    NAMED(FIELD_WATCH_TYPE, "Type of watch", "watch.type", watch_type_names),
    NAMED(FIELD_MODE, "Mode of the watch", "watch.mode", watch_mode_names),
    INT(FIELD_COUNT, "Number of all children", "count"),
    NAMED(FIELD_CODE, "Code", "code", error_names),
    TEXT(FIELD_JOINING, "Joining servers", "joining"),
    TEXT(FIELD_LEAVING, "Leaving servers", "leaving"),
    TEXT(FIELD_MEMBERS, "All servers", "members"),
    LONG(FIELD_CONFIG, "Configuration that is changed", "config"),
    HEX(FIELD_RELATIVE_ZXID, "Relative zxid", "relative_zxid"),
    INT(FIELD_DATA_WATCHES, "Data watches", "data_watches"),
    INT(FIELD_EXIST_WATCHES, "Exist watches", "exist_watches"),
    INT(FIELD_CHILD_WATCHES, "Child watches", "child_watches"),
    TEXT(FIELD_WATCHED, "Watched path", "watched"),
    NAMED(FIELD_EVENT_KIND, "Event", "event.kind", event_kind_names),
    NAMED(FIELD_EVENT_STATE, "State", "event.state", event_state_names),
    INT(FIELD_PROTOCOL_VERSION, "Protocol version", "protocol_version"),
    HEX(FIELD_LAST_ZXID, "Last zxid seen", "last_zxid"),
    INT(FIELD_TIMEOUT, "Timeout", "timeout"),
    HEX(FIELD_SESSION, "Session", "session"),
    BLOB(FIELD_PASSWD, "Password", "passwd"),
    BOOL(FIELD_READ_ONLY, "Read only", "read_only"),
    NAMED(FIELD_PART_OP, "Part", "part.op", op_names),
    BOOL(FIELD_PART_DONE, "Done", "part.done"),
    INT(FIELD_PART_HEADER_ERR, "Error in the header", "part.header_err"),
    NAMED(FIELD_PART_ERR, "Error", "part.err", error_names),
    HEX(FIELD_CZXID, "Created zxid", "stat.czxid"),
    HEX(FIELD_MZXID, "Modified zxid", "stat.mzxid"),
    TIME(FIELD_CTIME, "Created", "stat.ctime"),
    TIME(FIELD_MTIME, "Modified", "stat.mtime"),
    INT(FIELD_STAT_VERSION, "Version", "stat.version"),
    INT(FIELD_CVERSION, "Version of the children", "stat.cversion"),
    INT(FIELD_AVERSION, "Version of the access list", "stat.aversion"),
    HEX(FIELD_EPHEMERAL_OWNER, "Ephemeral owner", "stat.ephemeral_owner"),
    INT(FIELD_DATA_LENGTH, "Length of the data", "stat.data_length"),
    INT(FIELD_NUM_CHILDREN, "Number of children", "stat.num_children"),
    HEX(FIELD_PZXID, "Zxid of the children", "stat.pzxid"),
};

#define EI(to, abbreviation, group, severity, text) {&(to), {"zookeeper." abbreviation, group, severity, text, EXPFILL}}

static ei_register_info experts[] = {
    EI(ei_refused, "refused", PI_MALFORMED, PI_ERROR, "Refused"),
    EI(ei_passed_over, "passed_over", PI_MALFORMED, PI_NOTE,
       "Passed over: what follows is judged as of a connection that is seen late"),
    EI(ei_unread, "malformed", PI_MALFORMED, PI_WARN, "Not all of it can be read; the connection isn't judged here"),
    EI(ei_newer, "newer", PI_UNDECODED, PI_NOTE, "An operation not of the profile"),
    EI(ei_order, "order", PI_SEQUENCE, PI_NOTE, "Requests before this one have no reply yet"),
    EI(ei_unasked, "unasked", PI_SEQUENCE, PI_NOTE, "Its request isn't in the capture before it"),
    EI(ei_error, "error", PI_RESPONSE_CODE, PI_NOTE, "The server answers with an error"),
    EI(ei_no_frame, "hole", PI_SEQUENCE, PI_NOTE, "No frame is known to begin in these bytes"),
    EI(ei_again, "again", PI_SEQUENCE, PI_CHAT, "Bytes that were shown before"),
    EI(ei_cut, "cut", PI_UNDECODED, PI_NOTE, "The message was not captured whole"),
    EI(ei_many, "many", PI_UNDECODED, PI_CHAT, "More fields than are shown"),
};

void proto_register_zookeeper(void);
void proto_reg_handoff_zookeeper(void);

void proto_register_zookeeper(void) {
    static gint *subtrees[] = {&ett_message, &ett_list, &ett_stat, &ett_part, &ett_acl, &ett_bits};
    for (int name = 0; name < FIELD_NAMES; name++) {
        hf_field[name] = -1; /* 4.0 stops every user's program where one is registered as another number */
    }
    proto_zookeeper = proto_register_protocol("Apache ZooKeeper client protocol", "ZooKeeper", "zookeeper");
    proto_register_field_array(proto_zookeeper, fields, array_length(fields));
    proto_register_subtree_array(subtrees, array_length(subtrees));
    expert_register_field_array(expert_register_protocol(proto_zookeeper), experts, array_length(experts));
    module_t *module = prefs_register_protocol(proto_zookeeper, NULL);
    prefs_register_bool_preference(module, "desegment", "Put messages together that span TCP segments",
                                   "TCP's own preference has to allow it, too", &pref_desegment);
    prefs_register_enum_preference(module, "profile", "Operations of", "The release whose operations are read",
                                   &pref_profile, profiles, FALSE);
    prefs_register_uint_preference(module, "limit", "Greatest payload", "In bytes, of either side (jute.maxbuffer)", 10,
                                   &pref_limit);
    prefs_register_bool_preference(module, "strict", "Judge each connection",
                                   "The proved library reads each connection, and says where it is refused",
                                   &pref_strict);
    prefs_register_bool_preference(module, "hide_secrets", "Hide passwords and credentials",
                                   "The bytes of the packet still have them", &pref_hide);
    zookeeper_handle = register_dissector("zookeeper", dissect_zookeeper, proto_zookeeper);
    statistics_register();
}

void proto_reg_handoff_zookeeper(void) {
    proto_tcp = proto_get_id_by_filter_name("tcp");
    dissector_add_uint_range_with_preference("tcp.port", "2181", zookeeper_handle);
    heur_dissector_add("tcp", dissect_heuristic, "ZooKeeper over TCP", "zookeeper_tcp", proto_zookeeper,
                       HEURISTIC_ENABLE);
    statistics_handoff();
}

WS_DLL_PUBLIC_DEF const gchar plugin_version[] = ZK_VERSION;
WS_DLL_PUBLIC_DEF const int plugin_want_major = WIRESHARK_VERSION_MAJOR;
WS_DLL_PUBLIC_DEF const int plugin_want_minor = WIRESHARK_VERSION_MINOR;
WS_DLL_PUBLIC void plugin_register(void);

#if WIRESHARK_VERSION_MAJOR > 4 || WIRESHARK_VERSION_MINOR >= 2
WS_DLL_PUBLIC uint32_t plugin_describe(void);

uint32_t plugin_describe(void) {
    return 1; /* WS_PLUGIN_DESC_DISSECTOR of a header that not every package has */
}
#endif

void plugin_register(void) {
    static proto_plugin plugin;
    plugin.register_protoinfo = proto_register_zookeeper;
    plugin.register_handoff = proto_reg_handoff_zookeeper;
    proto_register_plugin(&plugin);
}
