"""Names and constants of numbers (include/zk.h), and profiles, written by dev/names.py."""

import enum
from typing import Dict

OPERATIONS: Dict[int, str] = {
    -11: "closeSession", 1: "create", 2: "delete", 3: "exists", 4: "getData", 5: "setData", 6: "getACL",
    7: "setACL", 8: "getChildren", 9: "sync", 11: "ping", 12: "getChildren2", 13: "check", 14: "multi",
    15: "create2", 16: "reconfig", 17: "checkWatches", 18: "removeWatches", 19: "createContainer",
    20: "deleteContainer", 21: "createTTL", 22: "multiRead", 100: "auth", 101: "setWatches", 102: "sasl",
    103: "getEphemerals", 104: "getAllChildrenNumber", 105: "setWatches2", 106: "addWatch", 107: "whoAmI",
}

ERRORS: Dict[int, str] = {
    0: "OK", -1: "SYSTEMERROR", -2: "RUNTIMEINCONSISTENCY", -3: "DATAINCONSISTENCY", -4: "CONNECTIONLOSS",
    -5: "MARSHALLINGERROR", -6: "UNIMPLEMENTED", -7: "OPERATIONTIMEOUT", -8: "BADARGUMENTS",
    -12: "UNKNOWNSESSION", -13: "NEWCONFIGNOQUORUM", -14: "RECONFIGINPROGRESS", -100: "APIERROR",
    -101: "NONODE", -102: "NOAUTH", -103: "BADVERSION", -108: "NOCHILDRENFOREPHEMERALS", -110: "NODEEXISTS",
    -111: "NOTEMPTY", -112: "SESSIONEXPIRED", -113: "INVALIDCALLBACK", -114: "INVALIDACL", -115: "AUTHFAILED",
    -118: "SESSIONMOVED", -119: "NOTREADONLY", -120: "EPHEMERALONLOCALSESSION", -121: "NOWATCHER",
    -122: "REQUESTTIMEOUT", -123: "RECONFIGDISABLED", -124: "SESSIONCLOSEDREQUIRESASLAUTH",
    -125: "QUOTAEXCEEDED", -127: "THROTTLEDOP",
}

EVENTS: Dict[int, str] = {
    -1: "None", 1: "NodeCreated", 2: "NodeDeleted", 3: "NodeDataChanged", 4: "NodeChildrenChanged",
    5: "DataWatchRemoved", 6: "ChildWatchRemoved", 7: "PersistentWatchRemoved",
}

STATES: Dict[int, str] = {
    -112: "Expired", -1: "Unknown", 0: "Disconnected", 1: "NoSyncConnected", 3: "SyncConnected",
    4: "AuthFailed", 5: "ConnectedReadOnly", 6: "SaslAuthenticated", 7: "Closed",
}

FLAGS: Dict[int, str] = {
    0: "persistent", 1: "ephemeral", 2: "persistentSequential", 3: "ephemeralSequential", 4: "container",
    5: "persistentWithTTL", 6: "persistentSequentialWithTTL",
}

FIELDS: Dict[int, str] = {
    1: "path", 2: "data", 3: "acl", 4: "flags", 5: "version", 6: "watch", 7: "perms", 8: "scheme", 9: "id",
    10: "type", 11: "state", 12: "auth", 13: "czxid", 14: "mzxid", 15: "ctime", 16: "mtime", 17: "cversion",
    18: "aversion", 19: "ephemeral_owner", 20: "data_length", 21: "num_children", 22: "pzxid", 23: "children",
    24: "zxid", 25: "data_watches", 26: "exist_watches", 27: "child_watches", 28: "protocol_version",
    29: "last_zxid_seen", 30: "time_out", 31: "session_id", 32: "passwd", 33: "read_only", 34: "err",
    35: "ttl", 36: "mode", 37: "count", 38: "joining", 39: "leaving", 40: "members", 41: "config", 42: "code",
}

STATUSES: Dict[int, str] = {
    0: "WELL", 1: "SHORT", 2: "BAD_BOOL", 3: "BAD_LENGTH", 4: "BAD_TEXT", 5: "NO_MEMORY", 6: "TRAILING",
    7: "UNKNOWN_OP", 8: "XID_OP", 9: "BAD_PART", 10: "EVENT_ERR", 11: "LENGTH_RANGE", 12: "QUEUE_FULL",
    13: "UNASKED", 14: "XID_ORDER", 15: "STREAM_END", 65: "EMPTY", 66: "IN_USE", 67: "RANGE", 68: "ROOM",
    69: "NO_MESSAGE", 70: "NULL", 81: "NOT_FIRST", 82: "MISFIT", 83: "TOO_LONG", 91: "LINE_WORD",
    92: "LINE_NUMBER", 93: "LINE_TEXT", 94: "LINE_BLOB", 95: "LINE_NAME", 96: "LINE_REST", 97: "LINE_ENDING",
}


class Profile(enum.IntEnum):
    """The operations of a release."""
    V34 = 34
    V35 = 35
    V37 = 37
    NEWEST = 37


class Operation(enum.IntEnum):
    """The number of an operation, or of a part of a multi."""
    CLOSE_SESSION = -11
    CREATE = 1
    DELETE = 2
    EXISTS = 3
    GET_DATA = 4
    SET_DATA = 5
    GET_ACL = 6
    SET_ACL = 7
    GET_CHILDREN = 8
    SYNC = 9
    PING = 11
    GET_CHILDREN2 = 12
    CHECK = 13
    MULTI = 14
    CREATE2 = 15
    RECONFIG = 16
    CHECK_WATCHES = 17
    REMOVE_WATCHES = 18
    CREATE_CONTAINER = 19
    DELETE_CONTAINER = 20
    CREATE_TTL = 21
    MULTI_READ = 22
    AUTH = 100
    SET_WATCHES = 101
    SASL = 102
    GET_EPHEMERALS = 103
    GET_ALL_CHILDREN_NUMBER = 104
    SET_WATCHES2 = 105
    ADD_WATCH = 106
    WHO_AM_I = 107


class Code(enum.IntEnum):
    """The number of a reply's err."""
    OK = 0
    SYSTEM_ERROR = -1
    RUNTIME_INCONSISTENCY = -2
    DATA_INCONSISTENCY = -3
    CONNECTION_LOSS = -4
    MARSHALLING_ERROR = -5
    UNIMPLEMENTED = -6
    OPERATION_TIMEOUT = -7
    BAD_ARGUMENTS = -8
    UNKNOWN_SESSION = -12
    NEW_CONFIG_NO_QUORUM = -13
    RECONFIG_IN_PROGRESS = -14
    API_ERROR = -100
    NO_NODE = -101
    NO_AUTH = -102
    BAD_VERSION = -103
    NO_CHILDREN_FOR_EPHEMERALS = -108
    NODE_EXISTS = -110
    NOT_EMPTY = -111
    SESSION_EXPIRED = -112
    INVALID_CALLBACK = -113
    INVALID_ACL = -114
    AUTH_FAILED = -115
    SESSION_MOVED = -118
    NOT_READ_ONLY = -119
    EPHEMERAL_ON_LOCAL_SESSION = -120
    NO_WATCHER = -121
    REQUEST_TIMEOUT = -122
    RECONFIG_DISABLED = -123
    SESSION_CLOSED_REQUIRE_SASL_AUTH = -124
    QUOTA_EXCEEDED = -125
    THROTTLED_OP = -127


class EventType(enum.IntEnum):
    """The number of an event's type."""
    NONE = -1
    NODE_CREATED = 1
    NODE_DELETED = 2
    NODE_DATA_CHANGED = 3
    NODE_CHILDREN_CHANGED = 4
    DATA_WATCH_REMOVED = 5
    CHILD_WATCH_REMOVED = 6
    PERSISTENT_WATCH_REMOVED = 7


class State(enum.IntEnum):
    """The number of an event's state."""
    EXPIRED = -112
    UNKNOWN = -1
    DISCONNECTED = 0
    NO_SYNC_CONNECTED = 1
    SYNC_CONNECTED = 3
    AUTH_FAILED = 4
    CONNECTED_READ_ONLY = 5
    SASL_AUTHENTICATED = 6
    CLOSED = 7


class CreateFlags(enum.IntEnum):
    """The number of the flags of a create request."""
    PERSISTENT = 0
    EPHEMERAL = 1
    PERSISTENT_SEQUENTIAL = 2
    EPHEMERAL_SEQUENTIAL = 3
    CONTAINER = 4
    PERSISTENT_WITH_TTL = 5
    PERSISTENT_SEQUENTIAL_WITH_TTL = 6


class Status(enum.IntEnum):
    """The number of a status."""
    WELL = 0
    SHORT = 1
    BAD_BOOL = 2
    BAD_LENGTH = 3
    BAD_TEXT = 4
    NO_MEMORY = 5
    TRAILING = 6
    UNKNOWN_OP = 7
    XID_OP = 8
    BAD_PART = 9
    EVENT_ERR = 10
    LENGTH_RANGE = 11
    QUEUE_FULL = 12
    UNASKED = 13
    XID_ORDER = 14
    STREAM_END = 15
    EMPTY = 65
    IN_USE = 66
    RANGE = 67
    ROOM = 68
    NO_MESSAGE = 69
    NULL = 70
    NOT_FIRST = 81
    MISFIT = 82
    TOO_LONG = 83
    LINE_WORD = 91
    LINE_NUMBER = 92
    LINE_TEXT = 93
    LINE_BLOB = 94
    LINE_NAME = 95
    LINE_REST = 96
    LINE_ENDING = 97


class Permission(enum.IntFlag):
    """What an access right permits."""
    READ = 1
    WRITE = 2
    CREATE = 4
    DELETE = 8
    ADMIN = 16
    ALL = 31
