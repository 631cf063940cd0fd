//! Names and constants of numbers, and profiles; written by dev/names.py.

/// The operations of a release.
#[derive(Clone, Copy, Debug, PartialEq, Eq)]
pub enum Profile {
    V34 = 34,
    V35 = 35,
    V37 = 37,
}

impl Profile {
    /// The one that has the most operations.
    pub const NEWEST: Profile = Profile::V37;
}

/// Of an operation, or of a part of a multi; "" where the number has none.
pub fn operation_name(number: i32) -> &'static str {
    match number {
        -11 => "closeSession",
        1 => "create",
        2 => "delete",
        3 => "exists",
        4 => "getData",
        5 => "setData",
        6 => "getACL",
        7 => "setACL",
        8 => "getChildren",
        9 => "sync",
        11 => "ping",
        12 => "getChildren2",
        13 => "check",
        14 => "multi",
        15 => "create2",
        16 => "reconfig",
        17 => "checkWatches",
        18 => "removeWatches",
        19 => "createContainer",
        20 => "deleteContainer",
        21 => "createTTL",
        22 => "multiRead",
        100 => "auth",
        101 => "setWatches",
        102 => "sasl",
        103 => "getEphemerals",
        104 => "getAllChildrenNumber",
        105 => "setWatches2",
        106 => "addWatch",
        107 => "whoAmI",
        _ => "",
    }
}

/// Of a reply's err; "" where the number has none.
pub fn error_name(number: i32) -> &'static str {
    match number {
        0 => "OK",
        -1 => "SYSTEMERROR",
        -2 => "RUNTIMEINCONSISTENCY",
        -3 => "DATAINCONSISTENCY",
        -4 => "CONNECTIONLOSS",
        -5 => "MARSHALLINGERROR",
        -6 => "UNIMPLEMENTED",
        -7 => "OPERATIONTIMEOUT",
        -8 => "BADARGUMENTS",
        -12 => "UNKNOWNSESSION",
        -13 => "NEWCONFIGNOQUORUM",
        -14 => "RECONFIGINPROGRESS",
        -100 => "APIERROR",
        -101 => "NONODE",
        -102 => "NOAUTH",
        -103 => "BADVERSION",
        -108 => "NOCHILDRENFOREPHEMERALS",
        -110 => "NODEEXISTS",
        -111 => "NOTEMPTY",
        -112 => "SESSIONEXPIRED",
        -113 => "INVALIDCALLBACK",
        -114 => "INVALIDACL",
        -115 => "AUTHFAILED",
        -118 => "SESSIONMOVED",
        -119 => "NOTREADONLY",
        -120 => "EPHEMERALONLOCALSESSION",
        -121 => "NOWATCHER",
        -122 => "REQUESTTIMEOUT",
        -123 => "RECONFIGDISABLED",
        -124 => "SESSIONCLOSEDREQUIRESASLAUTH",
        -125 => "QUOTAEXCEEDED",
        -127 => "THROTTLEDOP",
        _ => "",
    }
}

/// Of an event's type; "" where the number has none.
pub fn event_name(number: i64) -> &'static str {
    match number {
        -1 => "None",
        1 => "NodeCreated",
        2 => "NodeDeleted",
        3 => "NodeDataChanged",
        4 => "NodeChildrenChanged",
        5 => "DataWatchRemoved",
        6 => "ChildWatchRemoved",
        7 => "PersistentWatchRemoved",
        _ => "",
    }
}

/// Of an event's state; "" where the number has none.
pub fn state_name(number: i64) -> &'static str {
    match number {
        -112 => "Expired",
        -1 => "Unknown",
        0 => "Disconnected",
        1 => "NoSyncConnected",
        3 => "SyncConnected",
        4 => "AuthFailed",
        5 => "ConnectedReadOnly",
        6 => "SaslAuthenticated",
        7 => "Closed",
        _ => "",
    }
}

/// Of the flags of a create request; "" where the number has none.
pub fn flags_name(number: i64) -> &'static str {
    match number {
        0 => "persistent",
        1 => "ephemeral",
        2 => "persistentSequential",
        3 => "ephemeralSequential",
        4 => "container",
        5 => "persistentWithTTL",
        6 => "persistentSequentialWithTTL",
        _ => "",
    }
}

/// Of a field's name; "" where the number has none.
pub fn field_name(number: u16) -> &'static str {
    match number {
        1 => "path",
        2 => "data",
        3 => "acl",
        4 => "flags",
        5 => "version",
        6 => "watch",
        7 => "perms",
        8 => "scheme",
        9 => "id",
        10 => "type",
        11 => "state",
        12 => "auth",
        13 => "czxid",
        14 => "mzxid",
        15 => "ctime",
        16 => "mtime",
        17 => "cversion",
        18 => "aversion",
        19 => "ephemeral_owner",
        20 => "data_length",
        21 => "num_children",
        22 => "pzxid",
        23 => "children",
        24 => "zxid",
        25 => "data_watches",
        26 => "exist_watches",
        27 => "child_watches",
        28 => "protocol_version",
        29 => "last_zxid_seen",
        30 => "time_out",
        31 => "session_id",
        32 => "passwd",
        33 => "read_only",
        34 => "err",
        35 => "ttl",
        36 => "mode",
        37 => "count",
        38 => "joining",
        39 => "leaving",
        40 => "members",
        41 => "config",
        42 => "code",
        _ => "",
    }
}

/// Of a status; "" where the number has none.
pub fn status_name(number: u32) -> &'static str {
    match number {
        0 => "WELL",
        1 => "SHORT",
        2 => "BAD_BOOL",
        3 => "BAD_LENGTH",
        4 => "BAD_TEXT",
        5 => "NO_MEMORY",
        6 => "TRAILING",
        7 => "UNKNOWN_OP",
        8 => "XID_OP",
        9 => "BAD_PART",
        10 => "EVENT_ERR",
        11 => "LENGTH_RANGE",
        12 => "QUEUE_FULL",
        13 => "UNASKED",
        14 => "XID_ORDER",
        15 => "STREAM_END",
        65 => "EMPTY",
        66 => "IN_USE",
        67 => "RANGE",
        68 => "ROOM",
        69 => "NO_MESSAGE",
        70 => "NULL",
        81 => "NOT_FIRST",
        82 => "MISFIT",
        83 => "TOO_LONG",
        91 => "LINE_WORD",
        92 => "LINE_NUMBER",
        93 => "LINE_TEXT",
        94 => "LINE_BLOB",
        95 => "LINE_NAME",
        96 => "LINE_REST",
        97 => "LINE_ENDING",
        _ => "",
    }
}

crate::numbered! {
    /// The number of an operation, or of a part of a multi.
    Operation: i32, operation_name {
        CloseSession = -11,
        Create = 1,
        Delete = 2,
        Exists = 3,
        GetData = 4,
        SetData = 5,
        GetAcl = 6,
        SetAcl = 7,
        GetChildren = 8,
        Sync = 9,
        Ping = 11,
        GetChildren2 = 12,
        Check = 13,
        Multi = 14,
        Create2 = 15,
        Reconfig = 16,
        CheckWatches = 17,
        RemoveWatches = 18,
        CreateContainer = 19,
        DeleteContainer = 20,
        CreateTtl = 21,
        MultiRead = 22,
        Auth = 100,
        SetWatches = 101,
        Sasl = 102,
        GetEphemerals = 103,
        GetAllChildrenNumber = 104,
        SetWatches2 = 105,
        AddWatch = 106,
        WhoAmI = 107,
    }
}

crate::numbered! {
    /// The number of a reply's err.
    Code: i32, error_name {
        Ok = 0,
        SystemError = -1,
        RuntimeInconsistency = -2,
        DataInconsistency = -3,
        ConnectionLoss = -4,
        MarshallingError = -5,
        Unimplemented = -6,
        OperationTimeout = -7,
        BadArguments = -8,
        UnknownSession = -12,
        NewConfigNoQuorum = -13,
        ReconfigInProgress = -14,
        ApiError = -100,
        NoNode = -101,
        NoAuth = -102,
        BadVersion = -103,
        NoChildrenForEphemerals = -108,
        NodeExists = -110,
        NotEmpty = -111,
        SessionExpired = -112,
        InvalidCallback = -113,
        InvalidAcl = -114,
        AuthFailed = -115,
        SessionMoved = -118,
        NotReadOnly = -119,
        EphemeralOnLocalSession = -120,
        NoWatcher = -121,
        RequestTimeout = -122,
        ReconfigDisabled = -123,
        SessionClosedRequireSaslAuth = -124,
        QuotaExceeded = -125,
        ThrottledOp = -127,
    }
}

crate::numbered! {
    /// The number of an event's type.
    EventType: i64, event_name {
        None = -1,
        NodeCreated = 1,
        NodeDeleted = 2,
        NodeDataChanged = 3,
        NodeChildrenChanged = 4,
        DataWatchRemoved = 5,
        ChildWatchRemoved = 6,
        PersistentWatchRemoved = 7,
    }
}

crate::numbered! {
    /// The number of an event's state.
    State: i64, state_name {
        Expired = -112,
        Unknown = -1,
        Disconnected = 0,
        NoSyncConnected = 1,
        SyncConnected = 3,
        AuthFailed = 4,
        ConnectedReadOnly = 5,
        SaslAuthenticated = 6,
        Closed = 7,
    }
}

crate::numbered! {
    /// The number of the flags of a create request.
    CreateFlags: i64, flags_name {
        Persistent = 0,
        Ephemeral = 1,
        PersistentSequential = 2,
        EphemeralSequential = 3,
        Container = 4,
        PersistentWithTtl = 5,
        PersistentSequentialWithTtl = 6,
    }
}

crate::numbered! {
    /// The number of a status.
    Status: u32, status_name {
        Well = 0,
        Short = 1,
        BadBool = 2,
        BadLength = 3,
        BadText = 4,
        NoMemory = 5,
        Trailing = 6,
        UnknownOp = 7,
        XidOp = 8,
        BadPart = 9,
        EventErr = 10,
        LengthRange = 11,
        QueueFull = 12,
        Unasked = 13,
        XidOrder = 14,
        StreamEnd = 15,
        Empty = 65,
        InUse = 66,
        Range = 67,
        Room = 68,
        NoMessage = 69,
        Null = 70,
        NotFirst = 81,
        Misfit = 82,
        TooLong = 83,
        LineWord = 91,
        LineNumber = 92,
        LineText = 93,
        LineBlob = 94,
        LineName = 95,
        LineRest = 96,
        LineEnding = 97,
    }
}

/// What an access right permits.
pub mod permission {
    pub const READ: i32 = 1;
    pub const WRITE: i32 = 2;
    pub const CREATE: i32 = 4;
    pub const DELETE: i32 = 8;
    pub const ADMIN: i32 = 16;
    pub const ALL: i32 = 31;
}
