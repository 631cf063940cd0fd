/* names.c
 * Names of operations, errors, events and reasons: docs/FORMATS.md, and for the operations that it lacks ZooKeeper's
 * ZooDefs.java and KeeperException.java.
 *
 * SPDX-License-Identifier: GPL-2.0-or-later
 */
#include "names.h"

#include <epan/packet.h>

#include "verdict.h"

#define NUMBER(n) ((guint32)(n))

/* The lines from here on are written by dev/names.py; rows that the sources lack stay. */
const value_string op_names[] = {
    {NUMBER(-11), "closeSession"}, {NUMBER(-10), "createSession"}, {NUMBER(-1), "error"}, {0, "notification"},
    {1, "create"}, {2, "delete"}, {3, "exists"}, {4, "getData"}, {5, "setData"}, {6, "getACL"}, {7, "setACL"},
    {8, "getChildren"}, {9, "sync"}, {11, "ping"}, {12, "getChildren2"}, {13, "check"}, {14, "multi"}, {15, "create2"},
    {16, "reconfig"}, {17, "checkWatches"}, {18, "removeWatches"}, {19, "createContainer"}, {20, "deleteContainer"},
    {21, "createTTL"}, {22, "multiRead"}, {100, "auth"}, {101, "setWatches"}, {102, "sasl"}, {103, "getEphemerals"},
    {104, "getAllChildrenNumber"}, {105, "setWatches2"}, {106, "addWatch"}, {107, "whoAmI"}, {0, NULL},
};

const value_string error_names[] = {
    {0, "OK"}, {NUMBER(-1), "SYSTEMERROR"}, {NUMBER(-2), "RUNTIMEINCONSISTENCY"}, {NUMBER(-3), "DATAINCONSISTENCY"},
    {NUMBER(-4), "CONNECTIONLOSS"}, {NUMBER(-5), "MARSHALLINGERROR"}, {NUMBER(-6), "UNIMPLEMENTED"},
    {NUMBER(-7), "OPERATIONTIMEOUT"}, {NUMBER(-8), "BADARGUMENTS"}, {NUMBER(-12), "UNKNOWNSESSION"},
    {NUMBER(-13), "NEWCONFIGNOQUORUM"}, {NUMBER(-14), "RECONFIGINPROGRESS"}, {NUMBER(-100), "APIERROR"},
    {NUMBER(-101), "NONODE"}, {NUMBER(-102), "NOAUTH"}, {NUMBER(-103), "BADVERSION"},
    {NUMBER(-108), "NOCHILDRENFOREPHEMERALS"}, {NUMBER(-110), "NODEEXISTS"}, {NUMBER(-111), "NOTEMPTY"},
    {NUMBER(-112), "SESSIONEXPIRED"}, {NUMBER(-113), "INVALIDCALLBACK"}, {NUMBER(-114), "INVALIDACL"},
    {NUMBER(-115), "AUTHFAILED"}, {NUMBER(-118), "SESSIONMOVED"}, {NUMBER(-119), "NOTREADONLY"},
    {NUMBER(-120), "EPHEMERALONLOCALSESSION"}, {NUMBER(-121), "NOWATCHER"}, {NUMBER(-122), "REQUESTTIMEOUT"},
    {NUMBER(-123), "RECONFIGDISABLED"}, {NUMBER(-124), "SESSIONCLOSEDREQUIRESASLAUTH"}, {NUMBER(-125), "QUOTAEXCEEDED"},
    {NUMBER(-127), "THROTTLEDOP"}, {0, NULL},
};

const value_string event_kind_names[] = {
    {NUMBER(-1), "None"}, {1, "NodeCreated"}, {2, "NodeDeleted"}, {3, "NodeDataChanged"}, {4, "NodeChildrenChanged"},
    {5, "DataWatchRemoved"}, {6, "ChildWatchRemoved"}, {7, "PersistentWatchRemoved"}, {0, NULL},
};

const value_string reason_names[] = {
    {ZK_SHORT, "Short"}, {ZK_BAD_BOOL, "BadBool"}, {ZK_BAD_LENGTH, "BadLength"}, {ZK_BAD_TEXT, "BadText"},
    {ZK_NO_MEMORY, "NoMemory"}, {ZK_TRAILING, "Trailing"}, {ZK_UNKNOWN_OP, "UnknownOp"}, {ZK_XID_OP, "XidOp"},
    {ZK_BAD_PART, "BadPart"}, {ZK_EVENT_ERR, "EventErr"}, {ZK_LENGTH_RANGE, "LengthRange"},
    {ZK_QUEUE_FULL, "QueueFull"}, {ZK_UNASKED, "Unasked"}, {ZK_XID_ORDER, "XidOrder"}, {ZK_STREAM_END, "StreamEnd"},
    {0, NULL},
};
/* Up to here. */

const value_string kind_names[] = {
    {ZK_CONNECT, "connect request"}, {ZK_REQUEST, "request"}, {ZK_CONNECTED, "connect response"}, {ZK_REPLY, "reply"},
    {ZK_EVENT, "event"}, {0, NULL},
};

/* What a create request makes of a node: CreateMode.java. */
const value_string mode_names[] = {
    {0, "PERSISTENT"}, {1, "EPHEMERAL"}, {2, "PERSISTENT_SEQUENTIAL"}, {3, "EPHEMERAL_SEQUENTIAL"}, {4, "CONTAINER"},
    {5, "PERSISTENT_WITH_TTL"}, {6, "PERSISTENT_SEQUENTIAL_WITH_TTL"}, {0, NULL},
};

const value_string event_state_names[] = {
    {NUMBER(-112), "Expired"}, {NUMBER(-1), "Unknown"}, {0, "Disconnected"}, {1, "NoSyncConnected"},
    {3, "SyncConnected"}, {4, "AuthFailed"}, {5, "ConnectedReadOnly"}, {6, "SaslAuthenticated"}, {7, "Closed"},
    {0, NULL},
};

const value_string watch_type_names[] = {
    {1, "Children"}, {2, "Data"}, {3, "Any"}, {4, "Persistent"}, {5, "PersistentRecursive"}, {0, NULL},
};

const value_string watch_mode_names[] = {
    {0, "Persistent"}, {1, "PersistentRecursive"}, {0, NULL},
};

const value_string verdict_names[] = {
    {VERDICT_WELL, "well so far"}, {VERDICT_REFUSED, "refused here"}, {VERDICT_NONE, "not judged"},
    {VERDICT_LEFT_OUT, "left out"}, {VERDICT_UNSEEN, "its request was before a refused message"}, {0, NULL},
};

const value_string side_names[] = {{ZK_CLIENT, "C"}, {ZK_SERVER, "S"}, {0, NULL}};

int op_rows(void) {
    return (int)array_length(op_names) - 1;
}

int op_row(gint32 op) {
    int row = op_rows() - 1;
    while (row >= 0 && op_names[row].value != NUMBER(op)) {
        row--;
    }
    return row;
}

gboolean op_is_newer(gint32 op) {
    /* The lines from here on are written by dev/names.py. */
    return (op >= 15 && op <= 22) || (op >= 102 && op <= 107);
    /* Up to here. */
}

const char *name_of(gint32 number, const value_string *names) {
    return val_to_str_const(NUMBER(number), names, "?");
}
