package libzk

// Constants of numbers, and their names; written by dev/names.py.

// #include <zk.h>
import "C"

// The numbers of an operation, or of a part of a multi.
const (
	OpCloseSession         = -11
	OpCreate               = 1
	OpDelete               = 2
	OpExists               = 3
	OpGetData              = 4
	OpSetData              = 5
	OpGetACL               = 6
	OpSetACL               = 7
	OpGetChildren          = 8
	OpSync                 = 9
	OpPing                 = 11
	OpGetChildren2         = 12
	OpCheck                = 13
	OpMulti                = 14
	OpCreate2              = 15
	OpReconfig             = 16
	OpCheckWatches         = 17
	OpRemoveWatches        = 18
	OpCreateContainer      = 19
	OpDeleteContainer      = 20
	OpCreateTTL            = 21
	OpMultiRead            = 22
	OpAuth                 = 100
	OpSetWatches           = 101
	OpSasl                 = 102
	OpGetEphemerals        = 103
	OpGetAllChildrenNumber = 104
	OpSetWatches2          = 105
	OpAddWatch             = 106
	OpWhoAmI               = 107
)

// The numbers of a reply's err.
const (
	CodeOk                           = 0
	CodeSystemError                  = -1
	CodeRuntimeInconsistency         = -2
	CodeDataInconsistency            = -3
	CodeConnectionLoss               = -4
	CodeMarshallingError             = -5
	CodeUnimplemented                = -6
	CodeOperationTimeout             = -7
	CodeBadArguments                 = -8
	CodeUnknownSession               = -12
	CodeNewConfigNoQuorum            = -13
	CodeReconfigInProgress           = -14
	CodeApiError                     = -100
	CodeNoNode                       = -101
	CodeNoAuth                       = -102
	CodeBadVersion                   = -103
	CodeNoChildrenForEphemerals      = -108
	CodeNodeExists                   = -110
	CodeNotEmpty                     = -111
	CodeSessionExpired               = -112
	CodeInvalidCallback              = -113
	CodeInvalidAcl                   = -114
	CodeAuthFailed                   = -115
	CodeSessionMoved                 = -118
	CodeNotReadOnly                  = -119
	CodeEphemeralOnLocalSession      = -120
	CodeNoWatcher                    = -121
	CodeRequestTimeout               = -122
	CodeReconfigDisabled             = -123
	CodeSessionClosedRequireSaslAuth = -124
	CodeQuotaExceeded                = -125
	CodeThrottledOp                  = -127
)

// The numbers of an event's type.
const (
	EventNone                   = -1
	EventNodeCreated            = 1
	EventNodeDeleted            = 2
	EventNodeDataChanged        = 3
	EventNodeChildrenChanged    = 4
	EventDataWatchRemoved       = 5
	EventChildWatchRemoved      = 6
	EventPersistentWatchRemoved = 7
)

// The numbers of an event's state.
const (
	StateExpired           = -112
	StateUnknown           = -1
	StateDisconnected      = 0
	StateNoSyncConnected   = 1
	StateSyncConnected     = 3
	StateAuthFailed        = 4
	StateConnectedReadOnly = 5
	StateSaslAuthenticated = 6
	StateClosed            = 7
)

// The numbers of the flags of a create request.
const (
	CreatePersistent                  = 0
	CreateEphemeral                   = 1
	CreatePersistentSequential        = 2
	CreateEphemeralSequential         = 3
	CreateContainer                   = 4
	CreatePersistentWithTTL           = 5
	CreatePersistentSequentialWithTTL = 6
)

// The numbers of a status.
const (
	StatusWell        = 0
	StatusShort       = 1
	StatusBadBool     = 2
	StatusBadLength   = 3
	StatusBadText     = 4
	StatusNoMemory    = 5
	StatusTrailing    = 6
	StatusUnknownOp   = 7
	StatusXidOp       = 8
	StatusBadPart     = 9
	StatusEventErr    = 10
	StatusLengthRange = 11
	StatusQueueFull   = 12
	StatusUnasked     = 13
	StatusXidOrder    = 14
	StatusStreamEnd   = 15
	StatusEmpty       = 65
	StatusInUse       = 66
	StatusRange       = 67
	StatusRoom        = 68
	StatusNoMessage   = 69
	StatusNull        = 70
	StatusNotFirst    = 81
	StatusMisfit      = 82
	StatusTooLong     = 83
	StatusLineWord    = 91
	StatusLineNumber  = 92
	StatusLineText    = 93
	StatusLineBlob    = 94
	StatusLineName    = 95
	StatusLineRest    = 96
	StatusLineEnding  = 97
)

// What an access right permits.
const (
	PermitRead   = 1
	PermitWrite  = 2
	PermitCreate = 4
	PermitDelete = 8
	PermitAdmin  = 16
	PermitAll    = 31
)

// The faults of each status, for errors.Is.
var (
	ErrShort       = Fault{Status: 1}
	ErrBadBool     = Fault{Status: 2}
	ErrBadLength   = Fault{Status: 3}
	ErrBadText     = Fault{Status: 4}
	ErrNoMemory    = Fault{Status: 5}
	ErrTrailing    = Fault{Status: 6}
	ErrUnknownOp   = Fault{Status: 7}
	ErrXidOp       = Fault{Status: 8}
	ErrBadPart     = Fault{Status: 9}
	ErrEventErr    = Fault{Status: 10}
	ErrLengthRange = Fault{Status: 11}
	ErrQueueFull   = Fault{Status: 12}
	ErrUnasked     = Fault{Status: 13}
	ErrXidOrder    = Fault{Status: 14}
	ErrStreamEnd   = Fault{Status: 15}
	ErrEmpty       = Fault{Status: 65}
	ErrInUse       = Fault{Status: 66}
	ErrRange       = Fault{Status: 67}
	ErrRoom        = Fault{Status: 68}
	ErrNoMessage   = Fault{Status: 69}
	ErrNull        = Fault{Status: 70}
	ErrNotFirst    = Fault{Status: 81}
	ErrMisfit      = Fault{Status: 82}
	ErrTooLong     = Fault{Status: 83}
	ErrLineWord    = Fault{Status: 91}
	ErrLineNumber  = Fault{Status: 92}
	ErrLineText    = Fault{Status: 93}
	ErrLineBlob    = Fault{Status: 94}
	ErrLineName    = Fault{Status: 95}
	ErrLineRest    = Fault{Status: 96}
	ErrLineEnding  = Fault{Status: 97}
)

// OperationName returns the name of an operation, or of a part of a multi, or "".
func OperationName(number int32) string {
	return C.GoString(C.zk_operation_name(C.int32_t(number)))
}

// ErrorName returns the name of a reply's err, or "".
func ErrorName(number int32) string {
	return C.GoString(C.zk_error_name(C.int32_t(number)))
}

// EventName returns the name of an event's type, or "".
func EventName(number int64) string {
	return C.GoString(C.zk_event_name(C.int64_t(number)))
}

// StateName returns the name of an event's state, or "".
func StateName(number int64) string {
	return C.GoString(C.zk_state_name(C.int64_t(number)))
}

// FlagsName returns the name of the flags of a create request, or "".
func FlagsName(number int64) string {
	return C.GoString(C.zk_flags_name(C.int64_t(number)))
}

// StatusName returns the name of a status, or "".
func StatusName(number uint32) string {
	return C.GoString(C.zk_status_name(C.uint32_t(number)))
}
