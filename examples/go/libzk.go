// Package libzk reads ZooKeeper's client protocol by the proved library libzk: the fields of payloads, conversations,
// and requests.
//
// It is built where the compiler finds zk.h and libzk: an installed library, or one that CGO_CFLAGS and CGO_LDFLAGS
// name. With the tag pkgconfig, pkg-config is asked for both.
// Messages are copies: they have no memory of the library's. Talks, passages and speakers may be used by any goroutine.
package libzk

// #cgo !pkgconfig LDFLAGS: -lzk
// #cgo pkgconfig pkg-config: zk
// #include <zk.h>
import "C"

import (
	"fmt"
	"unsafe"
)

// The library that is loaded must not be older than the header by which this package was compiled.
func init() {
	if found := Version(); found < C.ZK_VERSION_NUMBER {
		panic(fmt.Sprintf("libzk is %d, and this package needs %d or later", found, uint32(C.ZK_VERSION_NUMBER)))
	}
}

// Version returns that of the library: a million for each major number, a thousand for each minor one.
func Version() uint32 { return uint32(C.zk_version()) }

// Side is who speaks.
type Side uint32

// The sides.
const (
	Client Side = C.ZK_CLIENT
	Server Side = C.ZK_SERVER
)

// Profile is a release, whose operations are known.
type Profile uint32

// The profiles.
const (
	// The lines from here on are written by dev/names.py.
	Profile34     Profile = C.ZK_PROFILE_34
	Profile35     Profile = C.ZK_PROFILE_35
	Profile37     Profile = C.ZK_PROFILE_37
	ProfileNewest Profile = Profile37
	// Up to here.
)

// Kind is a kind of messages.
type Kind uint32

// The kinds of messages.
const (
	Connect   Kind = C.ZK_CONNECT
	Request   Kind = C.ZK_REQUEST
	Connected Kind = C.ZK_CONNECTED
	Reply     Kind = C.ZK_REPLY
	Event     Kind = C.ZK_EVENT
)

// FieldKind is a kind of fields. The elements of a list follow it, and so does the record of a part of a multi.
type FieldKind uint8

// The kinds of fields.
const (
	Int  FieldKind = C.ZK_KIND_INT
	Long FieldKind = C.ZK_KIND_LONG
	Bool FieldKind = C.ZK_KIND_BOOL
	Text FieldKind = C.ZK_KIND_TEXT
	Blob FieldKind = C.ZK_KIND_BLOB
	List FieldKind = C.ZK_KIND_LIST
	Part FieldKind = C.ZK_KIND_PART
)

// Field is a field of a message. Number is that of an int, a long or a boolean (1: true), a list's count, or the
// operation of a part (-1: a result that is an error). Content are the bytes of the payload from Place on: of a text or
// a blob those after its length.
type Field struct {
	Name    string
	Kind    FieldKind
	Null    bool
	Number  int64
	Place   int
	Content []byte
}

// Message is a message. The operation of a reply is that of its request. Frame is the number of its frame among those of
// its side in a talk, from 0; Answers is that of the client's frame that a reply answers, else 0.
type Message struct {
	Kind      Kind
	Xid       int32
	Operation int32
	Err       int32
	Zxid      int64
	Frame     uint64
	Answers   uint64
	Payload   []byte
	Fields    []Field
}

// Get returns the first field of this name.
func (message *Message) Get(name string) (Field, bool) {
	for _, field := range message.Fields {
		if field.Name == name {
			return field, true
		}
	}
	return Field{}, false
}

// Fault is why bytes are no message, or a call can't be made, and the place in the payload, the column in a line or the
// index of a field. Where a talk refuses a conversation, Refused is true, and At says by which byte.
type Fault struct {
	Status  uint32
	Place   uint32
	Refused bool
	At      At
}

// At is a byte by which a conversation is refused: who sent it, the number of its frame among those of its side, from 0,
// and how many bytes the side had sent, this one included. Expected and Got are the xids if a reply comes out of order.
type At struct {
	Side     Side
	Frame    uint64
	Offset   uint64
	Expected int32
	Got      int32
}

// Is returns whether this is a fault of the status that the target has alone: errors.Is(err, ErrUnasked).
func (fault Fault) Is(target error) bool {
	other, is := target.(Fault)
	return is && other == Fault{Status: fault.Status}
}

func (fault Fault) Error() string {
	return fmt.Sprintf("%s at %d", StatusName(fault.Status), fault.Place)
}

// fault returns nil for a call that did what it is for.
func fault(status, place C.uint32_t) error {
	if status == C.ZK_WELL {
		return nil
	}
	return Fault{Status: uint32(status), Place: uint32(place)}
}

// refusal returns why a conversation is refused, or why a call did nothing; nil for a call that did what it is for.
func refusal(status C.uint32_t, found C.struct_zk_fault) error {
	if found.reason == 0 {
		return fault(status, 0)
	}
	return Fault{uint32(found.reason), uint32(found.place), true, At{Side(found.side), uint64(found.frame),
		uint64(found.offset), int32(found.expected), int32(found.got)}}
}

// start returns a pointer to the bytes, or nil for none, which the header's calls take.
func start(bytes []byte) *C.uint8_t {
	if len(bytes) == 0 {
		return nil
	}
	return (*C.uint8_t)(unsafe.Pointer(&bytes[0]))
}

// read reads fields into a room that is large enough. The message has a copy of the payload.
func read(payload []byte, call func(*C.uint8_t, *C.struct_zk_field, C.size_t) C.struct_zk_read) (*Message, error) {
	var s store
	payload = append([]byte(nil), payload...)
	count := s.count()
	answer := call(start(payload), &s.room[0], count)
	if answer.status == C.ZK_ROOM {
		s.grow(answer.count)
		answer = call(start(payload), &s.room[0], s.count())
	}
	if answer.status == C.ZK_WELL {
		s.fields, s.messages = make([]Field, 0, answer.count), make([]Message, 0, 1)
	}
	return s.read(answer, payload)
}

// ReadFirst reads the payload of a connect request.
func ReadFirst(payload []byte) (*Message, error) {
	return read(payload, func(at *C.uint8_t, out *C.struct_zk_field, room C.size_t) C.struct_zk_read {
		return C.zk_safe_read_first(at, C.size_t(len(payload)), out, room)
	})
}

// ReadRequest reads the payload of a request.
func ReadRequest(profile Profile, payload []byte) (*Message, error) {
	return read(payload, func(at *C.uint8_t, out *C.struct_zk_field, room C.size_t) C.struct_zk_read {
		return C.zk_safe_read_request(C.uint32_t(profile), at, C.size_t(len(payload)), out, room)
	})
}

// ReadConnected reads the payload of the answer to a connect request.
func ReadConnected(payload []byte) (*Message, error) {
	return read(payload, func(at *C.uint8_t, out *C.struct_zk_field, room C.size_t) C.struct_zk_read {
		return C.zk_safe_read_connected(at, C.size_t(len(payload)), out, room)
	})
}

// firstPart returns a pointer to the parts, or nil for none.
func firstPart(parts []int32) *C.int32_t {
	if len(parts) == 0 {
		return nil
	}
	return (*C.int32_t)(unsafe.Pointer(&parts[0]))
}

// ReadReply reads the payload of a reply to a request of this operation, for a multi of these parts.
func ReadReply(operation int32, parts []int32, payload []byte) (*Message, error) {
	first := firstPart(parts)
	return read(payload, func(at *C.uint8_t, out *C.struct_zk_field, room C.size_t) C.struct_zk_read {
		return C.zk_safe_read_reply(C.int32_t(operation), first, C.size_t(len(parts)), at,
			C.size_t(len(payload)), out, room)
	})
}

// ReadEvent reads the payload of an event.
func ReadEvent(payload []byte) (*Message, error) {
	return read(payload, func(at *C.uint8_t, out *C.struct_zk_field, room C.size_t) C.struct_zk_read {
		return C.zk_safe_read_event(at, C.size_t(len(payload)), out, room)
	})
}
