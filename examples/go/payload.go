package libzk

// #include <zk.h>
import "C"

// judged returns what is wrong with a payload.
func judged(answer C.struct_zk_payload) error { return fault(answer.status, answer.place) }

// JudgeFirst returns why the payload is not that of a connect request, or nil. As all that judge it makes no message.
func JudgeFirst(payload []byte) error {
	return judged(C.zk_safe_judge_first(start(payload), C.size_t(len(payload))))
}

// JudgeRequest returns why the payload is not that of a request, or nil.
func JudgeRequest(profile Profile, payload []byte) error {
	return judged(C.zk_safe_judge_request(C.uint32_t(profile), start(payload), C.size_t(len(payload))))
}

// JudgeConnected returns why the payload is not that of the answer to a connect request, or nil.
func JudgeConnected(payload []byte) error {
	return judged(C.zk_safe_judge_connected(start(payload), C.size_t(len(payload))))
}

// JudgeReply returns why the payload is not that of a reply to a request of this operation, for a multi of these parts,
// or nil.
func JudgeReply(operation int32, parts []int32, payload []byte) error {
	return judged(C.zk_safe_judge_reply(C.int32_t(operation), firstPart(parts), C.size_t(len(parts)), start(payload),
		C.size_t(len(payload))))
}

// JudgeEvent returns why the payload is not that of an event, or nil.
func JudgeEvent(payload []byte) error {
	return judged(C.zk_safe_judge_event(start(payload), C.size_t(len(payload))))
}

// AsInt, AsLong, AsBool, AsText, AsBlob, AsNull, AsList and AsPart make the fields of a message that is written. The
// elements of a list follow its count, and the record of a part or a result of a multi its operation; the number of an
// error follows -1.

// AsInt is an int.
func AsInt(number int32) Field { return Field{Kind: Int, Number: int64(number)} }

// AsLong is a long.
func AsLong(number int64) Field { return Field{Kind: Long, Number: number} }

// AsBool is a boolean.
func AsBool(value bool) Field {
	if value {
		return Field{Kind: Bool, Number: 1}
	}
	return Field{Kind: Bool}
}

// AsText is a text.
func AsText(text string) Field { return Field{Kind: Text, Content: []byte(text)} }

// AsBlob is a blob.
func AsBlob(bytes []byte) Field { return Field{Kind: Blob, Content: bytes} }

// AsNull is a text, a blob or a list that is null.
func AsNull() Field { return Field{Kind: Blob, Null: true} }

// AsList is a list of this many elements.
func AsList(count int32) Field { return Field{Kind: List, Number: int64(count)} }

// AsPart is a part or a result of a multi.
func AsPart(operation int32) Field { return Field{Kind: Part, Number: int64(operation)} }

// items returns the fields as they are written, over a content of their texts and blobs.
func items(fields []Field) (found []C.struct_zk_field, content []byte, err error) {
	for index, field := range fields {
		item := C.struct_zk_field{kind: C.uint8_t(field.Kind), number: C.int64_t(field.Number)}
		switch {
		case field.Null:
			item.null = 1
		case field.Kind == Text || field.Kind == Blob:
			if uint64(len(content)+len(field.Content)) > 1<<31 {
				return nil, nil, Fault{Status: C.ZK_TOO_LONG, Place: uint32(index)}
			}
			item.place, item.length = C.uint32_t(len(content)), C.uint32_t(len(field.Content))
			content = append(content, field.Content...)
		}
		found = append(found, item)
	}
	return found, content, nil
}

// write writes the frame of fields into a room that is large enough.
func write(fields []Field, call func(*C.struct_zk_field, C.size_t, []byte, []byte) C.struct_zk_written) ([]byte, error) {
	found, content, err := items(fields)
	if err != nil {
		return nil, err
	}
	var first *C.struct_zk_field
	if len(found) > 0 {
		first = &found[0]
	}
	out := make([]byte, 64+len(content)+16*len(found))
	answer := call(first, C.size_t(len(found)), content, out)
	if answer.status == C.ZK_ROOM {
		out = make([]byte, answer.length)
		answer = call(first, C.size_t(len(found)), content, out)
	}
	if err := fault(answer.status, C.uint32_t(answer.index)); err != nil {
		return nil, err
	}
	return out[:answer.length:answer.length], nil
}

// WriteRequest returns the frame of a request. The fields are those that ReadRequest returns for such a request, in the
// same order; names and places are not read. Whether the frame may come next is judged by a talk.
func WriteRequest(xid, operation int32, fields ...Field) ([]byte, error) {
	return write(fields, func(at *C.struct_zk_field, count C.size_t, content, out []byte) C.struct_zk_written {
		return C.zk_safe_write_request(C.int32_t(xid), C.int32_t(operation), at, count, start(content),
			C.size_t(len(content)), start(out), C.size_t(len(out)))
	})
}

// WriteFirst returns the frame of a connect request.
func WriteFirst(fields ...Field) ([]byte, error) {
	return write(fields, func(at *C.struct_zk_field, count C.size_t, content, out []byte) C.struct_zk_written {
		return C.zk_safe_write_first(at, count, start(content), C.size_t(len(content)), start(out), C.size_t(len(out)))
	})
}

// WriteReply returns the frame of a reply to a request of this operation. A reply whose err is not 0 has no fields.
func WriteReply(xid int32, zxid int64, err, operation int32, fields ...Field) ([]byte, error) {
	return write(fields, func(at *C.struct_zk_field, count C.size_t, content, out []byte) C.struct_zk_written {
		return C.zk_safe_write_reply(C.int32_t(xid), C.int64_t(zxid), C.int32_t(err), C.int32_t(operation), at, count,
			start(content), C.size_t(len(content)), start(out), C.size_t(len(out)))
	})
}

// WriteEvent returns the frame of an event; a server's zxid is -1.
func WriteEvent(zxid int64, fields ...Field) ([]byte, error) {
	return write(fields, func(at *C.struct_zk_field, count C.size_t, content, out []byte) C.struct_zk_written {
		return C.zk_safe_write_event(C.int64_t(zxid), at, count, start(content), C.size_t(len(content)), start(out),
			C.size_t(len(out)))
	})
}

// WriteConnected returns the frame of the answer to a connect request.
func WriteConnected(fields ...Field) ([]byte, error) {
	return write(fields, func(at *C.struct_zk_field, count C.size_t, content, out []byte) C.struct_zk_written {
		return C.zk_safe_write_connected(at, count, start(content), C.size_t(len(content)), start(out), C.size_t(len(out)))
	})
}

// Piece are bytes of a side.
type Piece struct {
	Side  Side
	Bytes []byte
}

// Listing returns the line of each message of a conversation, and of its ending, each with a line feed. The pieces are in
// the order in which they came.
func Listing(limits Limits, pieces []Piece) (string, error) {
	cut, all := make([]C.struct_zk_piece, len(pieces)+1), []byte{}
	for i, piece := range pieces {
		cut[i] = C.struct_zk_piece{side: C.uint32_t(piece.Side), length: C.size_t(len(piece.Bytes))}
		all = append(all, piece.Bytes...)
	}
	text, err := written(64+4*len(all), func(out *C.uint8_t, room C.size_t) C.struct_zk_line {
		return C.zk_safe_listing(&cut[0], C.size_t(len(pieces)), start(all), C.size_t(len(all)), C.uint32_t(limits.Client),
			C.uint32_t(limits.Server), C.uint32_t(limits.Waiting), C.uint32_t(limits.Profile), out, room)
	})
	return string(text), err
}
