package libzk

// #include <zk.h>
import "C"

// store has the memory of the messages that come next. Payloads, fields and messages are cut off larger pieces of it, so
// that few are allocated; who keeps a message keeps these pieces.
type store struct {
	room     []C.struct_zk_field
	bytes    []byte
	fields   []Field
	messages []Message
}

// Of what size a piece is: in bytes, in fields and in messages.
const (
	someBytes    = 8192
	someFields   = 256
	someMessages = 32
)

// names has the names of fields by their numbers.
var names = func() (names [256]string) {
	for number := range names {
		names[number] = C.GoString(C.zk_field_name(C.uint16_t(number)))
	}
	return
}()

// cut returns this many bytes.
func (s *store) cut(length int) []byte {
	if length > someBytes/4 {
		return make([]byte, length)
	}
	if cap(s.bytes)-len(s.bytes) < length {
		s.bytes = make([]byte, 0, someBytes)
	}
	from, to := len(s.bytes), len(s.bytes)+length
	s.bytes = s.bytes[:to]
	return s.bytes[from:to:to]
}

// next returns a message.
func (s *store) next() *Message {
	if len(s.messages) == cap(s.messages) {
		s.messages = make([]Message, 0, someMessages)
	}
	s.messages = s.messages[:len(s.messages)+1]
	return &s.messages[len(s.messages)-1]
}

// count returns how many fields there is room for, which is what a call is given.
func (s *store) count() C.size_t {
	if s.room == nil {
		s.room = make([]C.struct_zk_field, 32)
	}
	return C.size_t(len(s.room))
}

// grow makes room for this many fields.
func (s *store) grow(count C.uint32_t) { s.room = make([]C.struct_zk_field, count) }

// read returns the message whose fields were written into the room. It has the payload, which is not copied.
func (s *store) read(answer C.struct_zk_read, payload []byte) (*Message, error) {
	if err := fault(answer.status, answer.place); err != nil {
		return nil, err
	}
	count := int(answer.count)
	if cap(s.fields)-len(s.fields) < count {
		size := someFields
		if count > size {
			size = count
		}
		s.fields = make([]Field, 0, size)
	}
	from, to := len(s.fields), len(s.fields)+count
	s.fields = s.fields[:to]
	found := s.fields[from:to:to]
	for i := range found {
		field := &s.room[i]
		place := int(field.place)
		end := place + int(field.length) // what is appended to a content goes elsewhere
		found[i] = Field{names[field.name&255], FieldKind(field.kind), field.null != 0, int64(field.number), place,
			payload[place:end:end]}
	}
	message := s.next()
	*message = Message{Kind(answer.kind), int32(answer.xid), int32(answer.operation), int32(answer.err),
		int64(answer.zxid), 0, 0, payload, found}
	return message, nil
}
