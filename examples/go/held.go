package libzk

// #include <zk.h>
import "C"

import (
	"runtime"
	"sync"
)

// Limits are the greatest payloads of the sides in bytes, how many requests may wait, and the operations.
type Limits struct {
	Client  uint32
	Server  uint32
	Waiting uint32
	Profile Profile
}

// Usual are limits that are enough for most conversations.
var Usual = Limits{4194304, 4194304, 65536, ProfileNewest}

// empty is what a call on a closed handle returns.
var empty = Fault{Status: C.ZK_EMPTY}

// talk is what a Talk points to, so that a copy of the Talk has the same handle. One call at a time uses it.
type talk struct {
	sync.Mutex
	store
	handle C.struct_zk_talk
}

// Talk is a conversation as it comes. Its zero value is a closed one.
type Talk struct{ it *talk }

// NewTalk makes a talk of which nothing has come. It is freed when it is closed or collected.
func NewTalk(limits Limits) (Talk, error) {
	it := &talk{}
	status := C.zk_safe_talk_new(&it.handle, C.uint32_t(limits.Client), C.uint32_t(limits.Server),
		C.uint32_t(limits.Waiting), C.uint32_t(limits.Profile))
	if err := fault(status, 0); err != nil {
		return Talk{}, err
	}
	runtime.SetFinalizer(it, func(it *talk) { Talk{it}.Close() })
	return Talk{it}, nil
}

// Close frees the talk, whose calls are then refused. It returns nil, also where it is closed already.
func (t Talk) Close() error {
	if t.it != nil {
		t.it.Lock()
		defer t.it.Unlock()
		C.zk_safe_talk_free(&t.it.handle)
	}
	return nil
}

// Renew begins the talk anew with its limits, whatever came before: for one conversation after another.
func (t Talk) Renew() error {
	if t.it == nil {
		return empty
	}
	t.it.Lock()
	defer t.it.Unlock()
	return fault(C.zk_safe_talk_renew(&t.it.handle), 0)
}

// Pass takes bytes of a side and judges them as Feed does, but makes no message. It returns how many they complete, and
// the first fault.
func (t Talk) Pass(side Side, piece []byte) (whole int, err error) {
	if t.it == nil {
		return 0, empty
	}
	t.it.Lock()
	defer t.it.Unlock()
	for {
		step := C.zk_safe_talk_pass(&t.it.handle, C.uint32_t(side), start(piece), C.size_t(len(piece)))
		if err := refusal(step.status, step.fault); err != nil {
			return whole, err
		}
		if step.whole {
			whole++
		}
		if piece = piece[step.used:]; len(piece) == 0 {
			return whole, nil
		}
	}
}

// Feed returns the messages that these bytes of a side complete, and the first fault.
func (t Talk) Feed(side Side, piece []byte) ([]*Message, error) {
	if t.it == nil {
		return nil, empty
	}
	t.it.Lock()
	defer t.it.Unlock()
	var messages []*Message
	for {
		step := C.zk_safe_talk_step(&t.it.handle, C.uint32_t(side), start(piece), C.size_t(len(piece)))
		if err := refusal(step.status, step.fault); err != nil {
			return messages, err
		}
		if step.whole {
			message, err := t.it.newest(C.uint32_t(side))
			if err != nil {
				return messages, err
			}
			messages = append(messages, message)
		}
		if piece = piece[step.used:]; len(piece) == 0 {
			return messages, nil
		}
	}
}

// Offer takes the side's next frame, whole, its length included, if it may come next, and returns its message: for who asks
// before a frame is sent. An error says why it may not, and the talk is as it was, so that another may be offered. It is
// ErrRange if the bytes aren't one frame, or the side has begun another.
func (t Talk) Offer(side Side, frame []byte) (*Message, error) {
	if t.it == nil {
		return nil, empty
	}
	t.it.Lock()
	defer t.it.Unlock()
	step := C.zk_safe_talk_offer(&t.it.handle, C.uint32_t(side), start(frame), C.size_t(len(frame)))
	if err := refusal(step.status, step.fault); err != nil {
		return nil, err
	}
	return t.it.newest(C.uint32_t(side))
}

// newest returns the message of the side's kept frame.
func (it *talk) newest(side C.uint32_t) (*Message, error) {
	view := C.zk_safe_talk_view(&it.handle, side)
	if err := fault(view.status, 0); err != nil {
		return nil, err
	}
	payload := it.cut(int(view.size) - 4)
	written := C.zk_safe_talk_payload(&it.handle, side, start(payload), C.size_t(len(payload)))
	if err := fault(written.status, 0); err != nil {
		return nil, err
	}
	count := it.count()
	answer := C.zk_safe_talk_fields(&it.handle, side, &it.room[0], count)
	if answer.status == C.ZK_ROOM {
		it.grow(answer.count)
		answer = C.zk_safe_talk_fields(&it.handle, side, &it.room[0], it.count())
	}
	message, err := it.read(answer, payload)
	if err == nil {
		message.Frame, message.Answers = uint64(view.frame), uint64(view.answers)
	}
	return message, err
}

// Waiting returns how many requests wait for their replies, and their weight: 1 each, and 1 more for each part of a multi.
func (t Talk) Waiting() (requests, weight uint32, err error) {
	if t.it == nil {
		return 0, 0, empty
	}
	t.it.Lock()
	defer t.it.Unlock()
	waiting := C.zk_safe_talk_waiting(&t.it.handle)
	return uint32(waiting.requests), uint32(waiting.weight), fault(waiting.status, 0)
}

// Held returns how many bytes the side has sent of a frame that isn't whole, or is refused, its length included.
func (t Talk) Held(side Side) (uint32, error) {
	if t.it == nil {
		return 0, empty
	}
	t.it.Lock()
	defer t.it.Unlock()
	held := C.zk_safe_talk_held(&t.it.handle, C.uint32_t(side))
	return uint32(held.bytes), fault(held.status, 0)
}

// EndingKind is how a conversation ends.
type EndingKind uint32

// The kinds of endings.
const (
	Whole   EndingKind = C.ZK_WHOLE
	Cut     EndingKind = C.ZK_CUT
	Refused EndingKind = C.ZK_REFUSED
)

// Ending is how a conversation ends: with the number of requests Unanswered where it is whole; cut within a Side's frame of
// this number, of which Got bytes came; or refused with the Fault.
type Ending struct {
	Kind       EndingKind
	Unanswered uint32
	Side       Side
	Frame      uint64
	Got        uint32
	Fault      Fault
}

// Ending returns how the conversation ends if nothing more comes.
func (t Talk) Ending() (Ending, error) {
	if t.it == nil {
		return Ending{}, empty
	}
	t.it.Lock()
	defer t.it.Unlock()
	return ending(C.zk_safe_talk_finish(&t.it.handle))
}

// ending returns the ending that a call returned.
func ending(found C.struct_zk_ending) (Ending, error) {
	ending := Ending{EndingKind(found.kind), uint32(found.unanswered), Side(found.side), uint64(found.frame),
		uint32(found.got), Fault{}}
	if found.kind == C.ZK_REFUSED {
		ending.Fault = refusal(found.status, found.fault).(Fault)
	}
	return ending, fault(found.status, 0)
}

// Line returns the line of the side's newest message.
func (t Talk) Line(side Side) (string, error) {
	return t.text(func(out *C.uint8_t, room C.size_t) C.struct_zk_line {
		return C.zk_safe_talk_line(&t.it.handle, C.uint32_t(side), out, room)
	})
}

// EndingLine returns the line of how the conversation ends if nothing more comes.
func (t Talk) EndingLine() (string, error) {
	return t.text(func(out *C.uint8_t, room C.size_t) C.struct_zk_line {
		return C.zk_safe_talk_ending_line(&t.it.handle, out, room)
	})
}

func (t Talk) text(write func(*C.uint8_t, C.size_t) C.struct_zk_line) (string, error) {
	if t.it == nil {
		return "", empty
	}
	t.it.Lock()
	defer t.it.Unlock()
	line, err := written(512, write)
	return string(line), err
}

// written returns what a call writes, in a room that is large enough.
func written(room int, write func(*C.uint8_t, C.size_t) C.struct_zk_line) ([]byte, error) {
	out := make([]byte, room)
	line := write(start(out), C.size_t(len(out)))
	if line.status == C.ZK_ROOM {
		out = make([]byte, line.length)
		line = write(start(out), C.size_t(len(out)))
	}
	if err := fault(line.status, 0); err != nil {
		return nil, err
	}
	return out[:line.length:line.length], nil
}

// speaker is what a Speaker points to.
type speaker struct {
	sync.Mutex
	handle C.struct_zk_speaker
}

// Speaker makes the frames of what may be said next. Each message of both sides has to be said, so that replies free the
// places of their requests. Its zero value is a closed one.
type Speaker struct{ it *speaker }

// NewSpeaker makes a speaker that has said nothing. It is freed when it is closed or collected.
func NewSpeaker(limits Limits) (Speaker, error) {
	it := &speaker{}
	status := C.zk_safe_speaker_new(&it.handle, C.uint32_t(limits.Client), C.uint32_t(limits.Server),
		C.uint32_t(limits.Waiting), C.uint32_t(limits.Profile))
	if err := fault(status, 0); err != nil {
		return Speaker{}, err
	}
	runtime.SetFinalizer(it, func(it *speaker) { Speaker{it}.Close() })
	return Speaker{it}, nil
}

// Close frees the speaker, whose calls are then refused. It returns nil, also where it is closed already.
func (s Speaker) Close() error {
	if s.it != nil {
		s.it.Lock()
		defer s.it.Unlock()
		C.zk_safe_speaker_free(&s.it.handle)
	}
	return nil
}

// Renew begins the speaker anew with its limits: it has said nothing.
func (s Speaker) Renew() error {
	if s.it == nil {
		return empty
	}
	s.it.Lock()
	defer s.it.Unlock()
	return fault(C.zk_safe_speaker_renew(&s.it.handle), 0)
}

// Say returns the frame of the line's message, which may come next.
func (s Speaker) Say(line string) ([]byte, error) {
	if s.it == nil {
		return nil, empty
	}
	s.it.Lock()
	defer s.it.Unlock()
	text := []byte(line)
	said := C.zk_safe_speaker_say(&s.it.handle, start(text), C.size_t(len(text)))
	if err := fault(said.status, said.column); err != nil {
		return nil, err
	}
	return written(int(said.length), func(out *C.uint8_t, room C.size_t) C.struct_zk_line {
		return C.zk_safe_speaker_frame(&s.it.handle, out, room)
	})
}

// SayPayload returns the frame of the side's message of which the bytes are the payload, and which may come next.
func (s Speaker) SayPayload(side Side, payload []byte) ([]byte, error) {
	if s.it == nil {
		return nil, empty
	}
	s.it.Lock()
	defer s.it.Unlock()
	said := C.zk_safe_speaker_say_payload(&s.it.handle, C.uint32_t(side), start(payload), C.size_t(len(payload)))
	if err := fault(said.status, said.place); err != nil {
		return nil, err
	}
	return written(4+len(payload), func(out *C.uint8_t, room C.size_t) C.struct_zk_line {
		return C.zk_safe_speaker_frame(&s.it.handle, out, room)
	})
}
