package libzk

// #include <zk.h>
import "C"

import (
	"runtime"
	"sync"
)

// Went is what became of bytes of a passage.
type Went uint32

// WentWithin: no frame is whole. WentMessage: a frame is whole, a message. WentAsked: a request is whole whose operation
// the profile lacks, and is left out. WentAnswered: so is the reply to one. WentFull: nothing was used, and bytes of the
// other side come first. With this frame of the client more would wait than may; where all requests have their replies,
// it alone weighs more. Or the server's bytes have made room since, and the client's fit now. WentUnseen: a reply to a
// request that wasn't seen is whole (JoinThrough, SetResume). WentPassedOver: a frame is refused (SetResume).
const (
	WentWithin   Went = C.ZK_WITHIN
	WentMessage  Went = C.ZK_MESSAGE
	WentAsked    Went = C.ZK_ASKED
	WentAnswered Went = C.ZK_ANSWERED
	WentFull     Went = C.ZK_FULL
	WentUnseen   Went = C.ZK_UNSEEN

	WentPassedOver Went = 1<<32 - 1
)

// Passed is what became of the Used bytes of a step of a side. With WentMessage it has the Message. With WentAsked and
// WentAnswered it has the request's xid and operation, the number of its frame, and the payload that is left out; with
// WentUnseen the reply's xid, zxid, err and payload; with WentPassedOver the Fault.
type Passed struct {
	Side      Side
	Went      Went
	Used      int
	Message   *Message
	Xid       int32
	Operation int32
	Frame     uint64
	Zxid      int64
	Err       int32
	Payload   []byte
	Fault     Fault
}

// through is what a Through points to. It has what each side has begun of a frame, whether it goes on after a refusal,
// whether the client's next frame has no room, and the pieces of the client that Take keeps.
type through struct {
	sync.Mutex
	store
	handle  C.struct_zk_through
	came    [2][]byte
	resumes bool
	full    bool
	later   [][]byte
}

// Through is a passage: a conversation that goes on where its profile ends. Its zero value is a closed one.
type Through struct{ it *through }

// NewThrough makes a passage of which nothing has come. It is freed when it is closed or collected.
func NewThrough(limits Limits) (Through, error) {
	it := &through{}
	return it.made(C.zk_safe_through_new(&it.handle, C.uint32_t(limits.Client), C.uint32_t(limits.Server),
		C.uint32_t(limits.Waiting), C.uint32_t(limits.Profile)))
}

// JoinThrough makes a passage of a connection that is seen late: frame 0 of each side was made up, and each side's first
// byte is to begin a frame, the server's before it answers what the client's ask. Begun anew, it is as a new one.
func JoinThrough(limits Limits) (Through, error) {
	it := &through{}
	return it.made(C.zk_safe_through_join(&it.handle, C.uint32_t(limits.Client), C.uint32_t(limits.Server),
		C.uint32_t(limits.Waiting), C.uint32_t(limits.Profile)))
}

// made returns the passage if its call has made it.
func (it *through) made(status C.uint32_t) (Through, error) {
	if err := fault(status, 0); err != nil {
		return Through{}, err
	}
	runtime.SetFinalizer(it, func(it *through) { Through{it}.Close() })
	return Through{it}, nil
}

// Close frees the passage, whose calls are then refused. It returns nil, also where it is closed already.
func (p Through) Close() error {
	if p.it != nil {
		p.it.Lock()
		defer p.it.Unlock()
		C.zk_safe_through_free(&p.it.handle)
	}
	return nil
}

// Renew begins the passage anew with its limits, whatever came before: for one conversation after another.
func (p Through) Renew() error {
	if p.it == nil {
		return empty
	}
	p.it.Lock()
	defer p.it.Unlock()
	p.it.came, p.it.full, p.it.later = [2][]byte{}, false, nil
	return fault(C.zk_safe_through_renew(&p.it.handle), 0)
}

// SetResume sets whether the passage goes on after a refusal, at the end of the refused frame, which is then
// WentPassedOver, in place of the error. From there on it is as one of JoinThrough: frames and bytes are counted from there,
// no request waits, and a reply to an earlier one is WentUnseen. A frame that has no end is refused all the same:
// ErrLengthRange and ErrStreamEnd.
func (p Through) SetResume(resumes bool) error {
	if p.it == nil {
		return empty
	}
	p.it.Lock()
	defer p.it.Unlock()
	p.it.resumes = resumes
	return nil
}

// Line returns the line of the side's newest message. It has none if the side's newest frame is left out.
func (p Through) Line(side Side) (string, error) {
	return p.text(func(out *C.uint8_t, room C.size_t) C.struct_zk_line {
		return C.zk_safe_through_line(&p.it.handle, C.uint32_t(side), out, room)
	})
}

// EndingLine returns the line of how the conversation ends if nothing more comes.
func (p Through) EndingLine() (string, error) {
	return p.text(func(out *C.uint8_t, room C.size_t) C.struct_zk_line {
		return C.zk_safe_through_ending_line(&p.it.handle, out, room)
	})
}

func (p Through) text(write func(*C.uint8_t, C.size_t) C.struct_zk_line) (string, error) {
	if p.it == nil {
		return "", empty
	}
	p.it.Lock()
	defer p.it.Unlock()
	line, err := written(512, write)
	return string(line), err
}

// Waiting returns how many requests wait for their replies, also those left out, and their weight: 1 each, and 1 more for
// each part of a multi that isn't left out.
func (p Through) Waiting() (requests, weight uint32, err error) {
	if p.it == nil {
		return 0, 0, empty
	}
	p.it.Lock()
	defer p.it.Unlock()
	waiting := C.zk_safe_through_waiting(&p.it.handle)
	return uint32(waiting.requests), uint32(waiting.weight), fault(waiting.status, 0)
}

// Held returns how many bytes the side has sent of a frame that isn't whole, or is refused, its length included.
func (p Through) Held(side Side) (uint32, error) {
	if p.it == nil {
		return 0, empty
	}
	p.it.Lock()
	defer p.it.Unlock()
	held := C.zk_safe_through_held(&p.it.handle, C.uint32_t(side))
	return uint32(held.bytes), fault(held.status, 0)
}

// Feed returns what became of these bytes of a side, step by step, and the first fault. Where the last step is WentFull,
// feed the other side's bytes, and then again those of this piece that weren't used: the server's up to the next reply,
// then the client's, and so on. Take does this.
func (p Through) Feed(side Side, piece []byte) (every []Passed, err error) {
	if p.it == nil {
		return nil, empty
	}
	p.it.Lock()
	defer p.it.Unlock()
	_, every, err = p.it.feed(side, piece, nil, false)
	return every, err
}

// Pass does what Feed does, but makes no message and copies no payload; the side then shows no message.
func (p Through) Pass(side Side, piece []byte) (every []Passed, err error) {
	if p.it == nil {
		return nil, empty
	}
	p.it.Lock()
	defer p.it.Unlock()
	_, every, err = p.it.feed(side, piece, nil, true)
	return every, err
}

// Offer takes the side's next frame, whole, its length included, if it may come next, and returns what became of it: for who
// asks before a frame is sent. Where it is WentFull, or an error says why it may not, the passage is as it was, so that
// another may be offered. It is ErrRange if the bytes aren't one frame, or the side has begun another.
func (p Through) Offer(side Side, frame []byte) (Passed, error) {
	if p.it == nil {
		return Passed{}, empty
	}
	p.it.Lock()
	defer p.it.Unlock()
	step := C.zk_safe_through_offer(&p.it.handle, C.uint32_t(side), start(frame), C.size_t(len(frame)))
	if err := refusal(step.status, step.fault); err != nil {
		return Passed{}, err
	}
	passed, err := p.it.passed(side, step, false)
	p.it.full = p.it.full && !passed.makesRoom()
	return passed, err
}

// Take returns what became of what a side sent, in the order in which it came, and the first fault. While more would wait
// than may, what the client sends is kept, and taken after each reply: the step before is WentFull.
func (p Through) Take(side Side, piece []byte) (every []Passed, err error) {
	if p.it == nil {
		return nil, empty
	}
	p.it.Lock()
	defer p.it.Unlock()
	if side == Client {
		p.it.later = append(p.it.later, append([]byte{}, piece...))
		if len(p.it.later) > 1 {
			return nil, nil
		}
		return p.it.takeLater(nil)
	}
	for {
		if piece, every, err = p.it.feed(side, piece, every, false); err != nil {
			return every, err
		}
		if last := len(every) - 1; every[last].Went == WentFull {
			every = every[:last]
		}
		if !p.it.full {
			if every, err = p.it.takeLater(every); err != nil {
				return every, err
			}
		}
		if len(piece) == 0 {
			return every, nil
		}
	}
}

// takeLater takes what the client sent, as far as it may come.
func (it *through) takeLater(every []Passed) (_ []Passed, err error) {
	for len(it.later) > 0 {
		if it.later[0], every, err = it.feed(Client, it.later[0], every, false); err != nil || it.full {
			return every, err
		}
		it.later = it.later[1:]
	}
	it.later = nil
	return every, nil
}

// feed appends what becomes of a piece, up to WentFull, and returns the rest of the piece.
func (it *through) feed(side Side, piece []byte, every []Passed, passes bool) ([]byte, []Passed, error) {
	for {
		passed, err := it.step(side, piece, passes)
		if err != nil {
			return piece, every, err
		}
		every, piece = append(every, passed), piece[passed.Used:]
		if side == Client {
			it.full = passed.Went == WentFull
		}
		room := it.full && passed.makesRoom() // the client's frame may have it
		it.full = it.full && !room
		if len(piece) == 0 || passed.Went == WentFull {
			return piece, every, nil
		}
		if room {
			return piece, append(every, Passed{Side: side, Went: WentFull}), nil
		}
	}
}

// makesRoom returns whether a request, or all of them, wait no more with this step of the server.
func (passed *Passed) makesRoom() bool {
	return passed.Went == WentAnswered || passed.Went == WentPassedOver ||
		passed.Message != nil && passed.Message.Kind == Reply
}

// step takes bytes of a side, and returns what became of them.
func (it *through) step(side Side, piece []byte, passes bool) (Passed, error) {
	var step C.struct_zk_passed
	if passes {
		step = C.zk_safe_through_pass(&it.handle, C.uint32_t(side), start(piece), C.size_t(len(piece)))
	} else {
		step = C.zk_safe_through_step(&it.handle, C.uint32_t(side), start(piece), C.size_t(len(piece)))
	}
	if why, is := refusal(step.status, step.fault).(Fault); is {
		return it.passOver(side, why)
	}
	passed, err := it.passed(side, step, passes)
	it.came[side] = append(it.came[side], piece[:passed.Used]...)
	if passed.Went != WentWithin && passed.Went != WentFull {
		it.came[side] = it.came[side][:0]
	}
	return passed, err
}

// passed returns what became of the side's bytes, with the message or the payload.
func (it *through) passed(side Side, step C.struct_zk_passed, passes bool) (passed Passed, err error) {
	passed = Passed{Side: side, Went: Went(step.went), Used: int(step.used), Xid: int32(step.xid),
		Operation: int32(step.operation), Frame: uint64(step.frame), Zxid: int64(step.zxid), Err: int32(step.err)}
	switch {
	case passes || passed.Went == WentWithin || passed.Went == WentFull:
	case passed.Went == WentMessage:
		passed.Message, err = it.newest(C.uint32_t(side))
	default:
		length := C.zk_safe_through_payload(&it.handle, C.uint32_t(side), nil, 0).length
		passed.Payload, err = it.payload(C.uint32_t(side), int(length))
	}
	return passed, err
}

// passOver goes on after a refusal, if the passage does so and the refused frame has an end. What the other side has begun
// of a frame is given again.
func (it *through) passOver(side Side, why Fault) (Passed, error) {
	if !it.resumes || !why.Refused {
		return Passed{}, why
	}
	step := C.zk_safe_through_resume(&it.handle)
	if step.status != C.ZK_WELL {
		return Passed{}, why
	}
	other := 1 - why.At.Side
	it.came[why.At.Side] = it.came[why.At.Side][:0]
	C.zk_safe_through_step(&it.handle, C.uint32_t(other), start(it.came[other]), C.size_t(len(it.came[other])))
	return Passed{Side: side, Went: WentPassedOver, Used: int(step.used), Fault: why}, nil
}

// payload returns the payload of the side's newest frame, of this length.
func (it *through) payload(side C.uint32_t, length int) ([]byte, error) {
	payload := it.cut(length)
	written := C.zk_safe_through_payload(&it.handle, side, start(payload), C.size_t(len(payload)))
	return payload, fault(written.status, 0)
}

// newest returns the message of the side's newest frame.
func (it *through) newest(side C.uint32_t) (*Message, error) {
	view := C.zk_safe_through_view(&it.handle, side)
	if err := fault(view.status, 0); err != nil {
		return nil, err
	}
	payload, err := it.payload(side, int(view.size)-4)
	if err != nil {
		return nil, err
	}
	count := it.count()
	answer := C.zk_safe_through_fields(&it.handle, side, &it.room[0], count)
	if answer.status == C.ZK_ROOM {
		it.grow(answer.count)
		answer = C.zk_safe_through_fields(&it.handle, side, &it.room[0], it.count())
	}
	message, err := it.read(answer, payload)
	if err == nil {
		message.Frame, message.Answers = uint64(view.frame), uint64(view.answers)
	}
	return message, err
}

// Ending returns how the conversation ends if nothing more comes, with all frames that came.
func (p Through) Ending() (Ending, error) {
	if p.it == nil {
		return Ending{}, empty
	}
	p.it.Lock()
	defer p.it.Unlock()
	return ending(C.zk_safe_through_finish(&p.it.handle))
}
