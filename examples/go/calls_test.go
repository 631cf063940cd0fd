package libzk

// Calls beside those of a conversation; the payloads are those of docs/EXAMPLES.md and docs/FORMATS.md.

import (
	"bytes"
	"errors"
	"reflect"
	"strings"
	"testing"
)

const (
	hello    = "00000000 0000000000000000 00007530 0000000000000000 00000010 00000000000000000000000000000000 00"
	welcome  = "00000000 00007530 0000000000000001 00000010 000102030405060708090a0b0c0d0e0f 00"
	noNode   = "00000001 0000000000000005 ffffff9b"
	event    = "ffffffff ffffffffffffffff 00000000 00000003 00000003 00000002 2f61"
	multi    = "00000003 0000000e 00000002 00 ffffffff 00000002 2f61 ffffffff ffffffff 01 ffffffff"
	addWatch = "00000003 0000006a 00000002 2f61 00000001"
)

// framed returns the frames of payloads, one after the other.
func framed(payloads ...string) (found []byte) {
	for _, digits := range payloads {
		bytes := payload(digits)
		found = append(found, 0, 0, byte(len(bytes)>>8), byte(len(bytes)))
		found = append(found, bytes...)
	}
	return
}

func newTalk(t *testing.T) Talk {
	talk, err := NewTalk(Usual)
	if err != nil {
		t.Fatal(err)
	}
	return talk
}

func TestJudged(t *testing.T) {
	for digits, judge := range map[string]func([]byte) error{
		hello: JudgeFirst, welcome: JudgeConnected, event: JudgeEvent,
		exists: func(payload []byte) error { return JudgeRequest(Profile34, payload) },
		noNode: func(payload []byte) error { return JudgeReply(3, nil, payload) },
	} {
		well := payload(digits)
		if err := judge(well); err != nil {
			t.Error(digits, err)
		}
		wanted := Fault{Status: 6, Place: uint32(len(well))}
		if err := judge(append(well, 0, 0)); err != wanted {
			t.Error(digits, err)
		}
		if err := judge(nil); err != (Fault{Status: 1}) {
			t.Error(digits, err)
		}
	}
	if err := JudgeReply(3, []int32{1}, payload(noNode)); err == nil || err.Error() != "RANGE at 0" {
		t.Error(err)
	}
}

func TestWritten(t *testing.T) {
	for _, row := range []struct {
		digits         string
		xid, operation int32
		fields         []Field
	}{
		{exists, 1, 3, []Field{AsText("/a"), AsBool(true)}},
		{multi, 3, 14, []Field{AsPart(2), AsText("/a"), AsInt(-1)}},
		{"fffffffe 0000000b", -2, 11, nil},
		{"00000002 00000005 00000002 2f61 00000001 07 00000000", 2, 5, []Field{AsText("/a"), AsBlob([]byte{7}), AsInt(0)}},
		{"fffffff8 00000065 0000000000000005 00000001 00000002 2f61 00000000 ffffffff", -8, 101,
			[]Field{AsLong(5), AsList(1), AsText("/a"), AsList(0), AsNull()}},
	} {
		if frame, err := WriteRequest(row.xid, row.operation, row.fields...); err != nil || !bytes.Equal(frame, framed(row.digits)) {
			t.Error(row.digits, frame, err)
		}
		message, err := ReadRequest(Profile34, payload(row.digits))
		if err != nil {
			t.Fatal(row.digits, err)
		}
		again, err := WriteRequest(message.Xid, message.Operation, message.Fields...)
		if err != nil || !bytes.Equal(again, framed(row.digits)) {
			t.Error(row.digits, again, err)
		}
	}
	first := []Field{AsInt(0), AsLong(0), AsInt(30000), AsLong(0), AsBlob(make([]byte, 16)), AsBool(false)}
	if frame, err := WriteFirst(first...); err != nil || !bytes.Equal(frame, framed(hello)) {
		t.Error(frame, err)
	}
	long := AsText("/" + strings.Repeat("a", 5000))
	if frame, err := WriteRequest(1, 3, long, AsBool(true)); err != nil || len(frame) != 4+8+4+5001+1 {
		t.Error(len(frame), err)
	}
	if _, err := WriteRequest(1, 3, AsText("/a"), AsText("\xff")); err != (Fault{Status: 67, Place: 1}) {
		t.Error(err)
	}
}

func TestAnswersWritten(t *testing.T) {
	results := []Field{AsPart(1), AsText("/a"), AsPart(-1), AsInt(-110)}
	nodes := []Field{AsList(2), AsText("b"), AsNull()}
	changed := []Field{AsInt(3), AsInt(3), AsText("/a")}
	session := []Field{AsInt(0), AsInt(30000), AsLong(1), AsBlob(payload(welcome)[20:36]), AsBool(false)}
	for digits, write := range map[string]func() ([]byte, error){
		noNode: func() ([]byte, error) { return WriteReply(1, 5, -101, 3) },
		"00000002 0000000000000006 00000000 00000001 00 00000000 00000002 2f61 ffffffff 00 ffffff92 ffffff92" +
			"ffffffff 01 ffffffff": func() ([]byte, error) { return WriteReply(2, 6, 0, 14, results...) },
		"00000003 0000000000000007 00000000 00000002 00000001 62 ffffffff": func() ([]byte, error) {
			return WriteReply(3, 7, 0, 8, nodes...)
		},
		event:   func() ([]byte, error) { return WriteEvent(-1, changed...) },
		welcome: func() ([]byte, error) { return WriteConnected(session...) },
	} {
		if frame, err := write(); err != nil || !bytes.Equal(frame, framed(digits)) {
			t.Error(digits, frame, err)
		}
	}
	if _, err := WriteReply(2, 6, 0, 14, AsPart(13), AsPart(-1)); err != (Fault{Status: 67, Place: 1}) {
		t.Error(err)
	}
}

func TestWaitingAndHeld(t *testing.T) {
	talk := newTalk(t)
	defer talk.Close()
	whole, err := talk.Pass(Client, append(framed(hello, exists, multi), 0, 0, 0, 8, 255))
	if whole != 3 || err != nil {
		t.Error(whole, err)
	}
	if requests, weight, err := talk.Waiting(); requests != 2 || weight != 3 || err != nil {
		t.Error(requests, weight, err)
	}
	if held, err := talk.Held(Client); held != 5 || err != nil {
		t.Error(held, err)
	}
	if ending, err := talk.Ending(); err != nil || ending != (Ending{Kind: Cut, Side: Client, Frame: 3, Got: 5}) {
		t.Error(ending, err)
	}
	if _, err := talk.Line(Client); err == nil || err.Error() != "NO_MESSAGE at 0" {
		t.Error(err)
	}
	if _, err := talk.Held(2); err == nil || err.Error() != "RANGE at 0" {
		t.Error(err)
	}
}

func TestWhereAFaultIs(t *testing.T) {
	talk := newTalk(t)
	defer talk.Close()
	if _, err := talk.Pass(Client, framed(hello, exists)); err != nil {
		t.Fatal(err)
	}
	messages, err := talk.Feed(Server, framed(welcome, "00000002"+noNode[8:]))
	wanted := Fault{14, 0, true, At{Server, 1, 41 + 20, 1, 2}}
	var found Fault
	if len(messages) != 1 || !errors.As(err, &found) || found != wanted {
		t.Error(messages, err)
	}
	if ending, err := talk.Ending(); err != nil || !reflect.DeepEqual(ending, Ending{Kind: Refused, Fault: wanted}) {
		t.Error(ending, err)
	}
	if _, err := talk.Pass(Client, nil); err != wanted {
		t.Error(err)
	}
}

func TestRenewed(t *testing.T) {
	talk := newTalk(t)
	defer talk.Close()
	whole := framed(hello, exists)
	for end := range whole {
		for _, err := range []error{second(talk.Pass(Client, whole[:end])), talk.Renew()} {
			if err != nil {
				t.Fatal(end, err)
			}
		}
		if ending, err := talk.Ending(); err != nil || ending != (Ending{Kind: Whole}) {
			t.Error(end, ending, err)
		}
		if _, err := talk.Feed(Server, []byte{255, 255, 255, 255}); err == nil || talk.Renew() != nil {
			t.Error(err)
		}
	}
	speaker, err := NewSpeaker(Usual)
	if err != nil {
		t.Fatal(err)
	}
	defer speaker.Close()
	for i := 0; i < 3; i++ {
		if frame, err := speaker.Say(lines[0]); err != nil || !bytes.Equal(frame, framed(hello)) || speaker.Renew() != nil {
			t.Error(frame, err)
		}
	}
}

func TestSaidPayloads(t *testing.T) {
	speaker, err := NewSpeaker(Usual)
	if err != nil {
		t.Fatal(err)
	}
	for _, it := range []struct {
		side        Side
		said, wrong string
	}{
		{Server, welcome, "UNASKED at 0"},
		{Client, exists, "SHORT at 12"},
		{2, hello, "RANGE at 0"},
		{Client, "", "SHORT at 0"},
		{Client, hello, ""},
		{Client, exists, ""},
		{Server, welcome, ""},
		{Client, exists + "00", "TRAILING at 15"},
	} {
		frame, err := speaker.SayPayload(it.side, payload(it.said))
		if it.wrong == "" && (err != nil || !bytes.Equal(frame, framed(it.said))) {
			t.Error(it, frame, err)
		}
		if it.wrong != "" && (err == nil || err.Error() != it.wrong) {
			t.Error(it, frame, err)
		}
	}
	speaker.Close()
	for _, it := range []Speaker{speaker, {}} {
		if _, err := it.SayPayload(Client, payload(hello)); err != empty {
			t.Error(err)
		}
	}
}

func second(_ int, err error) error { return err }

func TestListing(t *testing.T) {
	asked := framed(hello, exists)
	text, err := Listing(Usual, []Piece{{Client, asked[:7]}, {Client, asked[7:]}})
	if wanted := lines[0] + "\n" + lines[2] + "\n. whole unanswered=2\n"; err != nil || text != wanted {
		t.Error(text, err)
	}
	if text, err := Listing(Usual, nil); err != nil || text != ". whole unanswered=0\n" {
		t.Error(text, err)
	}
}

func TestUsualProfileIsTheNewest(t *testing.T) {
	pieces := []Piece{{Client, framed(hello)}, {Server, framed(welcome)}, {Client, framed(addWatch)}}
	older := Usual
	older.Profile = Profile35
	for limits, wanted := range map[Limits]string{
		Usual: "C 3 addWatch path=\"/a\" mode=1\n. whole unanswered=1\n",
		older: ". refused side=C frame=1 offset=71 place=4 reason=UnknownOp\n",
	} {
		text, err := Listing(limits, pieces)
		if err != nil || !strings.HasSuffix(text, wanted) {
			t.Error(text, err)
		}
	}
}

func TestClosedCalls(t *testing.T) {
	talk := newTalk(t)
	talk.Close()
	for _, it := range []Talk{talk, {}} {
		_, _, waiting := it.Waiting()
		_, held := it.Held(Client)
		_, ending := it.Ending()
		for _, err := range []error{it.Renew(), waiting, held, ending, second(it.Pass(Client, nil))} {
			if err != empty {
				t.Error(err)
			}
		}
	}
	if err := (Speaker{}).Renew(); err != empty {
		t.Error(err)
	}
}
