package libzk

// Offers to a talk and to a passage; passages that go on after a refusal; and what a passage returns besides its messages.

import (
	"errors"
	"reflect"
	"testing"
)

const (
	existsOne = "00000001 00000003 00000002 2f61 01"
	noNodeOne = "00000001 0000000000000005 ffffff9b"
	noBoolean = "00000001 00000003 00000002 2f61 02"
)

// What isn't taken changes nothing, and another frame may be.
func TestOffers(t *testing.T) {
	talk, err := NewTalk(Limits{65536, 65536, 1, Profile34})
	if err != nil {
		t.Fatal(err)
	}
	defer talk.Close()
	if _, err := talk.Feed(Client, framed(hello)); err != nil {
		t.Fatal(err)
	}
	if _, err := talk.Feed(Server, framed(welcome)); err != nil {
		t.Fatal(err)
	}
	one := framed(existsOne)
	for _, row := range []struct {
		side  Side
		frame []byte
		err   error
	}{
		{Client, framed(noBoolean), Fault{2, 14, true, At{Client, 1, 68, 0, 0}}},
		{Client, framed(noBoolean), Fault{2, 14, true, At{Client, 1, 68, 0, 0}}},
		{Client, nil, ErrRange},
		{Client, one[:3], ErrRange},
		{Client, one[:18], ErrRange},
		{Client, append(append([]byte{}, one...), one...), ErrRange},
		{Server, framed(noNodeOne), Fault{13, 0, true, At{Server, 1, 61, 0, 0}}},
		{2, one, ErrRange},
	} {
		if message, err := talk.Offer(row.side, row.frame); message != nil || err != row.err {
			t.Error(row.frame, message, err, "not", row.err)
		}
		if line, err := talk.EndingLine(); line != ". whole unanswered=0" || err != nil {
			t.Error(line, err)
		}
	}
	message, err := talk.Offer(Client, one)
	if err != nil || message.String() != "request 1 exists" || message.Frame != 1 {
		t.Error(message, err)
	}
	if requests, weight, err := talk.Waiting(); requests != 1 || weight != 1 || err != nil {
		t.Error(requests, weight, err)
	}
	if _, err := talk.Offer(Client, framed(existsTwo)); err == nil || err.(Fault).Status != 12 {
		t.Error(err)
	}
	if message, err := talk.Offer(Server, framed(noNodeOne)); err != nil || message.Answers != 1 {
		t.Error(message, err)
	}
	if _, err := talk.Feed(Client, one[:1]); err != nil {
		t.Error(err)
	}
	if _, err := talk.Offer(Client, one); err != ErrRange {
		t.Error(err)
	}
	talk.Close()
	for _, it := range []Talk{talk, {}} {
		if _, err := it.Offer(Client, one); err != empty {
			t.Error(err)
		}
	}
}

// What the profile lacks is taken and left out; a refusal changes nothing, and neither does a frame without room.
func TestOffersToPassages(t *testing.T) {
	p := resuming(t, 1)
	defer p.Close()
	unknown, done := framed("00000001 0000270f 00000002 2f61"), framed("00000001 0000000000000005 00000000")
	refused := []Fault{{2, 14, true, At{Client, 1, 68, 0, 0}}, {14, 0, true, At{Server, 1, 61, 1, 2}}}
	for _, row := range []struct {
		side  Side
		frame []byte
		told  string
		err   error
	}{
		{Client, framed(noBoolean), "", refused[0]},
		{Client, unknown[:17], "", ErrRange},
		{2, unknown, "", ErrRange},
		{Client, unknown, "asked 1 9999 of frame 1", nil},
		{Client, framed(existsTwo), "full", nil},
		{Server, framed(noNodeTwo), "", refused[1]},
		{Server, done, "answered 1 9999 of frame 1", nil},
		{Client, framed(existsTwo), "message 2 3 of frame 2 answers 0", nil},
		{Client, framed(existsOne), "full", nil},
		{Server, framed(noNodeTwo), "message 2 3 of frame 2 answers 2", nil},
	} {
		passed, err := p.Offer(row.side, row.frame)
		if err != row.err || err == nil && became(passed) != row.told {
			t.Error(row.frame, passed, err, "not", row.told, row.err)
		}
		if used := len(row.frame); err == nil && row.told != "full" && passed.Used != used {
			t.Error(row.frame, passed.Used)
		}
	}
	if line, err := p.EndingLine(); line != ". whole unanswered=0" || err != nil {
		t.Error(line, err)
	}
	p.Close()
	for _, it := range []Through{p, {}} {
		if _, err := it.Offer(Client, unknown); err != empty {
			t.Error(err)
		}
	}
}

// resuming returns a passage that goes on after a refusal, after its connect messages.
func resuming(t *testing.T, waiting uint32) Through {
	p := newThrough(t, waiting)
	if err := p.SetResume(true); err != nil {
		t.Fatal(err)
	}
	told(t, p, Client, framed(hello))
	told(t, p, Server, framed(welcome))
	return p
}

// What follows the refused frame is counted from there on, and the reply to the refused request is one to a request that
// wasn't seen.
func TestResume(t *testing.T) {
	wanted := []string{"passed over BAD_BOOL at 14, byte 68 of frame 1 of the client", "message 2 3 of frame 1 answers 0",
		"unseen 1 5 -101", "message 2 3 of frame 2 answers 1"}
	for _, cut := range []int{1, 7, 1000} {
		p, found := resuming(t, 65536), []string{}
		for _, row := range []struct {
			side  Side
			bytes []byte
		}{{Client, framed(noBoolean, existsTwo)}, {Server, framed(noNodeOne, noNodeTwo)}} {
			for sent := row.bytes; len(sent) > 0; {
				piece := sent
				if len(piece) > cut {
					piece = piece[:cut]
				}
				every, used := told(t, p, row.side, piece)
				for i, of := range every {
					sent = sent[used[i]:]
					if of != "within" {
						found = append(found, of)
					}
				}
			}
		}
		if !reflect.DeepEqual(found, wanted) {
			t.Error(cut, found)
		}
		p.Close()
	}
}

// What the other side had begun of a frame stays, and no request waits.
func TestResumeOfTheOtherSide(t *testing.T) {
	p := resuming(t, 65536)
	defer p.Close()
	told(t, p, Client, framed(existsTwo))
	told(t, p, Client, framed(existsTwo)[:9])
	found, used := told(t, p, Server, framed(noNodeTwo+"00"))
	wanted := []string{"passed over TRAILING at 16, byte 62 of frame 1 of the server"}
	if !reflect.DeepEqual(found, wanted) || used[0] != 21 {
		t.Error(found, used)
	}
	if requests, _, err := p.Waiting(); requests != 0 || err != nil {
		t.Error(requests, err)
	}
	if held, err := p.Held(Client); held != 9 || err != nil {
		t.Error(held, err)
	}
	if found, _ := told(t, p, Client, framed(existsTwo)[9:]); found[0] != "message 2 3 of frame 1 answers 0" {
		t.Error(found)
	}
	if found, _ := told(t, p, Server, framed(noNodeTwo)); found[0] != "message 2 3 of frame 1 answers 1" {
		t.Error(found)
	}
}

// With the refused reply no request waits, so the one for which there was no room comes before the next reply.
func TestTakeAfterARefusal(t *testing.T) {
	p, found := resuming(t, 1), []string{}
	defer p.Close()
	for _, row := range []struct {
		side  Side
		bytes []byte
	}{{Client, framed(existsOne, existsTwo)}, {Server, framed(noNodeOne+"00", noNodeTwo)}} {
		every, err := p.Take(row.side, row.bytes)
		if err != nil {
			t.Fatal(err)
		}
		for _, step := range every {
			found = append(found, became(step))
		}
	}
	wanted := []string{"message 1 3 of frame 1 answers 0", "full",
		"passed over TRAILING at 16, byte 62 of frame 1 of the server", "message 2 3 of frame 1 answers 0",
		"message 2 3 of frame 1 answers 1"}
	if !reflect.DeepEqual(found, wanted) {
		t.Error(found)
	}
}

// A length that no frame has is refused for good, and so is every frame where the passage doesn't go on.
func TestWhatDoesNotGoOn(t *testing.T) {
	p := resuming(t, 1)
	defer p.Close()
	for i := 0; i < 2; i++ {
		if _, err := p.Feed(Client, []byte{255, 255, 255, 255, 0}); err != (Fault{11, 0, true, At{Client, 1, 53, 0, 0}}) {
			t.Error(err)
		}
	}
	if err := p.Renew(); err != nil {
		t.Error(err)
	}
	if err := p.SetResume(false); err != nil {
		t.Error(err)
	}
	for i := 0; i < 2; i++ {
		every, err := p.Feed(Client, framed(hello, noBoolean, existsTwo))
		if len(every) != 1-i || err != (Fault{2, 14, true, At{Client, 1, 68, 0, 0}}) {
			t.Error(every, err)
		}
	}
}

// What is passed is judged, and has no message and no payload.
func TestPassOfPassages(t *testing.T) {
	p := newThrough(t, 65536)
	defer p.Close()
	waits := []uint32{0, 0, 1, 2, 1, 0}
	for i, row := range came {
		bytes := framed(row.payload)
		every, err := p.Pass(row.side, bytes)
		if err != nil || len(every) != 1 {
			t.Fatal(every, err)
		}
		step := every[0]
		if step.Message != nil || step.Payload != nil || step.Used != len(bytes) {
			t.Error(row.payload, step)
		}
		if step.Went != WentMessage && became(step) != row.told {
			t.Error(row.payload, became(step))
		}
		if requests, weight, err := p.Waiting(); requests != waits[i] || weight != waits[i] || err != nil {
			t.Error(row.payload, requests, weight, err)
		}
		if _, err := p.Line(row.side); !errors.Is(err, ErrNoMessage) {
			t.Error(row.payload, err)
		}
	}
	if _, err := p.Pass(Server, framed(none)); err != (Fault{13, 0, true, At{Server, 3, 109, 0, 0}}) {
		t.Error(err)
	}
}
