package libzk

import (
	"errors"
	"fmt"
	"io"
	"testing"
)

var _, _, _ io.Closer = Talk{}, Through{}, Speaker{}

func TestErrorsOfAStatus(t *testing.T) {
	talk, _ := NewTalk(Usual)
	defer talk.Close()
	_, err := talk.Feed(Server, framed(noNode))
	wrapped := fmt.Errorf("from a server: %w", err)
	if !errors.Is(err, ErrUnasked) || !errors.Is(wrapped, ErrUnasked) || errors.Is(err, ErrShort) {
		t.Error(err)
	}
	if other := err.(Fault); !other.Refused || errors.Is(err, Fault{Status: StatusUnasked, Refused: true}) {
		t.Error(other)
	}
	if err := talk.Close(); err != nil {
		t.Error(err)
	}
	if _, err := talk.Feed(Client, nil); !errors.Is(err, ErrEmpty) {
		t.Error(err)
	}
}

func TestStrings(t *testing.T) {
	request, err := ReadRequest(Profile34, payload(existsTwo))
	if err != nil {
		t.Fatal(err)
	}
	reply, err := ReadReply(OpExists, nil, payload(noNodeTwo))
	if err != nil {
		t.Fatal(err)
	}
	first, err := ReadFirst(payload(hello))
	if err != nil {
		t.Fatal(err)
	}
	odd := &Message{Kind: Reply, Xid: 1, Operation: OpAddWatch, Err: -99}
	at := At{Side: Server, Frame: 2, Offset: 89}
	for _, row := range []struct {
		found  fmt.Stringer
		wanted string
	}{
		{Client, "client"}, {Server, "server"}, {Side(2), "2"}, {Profile35, "3.5"}, {Connected, "connect response"},
		{List, "list"}, {WentUnseen, "unseen"}, {WentPassedOver, "passed over"},
		{Cut, "cut"}, {request, "request 2 exists"}, {reply, "reply 2 exists NONODE"},
		{first, "connect request"}, {odd, "reply 1 addWatch err -99"}, {&Message{Kind: Event, Zxid: -1}, "event zxid -1"},
		{Ending{Kind: Whole, Unanswered: 2}, "whole, unanswered 2"},
		{Ending{Kind: Cut, Side: Client, Frame: 3, Got: 9}, "cut in frame 3 of the client, of which 9 bytes came"},
		{Ending{Kind: Refused, Fault: Fault{Status: StatusXidOrder, Refused: true, At: at}},
			"refused at byte 89 of the server, in frame 2: XID_ORDER at 0"},
	} {
		if found := row.found.String(); found != row.wanted {
			t.Error(found, "not", row.wanted)
		}
	}
	for number, name := range map[int32]string{OpAddWatch: "addWatch", OpCloseSession: "closeSession", 9999: ""} {
		if found := OperationName(number); found != name {
			t.Error(number, found)
		}
	}
	if ErrorName(CodeQuotaExceeded) != "QUOTAEXCEEDED" || EventName(EventDataWatchRemoved) != "DataWatchRemoved" ||
		StateName(StateExpired) != "Expired" || FlagsName(CreateEphemeral) != "ephemeral" {
		t.Error("names of newer numbers")
	}
}

// A message takes fewer than two allocations, also where each comes by itself.
func TestAllocations(t *testing.T) {
	talk, _ := NewTalk(Usual)
	passage, _ := NewThrough(Usual)
	defer talk.Close()
	defer passage.Close()
	asks, answers := framed(existsTwo), framed(noNodeTwo)
	for _, pair := range []struct{ asks, answers []byte }{{framed(hello), framed(welcome)}, {asks, answers}} {
		talk.Feed(Client, pair.asks)
		talk.Feed(Server, pair.answers)
		passage.Feed(Client, pair.asks)
		passage.Feed(Server, pair.answers)
	}
	for name, feed := range map[string]func(Side, []byte) error{
		"a talk":    func(side Side, piece []byte) error { _, err := talk.Feed(side, piece); return err },
		"a passage": func(side Side, piece []byte) error { _, err := passage.Feed(side, piece); return err },
	} {
		found := testing.AllocsPerRun(1000, func() {
			if feed(Client, asks) != nil || feed(Server, answers) != nil {
				t.Fatal(name)
			}
		}) / 2
		if found >= 2 {
			t.Errorf("%s has %.1f allocations a message", name, found)
		}
	}
}

// What is kept of one message is not written over by the next.
func TestKeptMessages(t *testing.T) {
	talk, _ := NewTalk(Usual)
	defer talk.Close()
	talk.Feed(Client, framed(hello))
	talk.Feed(Server, framed(welcome))
	var kept []*Message
	for i := 0; i < 500; i++ {
		frame, _ := WriteRequest(int32(i), OpExists, AsText(fmt.Sprintf("/%*d", i*20, i)), AsBool(i%2 == 1))
		messages, err := talk.Feed(Client, frame)
		if err != nil {
			t.Fatal(err)
		}
		kept = append(kept, messages...)
	}
	for i, message := range kept {
		path, _ := message.Get("path")
		if message.Xid != int32(i) || string(path.Content) != fmt.Sprintf("/%*d", i*20, i) || message.Fields[1].Number != int64(i%2) {
			t.Fatal(i, message, string(path.Content))
		}
		if message.Frame != uint64(i+1) || cap(message.Payload) != len(message.Payload) || cap(message.Fields) != 2 {
			t.Fatal(i, message.Frame, cap(message.Payload), cap(message.Fields))
		}
	}
}
