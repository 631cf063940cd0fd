package libzk

// The payloads are those of docs/EXAMPLES.md and docs/FORMATS.md.

import (
	"bytes"
	"encoding/hex"
	"errors"
	"reflect"
	"strings"
	"sync"
	"testing"
)

var lines = []string{
	"C connect version=0 zxid=0 timeout=30000 session=0 passwd=#00000000000000000000000000000000 ro=0",
	"S connect version=0 timeout=30000 session=1 passwd=#000102030405060708090a0b0c0d0e0f ro=0",
	`C 1 exists path="/a" watch=1`,
	"S 1 exists zxid=5 err=-101/NONODE",
	`S event zxid=-1 kind=3/NodeDataChanged state=3 path="/a"`,
}

const exists = "00000001 00000003 00000002 2f61 01"

func payload(digits string) []byte {
	found, err := hex.DecodeString(strings.ReplaceAll(digits, " ", ""))
	if err != nil {
		panic(err)
	}
	return found
}

func frames(t *testing.T) (found [][]byte) {
	speaker, err := NewSpeaker(Usual)
	if err != nil {
		t.Fatal(err)
	}
	defer speaker.Close()
	for _, line := range lines {
		frame, err := speaker.Say(line)
		if err != nil {
			t.Fatal(line, err)
		}
		found = append(found, frame)
	}
	return
}

func sideOf(line string) Side {
	if line[0] == 'C' {
		return Client
	}
	return Server
}

func TestFields(t *testing.T) {
	message, err := ReadRequest(Profile34, payload(exists))
	if err != nil {
		t.Fatal(err)
	}
	wanted := []Field{{"path", Text, false, 0, 12, []byte("/a")}, {"watch", Bool, false, 1, 14, []byte{1}}}
	if message.Xid != 1 || OperationName(message.Operation) != "exists" || !reflect.DeepEqual(message.Fields, wanted) {
		t.Errorf("%+v", message)
	}
	if path, there := message.Get("path"); !there || string(path.Content) != "/a" {
		t.Error(path)
	}
	names := payload("00000001 0000000000000005 00000000 00000100" + strings.Repeat("00000001 61", 256))
	if message, err = ReadReply(8, nil, names); err != nil || len(message.Fields) != 257 {
		t.Error(message, err)
	}
	results := payload("00000001 0000000000000006 00000000 00000002 00 00000000 ffffffff 01 ffffffff")
	if message, err = ReadReply(14, []int32{2}, results); err != nil || message.Fields[0].Number != 2 {
		t.Error(message, err)
	}
}

func TestAppendedToAField(t *testing.T) {
	digits := "00000001 00000005 00000002 2f61 00000001 61 00000007"
	message, err := ReadRequest(Profile34, payload(digits))
	if err != nil {
		t.Fatal(err)
	}
	below, data := append(message.Fields[0].Content, "/below"...), message.Fields[1].Content
	if string(below) != "/a/below" || string(data) != "a" || !bytes.Equal(message.Payload, payload(digits)) {
		t.Errorf("%s %+v", below, message)
	}
}

func TestFaults(t *testing.T) {
	for digits, wanted := range map[string]string{
		"": "SHORT at 0", exists + "00": "TRAILING at 15", "00000001 0000270f": "UNKNOWN_OP at 4",
	} {
		if _, err := ReadRequest(Profile34, payload(digits)); err == nil || err.Error() != wanted {
			t.Errorf("%s: %v, not %s", digits, err, wanted)
		}
	}
	for _, call := range []func([]byte) (*Message, error){ReadFirst, ReadConnected, ReadEvent} {
		if _, err := call(payload(exists)); err == nil {
			t.Error("a request is taken for another message")
		}
	}
}

func TestConversation(t *testing.T) {
	for _, cut := range []int{1, 7, 1000} {
		talk, err := NewTalk(Usual)
		if err != nil {
			t.Fatal(err)
		}
		for i, frame := range frames(t) {
			var messages []*Message
			for at := 0; at < len(frame); at += cut {
				end := at + cut
				if end > len(frame) {
					end = len(frame)
				}
				found, err := talk.Feed(sideOf(lines[i]), frame[at:end])
				if err != nil {
					t.Fatal(err)
				}
				messages = append(messages, found...)
			}
			line, err := talk.Line(sideOf(lines[i]))
			if err != nil || line != lines[i] || len(messages) != 1 || !bytes.Equal(messages[0].Payload, frame[4:]) {
				t.Error(line, err, messages)
			}
		}
		if line, err := talk.EndingLine(); err != nil || line != ". whole unanswered=0" {
			t.Error(line, err)
		}
		talk.Close()
	}
}

func TestFaultAfterMessages(t *testing.T) {
	talk, err := NewTalk(Usual)
	if err != nil {
		t.Fatal(err)
	}
	messages, err := talk.Feed(Client, append(frames(t)[0], payload("00000010"+exists+"00")...))
	var fault Fault
	if len(messages) != 1 || !errors.As(err, &fault) || StatusName(fault.Status) != "TRAILING" || fault.Place != 15 {
		t.Error(messages, err)
	}
}

func TestClosed(t *testing.T) {
	talk, _ := NewTalk(Usual)
	speaker, _ := NewSpeaker(Usual)
	copied := talk
	talk.Close()
	talk.Close()
	speaker.Close()
	for _, it := range []Talk{talk, copied, {}} {
		if _, err := it.Feed(Client, []byte{0}); err == nil || err.Error() != "EMPTY at 0" {
			t.Error(err)
		}
		if _, err := it.EndingLine(); err == nil {
			t.Error("a closed talk has an ending")
		}
		it.Close()
	}
	for _, it := range []Speaker{speaker, {}} {
		if _, err := it.Say(lines[0]); err == nil || err.Error() != "EMPTY at 0" {
			t.Error(err)
		}
	}
	if _, err := NewTalk(Limits{63, 64, 1, Profile34}); err == nil || err.Error() != "RANGE at 0" {
		t.Error(err)
	}
}

// Goroutines, which move between threads, use one talk in turn.
func TestGoroutines(t *testing.T) {
	talk, err := NewTalk(Usual)
	if err != nil {
		t.Fatal(err)
	}
	said := frames(t)
	if _, err := talk.Feed(Client, said[0]); err != nil {
		t.Fatal(err)
	}
	var group sync.WaitGroup
	for i := 0; i < 100; i++ {
		group.Add(1)
		go func() {
			defer group.Done()
			if messages, err := talk.Feed(Client, said[2]); err != nil || len(messages) != 1 {
				t.Error(messages, err)
			}
		}()
	}
	group.Wait()
	if line, err := talk.EndingLine(); err != nil || line != ". whole unanswered=101" {
		t.Error(line, err)
	}
}
