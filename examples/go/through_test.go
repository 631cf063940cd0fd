package libzk

// An operation that no release has (9999), under xid 1, and an exists request under xid 2 before its reply. The other
// payloads are those of docs/EXAMPLES.md and docs/FORMATS.md.

import (
	"fmt"
	"reflect"
	"testing"
)

const (
	unknown   = "00000001 0000270f 00000002 2f61"
	none      = "00000001 0000000000000005 00000000 00000000"
	existsTwo = "00000002 00000003 00000002 2f61 01"
	noNodeTwo = "00000002 0000000000000005 ffffff9b"
)

var came = []struct {
	side    Side
	payload string
	told    string
}{
	{Client, hello, "message 0 0 of frame 0 answers 0"},
	{Server, welcome, "message 0 0 of frame 0 answers 0"},
	{Client, unknown, "asked 1 9999 of frame 1"},
	{Client, existsTwo, "message 2 3 of frame 2 answers 0"},
	{Server, none, "answered 1 9999 of frame 1"},
	{Server, noNodeTwo, "message 2 3 of frame 2 answers 2"},
}

func newThrough(t *testing.T, waiting uint32) Through {
	limits := Usual
	limits.Waiting = waiting
	found, err := NewThrough(limits)
	if err != nil {
		t.Fatal(err)
	}
	return found
}

// told returns what became of each step, and how many bytes it used.
func told(t *testing.T, p Through, side Side, piece []byte) (found []string, used []int) {
	every, err := p.Feed(side, piece)
	if err != nil {
		t.Fatal(err)
	}
	for _, step := range every {
		found, used = append(found, became(step)), append(used, step.Used)
	}
	return
}

// became returns what became of a step.
func became(step Passed) string {
	of := fmt.Sprintf("%d %d of frame %d", step.Xid, step.Operation, step.Frame)
	switch step.Went {
	case WentWithin:
		return "within"
	case WentFull:
		return "full"
	case WentAsked:
		return "asked " + of
	case WentAnswered:
		return "answered " + of
	case WentPassedOver:
		at := step.Fault.At
		return fmt.Sprintf("passed over %v, byte %d of frame %d of the %v", step.Fault, at.Offset, at.Frame, at.Side)
	case WentUnseen:
		return fmt.Sprintf("unseen %d %d %d", step.Xid, step.Zxid, step.Err)
	}
	it := step.Message
	return fmt.Sprintf("message %d %d of frame %d answers %d", it.Xid, it.Operation, it.Frame, it.Answers)
}

func TestLinesOfPassages(t *testing.T) {
	p, found := newThrough(t, 65536), []string{}
	defer p.Close()
	for _, each := range came {
		told(t, p, each.side, framed(each.payload))
		line, err := p.Line(each.side)
		if err != nil {
			line = err.Error()
		}
		found = append(found, line)
	}
	none := Fault{Status: 69}.Error()
	wanted := []string{none, `C 2 exists path="/a" watch=1`, none, "S 2 exists zxid=5 err=-101/NONODE"}
	if !reflect.DeepEqual(found[2:], wanted) {
		t.Errorf("lines %q, not %q", found[2:], wanted)
	}
}

func TestPairsAreLeftOut(t *testing.T) {
	p := newThrough(t, 65536)
	for _, cut := range []int{1, 7, 1000} {
		for _, row := range came {
			bytes := framed(row.payload)
			for ; len(bytes) > cut; bytes = bytes[cut:] {
				if found, used := told(t, p, row.side, bytes[:cut]); found[0] != "within" || used[0] != cut {
					t.Error(row.payload, found, used)
				}
			}
			if found, used := told(t, p, row.side, bytes); found[0] != row.told || used[0] != len(bytes) {
				t.Error(row.payload, found, used)
			}
		}
		if err := p.Renew(); err != nil {
			t.Error(err)
		}
	}
}

func TestPayloadsOfPassages(t *testing.T) {
	p := newThrough(t, 65536)
	defer p.Close()
	for _, row := range came {
		every, err := p.Feed(row.side, framed(row.payload))
		if err != nil || len(every) != 1 {
			t.Fatal(every, err)
		}
		found := every[0].Payload
		if every[0].Message != nil {
			found = every[0].Message.Payload
		}
		if !reflect.DeepEqual(found, payload(row.payload)) {
			t.Error(row.payload, found)
		}
		if row.payload != existsTwo {
			continue
		}
		if path, there := every[0].Message.Get("path"); !there || string(path.Content) != "/a" {
			t.Error(path)
		}
	}
}

func TestFull(t *testing.T) {
	p := newThrough(t, 1)
	told(t, p, Client, framed(hello))
	told(t, p, Server, framed(welcome))
	for _, row := range []struct {
		side  Side
		piece []byte
		told  []string
		used  []int
	}{
		{Client, framed(unknown, existsTwo), []string{"asked 1 9999 of frame 1", "full"}, []int{18, 0}},
		{Client, framed(existsTwo)[:9], []string{"within"}, []int{9}},
		{Client, framed(existsTwo)[9:], []string{"full"}, []int{0}},
		{Server, framed(none), []string{"answered 1 9999 of frame 1"}, []int{24}},
		{Client, framed(existsTwo)[9:], []string{"message 2 3 of frame 2 answers 0"}, []int{10}},
	} {
		found, used := told(t, p, row.side, row.piece)
		if !reflect.DeepEqual(found, row.told) || !reflect.DeepEqual(used, row.used) {
			t.Error(found, used, "not", row.told, row.used)
		}
	}
}

// healthy returns what each side says in a healthy conversation of three requests, and what becomes of it.
func healthy() (pieces [2][]byte, wanted [2][]string) {
	pieces = [2][]byte{
		framed(hello, "00000001"+existsTwo[8:], existsTwo, "00000003"+unknown[8:]),
		framed(welcome, "00000001"+noNodeTwo[8:], noNodeTwo, "00000003"+none[8:])}
	wanted = [2][]string{
		{"message 0 0 of frame 0 answers 0", "message 1 3 of frame 1 answers 0", "message 2 3 of frame 2 answers 0",
			"asked 3 9999 of frame 3"},
		{"message 0 0 of frame 0 answers 0", "message 1 3 of frame 1 answers 1", "message 2 3 of frame 2 answers 2",
			"answered 3 9999 of frame 3"}}
	return
}

// The server's next bytes come after the client's that had no room, reply by reply.
func TestAsManyAsMayWait(t *testing.T) {
	for _, waiting := range []uint32{1, 2, 65536} {
		p, found := newThrough(t, waiting), [2][]string{}
		left, wanted := healthy()
		for len(left[Client])+len(left[Server]) > 0 {
			for _, side := range []Side{Client, Server} {
				if len(left[side]) == 0 {
					continue
				}
				every, used := told(t, p, side, left[side])
				for i, of := range every {
					left[side] = left[side][used[i]:]
					if of != "full" {
						found[side] = append(found[side], of)
					}
				}
				if full := every[len(every)-1] == "full"; full != (len(left[side]) > 0) {
					t.Fatal(waiting, side, every, len(left[side]))
				}
			}
		}
		if ending, err := p.Ending(); err != nil || ending != (Ending{Kind: Whole}) || !reflect.DeepEqual(found, wanted) {
			t.Error(waiting, found, ending, err)
		}
		p.Close()
	}
}

// What the client sends is kept while it has no room, whatever its pieces, and taken after each reply.
func TestTake(t *testing.T) {
	for _, row := range []struct {
		waiting uint32
		cut     int
	}{{1, 1000}, {1, 7}, {2, 1000}, {2, 11}, {65536, 1}} {
		p, found := newThrough(t, row.waiting), [2][]string{}
		pieces, wanted := healthy()
		for side, piece := range pieces {
			for len(piece) > 0 {
				cut := row.cut
				if cut > len(piece) {
					cut = len(piece)
				}
				sent := append([]byte{}, piece[:cut]...)
				every, err := p.Take(Side(side), sent)
				if err != nil {
					t.Fatal(row, err)
				}
				for i := range sent {
					sent[i] = 0xff // the caller's to write over
				}
				for _, passed := range every {
					if passed.Went != WentWithin && passed.Went != WentFull {
						found[passed.Side] = append(found[passed.Side], became(passed))
					}
				}
				piece = piece[cut:]
			}
		}
		if ending, err := p.Ending(); err != nil || ending != (Ending{Kind: Whole}) || !reflect.DeepEqual(found, wanted) {
			t.Error(row, found, ending, err)
		}
		if err := p.Renew(); err != nil {
			t.Error(err)
		}
		every, err := p.Take(Client, pieces[Client])
		if last := every[len(every)-1]; err != nil || (last.Went == WentFull) != (row.waiting < 3) {
			t.Error(row, every, err)
		}
		p.Close()
	}
}

func TestReplyBeforeItsTurn(t *testing.T) {
	p := newThrough(t, 65536)
	told(t, p, Client, framed(hello, unknown, existsTwo))
	told(t, p, Server, framed(welcome))
	wanted := Fault{Status: 14, Refused: true, At: At{Server, 1, 61, 1, 2}}
	for _, side := range []Side{Server, Client} {
		if every, err := p.Feed(side, framed(noNodeTwo)); len(every) != 0 || err != wanted {
			t.Error(every, err)
		}
	}
}

func TestLate(t *testing.T) {
	p, err := JoinThrough(Usual)
	if err != nil {
		t.Fatal(err)
	}
	defer p.Close()
	const earlier = "00000001 0000000000000004 ffffff9b"
	for _, row := range []struct {
		side    Side
		payload string
		told    string
	}{
		{Client, existsTwo, "message 2 3 of frame 1 answers 0"},
		{Server, earlier, "unseen 1 4 -101"},
		{Server, noNodeTwo, "message 2 3 of frame 2 answers 1"},
	} {
		if found, _ := told(t, p, row.side, framed(row.payload)); found[0] != row.told {
			t.Error(row.payload, found)
		}
	}
	// The made up frames have 32 and 24 bytes.
	wanted := Fault{Status: 13, Refused: true, At: At{Server, 3, 84, 0, 0}}
	if _, err := p.Feed(Server, framed(earlier)); err != wanted {
		t.Error(err)
	}
}

func TestEndingsOfPassages(t *testing.T) {
	p := newThrough(t, 65536)
	ends := func(wanted Ending, wantedLine string) {
		t.Helper()
		if found, err := p.Ending(); err != nil || found != wanted {
			t.Error(found, err, "not", wanted)
		}
		if line, err := p.EndingLine(); err != nil || line != wantedLine {
			t.Error(line, err, "not", wantedLine)
		}
	}
	ends(Ending{Kind: Whole}, ". whole unanswered=0")
	for _, row := range came[:4] {
		told(t, p, row.side, framed(row.payload))
	}
	ends(Ending{Kind: Whole, Unanswered: 2}, ". whole unanswered=2")
	told(t, p, Server, framed(none)[:9])
	ends(Ending{Kind: Cut, Side: Server, Frame: 1, Got: 9}, ". cut side=S frame=1 got=9")
	told(t, p, Server, framed(none)[9:])
	ends(Ending{Kind: Whole, Unanswered: 1}, ". whole unanswered=1")
	wanted := Fault{Status: 14, Refused: true, At: At{Server, 2, 89, 2, 1}}
	if _, err := p.Feed(Server, framed(none)); err != wanted {
		t.Error(err)
	}
	ends(Ending{Kind: Refused, Fault: wanted},
		". refused side=S frame=2 offset=89 place=0 reason=XidOrder expected=2 got=1")
}

func TestClosedPassages(t *testing.T) {
	p := newThrough(t, 65536)
	if _, err := p.Feed(2, nil); err != (Fault{Status: 67}) {
		t.Error(err)
	}
	p.Close()
	p.Close()
	for _, it := range []Through{p, {}} {
		if _, err := it.Feed(Client, []byte{0}); err != empty {
			t.Error(err)
		}
		if err := it.Renew(); err != empty {
			t.Error(err)
		}
		if _, err := it.Ending(); err != empty {
			t.Error(err)
		}
		if _, err := it.EndingLine(); err != empty {
			t.Error(err)
		}
		if _, err := it.Pass(Client, []byte{0}); err != empty {
			t.Error(err)
		}
		if _, _, err := it.Waiting(); err != empty {
			t.Error(err)
		}
		if _, err := it.Held(Client); err != empty {
			t.Error(err)
		}
		it.Close()
	}
	if err := (Through{}).SetResume(true); err != empty {
		t.Error(err)
	}
	if _, err := NewThrough(Limits{63, 64, 1, Profile34}); err != (Fault{Status: 67}) {
		t.Error(err)
	}
}
