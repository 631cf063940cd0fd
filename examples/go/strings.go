package libzk

// #include <zk.h>
import "C"

import "fmt"

// named returns a number's name, or the number.
func named(names []string, number uint32) string {
	if int(number) < len(names) && names[number] != "" {
		return names[number]
	}
	return fmt.Sprint(number)
}

func (side Side) String() string { return named([]string{"client", "server"}, uint32(side)) }

// String returns the release, such as 3.4.
func (profile Profile) String() string { return fmt.Sprintf("%d.%d", profile/10, profile%10) }

func (kind Kind) String() string {
	return named([]string{"", "connect request", "request", "connect response", "reply", "event"}, uint32(kind))
}

func (kind FieldKind) String() string {
	return named([]string{"", "int", "long", "bool", "text", "blob", "list", "part"}, uint32(kind))
}

func (went Went) String() string {
	if went == WentPassedOver {
		return "passed over"
	}
	return named([]string{"within", "message", "asked", "answered", "full", "unseen"}, uint32(went))
}

func (kind EndingKind) String() string {
	return named([]string{"", "whole", "cut", "refused"}, uint32(kind))
}

// String returns how the conversation ends, in words.
func (ending Ending) String() string {
	switch ending.Kind {
	case Whole:
		return fmt.Sprintf("whole, unanswered %d", ending.Unanswered)
	case Cut:
		return fmt.Sprintf("cut in frame %d of the %v, of which %d bytes came", ending.Frame, ending.Side, ending.Got)
	}
	at := ending.Fault.At
	return fmt.Sprintf("refused at byte %d of the %v, in frame %d: %v", at.Offset, at.Side, at.Frame, ending.Fault)
}

// String returns what message it is, without its fields: reply 1 exists NONODE.
func (message *Message) String() string {
	switch message.Kind {
	case Connect, Connected:
		return message.Kind.String()
	case Event:
		return fmt.Sprintf("event zxid %d", message.Zxid)
	}
	told := fmt.Sprintf("%v %d %s", message.Kind, message.Xid, OperationName(message.Operation))
	if message.Kind == Reply && message.Err != 0 {
		if name := ErrorName(message.Err); name != "" {
			return told + " " + name
		}
		return fmt.Sprintf("%s err %d", told, message.Err)
	}
	return told
}
