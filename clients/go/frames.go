package urbd

import (
	"bytes"
	"crypto/sha256"
	"encoding/binary"
	"encoding/hex"
	"errors"
	"fmt"
	"strings"
	"time"
)

// LongestWait is the longest that a WAIT can take: its field has no room for more.
const LongestWait = (1<<(8*(waitFields-readFields)) - 1) * time.Millisecond

// Entry is one message of a log.
type Entry struct {
	Sender  uint8
	Seq     uint32
	Client  uint16
	Number  uint32
	Payload []byte
}

// Digest is a digest of all fields of an entry, to tell entries apart.
func (e Entry) Digest() string {
	head := binary.BigEndian.AppendUint32([]byte{e.Sender}, e.Seq)
	head = binary.BigEndian.AppendUint32(binary.BigEndian.AppendUint16(head, e.Client), e.Number)
	sum := sha256.Sum256(append(head, e.Payload...))
	return hex.EncodeToString(sum[:])
}

// Status is what a node reports about itself. State is "down", "ready" or "storing".
type Status struct {
	State        string
	Sent, Logged uint32
}

// Refused is a node's refusal.
type Refused struct {
	Number uint8
	Detail uint32
}

func (r Refused) Error() string {
	text, ok := refusalTexts[r.Number]
	if !ok {
		text = "a refusal that this client doesn't know"
	}
	if strings.Contains(text, "%d") {
		text = fmt.Sprintf(text, r.Detail)
	}
	return fmt.Sprintf("refused %d %d: %s", r.Number, r.Detail, text)
}

// Temporary says whether the same request may be accepted later.
func (r Refused) Temporary() bool {
	return bytes.IndexByte([]byte{RefusalNoMemory, RefusalDown, RefusalBusy, RefusalStale, RefusalDevice, RefusalPlace}, r.Number) >= 0
}

// UnknownRequest says whether the node doesn't know this kind of request: an older one refuses a WAIT so.
func (r Refused) UnknownRequest() bool {
	return r.Number == RefusalFrame && r.Detail == unknownOpcode
}

// Stopped says why a Publisher or a Follower doesn't continue: continuing could repeat, lose or mix messages.
type Stopped struct{ Reason string }

func (s Stopped) Error() string { return s.Reason }

func fields(response []byte, opcode byte) ([]byte, error) {
	if len(response) == 6 && response[0] == sayRefused {
		return nil, Refused{response[1], binary.BigEndian.Uint32(response[2:])}
	}
	if len(response) == 0 || response[0] != opcode {
		return nil, fmt.Errorf("no response to what was asked: %x", response)
	}
	return response[1:], nil
}

func reading(place uint32, most uint8) []byte {
	return append(binary.BigEndian.AppendUint32([]byte{askRead}, place), most)
}

// waiting is a WAIT up to this limit, or the longest one if that is shorter.
func waiting(place uint32, most uint8, limit time.Duration) []byte {
	request := append(binary.BigEndian.AppendUint32([]byte{askWait}, place), most)
	return binary.BigEndian.AppendUint16(request, uint16(bounded(limit).Milliseconds()))
}

func bounded(limit time.Duration) time.Duration {
	if limit < 0 {
		return 0
	} else if limit > LongestWait {
		return LongestWait
	}
	return limit
}

func entries(response []byte) ([]Entry, error) {
	body, err := fields(response, sayEntries)
	if err == nil && len(body) == 0 {
		err = errors.New("a page that is cut")
	}
	if err != nil {
		return nil, err
	}
	var all []Entry
	for rest, left := body[1:], body[0]; left > 0; left-- {
		if len(rest) < 13 || len(rest) < 13+int(binary.BigEndian.Uint16(rest[11:])) {
			return nil, errors.New("a page that is cut")
		}
		end := 13 + int(binary.BigEndian.Uint16(rest[11:]))
		all = append(all, Entry{rest[0], binary.BigEndian.Uint32(rest[1:]), binary.BigEndian.Uint16(rest[5:]),
			binary.BigEndian.Uint32(rest[7:]), rest[13:end]})
		rest = rest[end:]
	}
	return all, nil
}

func status(response []byte) (Status, error) {
	body, err := fields(response, sayStatus)
	if err == nil && len(body) != 9 {
		err = errors.New("a status that is cut")
	}
	if err != nil {
		return Status{}, err
	}
	state := map[byte]string{0: "down", 1: "ready", 2: "storing"}[body[0]]
	return Status{state, binary.BigEndian.Uint32(body[1:]), binary.BigEndian.Uint32(body[5:])}, nil
}
