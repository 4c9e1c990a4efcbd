package urbd

import (
	"context"
	"encoding/binary"
	"errors"
	"io"
	"net"
	"time"
)

const (
	page       = MostEntries // entries of a READ
	mostPages  = 16          // READs in one write
	leastPause = time.Millisecond
	mostPause  = 200 * time.Millisecond
)

// Node is one node, by its port for clients, or by the path of its Unix socket if that isn't empty. Each call has a connection of
// its own. Timeout is a call's limit, 2 seconds if 0.
type Node struct {
	Port    int
	Socket  string
	Timeout time.Duration
	// OnFault, if it isn't nil, is called with each fault after which a Publisher or Follower asks again.
	OnFault func(error)
}

func (n *Node) tell(fault error) {
	if n.OnFault != nil {
		n.OnFault(fault)
	}
}

func (n *Node) at() address {
	if n.Socket != "" {
		return address{socket: n.Socket}
	}
	return address{port: n.Port}
}

// Ask sends these requests in one write and returns their responses.
func (n *Node) Ask(ctx context.Context, requests ...[]byte) ([][]byte, error) {
	return n.ask(ctx, 0, requests...)
}

// ask is Ask, but its limit is longer by the time that the requests wait.
func (n *Node) ask(ctx context.Context, waits time.Duration, requests ...[]byte) ([][]byte, error) {
	limit := n.Timeout
	if limit == 0 {
		limit = 2 * time.Second
	}
	ctx, cancel := context.WithTimeout(ctx, limit+waits)
	defer cancel()
	var dialer net.Dialer
	network, where := n.at().network()
	connection, err := dialer.DialContext(ctx, network, where)
	if err != nil {
		return nil, err
	}
	defer connection.Close()
	ended := make(chan struct{})
	defer close(ended)
	go func() {
		select {
		case <-ctx.Done(): // a context that is cancelled ends what waits
			connection.SetDeadline(time.Unix(1, 0))
		case <-ended:
		}
	}()
	var out []byte
	for _, it := range requests {
		out = append(binary.BigEndian.AppendUint16(out, uint16(len(it))), it...)
	}
	if _, err := connection.Write(out); err != nil {
		return nil, err
	}
	if err := connection.(interface{ CloseWrite() error }).CloseWrite(); err != nil {
		return nil, err
	}
	var responses [][]byte
	for range requests {
		var head [2]byte
		if _, err := io.ReadFull(connection, head[:]); err != nil {
			return nil, err
		}
		body := make([]byte, binary.BigEndian.Uint16(head[:]))
		if _, err := io.ReadFull(connection, body); err != nil {
			return nil, err
		}
		responses = append(responses, body)
	}
	return responses, nil
}

func (n *Node) one(ctx context.Context, request []byte, opcode byte) ([]byte, error) {
	responses, err := n.Ask(ctx, request)
	if err != nil {
		return nil, err
	}
	return fields(responses[0], opcode)
}

// Submit submits once, and returns the number under which the node has accepted the message.
func (n *Node) Submit(ctx context.Context, client uint16, number uint32, payload []byte) (uint32, error) {
	if len(payload) > MaxPayload {
		return 0, Refused{RefusalTooLong, 0}
	}
	request := binary.BigEndian.AppendUint32(binary.BigEndian.AppendUint16([]byte{askSubmit}, client), number)
	body, err := n.one(ctx, append(request, payload...), sayAccepted)
	if err == nil && len(body) != 4 {
		err = errors.New("an answer that is cut")
	}
	if err != nil {
		return 0, err
	}
	return binary.BigEndian.Uint32(body), nil
}

// NextNumber is the number that the node expects next from this client. The node's refusal of number 0 says it.
func (n *Node) NextNumber(ctx context.Context, client uint16) (uint32, error) {
	_, err := n.Submit(ctx, client, 0, nil)
	var refused Refused
	if errors.As(err, &refused) && refused.Number == RefusalGap {
		return refused.Detail, nil
	}
	if err == nil {
		err = errors.New("number 0 was accepted")
	}
	return 0, err
}

// Read returns the entries from a place on, at most the given number (1 to 8), and fewer if a frame has no room for more.
func (n *Node) Read(ctx context.Context, place uint32, most uint8) ([]Entry, error) {
	responses, err := n.Ask(ctx, reading(place, most))
	if err != nil {
		return nil, err
	}
	return entries(responses[0])
}

// Wait is Read, but the node waits up to a limit (LongestWait at most) until it has an entry. An older node refuses it:
// see Refused.UnknownRequest.
func (n *Node) Wait(ctx context.Context, place uint32, most uint8, limit time.Duration) ([]Entry, error) {
	responses, err := n.ask(ctx, bounded(limit), waiting(place, most, limit))
	if err != nil {
		return nil, err
	}
	return entries(responses[0])
}

// Status asks for the node's state, the messages that it has sent, and the length of its log.
func (n *Node) Status(ctx context.Context) (Status, error) {
	responses, err := n.Ask(ctx, []byte{askStatus})
	if err != nil {
		return Status{}, err
	}
	return status(responses[0])
}

// Crash takes the node down; Restart brings it back with what its journal holds.
func (n *Node) Crash(ctx context.Context) error {
	_, err := n.one(ctx, []byte{askCrash}, sayDone)
	return err
}
func (n *Node) Restart(ctx context.Context) error {
	_, err := n.one(ctx, []byte{askRestart}, sayDone)
	return err
}

func sleep(ctx context.Context, pause *time.Duration) error {
	timer := time.NewTimer(*pause)
	defer timer.Stop()
	if *pause *= 2; *pause > mostPause {
		*pause = mostPause
	}
	select {
	case <-ctx.Done():
		return ctx.Err()
	case <-timer.C:
		return nil
	}
}

// Until makes a call again after each temporary fault, until the context ends.
func Until(ctx context.Context, call func() (uint32, error)) (uint32, error) {
	return until(ctx, func(error) {}, call)
}

// until is Until, and tells each fault after which the call is made again.
func until(ctx context.Context, tell func(error), call func() (uint32, error)) (uint32, error) {
	pause := leastPause
	for {
		got, err := call()
		var refused Refused
		if err == nil || errors.As(err, &refused) && !refused.Temporary() {
			return got, err
		}
		tell(err)
		if sleep(ctx, &pause) != nil {
			return 0, err
		}
	}
}
