package urbd

import (
	"context"
	"encoding/json"
	"errors"
	"fmt"
	"time"
)

const longestWait = time.Second // of one WAIT

// Place says how far one node's log was read: the next place, and a digest of the entry before it, "" at the beginning.
type Place struct {
	Next   uint32
	Digest string
}

// MarshalJSON writes a place as the Python client does, as a list of both.
func (p Place) MarshalJSON() ([]byte, error) { return json.Marshal([]any{p.Next, p.Digest}) }

// UnmarshalJSON reads such a list.
func (p *Place) UnmarshalJSON(text []byte) error {
	return json.Unmarshal(text, &[]any{&p.Next, &p.Digest})
}

// Position says what a Follower has read. Save it, as JSON, together with the results of the entries.
type Position struct {
	Seen   map[string]uint32 `json:"seen"`   // the last number of each sender
	Places map[string]Place  `json:"places"` // by the node's port, or by its socket's path
}

// Follower reads each message of a group once: at one node while it answers and is up, then at the next.
type Follower struct {
	Position  Position
	nodes     []*Node
	at, pages int
	isOld     map[address]bool // it doesn't know WAIT
}

// NewFollower begins at a position, or at the beginning if it is empty.
func NewFollower(position Position, nodes ...*Node) *Follower {
	if position.Seen == nil {
		position = Position{map[string]uint32{}, map[string]Place{}}
	}
	return &Follower{position, nodes, 0, 1, map[address]bool{}}
}

func (f *Follower) turn() { f.at, f.pages = (f.at+1)%len(f.nodes), 1 }

// Poll returns the entries that are new since the last poll; there may be none. A fault of the node is no error: the next poll
// asks the next node. An error is Stopped, or the end of the context.
func (f *Follower) Poll(ctx context.Context) ([]Entry, error) {
	all, _, err := f.look(ctx, 0)
	return all, err
}

// look is Poll, but by a WAIT up to this limit if it isn't 0. It also says whether the node has answered and is up.
func (f *Follower) look(ctx context.Context, limit time.Duration) ([]Entry, bool, error) {
	node := f.nodes[f.at]
	at, ok := f.Position.Places[node.at().key()]
	if !ok {
		at.Next = 1
	}
	all, isDown, err := f.ask(ctx, node, at, limit)
	var refused Refused
	if limit > 0 && errors.As(err, &refused) && refused.UnknownRequest() {
		f.isOld[node.at()] = true
		return nil, true, nil
	}
	if err != nil {
		if ctx.Err() == nil {
			node.tell(err)
		}
		f.turn()
		return nil, false, ctx.Err()
	}
	if at.Digest != "" {
		if len(all) == 0 || all[0].Digest() != at.Digest {
			return nil, false, Stopped{fmt.Sprintf("the log at %v isn't the one that was read up to place %d", node.at(), at.Next-1)}
		}
		all = all[1:]
	}
	var unseen []Entry
	for _, it := range all {
		sender := fmt.Sprint(it.Sender)
		last := f.Position.Seen[sender]
		if it.Seq > last+1 {
			return nil, false, Stopped{fmt.Sprintf("the log has %s.%d after %s.%d: it is another group's", sender, it.Seq, sender, last)}
		}
		if it.Seq == last+1 {
			f.Position.Seen[sender] = it.Seq
			unseen = append(unseen, it)
		}
	}
	if len(all) > 0 {
		f.Position.Places[node.at().key()] = Place{at.Next + uint32(len(all)), all[len(all)-1].Digest()}
	} else if isDown {
		f.turn()
		return unseen, false, nil
	}
	return unseen, true, nil
}

// ask returns the entries from the one before a place on, which shows whether the log is still the same, and whether the node
// is down. It asks for pages, or waits up to this limit if it isn't 0.
func (f *Follower) ask(ctx context.Context, node *Node, at Place, limit time.Duration) ([]Entry, bool, error) {
	if limit > 0 {
		return f.wait(ctx, node, at, limit)
	}
	first := at.Next
	if at.Digest != "" {
		first--
	}
	var requests [][]byte
	for it := 0; it < f.pages; it++ {
		requests = append(requests, reading(first+uint32(page*it), page))
	}
	return f.take(node.Ask(ctx, append(requests, []byte{askStatus})...))
}

// wait asks one node on one connection, where the log stays the same: for the entry before a place, by WAIT for those from it on,
// and for the state.
func (f *Follower) wait(ctx context.Context, node *Node, at Place, limit time.Duration) ([]Entry, bool, error) {
	var before []Entry
	requests := [][]byte{waiting(at.Next, page, limit), {askStatus}}
	if at.Digest != "" {
		requests = append([][]byte{reading(at.Next-1, 1)}, requests...)
	}
	responses, err := node.ask(ctx, bounded(limit), requests...)
	if err == nil && at.Digest != "" {
		before, err = entries(responses[0])
		responses = responses[1:]
	}
	all, isDown, err := f.take(responses, err)
	return append(before, all...), isDown, err
}

// take returns the entries of the pages up to the first page that isn't full: the pages after it don't follow on directly.
func (f *Follower) take(responses [][]byte, err error) ([]Entry, bool, error) {
	if err != nil {
		return nil, false, err
	}
	now, err := status(responses[len(responses)-1])
	if err != nil {
		return nil, false, err
	}
	var all []Entry
	for _, response := range responses[:len(responses)-1] {
		some, err := entries(response)
		if err != nil {
			return nil, false, err
		}
		all = append(all, some...)
		if len(some) < page {
			f.pages = 1
			return all, now.State == "down", nil
		}
	}
	if f.pages *= 2; f.pages > mostPages {
		f.pages = mostPages
	}
	return all, now.State == "down", nil
}

// Follow calls `take` with the entries of each look that finds some, until it fails or the context ends. It waits for entries at a
// node that knows WAIT. At another it polls, and while there are none, the pauses between polls grow. When `take` is called, the
// position is after these entries, so `take` may save both together.
func (f *Follower) Follow(ctx context.Context, take func([]Entry, Position) error) error {
	pause, limit := leastPause, time.Duration(0)
	for {
		all, isUp, err := f.look(ctx, limit)
		if err != nil {
			return err
		}
		canWait := isUp && !f.isOld[f.nodes[f.at].at()]
		if limit = 0; canWait && f.pages == 1 {
			limit = longestWait
		}
		if len(all) > 0 || canWait {
			pause = leastPause
		}
		if len(all) > 0 {
			if err := take(all, f.Position); err != nil {
				return err
			}
		} else if canWait {
			continue
		} else if err := sleep(ctx, &pause); err != nil {
			return err
		}
	}
}
