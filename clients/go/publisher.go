package urbd

import (
	"context"
	"crypto/sha256"
	"encoding/hex"
	"errors"
	"fmt"
	"os"
	"sync"
	"syscall"
)

type underWay struct {
	At      address `json:"port"`
	Client  uint16  `json:"client"`
	Number  uint32  `json:"number"`
	Payload string  `json:"payload"`
	Done    bool    `json:"done"`
	InputMark
	IsLine bool `json:"line"` // the message in progress is the line after those that are done
}

// InputMark says how far an input of lines was published: how many lines are done, a digest of
// them, and whether the input had no further line then.
type InputMark struct {
	Lines  int    `json:"lines"`
	Digest string `json:"digest"`
	Ended  bool   `json:"ended"`
}

// after is the mark once this line, too, is done.
func (m InputMark) after(line []byte) InputMark {
	before, _ := hex.DecodeString(m.Digest)
	sum := sha256.Sum256(append(before, line...))
	return InputMark{Lines: m.Lines + 1, Digest: hex.EncodeToString(sum[:])}
}

// Publisher publishes at one node as one client. Each message is accepted once, even if the client
// or the node stops: before it sends a message, it writes it to a file, with its number. Several
// goroutines may use it; each call waits for the one before it.
type Publisher struct {
	calls  sync.Mutex
	node   *Node
	client uint16
	path   string
	lock   *os.File
	now    *underWay
	reason error
}

// OpenPublisher opens the file at this path, which only one program may use at a time. If it keeps a message in progress, the
// next call sends that one first.
func OpenPublisher(node *Node, client uint16, path string) (*Publisher, error) {
	lock, err := os.OpenFile(path+".lock", os.O_CREATE|os.O_RDWR, 0o600)
	if err != nil {
		return nil, err
	}
	p := &Publisher{node: node, client: client, path: path, lock: lock}
	if err = syscall.Flock(int(lock.Fd()), syscall.LOCK_EX|syscall.LOCK_NB); err != nil {
		err = fmt.Errorf("another program has %s: %w", path, err)
	}
	var now underWay
	is := false
	if err == nil {
		is, err = Kept(path, &now)
	}
	if err == nil && is {
		if now.At == node.at() && now.Client == client {
			p.now = &now
		} else if !now.Done { // else all that was sent there is accepted there: it begins here
			err = Stopped{fmt.Sprintf("its file keeps a message of client %d at %v: finish it there", now.Client, now.At)}
		}
	}
	if err != nil {
		lock.Close()
		return nil, err
	}
	return p, nil
}

func (p *Publisher) keep(now underWay) error {
	if err := Keep(p.path, now); err != nil {
		return err
	}
	p.now = &now
	return nil
}

// Publish gets a message accepted, and returns its number at the node. If the context ends before
// that, the message stays in progress: the next call, or Finish, continues it. A message that a
// full node refuses is dropped.
func (p *Publisher) Publish(ctx context.Context, payload []byte) (uint32, error) {
	return p.publish(ctx, payload, false)
}

func (p *Publisher) publish(ctx context.Context, payload []byte, isLine bool) (uint32, error) {
	if len(payload) > MaxPayload {
		return 0, Refused{RefusalTooLong, 0}
	}
	p.calls.Lock()
	defer p.calls.Unlock()
	now, err := p.last(ctx)
	if err != nil {
		return 0, err
	}
	now.Number, now.Payload, now.Done, now.IsLine = now.Number+1, hex.EncodeToString(payload), false, isLine
	if err := p.keep(now); err != nil {
		return 0, err
	}
	return p.finish(ctx)
}

// last finishes the message in progress, and returns the client's last message at the node.
func (p *Publisher) last(ctx context.Context) (underWay, error) {
	if _, err := p.finish(ctx); err != nil {
		return underWay{}, err
	}
	if p.now != nil {
		return *p.now, nil
	}
	next, err := until(ctx, p.node.tell, func() (uint32, error) { return p.node.NextNumber(ctx, p.client) })
	return underWay{At: p.node.at(), Client: p.client, Number: next - 1, Done: true}, err
}

// setMark finishes the message in progress, and counts the lines of an input from this mark on.
func (p *Publisher) setMark(ctx context.Context, mark InputMark) error {
	p.calls.Lock()
	defer p.calls.Unlock()
	now, err := p.last(ctx)
	if err != nil {
		return err
	}
	now.InputMark = mark
	return p.keep(now)
}

// mark finishes the message in progress, and returns how many lines of an input are done.
func (p *Publisher) mark(ctx context.Context) (InputMark, error) {
	if _, err := p.Finish(ctx); err != nil || p.now == nil {
		return InputMark{}, err
	}
	return p.now.InputMark, nil
}

// Finish gets the message in progress accepted, and returns its number at the node, or 0 if no message is in progress.
func (p *Publisher) Finish(ctx context.Context) (uint32, error) {
	p.calls.Lock()
	defer p.calls.Unlock()
	return p.finish(ctx)
}

func (p *Publisher) finish(ctx context.Context) (uint32, error) {
	if p.reason != nil {
		return 0, p.reason
	}
	if p.now == nil || p.now.Done {
		return 0, nil
	}
	number := p.now.Number
	payload, err := hex.DecodeString(p.now.Payload)
	if err != nil {
		return 0, err
	}
	seq, err := until(ctx, p.node.tell, func() (uint32, error) { return p.node.Submit(ctx, p.client, number, payload) })
	var refused Refused
	if errors.As(err, &refused) {
		switch {
		case refused.Number == RefusalConflict:
			p.reason = Stopped{fmt.Sprintf("number %d of client %d was used by another program", number, p.client)}
			return 0, p.reason
		case refused.Number == RefusalGap:
			p.reason = Stopped{fmt.Sprintf("the node expects number %d, and had accepted %d: its folder is another one", refused.Detail, number-1)}
			return 0, p.reason
		case refused.Number == RefusalFull:
			dropped := *p.now
			dropped.Number, dropped.Payload, dropped.Done, dropped.IsLine = number-1, "", true, false
			if other := p.keep(dropped); other != nil {
				return 0, other
			}
		}
	}
	if err != nil {
		return 0, err
	}
	if p.now.IsLine {
		p.now.InputMark, p.now.IsLine = p.now.InputMark.after(payload), false
	}
	p.now.Done = true // the file says so at the next message, or by Close: a repeat does no harm
	return seq, nil
}

// Close finishes the message in progress, and notes that in the file. Then the file may be used at another node or folder.
func (p *Publisher) Close(ctx context.Context) error {
	p.calls.Lock()
	defer p.calls.Unlock()
	if _, err := p.finish(ctx); err != nil {
		return err
	}
	if p.now != nil {
		if err := Keep(p.path, p.now); err != nil {
			return err
		}
	}
	return p.lock.Close()
}

// Abandon closes the file, and leaves the message in progress to the next Publisher.
func (p *Publisher) Abandon() { p.lock.Close() }
