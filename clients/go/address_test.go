package urbd

import (
	"context"
	"encoding/json"
	"net"
	"path/filepath"
	"testing"
	"time"
)

// startAt is start, at a Unix socket.
func startAt(t *testing.T, entries ...Entry) (*madeUp, *Node) {
	path := filepath.Join(t.TempDir(), "node-1.sock")
	listener, err := net.Listen("unix", path)
	if err != nil {
		t.Fatal(err)
	}
	m := &madeUp{entries: entries, cap: 1000000, listener: listener, sessions: make(chan struct{}, 4)}
	t.Cleanup(func() { listener.Close() })
	go func() {
		for {
			m.sessions <- struct{}{}
			connection, err := listener.Accept()
			if err != nil {
				return
			}
			go m.serve(connection)
		}
	}()
	return m, &Node{Socket: path, Timeout: 500 * time.Millisecond}
}

func TestANodeIsAskedAtItsSocket(t *testing.T) {
	ctx := context.Background()
	_, node := startAt(t)
	seq, err := node.Submit(ctx, 7, 1, []byte("hi"))
	same(t, err, nil)
	same(t, seq, uint32(1))
	entries, err := node.Read(ctx, 1, 8)
	same(t, err, nil)
	same(t, string(entries[0].Payload), "hi")
	if _, err := (&Node{Socket: node.Socket + "x"}).Status(ctx); err == nil {
		t.Fatal("nobody listens there")
	}
}

func TestAPublisherAndAFollowerTakeASocket(t *testing.T) {
	ctx := context.Background()
	_, node := startAt(t)
	path := filepath.Join(t.TempDir(), "publisher")
	publisher, err := OpenPublisher(node, 7, path)
	same(t, err, nil)
	_, err = publisher.Publish(ctx, []byte("hi"))
	same(t, err, nil)
	same(t, publisher.Close(ctx), nil)
	var kept map[string]any
	_, err = Kept(path, &kept)
	same(t, err, nil)
	same(t, kept["port"], any(node.Socket))
	again, err := OpenPublisher(node, 7, path)
	same(t, err, nil)
	again.Abandon()

	follower := NewFollower(Position{}, node)
	found, err := follower.Poll(ctx)
	same(t, err, nil)
	same(t, len(found), 1)
	same(t, follower.Position.Places[node.Socket].Next, uint32(2))
}

func TestAnAddressIsANumberOrAPath(t *testing.T) {
	for text, at := range map[string]address{"7411": {port: 7411}, `"/run/s"`: {socket: "/run/s"}} {
		written, err := json.Marshal(at)
		same(t, err, nil)
		same(t, string(written), text)
		var found address
		same(t, json.Unmarshal(written, &found), nil)
		same(t, found, at)
	}
	same(t, (address{port: 7411}).String(), "port 7411")
	same(t, (address{socket: "/run/s"}).String(), "socket /run/s")
}
