package urbd

import (
	"context"
	"encoding/binary"
	"encoding/json"
	"errors"
	"fmt"
	"io"
	"net"
	"os"
	"path/filepath"
	"reflect"
	"sync"
	"testing"
	"time"
)

// A made-up node: it speaks the frames of clients, and serves four connections at a time. Before it takes a request it does what
// stands next in `troubles`: close the connection, lose the answer, hang, or refuse with a number.
type madeUp struct {
	sync.Mutex
	entries  []Entry
	troubles []any
	down     bool
	isNew    bool   // it knows WAIT
	asked    []byte // the opcodes of the requests
	cap      int
	listener net.Listener
	sessions chan struct{}
}

func start(t *testing.T, port int, entries ...Entry) (*madeUp, *Node) {
	listener, err := net.Listen("tcp", fmt.Sprintf("127.0.0.1:%d", port))
	if err != nil {
		t.Fatal(err)
	}
	m := &madeUp{entries: entries, cap: 1000000, listener: listener, sessions: make(chan struct{}, 4)}
	t.Cleanup(func() { listener.Close() })
	go func() {
		for {
			m.sessions <- struct{}{}
			connection, err := listener.Accept()
			if err != nil {
				return
			}
			go m.serve(connection)
		}
	}()
	return m, &Node{Port: listener.Addr().(*net.TCPAddr).Port, Timeout: 500 * time.Millisecond}
}

func (m *madeUp) serve(connection net.Conn) {
	defer func() { connection.Close(); <-m.sessions }()
	for {
		var head [2]byte
		if _, err := io.ReadFull(connection, head[:]); err != nil {
			return
		}
		body := make([]byte, binary.BigEndian.Uint16(head[:]))
		if _, err := io.ReadFull(connection, body); err != nil {
			return
		}
		m.wait(body)
		answer, goesOn := m.one(body)
		if !goesOn {
			return
		}
		connection.Write(append(binary.BigEndian.AppendUint16(nil, uint16(len(answer))), answer...))
	}
}

// wait takes the time of a WAIT, until there is an entry.
func (m *madeUp) wait(body []byte) {
	if body[0] != 6 {
		return
	}
	end := time.Now().Add(time.Duration(binary.BigEndian.Uint16(body[6:])) * time.Millisecond)
	for hasNone := true; hasNone && time.Now().Before(end); time.Sleep(time.Millisecond) {
		m.set(func() { hasNone = m.isNew && len(m.entries) < int(binary.BigEndian.Uint32(body[1:])) })
	}
}

func refused(number byte, detail int) []byte {
	return binary.BigEndian.AppendUint32([]byte{0xEE, number}, uint32(detail))
}

func (m *madeUp) one(body []byte) ([]byte, bool) {
	m.Lock()
	defer m.Unlock()
	var trouble any
	if len(m.troubles) > 0 {
		trouble, m.troubles = m.troubles[0], m.troubles[1:]
	}
	switch it := trouble.(type) {
	case int:
		return refused(byte(it), 0), true
	case string:
		if it == "hang" {
			time.Sleep(time.Second)
		}
		if it != "lose" {
			return nil, false
		}
	}
	var answer []byte
	m.asked = append(m.asked, body[0])
	switch body[0] {
	case 6:
		if !m.isNew {
			return refused(19, 2), true
		}
		answer = m.read(int(binary.BigEndian.Uint32(body[1:])), int(body[5]))
	case 1:
		answer = m.submit(binary.BigEndian.Uint16(body[1:]), binary.BigEndian.Uint32(body[3:]), body[7:])
	case 2:
		answer = m.read(int(binary.BigEndian.Uint32(body[1:])), int(body[5]))
	case 3:
		state := byte(1)
		if m.down {
			state = 0
		}
		count := uint32(len(m.entries))
		answer = binary.BigEndian.AppendUint32(binary.BigEndian.AppendUint32([]byte{0x83, state}, count), count)
	case 4, 5:
		m.down = body[0] == 4
		answer = []byte{0x84}
	}
	return answer, trouble != "lose"
}

func (m *madeUp) submit(client uint16, number uint32, payload []byte) []byte {
	if m.down {
		return refused(3, 0)
	}
	next := uint32(1)
	for _, it := range m.entries {
		if it.Client != client {
			continue
		}
		if it.Number == number && string(it.Payload) == string(payload) {
			return binary.BigEndian.AppendUint32([]byte{0x81}, it.Seq)
		} else if it.Number == number {
			return refused(6, 0)
		}
		next++
	}
	if number != next {
		return refused(7, int(next))
	}
	if len(m.entries) >= m.cap {
		return refused(8, 0)
	}
	m.entries = append(m.entries, Entry{1, uint32(len(m.entries) + 1), client, number, payload})
	return binary.BigEndian.AppendUint32([]byte{0x81}, uint32(len(m.entries)))
}

func (m *madeUp) read(place, most int) []byte {
	answer := []byte{0x82, 0}
	for at := place - 1; at < len(m.entries) && at < place-1+most; at++ {
		it := m.entries[at]
		if len(answer)+13+len(it.Payload) > 65535 {
			break
		}
		answer = binary.BigEndian.AppendUint32(append(answer, it.Sender), it.Seq)
		answer = binary.BigEndian.AppendUint32(binary.BigEndian.AppendUint16(answer, it.Client), it.Number)
		answer = append(binary.BigEndian.AppendUint16(answer, uint16(len(it.Payload))), it.Payload...)
		answer[1]++
	}
	return answer
}

func (m *madeUp) set(change func()) {
	m.Lock()
	defer m.Unlock()
	change()
}

func (m *madeUp) payloads() (all []string) {
	m.set(func() {
		for _, it := range m.entries {
			all = append(all, string(it.Payload))
		}
	})
	return all
}

func many(count int, sender uint8, payload string) (all []Entry) {
	for it := 1; it <= count; it++ {
		all = append(all, Entry{sender, uint32(it), 7, uint32(it), []byte(payload)})
	}
	return all
}

func within(t *testing.T, limit time.Duration) context.Context {
	ctx, cancel := context.WithTimeout(context.Background(), limit)
	t.Cleanup(cancel)
	return ctx
}

func same(t *testing.T, got, want any) {
	t.Helper()
	if !reflect.DeepEqual(got, want) {
		t.Fatalf("got %v, want %v", got, want)
	}
}

func publisher(t *testing.T, node *Node, path string) *Publisher {
	t.Helper()
	p, err := OpenPublisher(node, 7, path)
	if err != nil {
		t.Fatal(err)
	}
	return p
}

func publish(t *testing.T, p *Publisher, payload string, want uint32) {
	t.Helper()
	seq, err := p.Publish(within(t, 10*time.Second), []byte(payload))
	if err != nil || seq != want {
		t.Fatalf("%s: got %d and %v, want %d", payload, seq, err, want)
	}
}

func drained(t *testing.T, f *Follower, polls int) (all []Entry) {
	t.Helper()
	for ; polls > 0; polls-- {
		some, err := f.Poll(within(t, 5*time.Second))
		if err != nil {
			t.Fatal(err)
		}
		all = append(all, some...)
	}
	return all
}

func TestASubmitIsRepeatedUntilItIsAcceptedAndStoredOnce(t *testing.T) {
	m, node := start(t, 0)
	m.troubles = []any{4, "close", 3, "lose", 1, 11, 15, 16, "hang"}
	ctx := within(t, 20*time.Second)
	seq, err := Until(ctx, func() (uint32, error) { return node.Submit(ctx, 7, 1, []byte("hi")) })
	same(t, err, nil)
	same(t, seq, uint32(1))
	same(t, m.payloads(), []string{"hi"})
}

func TestFinalRefusalsAreGivenAtOnce(t *testing.T) {
	_, node := start(t, 0, many(1, 1, "hi")...)
	ctx := within(t, 5*time.Second)
	for _, row := range []struct {
		number  uint32
		payload []byte
		want    Refused
	}{{1, []byte("ho"), Refused{6, 0}}, {9, nil, Refused{7, 2}}, {2, make([]byte, MaxPayload+1), Refused{5, 0}}} {
		_, err := Until(ctx, func() (uint32, error) { return node.Submit(ctx, 7, row.number, row.payload) })
		same(t, err, row.want)
	}
}

func TestACallEndsWithItsLimitAndWithItsContext(t *testing.T) {
	m, node := start(t, 0)
	for range make([]int, 4) { // four sessions that say nothing
		held, err := net.Dial("tcp", m.listener.Addr().String())
		same(t, err, nil)
		defer held.Close()
	}
	begin := time.Now()
	_, err := node.Status(context.Background())
	var timeout net.Error
	if !errors.As(err, &timeout) || !timeout.Timeout() {
		t.Fatalf("a fifth connection: %v", err)
	}
	ctx, cancel := context.WithCancel(context.Background())
	time.AfterFunc(50*time.Millisecond, cancel)
	if _, err := (&Node{Port: node.Port, Timeout: time.Minute}).Status(ctx); err == nil {
		t.Fatal("a context that is cancelled")
	}
	if passed := time.Since(begin); passed > 5*time.Second {
		t.Fatalf("it took %v", passed)
	}
}

func TestWhatStopsOnTheWayIsSentOnce(t *testing.T) {
	m, node := start(t, 0)
	path := filepath.Join(t.TempDir(), "publisher")
	p := publisher(t, node, path)
	publish(t, p, "m0", 1)
	for at, trouble := range []any{"lose", "close", 15, "hang", "lose"} {
		m.set(func() { m.troubles = []any{trouble} })
		ctx, cancel := context.WithTimeout(context.Background(), time.Nanosecond)
		if at%2 == 0 { // the answer is lost, or none comes in time
			ctx, cancel = context.WithTimeout(context.Background(), 5*time.Millisecond)
		}
		p.Publish(ctx, []byte(fmt.Sprintf("m%d", at+1)))
		cancel()
		p.Abandon() // as the end of the program
		p = publisher(t, node, path)
		if _, err := p.Finish(within(t, 10*time.Second)); err != nil {
			t.Fatal(err)
		}
	}
	same(t, m.payloads(), []string{"m0", "m1", "m2", "m3", "m4", "m5"})
}

func TestAMessageWhoseContextEndedGoesBeforeTheNext(t *testing.T) {
	m, node := start(t, 0)
	p := publisher(t, node, filepath.Join(t.TempDir(), "publisher"))
	publish(t, p, "first", 1)
	ctx, cancel := context.WithCancel(context.Background())
	cancel()
	if _, err := p.Publish(ctx, []byte("second")); err == nil {
		t.Fatal("a context that has ended")
	}
	publish(t, p, "third", 3)
	same(t, m.payloads(), []string{"first", "second", "third"})
}

func TestANumberThatAnotherProgramUsedStopsAPublisherForGood(t *testing.T) {
	m, node := start(t, 0)
	p := publisher(t, node, filepath.Join(t.TempDir(), "publisher"))
	publish(t, p, "mine", 1)
	ctx := within(t, 5*time.Second)
	node.Submit(ctx, 7, 2, []byte("not mine"))
	for _, payload := range []string{"mine", "again"} {
		_, err := p.Publish(ctx, []byte(payload))
		same(t, err, Stopped{"number 2 of client 7 was used by another program"})
	}
	same(t, m.payloads(), []string{"mine", "not mine"})
}

func TestAFolderBegunAnewStopsAPublisher(t *testing.T) {
	m, node := start(t, 0)
	p := publisher(t, node, filepath.Join(t.TempDir(), "publisher"))
	publish(t, p, "one", 1)
	publish(t, p, "two", 2)
	m.set(func() { m.entries = nil })
	_, err := p.Publish(within(t, 5*time.Second), []byte("three"))
	same(t, err, Stopped{"the node expects number 1, and had accepted 2: its folder is another one"})
	same(t, m.payloads(), []string(nil))
}

func TestAClosedPublisherMayBeginElsewhereAndAnOpenOneMayNot(t *testing.T) {
	_, node := start(t, 0)
	m, other := start(t, 0)
	path := filepath.Join(t.TempDir(), "publisher")
	p := publisher(t, node, path)
	publish(t, p, "one", 1)
	if _, err := OpenPublisher(node, 7, path); err == nil {
		t.Fatal("two programs share a file")
	}
	p.Abandon()
	if _, err := OpenPublisher(other, 7, path); !errors.As(err, &Stopped{}) {
		t.Fatalf("an open one: %v", err)
	}
	p = publisher(t, node, path)
	same(t, p.Close(within(t, 5*time.Second)), nil)
	publish(t, publisher(t, other, path), "two", 1)
	same(t, m.payloads(), []string{"two"})
}

func TestWhatAFullNodeRefusesIsNotUnderWay(t *testing.T) {
	m, node := start(t, 0)
	m.cap = 1
	p := publisher(t, node, filepath.Join(t.TempDir(), "publisher"))
	publish(t, p, "one", 1)
	_, err := p.Publish(within(t, 5*time.Second), []byte("two"))
	same(t, err, Refused{8, 0})
	m.set(func() { m.cap = 2 })
	publish(t, p, "three", 2)
	same(t, m.payloads(), []string{"one", "three"})
}

func TestAFollowerReadsEachEntryOnce(t *testing.T) {
	for _, row := range []struct {
		count, polls, length int
	}{{1000, 60, 1}, {40, 60, MaxPayload}} {
		all := many(row.count, 1, string(make([]byte, row.length)))
		_, node := start(t, 0, all...)
		f := NewFollower(Position{}, node)
		same(t, drained(t, f, row.polls), all)
		same(t, drained(t, f, 2), []Entry(nil))
	}
}

func TestAFollowerGoesOnAtAnotherNodeByItsPosition(t *testing.T) {
	one, two := many(30, 1, "x"), many(20, 2, "y")
	first, node := start(t, 0, append(append([]Entry{}, one[:10]...), two[:5]...)...)
	second, other := start(t, 0, append(append([]Entry{}, two...), one...)...)
	f := NewFollower(Position{}, node, other)
	got := drained(t, f, 5)
	same(t, len(got), 15)
	text, err := json.Marshal(f.Position)
	same(t, err, nil)
	var position Position
	same(t, json.Unmarshal(text, &position), nil)
	first.set(func() { first.down = true })
	got = append(got, drained(t, NewFollower(position, node, other), 20)...)
	same(t, len(got), 50)
	for sender, want := range map[uint8][]Entry{1: one, 2: two} {
		var some []Entry
		for _, it := range got {
			if it.Sender == sender {
				some = append(some, it)
			}
		}
		same(t, some, want)
	}
	second.set(func() { second.down = true })
}

func TestAFollowerLeavesANodeThatIsAway(t *testing.T) {
	m, node := start(t, 0, many(5, 1, "x")...)
	_, other := start(t, 0, many(9, 1, "x")...)
	f := NewFollower(Position{}, node, other)
	got := drained(t, f, 2)
	m.listener.Close()
	got = append(got, drained(t, f, 4)...)
	same(t, got, many(9, 1, "x"))
}

func TestAFolderBegunAnewAndAGapStopAFollower(t *testing.T) {
	m, node := start(t, 0, many(20, 1, "x")...)
	f := NewFollower(Position{}, node)
	drained(t, f, 5)
	for _, entries := range [][]Entry{nil, many(5, 1, "x"), many(20, 1, "another")} {
		m.set(func() { m.entries = entries })
		_, err := f.Poll(within(t, 5*time.Second))
		same(t, err, Stopped{fmt.Sprintf("the log at port %d isn't the one that was read up to place 20", node.Port)})
	}
	m.set(func() { m.entries = many(2, 1, "x")[1:] })
	_, err := NewFollower(Position{}, node).Poll(within(t, 5*time.Second))
	same(t, err, Stopped{"the log has 1.2 after 1.0: it is another group's"})
}

func TestPositionsAreThoseOfThePythonClient(t *testing.T) {
	var position Position
	text := `{"seen":{"1":3},"places":{"7411":[4,"ab"]}}`
	same(t, json.Unmarshal([]byte(text), &position), nil)
	same(t, position, Position{map[string]uint32{"1": 3}, map[string]Place{"7411": {4, "ab"}}})
	again, err := json.Marshal(position)
	same(t, err, nil)
	same(t, string(again), text)
	// sha256 of 01 00000001 0007 00000001 and "hi", as digest_of of the Python client gives it
	same(t, Entry{1, 1, 7, 1, []byte("hi")}.Digest(), "1cb929091b272e0048af1491c105fd361a9ecb526738b8140941df4ec54c3f0a")
}

func TestFollowEndsWithItsContextAndHandsPositionsOver(t *testing.T) {
	_, node := start(t, 0, many(9, 1, "x")...)
	ctx, cancel := context.WithCancel(context.Background())
	count := 0
	err := NewFollower(Position{}, node).Follow(ctx, func(entries []Entry, position Position) error {
		count += len(entries)
		same(t, position.Seen["1"], uint32(count))
		if count == 9 {
			cancel()
		}
		return nil
	})
	same(t, err, context.Canceled)
}

func TestAWaitEndsWithAnEntryOrItsLimit(t *testing.T) {
	m, node := start(t, 0, many(2, 1, "x")...)
	_, err := node.Wait(within(t, 10*time.Second), 1, 8, time.Second)
	var refused Refused
	same(t, errors.As(err, &refused) && refused.UnknownRequest(), true)
	m.set(func() { m.isNew = true })
	got, err := node.Wait(within(t, 10*time.Second), 1, 1, LongestWait)
	same(t, err, nil)
	same(t, got, many(1, 1, "x"))
	// the limit of a call doesn't end a wait that is longer
	begin, limit := time.Now(), 2*node.Timeout
	got, err = node.Wait(within(t, 10*time.Second), 3, 8, limit)
	same(t, err, nil)
	same(t, got, []Entry(nil))
	same(t, time.Since(begin) >= limit, true)
	go func() {
		time.Sleep(50 * time.Millisecond)
		m.set(func() { m.entries = many(3, 1, "x") })
	}()
	got, err = node.Wait(within(t, 10*time.Second), 3, 8, LongestWait)
	same(t, err, nil)
	same(t, got, many(3, 1, "x")[2:])
	// neither less than nothing nor more than the greatest limit is sent
	same(t, waiting(1, 8, -time.Second), []byte{6, 0, 0, 0, 1, 8, 0, 0})
	same(t, waiting(1, 8, time.Hour), []byte{6, 0, 0, 0, 1, 8, 0xFF, 0xFF})
}

func count(all []byte, one byte) (found int) {
	for _, it := range all {
		if it == one {
			found++
		}
	}
	return found
}

// followed follows a node until it has this many entries, which come one after another.
func followed(t *testing.T, m *madeUp, node *Node, all []Entry, position Position) []Entry {
	t.Helper()
	ctx, cancel := context.WithTimeout(context.Background(), 20*time.Second)
	defer cancel()
	begin := len(m.payloads())
	go func() {
		for it := begin; it < len(all); it++ {
			time.Sleep(20 * time.Millisecond)
			m.set(func() { m.entries = all[:it+1] })
		}
	}()
	var got []Entry
	err := NewFollower(position, node).Follow(ctx, func(entries []Entry, position Position) error {
		if got = append(got, entries...); len(got) == len(all) {
			cancel()
		}
		return nil
	})
	same(t, err, context.Canceled)
	return got
}

func TestAFollowerWaitsAtANodeThatKnowsWait(t *testing.T) {
	all := many(30, 1, "x")
	m, node := start(t, 0, all[:20]...)
	m.isNew = true
	same(t, followed(t, m, node, all, Position{}), all)
	m.set(func() { same(t, count(m.asked, 6) >= 5, true) })
}

func TestAFollowerPollsAtAnOlderNode(t *testing.T) {
	all := many(30, 1, "x")
	m, node := start(t, 0, all[:20]...)
	same(t, followed(t, m, node, all, Position{}), all)
	m.set(func() { same(t, count(m.asked, 6), 1) })
}

func TestAFolderBegunAnewStopsAFollowerThatWaits(t *testing.T) {
	m, node := start(t, 0, many(9, 1, "x")...)
	m.isNew = true
	f := NewFollower(Position{}, node)
	err := f.Follow(within(t, 20*time.Second), func(entries []Entry, position Position) error {
		if position.Seen["1"] == 9 { // the next look is a WAIT
			m.set(func() { m.entries, m.asked = many(20, 1, "another"), nil })
		}
		return nil
	})
	m.set(func() { same(t, m.asked, []byte{2, 6, 3}) })
	same(t, err, Stopped{fmt.Sprintf("the log at port %d isn't the one that was read up to place 9", node.Port)})
}

func TestAFollowerThatWaitsLeavesANodeThatIsDownOrAway(t *testing.T) {
	for _, leave := range []func(*madeUp){
		func(m *madeUp) { m.set(func() { m.down = true }) },
		func(m *madeUp) { m.listener.Close(); m.set(func() { m.troubles = []any{"close"} }) },
	} {
		all := many(9, 1, "x")
		m, node := start(t, 0, all[:5]...)
		m.isNew = true
		_, other := start(t, 0, all...)
		var got []Entry
		ctx, cancel := context.WithTimeout(context.Background(), 20*time.Second)
		err := NewFollower(Position{}, node, other).Follow(ctx, func(entries []Entry, _ Position) error {
			switch got = append(got, entries...); len(got) {
			case 5:
				leave(m)
			case len(all):
				cancel()
			}
			return nil
		})
		cancel()
		same(t, err, context.Canceled)
		same(t, got, all)
	}
}

func TestAFileOfAnotherKindIsToldByItsName(t *testing.T) {
	path := filepath.Join(t.TempDir(), "kept")
	var value Position
	if is, err := Kept(path, &value); is || err != nil {
		t.Fatal(is, err)
	}
	for _, text := range []string{"{bad", "[1]"} {
		if err := os.WriteFile(path, []byte(text), 0o600); err != nil {
			t.Fatal(err)
		}
		_, err := Kept(path, &value)
		if want := (Stopped{path + " isn't a file that a client has kept"}); err != want {
			t.Errorf("%s: %v", text, err)
		}
	}
}

func TestFaultsAreToldBeforeTheNextTry(t *testing.T) {
	made, node := start(t, 0, Entry{1, 1, 9, 1, []byte("x")})
	var told []error
	node.OnFault = func(fault error) { told = append(told, fault) }
	made.troubles = []any{"close", RefusalDown}
	publisher, err := OpenPublisher(node, 7, filepath.Join(t.TempDir(), "kept"))
	if err != nil {
		t.Fatal(err)
	}
	if _, err := publisher.Publish(within(t, 10*time.Second), []byte("hi")); err != nil || len(told) != 2 {
		t.Fatal(err, told)
	}
	made.set(func() { made.troubles = []any{"close"} })
	follower := NewFollower(Position{}, node)
	for len(follower.Position.Seen) == 0 {
		if _, err := follower.Poll(within(t, 10*time.Second)); err != nil {
			t.Fatal(err)
		}
	}
	if len(told) != 3 {
		t.Fatal(told)
	}
}
