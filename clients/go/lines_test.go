package urbd

import (
	"errors"
	"io"
	"path/filepath"
	"strings"
	"testing"
	"time"
)

// pipe is an input that can't be read again.
type pipe struct{ io.Reader }

func lines(t *testing.T, node *Node, path string, input io.Reader, isSame bool, most int) error {
	t.Helper()
	p := publisher(t, node, path)
	defer p.Abandon()
	if most > 0 { // the program stops after so many lines of this run
		input = &brokenInput{input, most}
	}
	return PublishLines(within(t, 5*time.Second), p, input, isSame, func(uint32) {})
}

// brokenInput gives a number of lines of two bytes, and then breaks off.
type brokenInput struct {
	io.Reader
	left int
}

func (c *brokenInput) Read(into []byte) (int, error) {
	if c.left == 0 {
		return 0, errors.New("it broke off")
	}
	c.left--
	return io.ReadFull(c.Reader, into[:2])
}

func TestAnInputContinuesWithTheFirstLineThatIsNotDone(t *testing.T) {
	m, node := start(t, 0)
	path := filepath.Join(t.TempDir(), "publisher")
	five := "a\nb\nc\nd\ne\n"
	if err := lines(t, node, path, strings.NewReader(five), true, 2); err == nil {
		t.Fatal("it didn't break off")
	}
	same(t, m.payloads(), []string{"a", "b"})
	var stopped Stopped
	if err := lines(t, node, path, strings.NewReader("a\nx\n"), true, 0); !errors.As(err, &stopped) {
		t.Fatalf("another input: %v", err)
	}
	m.set(func() { m.troubles = []any{"lose"} })
	for turn := 0; turn < 2; turn++ {
		same(t, lines(t, node, path, strings.NewReader(five), true, 0), nil)
	}
	same(t, m.payloads(), []string{"a", "b", "c", "d", "e"})
	same(t, lines(t, node, path, strings.NewReader(five+"f"), true, 0), nil)
	same(t, lines(t, node, path, strings.NewReader("a\ny\n"), true, 0), nil)
	same(t, m.payloads()[5:], []string{"f", "a", "y"})
}

func TestTheLinesOfAPipeAreNew(t *testing.T) {
	m, node := start(t, 0)
	path := filepath.Join(t.TempDir(), "publisher")
	for turn := 0; turn < 2; turn++ {
		same(t, lines(t, node, path, pipe{strings.NewReader("a\nb\n")}, false, 0), nil)
	}
	same(t, m.payloads(), []string{"a", "b", "a", "b"})
}

func TestGoroutinesShareAPublisher(t *testing.T) {
	m, node := start(t, 0)
	p := publisher(t, node, filepath.Join(t.TempDir(), "publisher"))
	faults := make(chan error, 4)
	for each := 0; each < 4; each++ {
		go func() {
			var err error
			for turn := 0; turn < 10 && err == nil; turn++ {
				_, err = p.Publish(within(t, 20*time.Second), []byte("x"))
			}
			faults <- err
		}()
	}
	for each := 0; each < 4; each++ {
		same(t, <-faults, nil)
	}
	same(t, len(m.payloads()), 40)
}

func TestARefusalSaysWhatItIs(t *testing.T) {
	same(t, Refused{7, 3}.Error(), "refused 7 3: the next number is 3")
	same(t, Refused{99, 0}.Error(), "refused 99 0: a refusal that this client doesn't know")
}
