package urbd

import (
	"bufio"
	"bytes"
	"context"
	"errors"
	"fmt"
	"io"
)

// PublishLines publishes each line of an input, without its line end, and calls told with its
// number at the node. The publisher's file keeps how many lines are done, with a digest of them.
//
// With isSame the input is the one of an earlier run: the lines that are done are skipped. If it
// begins otherwise, and the earlier input had ended, it is a new input; an input that can be read
// again (an io.Seeker) is then read from its beginning. If the earlier input had not ended, the
// error is Stopped. Without isSame it is a new input, like that of a pipe.
func PublishLines(ctx context.Context, p *Publisher, input io.Reader, isSame bool, told func(seq uint32)) error {
	done, err := p.mark(ctx)
	if err != nil {
		return err
	}
	lines := bufio.NewReader(input)
	var mark InputMark
	if isSame {
		if mark, err = skipDone(lines, done); err != nil {
			return err
		}
		if mark.Lines < done.Lines {
			seeker, ok := input.(io.Seeker)
			if !ok {
				return Stopped{"the input is another one than before, and can't be read from its beginning"}
			}
			if _, err := seeker.Seek(0, io.SeekStart); err != nil {
				return err
			}
			lines.Reset(input)
		}
	}
	if mark != done {
		if err := p.setMark(ctx, mark); err != nil {
			return err
		}
	}
	for {
		line, err := readLine(lines)
		if errors.Is(err, io.EOF) {
			ended, err := p.mark(ctx)
			if err != nil {
				return err
			}
			ended.Ended = true
			return p.setMark(ctx, ended)
		}
		if err != nil {
			return err
		}
		seq, err := p.publish(ctx, line, true)
		if err != nil {
			return err
		}
		told(seq)
	}
}

// skipDone reads over the lines that are done, and returns their mark; an empty one if the input
// begins otherwise, and takes the place of one that had ended.
func skipDone(lines *bufio.Reader, done InputMark) (InputMark, error) {
	var mark InputMark
	for mark.Lines < done.Lines {
		line, err := readLine(lines)
		if errors.Is(err, io.EOF) {
			break
		}
		if err != nil {
			return mark, err
		}
		mark = mark.after(line)
	}
	if mark.Lines == done.Lines && mark.Digest == done.Digest {
		return mark, nil
	}
	if !done.Ended {
		return mark, Stopped{fmt.Sprintf("the input doesn't begin with the %d lines that are done: "+
			"give the same input again, or say that it is a new one", done.Lines)}
	}
	return InputMark{}, nil
}

// readLine returns the next line without its end; io.EOF if there is none.
func readLine(lines *bufio.Reader) ([]byte, error) {
	line, err := lines.ReadBytes('\n')
	if len(line) > 0 && errors.Is(err, io.EOF) {
		err = nil
	}
	return bytes.TrimSuffix(line, []byte("\n")), err
}
