package members

import (
	"bufio"
	"context"
	"errors"
	"fmt"
	"io"
	"net"
	"net/http"
	"strconv"
	"time"
)

// maxAnswer is the longest answer that is read, in bytes, its head included.
const maxAnswer = 1 << 20

var (
	errLate    = errors.New("no whole answer came in time")
	errTooLong = errors.New("the answer has more than 1048576 bytes")
)

// bounded reads what comes on a connection, so many bytes at most. It keeps the first fault of the connection.
type bounded struct {
	link net.Conn
	room int
	err  error
}

func (b *bounded) Read(into []byte) (int, error) {
	if b.room == 0 {
		b.err = errTooLong
		return 0, b.err
	}
	if len(into) > b.room {
		into = into[:b.room]
	}
	count, err := b.link.Read(into)
	b.room -= count
	if err != nil && b.err == nil {
		b.err = err
	}
	return count, err
}

// connection is a connection to a node, on which one question goes behind the other. Whatever fails closes it, since
// what still comes then would be taken for the answer to the next question.
type connection struct {
	at          string
	link        net.Conn
	source      bounded
	reader      *bufio.Reader
	isOpen      bool
	hasAnswered bool
	usedAt      time.Time
}

func dial(ctx context.Context, at string, deadline time.Time) (*connection, error) {
	link, err := (&net.Dialer{Deadline: deadline}).DialContext(ctx, "tcp", at)
	if err != nil {
		if ctx.Err() != nil {
			err = ctx.Err()
		}
		return nil, noAnswer(err)
	}
	c := &connection{at: at, link: link, isOpen: true, usedAt: time.Now()}
	c.source.link = link
	c.reader = bufio.NewReader(&c.source)
	return c, nil
}

func (c *connection) close() {
	c.isOpen = false
	c.link.Close()
}

// interruptible lets the end of a context end what is read and written on a connection, until the function that it
// gives has returned.
func interruptible(ctx context.Context, link net.Conn) func() {
	if ctx.Done() == nil {
		return func() {}
	}
	over, gone := make(chan struct{}), make(chan struct{})
	go func() {
		defer close(gone)
		select {
		case <-ctx.Done():
			link.SetDeadline(time.Unix(1, 0))
		case <-over:
		}
	}()
	return func() {
		close(over)
		<-gone
	}
}

// ask gives the code and the JSON of the answer to a GET. Its code has to be one of these.
func (c *connection) ask(ctx context.Context, target string, deadline time.Time, codes ...int) (int, object, error) {
	code, value, err := c.answer(ctx, target, deadline, codes)
	if err != nil {
		c.close()
		if ctx.Err() != nil {
			err = noAnswer(ctx.Err())
		}
		return 0, nil, err
	}
	c.usedAt, c.hasAnswered = time.Now(), true
	return code, value, nil
}

func (c *connection) answer(ctx context.Context, target string, deadline time.Time, codes []int) (int, object, error) {
	c.source.room, c.source.err = maxAnswer, nil
	c.link.SetDeadline(deadline)
	defer interruptible(ctx, c.link)()
	_, err := fmt.Fprintf(c.link, "GET %s HTTP/1.1\r\nHost: %s\r\nAccept: application/json\r\n\r\n", target, c.at)
	if err != nil {
		return 0, nil, c.ended(err)
	}
	answer, err := http.ReadResponse(c.reader, nil)
	if err != nil {
		return 0, nil, c.ended(err)
	}
	switch {
	case answer.ProtoMajor != 1:
		return 0, nil, bad("it speaks %s", answer.Proto)
	case answer.ContentLength > maxAnswer:
		return 0, nil, bad("%w", errTooLong)
	}
	body, err := io.ReadAll(answer.Body)
	if err != nil {
		return 0, nil, c.ended(err)
	}
	if answer.Close || c.reader.Buffered() > 0 {
		c.close()
	}
	value, err := valueOf(answer, body, codes)
	return answer.StatusCode, value, err
}

// ended says what it means that a read or a write failed while an answer was due.
func (c *connection) ended(err error) error {
	var late net.Error
	switch {
	case errors.Is(c.source.err, errTooLong):
		return bad("%w", errTooLong)
	case errors.As(err, &late) && late.Timeout(), errors.As(c.source.err, &late) && late.Timeout():
		return noAnswer(errLate)
	case c.source.err == nil && c.source.room < maxAnswer:
		return bad("this is no answer of HTTP/1.1: %w", err)
	case c.source.room < maxAnswer || c.hasAnswered:
		return noAnswer(fmt.Errorf("the connection ended before the answer was whole: %w", err))
	}
	return &Error{Kind: ErrBusy, Err: fmt.Errorf("the connection was closed before a byte came: %w", err)}
}

// valueOf gives the JSON of an answer. Its code has to be one of these.
func valueOf(answer *http.Response, body []byte, codes []int) (object, error) {
	seconds, isSaid := answer.Header["Retry-After"]
	if answer.StatusCode == 503 && isSaid {
		count, err := strconv.ParseUint(seconds[0], 10, 31)
		if err != nil {
			return nil, bad("this is no number of seconds: %q", seconds[0])
		}
		after := time.Duration(count) * time.Second
		return nil, &Error{Kind: ErrBusy, Err: errors.New("the node has too many clients"), RetryAfter: after}
	}
	for _, code := range codes {
		if code == answer.StatusCode {
			return parse(body)
		}
	}
	if len(body) > 200 {
		body = body[:200]
	}
	return nil, bad("the answer has the code %d: %q", answer.StatusCode, body)
}
