package members

import (
	"errors"
	"fmt"
	"time"
)

// What an error may be, by errors.Is.
var (
	// ErrNoAnswer: nobody listens there, the answer took too long, or it ended before it was whole.
	ErrNoAnswer = errors.New("no answer")
	// ErrBusy: the node has too many clients. It said so, or closed the connection before a byte came.
	ErrBusy = errors.New("the node is busy")
	// ErrBadAnswer: what came is no answer of a node's status server.
	ErrBadAnswer = errors.New("bad answer")
	// ErrArgument: the address or the name that is asked for is none. Nobody was asked.
	ErrArgument = errors.New("bad argument")
)

// Error says why there is no answer of a node.
type Error struct {
	// Kind is ErrNoAnswer, ErrBusy or ErrBadAnswer.
	Kind error
	// Err says more, and is the error of the context if that has ended.
	Err error
	// RetryAfter is after how long a busy node wants to be asked again, 0 if it didn't say.
	RetryAfter time.Duration
}

func (e *Error) Error() string { return fmt.Sprintf("members: %v: %v", e.Kind, e.Err) }

// Is says whether the error is of this kind.
func (e *Error) Is(kind error) bool { return kind == e.Kind }

// Unwrap gives the error that says more.
func (e *Error) Unwrap() error { return e.Err }

func noAnswer(err error) error { return &Error{Kind: ErrNoAnswer, Err: err} }

func bad(format string, words ...any) error {
	return &Error{Kind: ErrBadAnswer, Err: fmt.Errorf(format, words...)}
}
