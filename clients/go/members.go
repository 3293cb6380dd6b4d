// Package members asks the node of a Lifeguard agent that runs beside a service who is alive, and follows what changes.
//
//	client, err := members.New("127.0.0.1:8946")
//	known, err := client.Members(ctx)
//
//	table := map[string]members.Member{}
//	for change := range client.Watch(ctx) {
//		change.Apply(table)
//	}
//
// What a node answers over HTTP stands in docs/FORMATS.md of the agent. README.md beside this file says what a watcher
// promises.
package members

import (
	"context"
	"fmt"
	"net/netip"
	"regexp"
	"strconv"
	"time"
)

// DefaultAt is where a node's status server listens if nothing else is said.
const DefaultAt = "127.0.0.1:8946"

// DefaultTimeout is how long a question may take if nothing else is said.
const DefaultTimeout = 5 * time.Second

// MaxWait is the longest that a node lets a question for changes wait.
const MaxWait = 30 * time.Second

// Status is what a node takes a member for.
type Status string

// What a node may take a member for. Forgotten is the status of a change alone: the node dropped the member, which had
// failed or left.
const (
	Alive     Status = "alive"
	Suspect   Status = "suspect"
	Failed    Status = "failed"
	Left      Status = "left"
	Forgotten Status = "forgotten"
)

// Member is what a node knows of a member. Only a suspect has an accuser; without one it is empty.
type Member struct {
	Name        string
	Status      Status
	Incarnation uint64
	Address     netip.Addr
	Port        uint16
	Accuser     string
}

// Table has the members that a node knows, itself included, in the order of names. Name is the node's own. Version is
// how many events they are after, and MomentMS when they were read, in milliseconds from the node's start.
type Table struct {
	Version  uint64
	MomentMS uint64
	Name     string
	Members  []Member
}

// Health is a node's health. Its score is 0 at best. Live is how many members are neither failed nor left, of those
// that are Known.
type Health struct {
	Name         string
	Score        uint64
	Incarnation  uint64
	Live         uint64
	Known        uint64
	Ousted       bool
	UptimeMS     uint64
	StoodStillMS uint64
}

// Change is a change of a member: its new record, or that it was forgotten. Then the Status is Forgotten, and of the
// member nothing but its Name is said.
type Change struct {
	Version  uint64
	MomentMS uint64
	Member
	// OfTable says that it is a row of a whole table, which is given at the start and when a watcher has to begin anew.
	OfTable bool
	// More says that further changes of the same answer follow at once. Behind a change without it a map to which all
	// changes were applied is the table of the node.
	More bool
}

// Apply brings a map of members by their names up to date.
func (c Change) Apply(table map[string]Member) {
	if c.Status == Forgotten {
		delete(table, c.Name)
	} else {
		table[c.Name] = c.Member
	}
}

// Client asks one node. It may be used by many goroutines at once, and holds nothing that would have to be closed. Its
// fields are set before it is used.
type Client struct {
	// Timeout is how long a question may take, from the connecting to the last byte of the answer: DefaultTimeout if it
	// is 0. The end of a context ends a question too. A question of a watcher may take so much longer than its Wait.
	Timeout time.Duration
	// Wait is how long a question of a watcher waits at the node: MaxWait if it is 0 or more than that.
	Wait time.Duration
	// OnFault, if it isn't nil, is called by a watcher for each try that failed, before it waits and tries again.
	OnFault func(error)

	at   string
	pace pace
}

var (
	nameForm  = regexp.MustCompile(`^[A-Za-z0-9._-]{1,32}$`)
	placeForm = regexp.MustCompile(`^(?:\[[0-9A-Fa-f:.]+\]|[A-Za-z0-9._-]+):([0-9]{1,5})$`)
)

// New gives a client of the node whose status server listens at ADDR:PORT, with an IPv6 address in brackets. The error
// is ErrArgument if the text is something else. The zero value of a Client asks at DefaultAt.
func New(at string) (*Client, error) {
	if found := placeForm.FindStringSubmatch(at); found != nil {
		if port, err := strconv.Atoi(found[1]); err == nil && port >= 1 && port <= 65535 {
			return &Client{at: at}, nil
		}
	}
	return nil, fmt.Errorf("members: %w: %q isn't ADDR:PORT, with an IPv6 address in brackets", ErrArgument, at)
}

func (c *Client) place() string {
	if c.at == "" {
		return DefaultAt
	}
	return c.at
}

func (c *Client) timeout() time.Duration {
	if c.Timeout > 0 {
		return c.Timeout
	}
	return DefaultTimeout
}

// waitMS is how long a question for changes waits, in milliseconds, of which a node takes 1 to 30000.
func (c *Client) waitMS() int64 {
	if c.Wait <= 0 || c.Wait > MaxWait {
		return MaxWait.Milliseconds()
	}
	if c.Wait < time.Millisecond {
		return 1
	}
	return c.Wait.Milliseconds()
}

// asked gives the code and the JSON of one answer, on a connection of its own.
func (c *Client) asked(ctx context.Context, target string, codes ...int) (int, object, error) {
	deadline := time.Now().Add(c.timeout())
	link, err := dial(ctx, c.place(), deadline)
	if err != nil {
		return 0, nil, err
	}
	defer link.close()
	return link.ask(ctx, target, deadline, codes...)
}

// Table gives the members that the node knows, with the node's own name. It asks once. The error is an *Error that is
// ErrNoAnswer, ErrBusy or ErrBadAnswer if there is no answer in time.
func (c *Client) Table(ctx context.Context) (Table, error) {
	_, answer, err := c.asked(ctx, "/v1/members", 200)
	if err != nil {
		return Table{}, err
	}
	return answer.table()
}

// Members gives the members of Table, in the order of names.
func (c *Client) Members(ctx context.Context) ([]Member, error) {
	table, err := c.Table(ctx)
	return table.Members, err
}

// Member gives the member of a name, and whether the node knows it. The error is one of Table, or ErrArgument if the
// name isn't 1 to 32 bytes of A-Z a-z 0-9 . _ -
func (c *Client) Member(ctx context.Context, name string) (Member, bool, error) {
	if !nameForm.MatchString(name) {
		return Member{}, false, fmt.Errorf("members: %w: %q is no name of a member", ErrArgument, name)
	}
	code, answer, err := c.asked(ctx, "/v1/members/"+name, 200, 404)
	if err != nil {
		return Member{}, false, err
	}
	if code == 404 {
		_, err := answer.text("error")
		return Member{}, false, err
	}
	member, err := answer.member()
	return member, err == nil, err
}

// Health gives the health of the node. Of a node that was ousted this is an answer too, with Ousted. The error is one
// of Table.
func (c *Client) Health(ctx context.Context) (Health, error) {
	_, answer, err := c.asked(ctx, "/v1/health", 200, 503)
	if err != nil {
		return Health{}, err
	}
	return answer.health()
}
