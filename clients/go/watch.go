package members

import (
	"context"
	"errors"
	"fmt"
	"sort"
	"time"
)

// pace says how long a watcher waits behind a try that failed, at first and at most, and how long a connection may have
// been idle to be used again: a node closes it after five seconds.
type pace struct {
	first, longest, idle time.Duration
}

// longTry is the time of a try that asked in no haste: behind it a watcher waits as it does at first.
const longTry = 5 * time.Second

var usualPace = pace{first: 100 * time.Millisecond, longest: 5 * time.Second, idle: 3 * time.Second}

// watcher is where the following of a node stands. One goroutine uses it.
type watcher struct {
	client Client
	pace   pace
	link   *connection
	// Whom the changes so far leave in a table, and up to which version of which life of the node, if it has begun. A
	// node draws a number when it starts, by which its lives can be told apart; it is 0 if it tells none.
	told     map[string]bool
	version  uint64
	life     uint64
	hasBegun bool
	wait     time.Duration
}

// Watch gives the changes of the node: at first the whole table, then each change as it comes. The channel is closed
// once the context has ended, and its connection with it; otherwise it never ends. So whoever stops reading ends the
// context.
//
// It waits for a node that isn't there, or not yet. If a try fails, it calls OnFault, waits, and tries again: after 0.1
// s, then after twice as long each time, 5 s at most. If the node was started again, or if more changed than it keeps,
// the whole table is given anew. Before it those come as Forgotten who were given and aren't in it. So a map to which
// all changes are applied, up to one without More, is the table of the node at that moment.
func (c *Client) Watch(ctx context.Context) <-chan Change {
	w := &watcher{client: *c, pace: c.pace, told: map[string]bool{}}
	if w.pace == (pace{}) {
		w.pace = usualPace
	}
	w.wait = w.pace.first
	changes := make(chan Change)
	go w.run(ctx, changes)
	return changes
}

func (w *watcher) run(ctx context.Context, changes chan<- Change) {
	defer close(changes)
	defer w.drop()
	for ctx.Err() == nil {
		begun := time.Now()
		rows, err := w.news(ctx)
		if err != nil {
			w.drop()
			w.rest(ctx, err, time.Since(begun))
		}
		for _, row := range rows {
			select {
			case changes <- row:
			case <-ctx.Done():
				return
			}
		}
	}
}

// rest tells of a try that failed and took so long, and waits.
func (w *watcher) rest(ctx context.Context, err error, took time.Duration) {
	if ctx.Err() != nil {
		return
	}
	if took > longTry {
		w.wait = w.pace.first
	}
	wait := w.wait
	w.wait = shorter(2*w.wait, w.pace.longest)
	var fault *Error
	if errors.As(err, &fault) {
		if asked := shorter(fault.RetryAfter, w.pace.longest); asked > wait {
			wait = asked
		}
	}
	if w.client.OnFault != nil {
		w.client.OnFault(err)
	}
	timer := time.NewTimer(wait)
	defer timer.Stop()
	select {
	case <-timer.C:
	case <-ctx.Done():
	}
}

func shorter(a, b time.Duration) time.Duration {
	if a < b {
		return a
	}
	return b
}

func (w *watcher) drop() {
	if w.link != nil {
		w.link.close()
		w.link = nil
	}
}

// news gives the changes of the next answer.
func (w *watcher) news(ctx context.Context) ([]Change, error) {
	if w.link == nil || !w.link.isOpen || time.Since(w.link.usedAt) > w.pace.idle {
		if err := w.connect(ctx); err != nil {
			return nil, err
		}
		life, err := w.askLife(ctx)
		if err != nil {
			return nil, err
		}
		if !w.hasBegun || life != w.life {
			rows, err := w.askTable(ctx)
			if err == nil {
				w.hasBegun, w.life = true, life
			}
			return rows, err
		}
	}
	return w.askChanges(ctx)
}

// connect opens a connection in the place of the one before.
func (w *watcher) connect(ctx context.Context) error {
	w.drop()
	link, err := dial(ctx, w.client.place(), time.Now().Add(w.client.timeout()))
	w.link = link
	return err
}

// ask gives the answer to a question that the node may let wait. If the connection was closed behind an answer, as no
// node does, another is opened.
func (w *watcher) ask(ctx context.Context, target string, wait time.Duration, codes ...int) (int, object, error) {
	if w.link == nil || !w.link.isOpen {
		if err := w.connect(ctx); err != nil {
			return 0, nil, err
		}
	}
	return w.link.ask(ctx, target, time.Now().Add(wait+w.client.timeout()), codes...)
}

// askLife gives the number that the node drew when it started, or 0 if it tells none.
func (w *watcher) askLife(ctx context.Context) (uint64, error) {
	code, answer, err := w.ask(ctx, "/v1/config", 0, 200, 404)
	if err != nil {
		return 0, err
	}
	if _, isTold := answer["first"]; !isTold || code != 200 {
		return 0, nil
	}
	r := reader{from: answer}
	return r.natural("first"), r.err
}

// askTable gives the whole table, as changes.
func (w *watcher) askTable(ctx context.Context) ([]Change, error) {
	_, answer, err := w.ask(ctx, "/v1/members", 0, 200)
	if err != nil {
		return nil, err
	}
	table, err := answer.table()
	if err != nil {
		return nil, err
	}
	rows := make([]Change, 0, len(table.Members))
	for _, member := range table.Members {
		rows = append(rows, Change{Version: table.Version, MomentMS: table.MomentMS, Member: member})
	}
	return w.anew(table.Version, rows), nil
}

// askChanges gives the changes behind the version of the answer before, of which there are none if nothing changed.
func (w *watcher) askChanges(ctx context.Context) ([]Change, error) {
	begun, waitMS := time.Now(), w.client.waitMS()
	wait := time.Duration(waitMS) * time.Millisecond
	_, answer, err := w.ask(ctx, fmt.Sprintf("/v1/changes?after=%d&wait_ms=%d", w.version, waitMS), wait, 200)
	if err != nil {
		return nil, err
	}
	it, err := answer.news()
	switch {
	case err != nil:
		return nil, err
	case it.version < w.version:
		w.hasBegun = false
		return nil, noAnswer(errors.New("the version of the node went back: it was started again"))
	case it.version == w.version && len(it.changes) > 0:
		return nil, bad("there are changes, and the version is that of before")
	case it.missed && len(it.changes) == 0:
		return nil, bad("the whole table has no member")
	case len(it.changes) == 0 && time.Since(begun) < wait/2:
		return nil, bad("it said that nothing changed before its time was over")
	}
	w.wait = w.pace.first
	if it.missed {
		return w.anew(it.version, it.changes), nil
	}
	return w.taken(it.version, it.changes), nil
}

// anew gives the rows of a whole table, and before them that those are forgotten who aren't there any more.
func (w *watcher) anew(version uint64, table []Change) []Change {
	here := map[string]bool{}
	var moment uint64
	for _, row := range table {
		here[row.Name] = row.Status != Forgotten
		moment = row.MomentMS
	}
	var rows []Change
	for name := range w.told {
		if !here[name] {
			gone := Member{Name: name, Status: Forgotten}
			rows = append(rows, Change{Version: version, MomentMS: moment, Member: gone, OfTable: true})
		}
	}
	sort.Slice(rows, func(a, b int) bool { return rows[a].Name < rows[b].Name })
	for _, row := range table {
		if row.Status != Forgotten {
			row.OfTable = true
			rows = append(rows, row)
		}
	}
	return w.taken(version, rows)
}

// taken notes what these changes leave in a table, and gives them.
func (w *watcher) taken(version uint64, rows []Change) []Change {
	for place := range rows {
		if name := rows[place].Name; rows[place].Status == Forgotten {
			delete(w.told, name)
		} else {
			w.told[name] = true
		}
		rows[place].More = place+1 < len(rows)
	}
	w.version = version
	return rows
}
