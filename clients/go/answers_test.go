package members

import (
	"context"
	"errors"
	"fmt"
	"net/netip"
	"reflect"
	"strings"
	"testing"
	"time"
)

var (
	ctx     = context.Background()
	accuser = strings.Repeat("A", 32)
	suspect = alive("b.-_9").with(fields{"status": "suspect", "incarnation": uint64(1<<64 - 1), "accuser": accuser})
	rows    = []fields{alive("a"), suspect, alive("c").with(fields{"address": "2001:db8::1", "port": 0})}
	table   = fields{"version": 41, "moment_ms": 5120, "name": "b", "members": rows}
	healthy = fields{"name": "b", "score": 0, "incarnation": 3, "live": 2, "known": 3, "ousted": false,
		"uptime_ms": 5120, "stood_still_ms": 7}
)

// withMore has each field of an object in another order, with spaces, and further fields before and behind them. Some
// differ from known ones in their case alone.
func withMore(value fields) string {
	parts := []string{`"Name":1`, `"VERSION" : "x"`, `"new":[{"name":[null,-1.5e3,"\"\\\u00e9"]},{}]`}
	for key, it := range value {
		if rows, isRows := it.([]fields); isRows {
			var all []string
			for _, row := range rows {
				all = append(all, withMore(row))
			}
			parts = append(parts, fmt.Sprintf("%q : [ %s ] ", key, strings.Join(all, " ,\n")))
			continue
		}
		parts = append(parts, fmt.Sprintf("%q\t: %s ", key, bytesOf(it)))
	}
	return "{ " + strings.Join(append(parts, `"Members":0`), ",") + " }"
}

func TestMembersAreWhatTheNodeSays(t *testing.T) {
	wanted := Table{Version: 41, MomentMS: 5120, Name: "b", Members: []Member{
		{"a", Alive, 0, netip.MustParseAddr("127.0.0.1"), 7101, ""},
		{"b.-_9", Suspect, 1<<64 - 1, netip.MustParseAddr("127.0.0.1"), 7101, accuser},
		{"c", Alive, 0, netip.MustParseAddr("2001:db8::1"), 0, ""},
	}}
	f := newFake(t)
	f.instead = []string{reply(200, bytesOf(table)), reply(200, withMore(table)), reply(200, bytesOf(table))}
	for turn := 0; turn < 2; turn++ {
		if got, err := f.client().Table(ctx); err != nil || !reflect.DeepEqual(got, wanted) {
			t.Errorf("got %v, %v", got, err)
		}
	}
	if got, err := f.client().Members(ctx); err != nil || !reflect.DeepEqual(got, wanted.Members) {
		t.Errorf("got %v, %v", got, err)
	}
}

func TestOneMemberIsAskedFor(t *testing.T) {
	f := newFake(t)
	known := alive("a").with(fields{"version": 3})
	f.instead = []string{reply(200, bytesOf(known)), reply(200, withMore(known)),
		reply(404, `{"error":"no member has this name"}`), reply(404, "<html>")}
	wanted := Member{"a", Alive, 0, netip.MustParseAddr("127.0.0.1"), 7101, ""}
	for turn := 0; turn < 2; turn++ {
		if got, isKnown, err := f.client().Member(ctx, "a"); got != wanted || !isKnown || err != nil {
			t.Errorf("got %v, %v, %v", got, isKnown, err)
		}
	}
	if got, isKnown, err := f.client().Member(ctx, ".."); isKnown || err != nil {
		t.Errorf("got %v, %v, %v", got, isKnown, err)
	}
	if _, isKnown, err := f.client().Member(ctx, "a"); isKnown || kindOf(err) != ErrBadAnswer {
		t.Errorf("got %v, %v", isKnown, err)
	}
	if got := f.targets(); !reflect.DeepEqual(got[1:3], []string{"/v1/members/a", "/v1/members/.."}) {
		t.Errorf("asked %v", got)
	}
	for _, name := range []string{"", "a/b", "a?b", "é", strings.Repeat("a", 33), "a\n"} {
		if _, _, err := f.client().Member(ctx, name); kindOf(err) != ErrArgument {
			t.Errorf("%q: got %v", name, err)
		}
	}
}

func TestHealthIsToldOfAnOustedNodeToo(t *testing.T) {
	f := newFake(t)
	ousted := healthy.with(fields{"ousted": true})
	f.instead = []string{reply(200, withMore(healthy)), reply(503, bytesOf(ousted))}
	for _, isOusted := range []bool{false, true} {
		wanted := Health{"b", 0, 3, 2, 3, isOusted, 5120, 7}
		if got, err := f.client().Health(ctx); err != nil || got != wanted {
			t.Errorf("got %v, %v", got, err)
		}
	}
}

func TestABusyNodeSaysWhenToAskAgain(t *testing.T) {
	f := newFake(t)
	f.instead = []string{busy, busy, closed, reply(503, "{}", "Retry-After: Wed, 21 Oct 2026 07:28:00 GMT")}
	_, err := f.client().Members(ctx)
	var fault *Error
	if !errors.As(err, &fault) || kindOf(err) != ErrBusy || fault.RetryAfter != time.Second {
		t.Errorf("got %v", err)
	}
	if _, err = f.client().Health(ctx); kindOf(err) != ErrBusy {
		t.Errorf("got %v", err)
	}
	if _, err = f.client().Members(ctx); !errors.As(err, &fault) || fault.Kind != ErrBusy || fault.RetryAfter != 0 {
		t.Errorf("got %v", err)
	}
	if _, err = f.client().Members(ctx); kindOf(err) != ErrBadAnswer {
		t.Errorf("got %v", err)
	}
	f.set(func() { f.refusals = 1 })
	if _, err = f.client().Members(ctx); kindOf(err) != ErrBusy {
		t.Errorf("got %v", err)
	}
}

func TestNobodyListens(t *testing.T) {
	f := newFake(t)
	f.end()
	if _, err := f.client().Members(ctx); kindOf(err) != ErrNoAnswer {
		t.Errorf("got %v", err)
	}
}

// The answer is cut off behind each of its bytes.
func TestAnAnswerIsCutOff(t *testing.T) {
	f := newFake(t)
	whole := reply(200, bytesOf(table.with(fields{"members": rows[:1]})))
	for size := 1; size < len(whole); size++ {
		f.set(func() { f.instead = []string{whole[:size] + closed} })
		if _, err := f.client().Members(ctx); kindOf(err) != ErrNoAnswer {
			t.Errorf("%q: got %v", whole[:size], err)
		}
	}
}

// The time is that of the whole question, and not of each read.
func TestASlowNodeIsGivenUp(t *testing.T) {
	whole := reply(200, bytesOf(table))
	for _, answer := range []string{silent, whole[:9], whole[:len(whole)-1], whole} {
		f := newFake(t)
		f.instead = []string{answer}
		if answer == whole {
			f.slowness = 50 * time.Millisecond
		}
		client, begun := f.client(), time.Now()
		client.Timeout = 300 * time.Millisecond
		_, err := client.Members(ctx)
		if took := time.Since(begun); kindOf(err) != ErrNoAnswer || took < client.Timeout || took > 10*time.Second {
			t.Errorf("%q: got %v after %v", answer, err, took)
		}
	}
}

func TestAnAnswerComesByteAfterByte(t *testing.T) {
	f := newFake(t)
	f.instead, f.slowness = []string{reply(200, bytesOf(table.with(fields{"members": rows[:1]})))}, time.Millisecond
	if got, err := f.client().Members(ctx); len(got) != 1 || err != nil {
		t.Errorf("got %v, %v", got, err)
	}
}

func TestTheEndOfAContextEndsAQuestion(t *testing.T) {
	f := newFake(t)
	f.instead = []string{silent, silent}
	late, cancelLate := context.WithTimeout(ctx, 100*time.Millisecond)
	defer cancelLate()
	called, cancel := context.WithCancel(ctx)
	time.AfterFunc(200*time.Millisecond, cancel)
	begun := time.Now()
	if _, err := f.client().Members(late); !errors.Is(err, context.DeadlineExceeded) || kindOf(err) != ErrNoAnswer {
		t.Errorf("got %v", err)
	}
	for turn := 0; turn < 2; turn++ {
		if _, err := f.client().Members(called); !errors.Is(err, context.Canceled) || kindOf(err) != ErrNoAnswer {
			t.Errorf("got %v", err)
		}
	}
	if took := time.Since(begun); took > 4*time.Second {
		t.Errorf("it took %v", took)
	}
}

func TestGarbageIsNoAnswer(t *testing.T) {
	endless := "HTTP/1.1 200 OK\r\n\r\n" + strings.Repeat("[", 2*maxAnswer) + closed
	for _, it := range []string{"\x16\x03\x01" + strings.Repeat("\r\n", 90), "220 ftp\r\n\r\n",
		"HTTP/2.0 200 OK\r\n\r\n", endless, strings.Repeat("a", 2*maxAnswer),
		"HTTP/1.1 200 OK\r\nContent-Length: -1\r\n\r\n", "HTTP/1.1 200 OK\r\nContent-Length: 1000000000000000\r\n\r\n",
		"HTTP/1.1 200 OK\r\nTransfer-Encoding: chunked\r\n\r\nzz\r\n", reply(200, ""), reply(200, "\xff"),
		reply(200, "[]"), reply(200, "null"), reply(200, strings.Repeat("[", 100000)), reply(404, bytesOf(table)),
		reply(503, bytesOf(table)), reply(421, `{"error":"no"}`)} {
		f := newFake(t)
		f.instead = []string{it}
		if _, err := f.client().Members(ctx); kindOf(err) != ErrBadAnswer {
			t.Errorf("%.60q: got %v", it, err)
		}
	}
}

func TestEachFieldHasToBeThereAndOfItsKind(t *testing.T) {
	bad := []any{1, nil}
	for key := range rows[0] {
		bad = append(bad, rows[0].without(key), rows[0].with(fields{key: 1.5}), rows[0].with(fields{key: true}))
	}
	for _, it := range []fields{{"port": 65536}, {"incarnation": -1}, {"incarnation": 1e30}, {"name": ""},
		{"name": "a b"}, {"name": "a\n"}, {"name": nil}, {"name": strings.Repeat("a", 33)}, {"address": ""},
		{"address": "localhost"}, {"address": "[::1]"}, {"address": "1.2.3"}, {"address": "::1%lo"},
		{"status": "forgotten"}, {"status": "new"}} {
		bad = append(bad, rows[0].with(it))
	}
	var tables []fields
	for _, it := range []fields{{"members": fields{}}, {"members": nil}, {"version": "1"}} {
		tables = append(tables, table.with(it))
	}
	for _, it := range bad {
		tables = append(tables, table.with(fields{"members": []any{it}}))
	}
	for key := range table {
		tables = append(tables, table.without(key))
	}
	f := newFake(t)
	for _, it := range tables {
		f.set(func() { f.instead = []string{reply(200, bytesOf(it))} })
		if got, err := f.client().Table(ctx); kindOf(err) != ErrBadAnswer || !reflect.DeepEqual(got, Table{}) {
			t.Errorf("%s: got %v, %v", bytesOf(it), got, err)
		}
	}
}

// Bodies that come in chunks, or that end with the connection: no node sends such, and what stands before one may.
func TestBodiesThatEndOtherwise(t *testing.T) {
	body := bytesOf(table)
	chunks := "HTTP/1.1 200\r\ntransfer-encoding: chunked\r\n\r\n"
	for _, it := range []string{body[:1], body[1:99], body[99:]} {
		chunks += fmt.Sprintf("%x;a=b\r\n%s\r\n", len(it), it)
	}
	f := newFake(t)
	f.instead = []string{chunks + "0\r\nA: b\r\n\r\n", "HTTP/1.0 200 OK\r\n\r\n" + body + closed, chunks + closed}
	for turn := 0; turn < 2; turn++ {
		if got, err := f.client().Members(ctx); len(got) != 3 || err != nil {
			t.Errorf("got %v, %v", got, err)
		}
	}
	if _, err := f.client().Members(ctx); kindOf(err) != ErrNoAnswer {
		t.Errorf("got %v", err)
	}
}

func TestTextsThatAreNoAddress(t *testing.T) {
	for _, at := range []string{"", "127.0.0.1", "127.0.0.1:0", "127.0.0.1:65536", "::1:8946", "[::1]", "a b:1",
		"a:1\r\nX: y", "http://a:1", ":1"} {
		if _, err := New(at); kindOf(err) != ErrArgument {
			t.Errorf("%q: got %v", at, err)
		}
	}
	for _, at := range []string{"[::1]:8946", "localhost:1", "10.0.0.1:65535"} {
		if _, err := New(at); err != nil {
			t.Errorf("%q: got %v", at, err)
		}
	}
}

// Many goroutines ask with one client.
func TestQuestionsAreAskedAtOnce(t *testing.T) {
	f := newFake(t, "a")
	client, done := f.client(), make(chan error)
	for it := 0; it < 20; it++ {
		go func() {
			_, err := client.Members(ctx)
			done <- err
		}()
	}
	for it := 0; it < 20; it++ {
		if err := <-done; err != nil {
			t.Error(err)
		}
	}
}

func TestAFaultIsAnError(t *testing.T) {
	err := bad("%w", errTooLong)
	if !errors.Is(err, errTooLong) || !errors.Is(err, ErrBadAnswer) || errors.Is(err, ErrBusy) {
		t.Errorf("%v", err)
	}
}
