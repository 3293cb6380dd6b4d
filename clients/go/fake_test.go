package members

import (
	"bufio"
	"encoding/json"
	"errors"
	"fmt"
	"net"
	"os"
	"strconv"
	"strings"
	"sync"
	"syscall"
	"testing"
	"time"
)

// fields are the fields of an object of JSON.
type fields map[string]any

func (f fields) with(others fields) fields {
	all := fields{}
	for _, some := range []fields{f, others} {
		for key, value := range some {
			all[key] = value
		}
	}
	return all
}

func (f fields) without(key string) fields {
	rest := f.with(nil)
	delete(rest, key)
	return rest
}

// alive is a member, as a node tells it.
func alive(name string) fields {
	return fields{"name": name, "status": "alive", "incarnation": 0, "address": "127.0.0.1", "port": 7101,
		"accuser": nil}
}

// changed is a change, as a node tells it.
func changed(version int, member fields) fields {
	return member.with(fields{"version": version, "moment_ms": 10 * version})
}

// forgotten is the change that says that a member was forgotten.
func forgotten(version int, name string) fields {
	return fields{"name": name, "status": "forgotten", "version": version, "moment_ms": 1, "new": []int{}}
}

// bytesOf are the bytes of a value of JSON.
func bytesOf(value any) string {
	body, err := json.Marshal(value)
	if err != nil {
		panic(err)
	}
	return string(body)
}

// reply is an answer with a body, and with further lines of fields.
func reply(code int, body string, lines ...string) string {
	lines = append(lines, fmt.Sprintf("Content-Length: %d", len(body)))
	return fmt.Sprintf("HTTP/1.1 %d Words\r\n%s\r\n\r\n%s", code, strings.Join(lines, "\r\n"), body)
}

// changes is an answer with changes.
func changes(version int, rows ...fields) string {
	return reply(200, bytesOf(fields{"version": version, "missed": false, "changes": append([]fields{}, rows...)}))
}

// missed is an answer whose changes are the whole table.
func missed(version int, rows ...fields) string {
	return reply(200, bytesOf(fields{"version": version, "missed": true, "changes": append([]fields{}, rows...)}))
}

var busy = reply(503, `{"error":"too many requests wait"}`, "Retry-After: 1", "Connection: close")

// What stands for an answer or behind one: the connection is closed there; nothing comes on it.
const (
	closed = "\x00closed"
	silent = "\x00silent"
)

// fake is a node that has a table, and the answers to the next questions for changes, in news. If there are none, such
// a question waits. What stands in instead takes the place of the next answers, whatever they are to. So many of the
// next connections as refusals says are closed at once. It takes connections once there is a client: before that the
// fields are set freely, and then by set.
type fake struct {
	listener net.Listener
	at       string
	news     chan string

	begins   sync.Once
	lock     sync.Mutex
	members  []fields
	version  int
	first    int
	instead  []string
	refusals int
	// What is answered at once to each question for changes, if it isn't empty.
	odd string
	// How long the server waits before each byte.
	slowness time.Duration
	// The targets that were asked, and the connections that are open.
	asked []string
	open  map[net.Conn]bool
	// How many connections were made.
	count int
}

func newFake(t *testing.T, names ...string) *fake {
	t.Helper()
	listener, err := net.Listen("tcp", "127.0.0.1:0")
	if err != nil {
		t.Fatal(err)
	}
	f := &fake{listener: listener, at: listener.Addr().String(), news: make(chan string, 20), version: 5, first: 1}
	f.open = map[net.Conn]bool{}
	for _, name := range names {
		f.members = append(f.members, alive(name))
	}
	t.Cleanup(f.end)
	return f
}

func (f *fake) end() {
	f.listener.Close()
	f.closeAll()
}

// set changes the fake while it answers.
func (f *fake) set(change func()) {
	f.lock.Lock()
	defer f.lock.Unlock()
	change()
}

func (f *fake) closeAll() {
	f.set(func() {
		for link := range f.open {
			link.Close()
		}
	})
}

func (f *fake) openNow() (count int) {
	f.set(func() { count = len(f.open) })
	return count
}

func (f *fake) countNow() (count int) {
	f.set(func() { count = f.count })
	return count
}

// targets are the targets that were asked so far.
func (f *fake) targets() (all []string) {
	f.set(func() { all = append(all, f.asked...) })
	return all
}

func (f *fake) countOf(target string) (count int) {
	for _, it := range f.targets() {
		if it == target {
			count++
		}
	}
	return count
}

func (f *fake) listen() {
	for {
		link, err := f.listener.Accept()
		if err != nil {
			return
		}
		refused := false
		f.set(func() {
			f.count++
			if refused = f.refusals > 0; refused {
				f.refusals--
			} else {
				f.open[link] = true
			}
		})
		if refused {
			link.Close()
			continue
		}
		go f.serve(link)
	}
}

// serve answers what comes on a connection, until it ends.
func (f *fake) serve(link net.Conn) {
	defer f.set(func() { delete(f.open, link) })
	defer link.Close()
	for reader := bufio.NewReader(link); ; {
		first, err := reader.ReadString('\n')
		for line := ""; err == nil && line != "\r\n"; {
			line, err = reader.ReadString('\n')
		}
		if err != nil {
			return
		}
		answer, isLast := f.next(link, strings.Fields(first)[1])
		if !f.send(link, answer) || isLast {
			return
		}
	}
}

// next gives the answer to a target, and whether the connection is closed behind it.
func (f *fake) next(link net.Conn, target string) (answer string, isLast bool) {
	f.set(func() {
		f.asked = append(f.asked, target)
		if len(f.instead) > 0 {
			answer, f.instead = f.instead[0], f.instead[1:]
		} else {
			answer = f.answer(target)
		}
	})
	if answer == "" {
		answer = f.waitedFor(link, target)
	}
	return strings.TrimSuffix(answer, closed), strings.HasSuffix(answer, closed)
}

func (f *fake) send(link net.Conn, answer string) bool {
	if answer == silent {
		return true
	}
	var slowness time.Duration
	f.set(func() { slowness = f.slowness })
	if slowness == 0 {
		_, err := link.Write([]byte(answer))
		return err == nil
	}
	for at := range []byte(answer) {
		time.Sleep(slowness)
		if _, err := link.Write([]byte{answer[at]}); err != nil {
			return false
		}
	}
	return true
}

// answer gives the answer to a target, or nothing if it has to be waited for.
func (f *fake) answer(target string) string {
	switch {
	case target == "/v1/config" && f.first != 0:
		return reply(200, bytesOf(fields{"name": "b", "first": f.first}))
	case target == "/v1/config":
		return reply(404, `{"error":"there is nothing at this path"}`)
	case target == "/v1/members":
		return reply(200, bytesOf(fields{"version": f.version, "moment_ms": 50, "name": "b", "members": f.members}))
	}
	return f.odd
}

// waitedFor gives the next answer with changes, or one without any when the time of the question is over. It waits as
// long as the client does.
func (f *fake) waitedFor(link net.Conn, target string) string {
	wait, err := strconv.Atoi(target[strings.LastIndex(target, "=")+1:])
	if err != nil {
		return closed
	}
	for end := time.Now().Add(time.Duration(wait) * time.Millisecond); time.Now().Before(end); {
		select {
		case answer := <-f.news:
			return answer
		case <-time.After(20 * time.Millisecond):
			if isClosed(link) {
				return closed
			}
		}
	}
	version := 0
	f.set(func() { version = f.version })
	return changes(version)
}

// isClosed says whether the other side of a connection has closed it.
func isClosed(link net.Conn) bool {
	raw, err := link.(*net.TCPConn).SyscallConn()
	if err != nil {
		return true
	}
	over := false
	if err = raw.Read(func(file uintptr) bool {
		count, _, err := syscall.Recvfrom(int(file), make([]byte, 1), syscall.MSG_PEEK|syscall.MSG_DONTWAIT)
		over = count == 0 && err == nil || err != nil && err != syscall.EAGAIN
		return true
	}); err != nil {
		return true
	}
	return over
}

// client is a client of this server, which waits for a short time for changes.
func (f *fake) client() *Client {
	f.begins.Do(func() { go f.listen() })
	client, err := New(f.at)
	if err != nil {
		panic(err)
	}
	// A machine may be busy.
	client.Wait, client.Timeout = 2*time.Second, 30*time.Second
	return client
}

// until waits until something holds. If it doesn't in time, the test fails.
func until(t *testing.T, patience time.Duration, what string, holds func() bool) {
	t.Helper()
	for end := time.Now().Add(patience); !holds(); time.Sleep(10 * time.Millisecond) {
		if time.Now().After(end) {
			t.Fatalf("after %v: %s", patience, what)
		}
	}
}

// kindOf is what an error is by errors.Is.
func kindOf(err error) error {
	for _, kind := range []error{ErrNoAnswer, ErrBusy, ErrBadAnswer, ErrArgument} {
		if errors.Is(err, kind) {
			return kind
		}
	}
	return err
}

// openFiles is how many files this process has open.
func openFiles(t *testing.T) int {
	t.Helper()
	files, err := os.ReadDir("/proc/self/fd")
	if err != nil {
		t.Skip(err)
	}
	return len(files)
}
