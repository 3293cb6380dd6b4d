package members

import (
	"context"
	"fmt"
	"io"
	"math/rand"
	"net"
	"os"
	"os/exec"
	"reflect"
	"sync"
	"testing"
	"time"
)

// patience is how long a test waits for what nodes come to: much longer than they take, for a machine that is busy.
const patience = 60 * time.Second

// The dice are other ones in each process, since several look for free ports at once.
func init() { rand.Seed(time.Now().UnixNano() + int64(os.Getpid())) }

// bound is a socket of UDP or TCP at a place.
func bound(kind, place string) (io.Closer, error) {
	if kind == "udp" {
		return net.ListenPacket(kind, place)
	}
	return net.Listen(kind, place)
}

// freePlace gives a free port of UDP or TCP, which the machine hands out to nobody, with its address. The port of the
// same number and of the other kind is held until the end of the test, so that others who look for one so leave it
// alone.
func freePlace(t *testing.T, kind string) string {
	other, least, most := "udp", 12000, 16000
	if kind == "udp" {
		other, least, most = "tcp", 20000, 32000
	}
	for {
		place := fmt.Sprintf("127.0.0.1:%d", least+rand.Intn(most-least))
		holder, err := bound(other, place)
		if err != nil {
			continue
		}
		if probe, err := bound(kind, place); err == nil {
			probe.Close()
			t.Cleanup(func() { holder.Close() })
			return place
		}
		holder.Close()
	}
}

// node is a node of the program that the variable LG names. It may be started, killed, and started again under its name
// and at its places. It ends with this process, since its input ends then.
type node struct {
	t       *testing.T
	program string
	name    string
	place   string
	at      string
	options []string
	command *exec.Cmd
}

func newNode(t *testing.T, name string, options ...string) *node {
	program := os.Getenv("LG")
	if program == "" {
		t.Skip("the variable LG doesn't name the program")
	}
	n := &node{t: t, program: program, name: name, options: options}
	n.place, n.at = freePlace(t, "udp"), freePlace(t, "tcp")
	t.Cleanup(n.kill)
	return n
}

// start starts it. It asks these nodes for their tables.
func (n *node) start(seeds ...*node) *node {
	_, port, _ := net.SplitHostPort(n.place)
	words := []string{"node", "--name", n.name, "--port", port, "--status", n.at, "--interval-ms", "200",
		"--timeout-ms", "100", "--alpha", "3", "--wire", "3", "--until-input-ends", "--for-ms", "120000"}
	for _, seed := range seeds {
		words = append(words, "--seed", seed.place)
	}
	n.command = exec.Command(n.program, append(words, n.options...)...)
	if _, err := n.command.StdinPipe(); err != nil {
		n.t.Fatal(err)
	}
	if err := n.command.Start(); err != nil {
		n.t.Fatal(err)
	}
	return n
}

// kill kills it by SIGKILL, if it runs.
func (n *node) kill() {
	if n.command != nil {
		n.command.Process.Kill()
		n.command.Wait()
	}
}

func (n *node) client() *Client {
	client, err := New(n.at)
	if err != nil {
		n.t.Fatal(err)
	}
	client.Timeout = patience
	return client
}

// table is what it knows, and after how many events. It is empty if it doesn't answer.
func (n *node) table() (map[string]Member, uint64) {
	table, _ := n.client().Table(ctx)
	known := map[string]Member{}
	for _, it := range table.Members {
		known[it.Name] = it
	}
	return known, table.Version
}

func (n *node) answers() bool {
	table, _ := n.table()
	return len(table) > 0
}

// follower applies the changes of a node to a table, as a service would.
type follower struct {
	lock   sync.Mutex
	whole  map[string]Member
	told   []Change
	faults []error
	cancel context.CancelFunc
	ended  chan struct{}
}

func follow(n *node) *follower {
	f := &follower{whole: map[string]Member{}, ended: make(chan struct{})}
	client := n.client()
	client.OnFault = func(err error) {
		f.lock.Lock()
		defer f.lock.Unlock()
		f.faults = append(f.faults, err)
	}
	own, cancel := context.WithCancel(ctx)
	f.cancel = cancel
	n.t.Cleanup(cancel)
	go f.run(client.Watch(own))
	return f
}

func (f *follower) run(changes <-chan Change) {
	defer close(f.ended)
	table := map[string]Member{}
	for change := range changes {
		change.Apply(table)
		f.lock.Lock()
		f.told = append(f.told, change)
		if !change.More {
			f.whole = map[string]Member{}
			for name, member := range table {
				f.whole[name] = member
			}
		}
		f.lock.Unlock()
	}
}

func (f *follower) table() map[string]Member {
	f.lock.Lock()
	defer f.lock.Unlock()
	return f.whole
}

// statusesOf are the statuses of a member that were told.
func (f *follower) statusesOf(name string) (all []Status) {
	f.lock.Lock()
	defer f.lock.Unlock()
	for _, change := range f.told {
		if change.Name == name {
			all = append(all, change.Status)
		}
	}
	return all
}

func (f *follower) countFaults() int {
	f.lock.Lock()
	defer f.lock.Unlock()
	return len(f.faults)
}

func statuses(table map[string]Member) map[string]Status {
	all := map[string]Status{}
	for name, member := range table {
		all[name] = member.Status
	}
	return all
}

// agrees waits until the table is that of the node, and has these statuses.
func (f *follower) agrees(t *testing.T, n *node, wanted map[string]Status) {
	t.Helper()
	for end := time.Now().Add(patience); ; time.Sleep(20 * time.Millisecond) {
		own, _ := n.table()
		got := f.table()
		if reflect.DeepEqual(statuses(got), wanted) && reflect.DeepEqual(got, own) {
			return
		}
		if time.Now().After(end) {
			t.Fatalf("wanted %v; the follower has %v, and the node %v", wanted, got, own)
		}
	}
}

// Also the node that is asked is killed, and isn't there at the start.
func TestATableFollowsNodesThatDieAndComeBack(t *testing.T) {
	t.Parallel()
	b := newNode(t, "b")
	f := follow(b)
	a := newNode(t, "a").start()
	c := newNode(t, "c").start(a)
	until(t, patience, "nobody is asked", func() bool { return f.countFaults() > 1 })
	b.start(a)
	all := map[string]Status{"a": Alive, "b": Alive, "c": Alive}
	dead := map[string]Status{"a": Alive, "b": Alive, "c": Failed}
	f.agrees(t, b, all)
	c.kill()
	f.agrees(t, b, dead)
	c.start(a, b)
	f.agrees(t, b, all)
	b.kill()
	c.kill()
	b.start(a)
	f.agrees(t, b, dead)
	a.kill()
	b.kill()
	b.start()
	f.agrees(t, b, map[string]Status{"b": Alive})
	for _, name := range []string{"a", "c"} {
		if told := f.statusesOf(name); told[len(told)-1] != Forgotten {
			t.Errorf("of %s was told %v", name, told)
		}
	}
	f.cancel()
	select {
	case <-f.ended:
	case <-time.After(10 * time.Second):
		t.Error("it doesn't end")
	}
}

// So its versions don't show that it was started again, and the table comes anew all the same.
func TestANodeComesFurtherThanBeforeWhileNobodyTakesAChange(t *testing.T) {
	t.Parallel()
	b := newNode(t, "b").start()
	a := newNode(t, "a").start(b)
	until(t, patience, "it doesn't answer", a.answers)
	own, cancel := context.WithCancel(ctx)
	defer cancel()
	changes, table, latest := a.client().Watch(own), map[string]Member{}, uint64(0)
	for change := range changes {
		change.Apply(table)
		latest = change.Version
		if !change.More && len(table) == 2 {
			break
		}
	}
	a.kill()
	b.kill()
	a.start()
	until(t, patience, "it comes no further", func() bool {
		_, version := a.table()
		return version > latest+5
	})
	for deadline := time.After(patience); len(table) > 1; {
		select {
		case change := <-changes:
			change.Apply(table)
		case <-deadline:
			t.Fatalf("the table is %v", table)
		}
	}
	if known, _ := a.table(); !reflect.DeepEqual(table, known) {
		t.Errorf("the table is %v, and the node knows %v", table, known)
	}
}

func TestANodeForgetsWhoIsGone(t *testing.T) {
	t.Parallel()
	a := newNode(t, "a", "--forget-ms", "1000").start()
	b := newNode(t, "b").start(a)
	f := follow(a)
	f.agrees(t, a, map[string]Status{"a": Alive, "b": Alive})
	b.kill()
	f.agrees(t, a, map[string]Status{"a": Alive})
	told := f.statusesOf("b")
	if count := len(told); count < 3 || !reflect.DeepEqual(told[count-2:], []Status{Failed, Forgotten}) {
		t.Errorf("of b was told %v", told)
	}
}

func TestANodeIsAsked(t *testing.T) {
	t.Parallel()
	a := newNode(t, "a").start()
	until(t, patience, "it doesn't answer", a.answers)
	if health, err := a.client().Health(ctx); err != nil || health.Name != "a" || health.Live != 1 || health.Ousted {
		t.Errorf("got %v, %v", health, err)
	}
	if member, isKnown, err := a.client().Member(ctx, "a"); !isKnown || err != nil || member.Status != Alive {
		t.Errorf("got %v, %v, %v", member, isKnown, err)
	}
	if _, isKnown, err := a.client().Member(ctx, "b"); isKnown || err != nil {
		t.Errorf("got %v, %v", isKnown, err)
	}
}
