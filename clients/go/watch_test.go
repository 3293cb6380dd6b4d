package members

import (
	"context"
	"reflect"
	"strings"
	"sync"
	"testing"
	"time"
)

// following is a watcher of a fake, with the faults that it told and a table to which its changes are applied.
type following struct {
	t       *testing.T
	fake    *fake
	changes <-chan Change
	cancel  context.CancelFunc
	table   map[string]Member

	lock    sync.Mutex
	faults  []error
	moments []time.Time
}

// follow begins to watch. The client may be changed before.
func (f *fake) follow(t *testing.T, change func(*Client)) *following {
	it := &following{t: t, fake: f, table: map[string]Member{}}
	client := f.client()
	client.OnFault = func(err error) {
		it.lock.Lock()
		defer it.lock.Unlock()
		it.faults, it.moments = append(it.faults, err), append(it.moments, time.Now())
	}
	if change != nil {
		change(client)
	}
	own, cancel := context.WithCancel(ctx)
	t.Cleanup(cancel)
	it.cancel, it.changes = cancel, client.Watch(own)
	return it
}

// row is what a test looks at of a change.
type row struct {
	name    string
	status  Status
	version uint64
	ofTable bool
}

// takes takes changes up to one without More, and wants these.
func (it *following) takes(wanted ...row) {
	it.t.Helper()
	var got []row
	for {
		select {
		case change, isOpen := <-it.changes:
			if !isOpen {
				it.t.Fatalf("the changes ended behind %v", got)
			}
			change.Apply(it.table)
			got = append(got, row{change.Name, change.Status, change.Version, change.OfTable})
			if change.More {
				continue
			}
		case <-time.After(20 * time.Second):
			it.t.Fatalf("no change came behind %v; the faults are %v", got, it.kinds())
		}
		if !reflect.DeepEqual(got, wanted) {
			it.t.Fatalf("got %v, wanted %v", got, wanted)
		}
		return
	}
}

// kinds are the kinds of the faults so far.
func (it *following) kinds() (kinds []error) {
	it.lock.Lock()
	defer it.lock.Unlock()
	for _, fault := range it.faults {
		kinds = append(kinds, kindOf(fault))
	}
	return kinds
}

func (it *following) told(wanted ...error) {
	it.t.Helper()
	if got := it.kinds(); !reflect.DeepEqual(got, wanted) {
		it.t.Errorf("the faults are %v, wanted %v", got, wanted)
	}
}

// only is the table of a fake with the member a alone.
var only = row{"a", Alive, 5, true}

func TestTheTableComesFirstAndThenEachChange(t *testing.T) {
	f := newFake(t, "a", "b")
	it := f.follow(t, nil)
	it.takes(only, row{"b", Alive, 5, true})
	f.news <- changes(9, changed(7, alive("c")), changed(8, suspect.with(fields{"name": "a", "incarnation": 0})),
		changed(8, alive("a").with(fields{"incarnation": 1})))
	it.takes(row{"c", Alive, 7, false}, row{"a", Suspect, 8, false}, row{"a", Alive, 8, false})
	f.news <- changes(12, forgotten(12, "c"))
	it.takes(row{"c", Forgotten, 12, false})
	if len(it.table) != 2 || it.table["a"].Incarnation != 1 {
		t.Errorf("the table is %v", it.table)
	}
	wanted := []string{"/v1/config", "/v1/members", "/v1/changes?after=5&wait_ms=2000",
		"/v1/changes?after=9&wait_ms=2000"}
	if got := f.targets(); !reflect.DeepEqual(got[:4], wanted) {
		t.Errorf("asked %v", got)
	}
	if count := f.countNow(); count != 1 {
		t.Errorf("there were %d connections", count)
	}
	it.told()
}

func TestNothingChangesForAWhile(t *testing.T) {
	f := newFake(t, "a")
	it := f.follow(t, func(client *Client) { client.Wait = 100 * time.Millisecond })
	it.takes(only)
	f.set(func() { f.version = 6 })
	time.AfterFunc(350*time.Millisecond, func() { f.news <- changes(7, changed(7, alive("b"))) })
	it.takes(row{"b", Alive, 7, false})
	if f.countOf("/v1/changes?after=6&wait_ms=100") == 0 {
		t.Errorf("asked %v", f.targets())
	}
	it.told()
}

func TestMissedChangesGiveTheTableAnew(t *testing.T) {
	f := newFake(t, "a", "b", "c", "d")
	it := f.follow(t, nil)
	it.takes(only, row{"b", Alive, 5, true}, row{"c", Alive, 5, true}, row{"d", Alive, 5, true})
	f.news <- missed(9000, changed(9000, alive("b").with(fields{"status": "failed"})), changed(9000, alive("e")))
	it.takes(row{"a", Forgotten, 9000, true}, row{"c", Forgotten, 9000, true}, row{"d", Forgotten, 9000, true},
		row{"b", Failed, 9000, true}, row{"e", Alive, 9000, true})
	f.news <- changes(9001, changed(9001, alive("a")))
	it.takes(row{"a", Alive, 9001, false})
	if len(it.table) != 3 || f.countOf("/v1/members") != 1 {
		t.Errorf("the table is %v, and asked was %v", it.table, f.targets())
	}
}

// Also if the node tells nothing by which its lives could be told apart.
func TestVersionsThatGoBackGiveTheTableAnew(t *testing.T) {
	for _, first := range []int{1, 0} {
		f := newFake(t, "a", "b")
		f.version, f.first = 50, first
		it := f.follow(t, nil)
		it.takes(row{"a", Alive, 50, true}, row{"b", Alive, 50, true})
		f.set(func() { f.members, f.version = f.members[1:], 3 })
		f.news <- changes(3)
		it.takes(row{"a", Forgotten, 3, true}, row{"b", Alive, 3, true})
		it.told(ErrNoAnswer)
	}
}

// Also if its version has come further than that of before.
func TestANodeThatWasStartedAgainGivesTheTableAnew(t *testing.T) {
	f := newFake(t, "a", "b")
	it := f.follow(t, nil)
	it.takes(only, row{"b", Alive, 5, true})
	f.set(func() { f.members, f.version, f.first = f.members[1:], 77, 2 })
	f.closeAll()
	it.takes(row{"a", Forgotten, 77, true}, row{"b", Alive, 77, true})
	it.told(ErrNoAnswer)
}

// If the node runs on, the changes go on behind the last one.
func TestALostConnectionGivesNothingAnew(t *testing.T) {
	f := newFake(t, "a")
	it := f.follow(t, nil)
	it.takes(only)
	f.news <- closed
	f.news <- changes(6, changed(6, alive("b")))
	it.takes(row{"b", Alive, 6, false})
	if f.countOf("/v1/members") != 1 {
		t.Errorf("asked %v", f.targets())
	}
	it.told(ErrNoAnswer)
}

// It is so if nobody takes the changes for a while.
func TestAConnectionThatWasIdleIsReplaced(t *testing.T) {
	f := newFake(t, "a")
	it := f.follow(t, func(client *Client) {
		client.pace = usualPace
		client.pace.idle = 100 * time.Millisecond
	})
	until(t, 10*time.Second, "it doesn't ask", func() bool { return f.countOf("/v1/members") == 1 })
	time.Sleep(200 * time.Millisecond)
	f.closeAll()
	it.takes(only)
	f.news <- changes(6, changed(6, alive("b")))
	it.takes(row{"b", Alive, 6, false})
	if f.countOf("/v1/members") != 1 {
		t.Errorf("asked %v", f.targets())
	}
	it.told()
}

func TestEachAnswerMayEndItsConnection(t *testing.T) {
	f := newFake(t, "a")
	lines := strings.NewReplacer("\r\nContent-Length", "\r\nConnection: close\r\nContent-Length")
	for _, target := range []string{"/v1/config", "/v1/members"} {
		f.instead = append(f.instead, lines.Replace(f.answer(target))+closed)
	}
	it := f.follow(t, nil)
	it.takes(only)
	for _, version := range []int{6, 7} {
		f.news <- lines.Replace(changes(version, changed(version, alive("b")))) + closed
		it.takes(row{"b", Alive, uint64(version), false})
	}
	it.told()
}

// None of the faults changes what it gives.
func TestItGoesOnBehindEachFault(t *testing.T) {
	t.Parallel()
	whole := changes(6, changed(6, alive("b")))
	for fault, kind := range map[string]error{busy + closed: ErrBusy, whole[:len(whole)-5] + closed: ErrNoAnswer,
		whole[:9] + closed: ErrNoAnswer, closed: ErrNoAnswer, "garbage\r\n\r\n": ErrBadAnswer,
		reply(200, "[]"): ErrBadAnswer, reply(200, `{"version":6}`): ErrBadAnswer, reply(500, "{}"): ErrBadAnswer,
		changes(5, changed(6, alive("b"))): ErrBadAnswer, changes(6): ErrBadAnswer, missed(9): ErrBadAnswer} {
		f := newFake(t, "a")
		it := f.follow(t, nil)
		it.takes(only)
		f.news <- fault
		f.news <- whole
		it.takes(row{"b", Alive, 6, false})
		it.told(kind)
	}
}

func TestFaultsBeforeTheTable(t *testing.T) {
	f := newFake(t, "a")
	f.refusals = 1
	life := f.answer("/v1/config")
	f.instead = []string{closed, life, closed, life, "garbage\r\n\r\n", reply(200, "{}"), life[:len(life)-1] + closed}
	it := f.follow(t, func(client *Client) { client.pace = pace{time.Millisecond, time.Millisecond, time.Second} })
	it.takes(only)
	it.told(ErrBusy, ErrBusy, ErrNoAnswer, ErrBadAnswer, ErrNoAnswer)
	if f.countOf("/v1/changes?after=0&wait_ms=2000") > 0 {
		t.Errorf("asked %v", f.targets())
	}
}

func TestBytesBehindAnAnswerEndItsConnection(t *testing.T) {
	f := newFake(t, "a")
	it := f.follow(t, nil)
	it.takes(only)
	for _, version := range []int{6, 7} {
		f.news <- changes(version, changed(version, alive("b"))) + "HTTP/1.1 500"
		it.takes(row{"b", Alive, uint64(version), false})
	}
	it.told()
}

func TestItWaitsAsLongAsABusyNodeSays(t *testing.T) {
	t.Parallel()
	f := newFake(t, "a")
	it := f.follow(t, nil)
	it.takes(only)
	f.news <- busy + closed
	f.news <- changes(6, changed(6, alive("b")))
	it.takes(row{"b", Alive, 6, false})
	if waited := time.Since(it.moments[0]); waited < time.Second {
		t.Errorf("it waited %v", waited)
	}
}

func TestTheWaitsGrowAndAreBounded(t *testing.T) {
	t.Parallel()
	f := newFake(t, "a")
	f.refusals = 9
	it := f.follow(t, func(client *Client) {
		client.pace = pace{50 * time.Millisecond, 200 * time.Millisecond, time.Second}
	})
	it.takes(only)
	for place, least := range []time.Duration{50, 100, 200, 200, 200, 200, 200, 200} {
		waited := it.moments[place+1].Sub(it.moments[place])
		if waited < least*time.Millisecond || waited > 3*time.Second {
			t.Errorf("the wait %d was %v", place, waited)
		}
	}
}

func TestTheWaitsBeginAnewBehindAnAnswer(t *testing.T) {
	t.Parallel()
	f := newFake(t, "a")
	f.refusals = 7
	it := f.follow(t, func(client *Client) {
		client.pace = pace{20 * time.Millisecond, 5 * time.Second, time.Second}
	})
	it.takes(only)
	f.news <- changes(6, changed(6, alive("b")))
	it.takes(row{"b", Alive, 6, false})
	f.news <- closed
	f.news <- changes(7, changed(7, alive("c")))
	it.takes(row{"c", Alive, 7, false})
	if waited := time.Since(it.moments[7]); waited > 2*time.Second {
		t.Errorf("it waited %v", waited)
	}
}

// Whatever an odd server answers at once, it isn't asked without a pause.
func TestAnswersWithoutAWaitDoNotMakeItSpin(t *testing.T) {
	t.Parallel()
	var fakes []*fake
	for _, odd := range []string{changes(5), changes(4), changes(5, changed(5, alive("a"))), busy + closed,
		reply(400, "{}"), closed} {
		f := newFake(t, "a")
		f.odd = odd
		fakes = append(fakes, f)
		changes := f.follow(t, nil).changes
		go func() {
			for range changes {
			}
		}()
	}
	for _, f := range fakes {
		until(t, 10*time.Second, "it isn't asked", func() bool { return len(f.targets()) > 2 })
	}
	time.Sleep(time.Second)
	for place, f := range fakes {
		if count := len(f.targets()); count > 25 {
			t.Errorf("%d: it asked %d times", place, count)
		}
	}
}

func TestASilentNodeIsAskedAgain(t *testing.T) {
	t.Parallel()
	f := newFake(t, "a")
	it := f.follow(t, func(client *Client) { client.Wait, client.Timeout = 100*time.Millisecond, time.Second })
	it.takes(only)
	begun := time.Now()
	f.news <- silent
	f.news <- changes(6, changed(6, alive("b")))
	it.takes(row{"b", Alive, 6, false})
	if took := time.Since(begun); took < time.Second {
		t.Errorf("it gave up before its time: %v", took)
	}
	// A busy machine may be silent too.
	for _, kind := range it.kinds() {
		if kind != ErrNoAnswer {
			t.Errorf("told %v", kind)
		}
	}
}

func TestALongWaitIsNoSilence(t *testing.T) {
	t.Parallel()
	f := newFake(t, "a")
	it := f.follow(t, func(client *Client) { client.Wait, client.Timeout = 0, time.Second })
	it.takes(only)
	until(t, 10*time.Second, "it asks nothing", func() bool {
		return f.countOf("/v1/changes?after=5&wait_ms=30000") > 0
	})
	before := it.kinds()
	time.Sleep(1500 * time.Millisecond)
	f.news <- changes(6, changed(6, alive("b")))
	it.takes(row{"b", Alive, 6, false})
	it.told(before...)
}
