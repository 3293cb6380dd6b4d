package members

import (
	"context"
	"runtime"
	"testing"
	"time"
)

// endsOnce ends a watcher once something holds. It ends soon, and nothing is left of it.
func endsOnce(t *testing.T, f *fake, holds func(*following) bool) {
	t.Helper()
	it := f.follow(t, func(client *Client) {
		client.Wait, client.Timeout, client.pace = MaxWait, MaxWait, pace{MaxWait, MaxWait, time.Second}
	})
	until(t, 10*time.Second, "it doesn't come so far", func() bool { return holds(it) })
	it.cancel()
	until(t, 5*time.Second, "connections are open", func() bool { return f.openNow() == 0 })
	for end := time.After(5 * time.Second); ; {
		select {
		case _, isOpen := <-it.changes:
			if !isOpen {
				return
			}
		case <-end:
			t.Fatal("it doesn't end")
		}
	}
}

func TestItEndsWhileItWaits(t *testing.T) {
	endsOnce(t, newFake(t, "a"), func(it *following) bool {
		select {
		case <-it.changes:
		default:
		}
		return len(it.fake.targets()) == 3
	})
}

func TestItEndsWhileNobodyTakesAChange(t *testing.T) {
	endsOnce(t, newFake(t, "a"), func(it *following) bool { return len(it.fake.targets()) == 2 })
}

func TestItEndsWhileTheNodeIsSilent(t *testing.T) {
	f := newFake(t)
	f.instead = []string{silent}
	endsOnce(t, f, func(it *following) bool { return len(f.targets()) == 1 })
}

func TestItEndsBetweenTwoTries(t *testing.T) {
	f := newFake(t)
	f.refusals = 1
	endsOnce(t, f, func(it *following) bool { return len(it.kinds()) == 1 })
}

func TestItEndsAtOnceIfItsContextHasEnded(t *testing.T) {
	over, cancel := context.WithCancel(ctx)
	cancel()
	if _, isOpen := <-newFake(t, "a").client().Watch(over); isOpen {
		t.Error("a change came")
	}
}

func TestNothingIsLeftOfThoseThatEnded(t *testing.T) {
	f := newFake(t, "a")
	client := f.client()
	files, routines := openFiles(t), runtime.NumGoroutine()
	own, cancel := context.WithCancel(ctx)
	for turn := 0; turn < 20; turn++ {
		if change := <-client.Watch(own); change.Name != "a" {
			t.Errorf("got %v", change)
		}
	}
	cancel()
	until(t, 10*time.Second, "connections are open", func() bool { return f.openNow() == 0 })
	until(t, 10*time.Second, "goroutines are left", func() bool { return runtime.NumGoroutine() <= routines })
	until(t, 10*time.Second, "files are open", func() bool { return openFiles(t) <= files })
}
