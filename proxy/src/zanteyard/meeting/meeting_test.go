package meeting

import (
	"context"
	"sync"
	"testing"
	"time"
)

// fake is a session without a server.
type fake struct {
	number uint64

	lock     sync.Mutex
	state    State
	ended    func()
	held     bool
	holds    int
	releases int
}

func (f *fake) Number() uint64 { return f.number }

func (f *fake) State() State {
	f.lock.Lock()
	defer f.lock.Unlock()
	return f.state
}

func (f *fake) Hold(ended func()) State {
	f.lock.Lock()
	defer f.lock.Unlock()
	f.held, f.ended = true, ended
	f.holds++
	return f.state
}

func (f *fake) Release() {
	f.lock.Lock()
	defer f.lock.Unlock()
	f.held, f.ended = false, nil
	f.releases++
}

// ends ends what is under way.
func (f *fake) ends() {
	f.lock.Lock()
	defer f.lock.Unlock()
	if f.ended != nil {
		f.ended()
	}
	f.state, f.ended = Quiet, nil
}

func (f *fake) isHeld() bool {
	f.lock.Lock()
	defer f.lock.Unlock()
	return f.held
}

// isHeldSoon waits until a meeting has begun.
func (f *fake) isHeldSoon() {
	for !f.isHeld() {
		time.Sleep(time.Millisecond)
	}
}

func roomOf(bound time.Duration, members ...*fake) *Room {
	room := NewRoom(bound)
	for _, m := range members {
		room.Enter(m)
	}
	return room
}

var all = []uint64{1, 2, 3, 4}

// The moment comes at once if nothing is under way. Those that are idle in a transaction are held, and nobody waits for
// them, nor for those that aren't named, which aren't held either.
func TestWhoIsWaitedFor(t *testing.T) {
	for _, one := range []struct {
		name        string
		members     []*fake
		connections []uint64
	}{
		{"nobody", nil, all},
		{"quiet ones", []*fake{{number: 1}, {number: 2}}, all},
		{"one that is idle in a transaction", []*fake{{number: 1}, {number: 2, state: Idle}}, all},
		{"one that isn't named, and has something under way", []*fake{{number: 1}, {number: 5, state: UnderWay}}, all},
		{"connections that have ended", []*fake{{number: 1}}, all},
	} {
		moments := 0
		roomOf(time.Hour, one.members...).Meet(context.Background(), one.connections, func(held time.Duration) {
			moments++
			for _, m := range one.members {
				if m.held != (m.number < 5) || m.releases > 0 {
					t.Errorf("%s: %d is held: %v", one.name, m.number, m.held)
				}
			}
			if held < 0 {
				t.Errorf("%s: it took %v", one.name, held)
			}
		})
		if moments != 1 {
			t.Errorf("%s: %d moments", one.name, moments)
		}
		for _, m := range one.members {
			if m.held || m.holds != m.releases || m.holds > 1 {
				t.Errorf("%s: %d is held %d times and released %d times", one.name, m.number, m.holds, m.releases)
			}
		}
	}
}

// The moment comes when the last of those that had something under way has ended it; until then all are held.
func TestTheMomentComesWhenAllHaveEnded(t *testing.T) {
	members := []*fake{{number: 1}, {number: 2, state: UnderWay}, {number: 3, state: UnderWay}, {number: 4, state: Idle}}
	room := roomOf(time.Hour, members...)
	moments, over := make(chan bool, 2), make(chan bool)
	go func() {
		room.Meet(context.Background(), all, func(time.Duration) {
			for _, m := range members {
				moments <- m.isHeld()
			}
		})
		close(over)
	}()
	for _, m := range members {
		m.isHeldSoon()
	}
	for _, m := range members[1:3] {
		select {
		case <-moments:
			t.Fatal("the moment came while something was under way")
		default:
		}
		m.ends()
	}
	for range members {
		if !<-moments {
			t.Error("one isn't held at the moment")
		}
	}
	<-over
	for _, m := range members {
		if m.isHeld() {
			t.Errorf("%d is still held", m.number)
		}
	}
}

// What is still under way at the bound doesn't keep the moment from coming.
func TestBound(t *testing.T) {
	moments := 0
	room := roomOf(time.Millisecond, &fake{number: 1, state: UnderWay}, &fake{number: 2})
	room.Meet(context.Background(), all, func(held time.Duration) {
		if held < time.Millisecond {
			t.Errorf("it came after %v", held)
		}
		moments++
	})
	if moments != 1 {
		t.Errorf("%d moments", moments)
	}
}

// A meeting ends with its context, without a moment.
func TestEnds(t *testing.T) {
	busy := &fake{number: 1, state: UnderWay}
	room := roomOf(time.Hour, busy)
	ctx, cancel := context.WithCancel(context.Background())
	go func() {
		busy.isHeldSoon()
		cancel()
	}()
	room.Meet(ctx, all, func(time.Duration) { t.Error("a moment") })
	if busy.isHeld() {
		t.Error("it is still held")
	}
	room.Meet(ctx, nil, func(time.Duration) { t.Error("a moment of nobody") })
}

// A session that has left takes no part, and what is under way is counted apart from what is idle.
func TestBusy(t *testing.T) {
	members := []*fake{{number: 1, state: UnderWay}, {number: 2, state: Idle}, {number: 3}, {number: 5, state: UnderWay}}
	room := roomOf(time.Hour, members...)
	if underWay, idle := room.Busy(all); underWay != 1 || idle != 1 {
		t.Errorf("%d are under way, %d idle", underWay, idle)
	}
	room.Leave(members[0])
	room.Meet(context.Background(), all, func(time.Duration) {})
	if underWay, _ := room.Busy(all); underWay != 0 || members[0].holds != 0 || members[1].holds != 1 {
		t.Errorf("%d are under way", underWay)
	}
}
