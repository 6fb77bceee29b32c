// Package meeting finds moments at which nothing is under way on some of a proxy's connections. It holds what would
// begin until what is under way has ended, for a bounded time. Nothing is sent to the server for that.
package meeting

import (
	"context"
	"sync"
	"time"
)

// State is what a client is doing.
type State uint8

const (
	// Quiet means that nothing is under way: what the client sends next begins a transaction.
	Quiet State = iota
	// Idle means that a transaction is open, and that everything was answered: only the client knows when it goes on.
	Idle
	// UnderWay means that the client waits for an answer.
	UnderWay
)

// Member is a session that can be held between two transactions of its client.
type Member interface {
	Number() uint64
	// State returns what the client is doing.
	State() State
	// Hold makes what the client begins from now on wait, and returns what it is doing. If that is UnderWay, ended is called
	// once when nothing is under way any more, even if the connection ends. It is called by any goroutine, and doesn't wait.
	Hold(ended func()) State
	// Release lets the client go on. After it ended isn't called any more.
	Release()
}

// Room knows the present sessions. Safe for use by many goroutines.
type Room struct {
	bound time.Duration

	meets sync.Mutex // one meeting at a time

	lock    sync.Mutex
	members map[uint64]Member
}

// NewRoom makes a room whose meetings wait for what is under way for at most the bound.
func NewRoom(bound time.Duration) *Room {
	return &Room{bound: bound, members: map[uint64]Member{}}
}

// Enter adds a session. It takes part from the next meeting on.
func (r *Room) Enter(m Member) {
	r.lock.Lock()
	defer r.lock.Unlock()
	r.members[m.Number()] = m
}

// Leave removes a session.
func (r *Room) Leave(m Member) {
	r.lock.Lock()
	defer r.lock.Unlock()
	delete(r.members, m.Number())
}

// those returns the present ones among these connections.
func (r *Room) those(connections []uint64) []Member {
	r.lock.Lock()
	defer r.lock.Unlock()
	those := make([]Member, 0, len(connections))
	for _, number := range connections {
		if m := r.members[number]; m != nil {
			those = append(those, m)
		}
	}
	return those
}

// Meet holds these connections until what is under way on them has ended, or until the bound. Then it calls moment,
// with how long it took, and releases them. Nobody waits for a connection that is idle in a transaction at first, nor
// for one that isn't named. If ctx ends first, moment isn't called.
func (r *Room) Meet(ctx context.Context, connections []uint64, moment func(held time.Duration)) {
	r.meets.Lock()
	defer r.meets.Unlock()
	began := time.Now()
	those := r.those(connections)
	defer func() {
		for _, m := range those {
			m.Release()
		}
	}()
	ended, left := make(chan struct{}, len(those)), 0
	for _, m := range those {
		if m.Hold(func() { ended <- struct{}{} }) == UnderWay {
			left++
		}
	}
	timer := time.NewTimer(r.bound)
	defer timer.Stop()
	for left > 0 && ctx.Err() == nil {
		select {
		case <-ended:
			left--
		case <-timer.C:
			left = 0
		case <-ctx.Done():
		}
	}
	if ctx.Err() == nil {
		moment(time.Since(began))
	}
}

// Open returns those of these connections on which a transaction is open, or something is under way.
func (r *Room) Open(connections []uint64) (open []uint64) {
	for _, m := range r.those(connections) {
		if m.State() != Quiet {
			open = append(open, m.Number())
		}
	}
	return open
}

// Busy returns on how many of these connections something is under way, and how many are idle in a transaction.
func (r *Room) Busy(connections []uint64) (underWay, idle int) {
	for _, m := range r.those(connections) {
		switch m.State() {
		case UnderWay:
			underWay++
		case Idle:
			idle++
		}
	}
	return underWay, idle
}
