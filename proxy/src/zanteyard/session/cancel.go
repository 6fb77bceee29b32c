package session

import (
	"bytes"
	"context"
	"time"
)

// IsFor reports whether a request to cancel is meant for this connection: it has the key that the server has given to the
// client.
func (s *Session) IsFor(key []byte) bool {
	s.state.Lock()
	defer s.state.Unlock()
	return len(s.key) > 0 && bytes.Equal(key, s.key)
}

// repeats are when a request that had to wait is passed on once more, unless what it is for has been answered by then: the
// server ignores a request that arrives just before it begins a statement, and nothing says when it has begun.
var repeats = []time.Duration{20 * time.Millisecond, 100 * time.Millisecond, 500 * time.Millisecond}

// Cancel calls pass, which passes a request to cancel on to the server. The server cancels what it runs when it gets it. So
// Cancel waits while what the client has sent waits for a trial or a meeting, or is behind statements of the proxy's own:
// the request would end these, or nothing. Until it has returned, no trial begins.
func (s *Session) Cancel(ctx context.Context, pass func()) {
	s.cancels.Add(1)
	defer s.cancels.Add(-1)
	hadToWait := false
	for s.isBehindOwn() {
		if hadToWait = true; !sleeps(ctx, time.Millisecond) {
			return
		}
	}
	its := s.runsNow()
	pass()
	if !hadToWait || its == 0 {
		return
	}
	for _, pause := range repeats {
		if !sleeps(ctx, pause) || !s.passesAgain(its, pass) {
			return
		}
	}
}

// sleeps waits for some time, and returns false if ctx ends meanwhile.
func sleeps(ctx context.Context, pause time.Duration) bool {
	timer := time.NewTimer(pause)
	defer timer.Stop()
	select {
	case <-ctx.Done():
		return false
	case <-timer.C:
		return true
	}
}

// isBehindOwn reports whether the server runs a statement of the proxy's own, or the client's waits in the proxy. What the proxy
// adds to a series of the client's belongs to that: the server may keep its answers back until the series is over.
func (s *Session) isBehindOwn() bool {
	s.state.Lock()
	defer s.state.Unlock()
	if s.blind.Load() || s.gone {
		return false
	}
	return s.keeps.Load() || s.replay.due || s.queue.isOwn()
}

// runsNow returns which of the client's statements, or series of messages, the server runs, counted from 1; 0 for none, and
// if others follow it.
func (s *Session) runsNow() uint64 {
	s.state.Lock()
	defer s.state.Unlock()
	return s.queue.running()
}

// passesAgain passes a request on once more, if the server still runs what it is for. What the client sends next waits
// until the server has handled the request: it is none of its business.
func (s *Session) passesAgain(its uint64, pass func()) bool {
	s.state.Lock()
	if s.gone || s.queue.running() != its {
		s.state.Unlock()
		return false
	}
	s.cancelling = true
	s.state.Unlock()
	pass()
	s.state.Lock()
	defer s.state.Unlock()
	s.cancelling = false
	s.waiting.Broadcast()
	return true
}
