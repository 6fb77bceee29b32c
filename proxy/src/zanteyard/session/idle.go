package session

import (
	"strconv"
	"sync"
	"time"

	"zanteyard/loop"
	"zanteyard/meeting"
)

// idle reports whether the server has answered everything and no transaction is open, not even one that a Sync would
// end. Called with state locked.
func (s *Session) idle() bool {
	return s.status == 'I' && !s.open && !s.partial && !s.replay.running && !s.copying && s.queue.empty() &&
		!s.blind.Load()
}

// between reports whether the client has nothing under way, though the proxy may have.
func (s *Session) between() bool {
	return s.status == 'I' && !s.open && !s.blind.Load() && !s.owes()
}

// owes reports whether the server owes the client an answer, or has only a part of what the client sends.
func (s *Session) owes() bool {
	if s.partial || s.replay.running || s.copying {
		return true
	}
	for i := s.queue.head; i < len(s.queue.list); i++ {
		if e := &s.queue.list[i]; e.kind == clients && e.message != 'c' || e.kind == askEnd {
			return true
		}
	}
	return false
}

// State implements meeting.Member.
func (s *Session) State() meeting.State {
	s.state.Lock()
	defer s.state.Unlock()
	return s.does()
}

// does is State, called with state locked.
func (s *Session) does() meeting.State {
	switch {
	case s.status == 0 || s.blind.Load() || s.between():
		return meeting.Quiet
	case s.owes():
		return meeting.UnderWay
	}
	return meeting.Idle
}

// rest uses an idle moment for trials. If somebody is just writing the client's messages, then they use the moment, if it
// still is one.
func (s *Session) rest() {
	for again := true; again; again = s.missed.Load() {
		if !s.writes.TryLock() {
			s.missed.Store(true)
			if !s.writes.TryLock() {
				return
			}
		}
		s.missed.Store(false)
		if out := s.useIdle(); len(out) > 0 && !s.sendIdle(out) {
			return
		}
		s.writes.Unlock()
	}
}

// sendIdle sends the messages of an idle moment. If a loop would have to wait for that, then a goroutine sends them,
// unlocks writes, and uses the idle moment that there is then, if any. An error shows at the next read.
func (s *Session) sendIdle(out []byte) bool {
	server, is := s.server.(*loop.Conn)
	if !is {
		s.server.Write(out)
		return true
	}
	n, err := server.TryWrite(out)
	if err != loop.ErrWait {
		return true
	}
	go func() {
		server.Write(out[n:])
		s.writes.Unlock()
		if s.missed.Load() {
			s.rest()
		}
	}()
	return false
}

// useIdle returns the messages for an idle moment. Called with writes locked.
func (s *Session) useIdle() []byte {
	s.state.Lock()
	defer s.state.Unlock()
	switch {
	case s.pauses() && s.looking():
		s.asked, s.next = s.asked+1, s.next[:0]
		return s.try(nil)
	case !s.idle():
	case s.draining.Load():
		return s.leave()
	case s.trust.work() && s.looking() && s.cancels.Load() == 0:
		return s.try(nil)
	}
	return nil
}

// hold is a meeting's hold on a session.
type hold struct {
	ended    func() // not nil: something is under way, and this is to be called when it has ended
	released chan struct{}
	once     sync.Once
	over     bool // it has lasted for long enough
}

func (h *hold) release() { h.once.Do(func() { close(h.released) }) }

// end reports that nothing is under way any more. Called with state locked.
func (h *hold) end() {
	if h.ended != nil {
		h.ended()
		h.ended = nil
	}
}

// Hold implements meeting.Member. What the client begins waits until Release, but for the bound at most. All that has
// begun before is under way, since it was recorded with state locked.
func (s *Session) Hold(ended func()) meeting.State {
	s.state.Lock()
	defer s.state.Unlock()
	h := &hold{released: make(chan struct{})}
	s.hold.Store(h)
	state := s.does()
	if state == meeting.UnderWay {
		h.ended = ended
	}
	return state
}

// Release implements meeting.Member.
func (s *Session) Release() {
	s.state.Lock()
	defer s.state.Unlock()
	if h := s.hold.Swap(nil); h != nil {
		h.release()
	}
}

// holds returns the hold for which what the client begins now has to wait, or nil. Called with state locked.
func (s *Session) holds() *hold {
	if h := s.hold.Load(); h != nil && !h.over && s.between() {
		return h
	}
	return nil
}

// wait waits until the hold is released, for the bound at most. Called with writes and state locked, it unlocks both
// meanwhile, so that the proxy's own statements don't wait.
func (s *Session) wait(h *hold) {
	s.state.Unlock()
	s.writes.Unlock()
	timer := time.NewTimer(s.options.Bound)
	defer timer.Stop()
	select {
	case <-h.released:
	case <-timer.C:
	}
	s.writes.Lock()
	s.state.Lock()
	h.over = true
}

func itoa(n uint64) string { return strconv.FormatUint(n, 10) }
