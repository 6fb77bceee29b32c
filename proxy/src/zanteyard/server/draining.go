package server

import (
	"context"
	"fmt"
	"net"
	"time"

	"github.com/jackc/pgproto3/v2"

	"zanteyard/session"
)

// mostBeginning is how many connections may be beginning in addition to twice those that are served.
const mostBeginning = 100

// Drain ends the server: it accepts no connection any more, and each existing one ends when its client has nothing under
// way. Those that are left after Options.Draining are closed. It doesn't wait for that; Serve does.
func (s *Server) Drain() {
	s.lock.Lock()
	defer s.lock.Unlock()
	if s.draining {
		return
	}
	s.draining = true
	if s.listener != nil {
		s.listener.Close()
	}
	for one := range s.sessions {
		go one.Drain()
	}
}

// listens records what Serve listens to, and reports whether it may.
func (s *Server) listens(listener net.Listener) bool {
	s.lock.Lock()
	defer s.lock.Unlock()
	if s.draining {
		listener.Close()
		return false
	}
	s.listener = listener
	return true
}

func (s *Server) drains() bool {
	s.lock.Lock()
	defer s.lock.Unlock()
	return s.draining
}

// await waits until all connections have ended, until they have had their time, or until ctx ends.
func (s *Server) await(ctx context.Context) {
	ended := make(chan struct{})
	go func() {
		s.all.Wait()
		close(ended)
	}()
	timer := time.NewTimer(s.options.Draining)
	defer timer.Stop()
	select {
	case <-ended:
	case <-ctx.Done():
	case <-timer.C:
		s.lock.Lock()
		left := len(s.conns)
		s.lock.Unlock()
		s.options.Log(fmt.Sprintf("%d connections still had something under way after %v, and are closed", left,
			s.options.Draining))
	}
}

// beginsSession lets a session take part in Drain.
func (s *Server) beginsSession(one *session.Session) {
	s.lock.Lock()
	defer s.lock.Unlock()
	s.sessions[one] = true
	if s.draining {
		go one.Drain()
	}
}

func (s *Server) endsSession(one *session.Session) {
	s.lock.Lock()
	defer s.lock.Unlock()
	delete(s.sessions, one)
}

// admit counts a client that wants to be served, and reports whether it may be.
func (s *Server) admit() bool {
	s.lock.Lock()
	defer s.lock.Unlock()
	if s.options.Most > 0 && s.served >= s.options.Most {
		return false
	}
	s.served++
	return true
}

func (s *Server) dismiss() {
	s.lock.Lock()
	defer s.lock.Unlock()
	s.served--
}

// tooMany is the error that PostgreSQL itself gives to a client beyond its max_connections.
func (s *Server) tooMany() []byte {
	return (&pgproto3.ErrorResponse{Severity: "FATAL", SeverityUnlocalized: "FATAL", Code: "53300",
		Message: "sorry, too many clients already",
		Detail:  fmt.Sprintf("zanteyard-proxy serves at most %d (--most-connections).", s.options.Most)}).Encode(nil)
}
