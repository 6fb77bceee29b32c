package session

import "github.com/jackc/pgproto3/v2"

// Drain makes the session end as soon as its client has nothing under way, not even a transaction. The client then gets
// the error with which a server that shuts down ends its connections. Whatever it sends later doesn't reach the server,
// so it needn't wonder whether that was done. A connection of replication, or to a database that isn't audited, isn't
// looked at, so it goes on until it is closed.
func (s *Session) Drain() {
	s.draining.Store(true)
	s.state.Lock()
	now := s.idle()
	s.state.Unlock()
	if now {
		s.rest()
	}
}

// End closes the session at once, whatever it waits for.
func (s *Session) End() {
	s.client.Close()
	s.server.Close()
	s.deserted()
}

var (
	terminate = encoded(&pgproto3.Terminate{})
	goodbye   = (&pgproto3.ErrorResponse{Severity: "FATAL", SeverityUnlocalized: "FATAL", Code: "57P01",
		Message: "terminating connection due to administrator command"}).Encode(nil)
)

// leave returns the message by which a draining session leaves the server: nothing of the client's is sent after it.
// Called with writes and state locked.
func (s *Session) leave() []byte {
	if s.left.Swap(true) {
		return nil
	}
	return terminate
}

// sayGoodbye tells the client of a drained session why it ends. It must be called after the last answer was passed on.
func (s *Session) sayGoodbye() {
	if s.left.Load() {
		s.client.Write(goodbye)
	}
}
