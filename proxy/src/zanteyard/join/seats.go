package join

import (
	"time"

	"zanteyard/record"
)

// Seats. A connection has a session of the auditor, in which its transactions are offered. The auditor's work and memory
// grow with the number of its sessions, and it can have only so many. So an audit begins with few, and one joins for a
// connection that works and finds none. One whose connection has done nothing since the last meeting is given to a
// connection that works: everything in it comes before a fence, so the order of what its connection does next, in
// another session, isn't lost. Whether a transaction may stand in a session is up to mayStand alone (moments.go).

// seat gives a connection without a session one in which its transaction, which it has just reported, may stand. If
// there is none, sessions are short: a meeting will make some free, or allow others to join.
func (c *core) seat(conn *connection, it *record.Transaction) {
	began, ended := span(it)
	if c.moments.spanned(began, ended) {
		began = c.now // the transaction is folded, and the next one finds a session
	}
	s := c.idlest(began)
	if s == nil || c.wouldMiss(s) {
		if another := c.join(began); another != nil {
			s = another
		}
	}
	if s == nil {
		c.short = true
		return
	}
	c.unqueue(conn)
	if s.tenant != nil {
		c.queue = append(c.queue, s.tenant)
		s.tenant.session = nil
	}
	c.sit(conn, s)
}

// wouldMiss reports whether the session's connection would miss it: one that works, of another machine, whose proxy sends
// nothing that it reads until it has another one.
func (c *core) wouldMiss(s *session) bool {
	return s.tenant != nil && s.tenant.its.Proxy != "" && c.works(s.tenant)
}

// sit gives a connection a session that nobody has.
func (c *core) sit(conn *connection, s *session) {
	conn.session, s.tenant, s.own = s, conn, false
}

// idlest returns a session in which what began then may stand, and that nobody has, or else the one of them whose
// connection has been idle for longest, and has done nothing since the last meeting. It returns nil if there is none.
func (c *core) idlest(began time.Time) *session {
	var best *session
	for _, s := range c.sessions {
		switch {
		case began.Before(s.fence), !s.last.IsZero() && !c.moments.between(s.last, began):
		case s.tenant == nil:
			return s
		case !s.fenced || s.tenant.held != nil:
		case best == nil || s.tenant.active.Before(best.tenant.active):
			best = s
		}
	}
	return best
}

// join adds a session in which what began then may stand, or returns nil if that isn't possible. It begins with a fence of
// the last meeting's moment.
func (c *core) join(began time.Time) *session {
	if len(c.sessions) >= c.opt.Sessions || c.last == initial || began.Before(c.met) || c.room() <= 0 {
		return nil
	}
	s := &session{index: len(c.sessions), joins: true, after: c.last}
	c.sessions = append(c.sessions, s)
	c.fence(s, c.met)
	return s
}

// isGiven reports whether a transaction is in a line, or in one that is being built.
func (c *core) isGiven(its name) bool { return c.sessions[its.session()].written > its.number() }

// isNext reports whether each session before this one has joined, or does in a line that is being built: the auditor takes
// sessions in order.
func (c *core) isNext(s *session) bool {
	before := c.sessions[s.index-1]
	return !before.joins || before.written > 0
}

// release gives a connection's session back.
func (c *core) release(conn *connection) {
	if conn.held != nil {
		return // once it is known
	}
	if s := conn.session; s != nil {
		conn.session, s.tenant, s.own = nil, nil, false
	}
	c.place()
}

// place gives sessions to waiting connections, in order: first to those that work.
func (c *core) place() {
	for len(c.queue) > 0 {
		s := c.vacant()
		if s == nil {
			return
		}
		at := 0
		for i, one := range c.queue {
			if c.works(one) {
				at = i
				break
			}
		}
		conn := c.queue[at]
		conn.active = c.now
		c.sit(conn, s)
		c.queue = append(c.queue[:at], c.queue[at+1:]...)
	}
}

// works reports whether a connection has had a transaction lately, or is new.
func (c *core) works(conn *connection) bool { return c.now.Sub(conn.active) < c.opt.Idle }

// vacant returns a session without a connection that may be handed on, or nil if there is none.
func (c *core) vacant() *session {
	for _, s := range c.sessions {
		if s.tenant == nil && c.isReady(s) {
			return s
		}
	}
	return nil
}

// reseat takes sessions from connections that were idle for long: as many as wait and work, or one for the first that
// waits. Another machine's proxy sends no reads of a connection without a session, so it has to have one before it
// reports something.
func (c *core) reseat() {
	if len(c.queue) == 0 {
		return
	}
	wanted := 0
	for _, conn := range c.queue {
		if c.works(conn) {
			wanted++
		}
	}
	if wanted == 0 {
		wanted = 1
	}
	for _, s := range c.sessions {
		if s.tenant == nil { // at the next moment somebody has it
			wanted--
		}
	}
	for _, s := range c.sessions {
		if wanted <= 0 {
			return
		}
		if conn := s.tenant; conn != nil && conn.held == nil && !c.works(conn) {
			c.queue = append(c.queue, conn)
			c.release(conn)
			wanted--
		}
	}
}
