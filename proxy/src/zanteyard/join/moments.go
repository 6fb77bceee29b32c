package join

import (
	"sort"
	"time"

	"zanteyard/record"
)

// Quiet moments. A quiet moment is one that no offered transaction spans: each had ended before it, or began after it,
// and a transaction that spans one is folded. PostgreSQL's snapshots then put everything before the moment in front of
// everything after it: a transaction sees what had ended before it began, and nothing of what began after it had ended.
// So an order that explains what was offered can be sorted by the moments and still explains it, and what the auditor
// takes for granted across a moment makes up no violation (docs/FOLDING.md, "Sessions"). This is what allows a session
// to be handed from one connection to another, and determines where fences stand.
//
// Without such a moment neither the clock nor fences allow it: a transaction that began before the first connection's
// end and ends after the second one's beginning may have to stand between the second and the first.

// moments are the quiet moments of an audit, in order.
type moments struct {
	its    []time.Time
	forgot bool // there were others before the first
}

// mostMoments is how many are kept. A transaction that began before the first of them counts as spanning one.
const mostMoments = 4096

// set adds a moment, if it is later than the others.
func (m *moments) set(at time.Time) bool {
	if len(m.its) > 0 && !at.After(m.last()) {
		return false
	}
	if len(m.its) >= mostMoments {
		m.its, m.forgot = append(m.its[:0], m.its[len(m.its)/2:]...), true
	}
	m.its = append(m.its, at)
	return true
}

// last returns the latest one, or the zero time if there is none.
func (m *moments) last() time.Time {
	if len(m.its) == 0 {
		return time.Time{}
	}
	return m.its[len(m.its)-1]
}

// between reports whether there is one after the first time, and at or before the second one.
func (m *moments) between(after, until time.Time) bool {
	i := sort.Search(len(m.its), func(i int) bool { return m.its[i].After(after) })
	return i < len(m.its) && !m.its[i].After(until)
}

// spanned reports whether a transaction may have spanned one.
func (m *moments) spanned(began, ended time.Time) bool {
	return m.between(began, ended) || m.forgot && began.Before(m.its[0])
}

// quiet makes this time a quiet moment, and hands sessions on: whatever is running is folded when it ends. The clock
// may have been read before the end of something that is named already, which would then span the moment unnoticed: the
// moment is the first one after all of these ends.
func (c *core) quiet(at time.Time) {
	for _, before := range []time.Time{c.ended, c.moments.last()} {
		if !at.After(before) {
			at = before.Add(1)
		}
	}
	c.moments.set(at)
	c.place()
}

// leastBetween is the least time between quiet moments, other than those of meetings.
const leastBetween = 10 * time.Millisecond

// wantsMoment reports whether now should be one: sessions are waiting to be handed on, and that is worth more than what
// it folds, about one transaction of each busy session.
func (c *core) wantsMoment(busy func() int) bool {
	stale, ready := 0, 0
	for _, s := range c.sessions {
		switch {
		case s.tenant != nil:
		case c.isReady(s):
			ready++
		default:
			stale++
		}
	}
	passed := c.now.Sub(c.moments.last())
	if stale == 0 || ready > stale || passed < leastBetween {
		return false
	}
	n := busy()
	return n == 0 || stale/4 >= n || len(c.queue) > 0 && passed >= c.opt.Between
}

// isReady reports whether a connection that begins now may have the session: there is a moment after everything that
// was offered in it.
func (c *core) isReady(s *session) bool {
	return s.last.IsZero() || c.moments.between(s.last, c.now)
}

// mayStand reports whether a transaction may be offered next in the session. follows means that the last one there,
// except fences, is of the same connection. Only a quiet moment permits an order of connections, or of a transaction
// and a fence: what is reported so late that a fence of a later moment is in the session already can't be in front of
// it any more.
func (c *core) mayStand(s *session, it *record.Transaction, follows bool) bool {
	began, ended := span(it)
	switch {
	case c.moments.spanned(began, ended), began.Before(s.fence):
		return false
	case follows, s.last.IsZero():
		return true
	}
	return c.moments.between(s.last, began)
}

// stood records what was named last in the session.
func (c *core) stood(s *session, it *record.Transaction) {
	_, s.last = span(it)
	if s.last.After(c.ended) {
		c.ended = s.last
	}
}
