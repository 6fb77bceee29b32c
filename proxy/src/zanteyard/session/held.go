package session

import (
	"sort"
	"time"

	"zanteyard/plan"
	"zanteyard/record"
)

// A cursor WITH HOLD outlives its transaction. The server has read all of its rows by that transaction's end, in the
// snapshot of the DECLARE; what is fetched later was read then. So it is reported as what another transaction has read, which
// ran when that one ran and wrote nothing, in a session of its own: what the connection has done since isn't in front of it
// (docs/FOLDING.md). If the declaring transaction wrote, it may have written some of these rows and overwritten others, and
// nothing of it is reported.

// heldBy is what a cursor is known by once its transaction was committed.
type heldBy struct {
	began, ended time.Time
	level        record.Level
	mark         int64  // of the audit that was told of it
	order        uint64 // of its transaction in the connection
	why          string // why nothing of it is reported, or ""
}

// Why rows of a cursor WITH HOLD are left out.
const (
	heldByWriter = "a cursor WITH HOLD of a transaction that may have written"
	heldBefore   = "a cursor WITH HOLD from before the audit began"
	heldLater    = "a cursor WITH HOLD, after rows of one that was declared later"
)

// outlive lets cursors WITH HOLD outlive the transaction that has ended, if it was committed. The others are forgotten
// (names.ended).
func (s *Session) outlive(t *transaction, outcome record.Outcome) {
	for _, c := range s.names.cursors {
		if c.holds && c.held == nil && outcome == record.Committed {
			if c.again = c.again && len(t.Reads) == 0; c.again { // it is counted with its rows
				t.Did.Again--
			}
			c.held = &heldBy{began: t.Began, ended: s.now, level: t.Level, mark: s.trust.mark, order: s.place, why: s.whyNotHeld(t)}
		}
	}
}

// whyNotHeld returns why nothing is reported of what a transaction's cursors WITH HOLD return after its end.
func (s *Session) whyNotHeld(t *transaction) string {
	switch {
	case t.Number != 0, t.MayHaveWritten, t.wrote, len(t.Versions) > 0:
		return heldByWriter
	case t.unreported() != "":
		return t.unreported()
	case !s.trust.here || s.trust.mark != s.mark():
		return heldBefore
	}
	return ""
}

// takes returns the transaction that has read what a statement returns: the one that is running, or that of a cursor WITH
// HOLD.
func (s *Session) takes(e *expectation) *transaction {
	if e.of == nil || e.of.held == nil {
		return &s.tx
	}
	for _, its := range s.tx.asides {
		if its.of == e.of {
			return its
		}
	}
	return s.aside(e.of)
}

// aside begins what a cursor WITH HOLD returns in the transaction that is running.
func (s *Session) aside(c *cursor) *transaction {
	its := &transaction{of: c}
	its.Held, its.Began, its.Ended, its.Level, its.Touched = true, c.held.began, c.held.ended, c.held.level, true
	its.Did.Again, c.again = isOne(c.again), false
	s.tx.asides = append(s.tx.asides, its)
	return its
}

// drops forgets a cursor, or all for "". The SELECT of one WITH HOLD that was never fetched is counted now.
func (s *Session) drops(name string) {
	for its, c := range s.names.cursors {
		if name != "" && its != name {
			continue
		}
		if delete(s.names.cursors, its); c.held != nil && c.again {
			s.aside(c)
		}
	}
}

// limit returns how many reads of a transaction are kept: what all cursors WITH HOLD have returned in one has one limit.
func (s *Session) limit(of *transaction) int {
	most := s.options.ReadLimit
	if of != &s.tx {
		for _, its := range s.tx.asides {
			most -= len(its.Reads)
		}
		most += len(of.Reads)
	}
	return most
}

// unheld returns why what a statement returns of a cursor WITH HOLD can't be reported, or "".
func (s *Session) unheld(e *expectation) string {
	if e.of == nil || e.of.held == nil {
		return ""
	}
	switch h := e.of.held; {
	case h.why != "":
		return h.why
	case !s.trust.here || h.mark != s.trust.mark || h.mark != s.mark():
		return heldBefore
	case h.order < s.heldPlace:
		return heldLater
	}
	return ""
}

// finishHeld reports what cursors WITH HOLD have returned in the transaction that has ended. If it has done nothing else,
// what the first of them returned counts as the transaction.
func (s *Session) finishHeld(t *transaction, counted bool) {
	sort.SliceStable(t.asides, func(i, j int) bool { return t.asides[i].of.held.order < t.asides[j].of.held.order })
	for _, its := range t.asides {
		its.Connection, its.Place, its.Application = s.number, s.place, s.application
		s.place++
		its.Uncounted, counted = counted, true
		if its.of.said.Text != "" {
			said := its.of.said
			said.From, said.To = 0, len(its.Reads)
			its.Statements = []record.Statement{said}
		}
		if len(its.Reads) > 0 {
			s.heldPlace = its.of.held.order
		}
		s.report(&its.Transaction)
	}
}

// cursorOf returns what is known of a cursor whose query was rewritten.
func cursorOf(p *plan.Plan, e *expectation) *cursor {
	return &cursor{plan: p.Inner, era: e.era, own: ownColumns(e), holds: p.Holds}
}
