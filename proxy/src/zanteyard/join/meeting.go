package join

import (
	"time"

	"zanteyard/record"
)

// In a meeting the joiner finds a quiet moment (moments.go), and writes the moment's fences into the auditor's log:
// transactions on a key of their own, which nobody ran. Each reads the one before it. A session's fences come after
// everything that was offered in it before the moment, and before everything that is offered in it later. Each session
// with something to be forgotten has one; at the last of these the auditor can forget; and each other session has one
// after that. So everything from before the moment comes before that fence, and everything from after it comes after it
// (docs/COLLECTORS.md, "Fences").

type phase uint8

const (
	apart    phase = iota
	together       // the moment is sought
	settling       // what was reported before it is on its way into lines
)

type meeting struct {
	phase  phase
	number uint64
	upTo   []uint64 // for each session, the numbers that have to be in lines before the round
	noted  time.Time
	isLast bool // it was requested by stop
	alone  bool // it is a round alone: no moment was sought
	// follows: its round has to wait until the one before it is answered. isSettled: it waits for nothing else.
	follows, isSettled bool
}

// mostSettling is how long a round waits for what was reported before its meeting, and lastSettling how long the last
// one does: what isn't written by then never is, and a fence that is written might read one that isn't.
const (
	mostSettling = 5 * time.Second
	lastSettling = 20 * time.Second
)

// waits returns how long the meeting's round waits for what was reported before it.
func (m *meeting) waits() time.Duration {
	if m.isLast {
		return lastSettling
	}
	return mostSettling
}

// isShort reports whether a meeting is wanted soon: before nothing more is taken, before a round takes long, or since
// connections that work have no session.
func (c *core) isShort() bool { return c.isShortOfRoom() || c.short }

func (c *core) isShortOfRoom() bool {
	return c.room() <= c.most/8 || c.bytes >= c.opt.Bytes/8*7 || c.since >= c.fit
}

// soonest is how soon a meeting that is wanted soon may follow the last one. If nearly all sessions that there can be have been
// used since, another one hands on few.
func (c *core) soonest() time.Duration {
	used := 0
	for _, s := range c.sessions {
		if !s.fenced {
			used++
		}
	}
	if !c.isShortOfRoom() && used >= c.opt.Sessions-c.opt.Sessions/8 {
		return c.opt.Between / 2
	}
	return c.opt.Between / 4
}

// worth is how many offered transactions a meeting should let the auditor forget for each one that it folds.
const worth = 1000

// wantsMeeting reports whether it is time for a meeting. What runs across a meeting is folded. So unless nothing is under
// way, one after which many were folded isn't soon followed by another one.
func (c *core) wantsMeeting(last time.Time, busy func() int) bool {
	passed := c.now.Sub(last)
	switch {
	case c.short && c.last == initial:
		return true // no session can join before there is a fence
	case c.isShort():
		return passed >= c.soonest()
	case c.since == 0 || passed < c.opt.Between:
		return false
	case passed >= c.opt.Within:
		return true
	}
	folded := c.counts.folded[acrossMoment] - c.foldedBefore
	return uint64(c.since)/worth >= folded || busy() == 0
}

// wantsRound reports whether it is time for a round without a meeting. These take a fifth of the auditor's time at most.
func (c *core) wantsRound(last time.Time) bool {
	passed := c.now.Sub(last)
	return c.unchecked > 0 && passed >= c.opt.Between && passed >= 5*c.took
}

// fence is one that may remain.
type fence struct {
	name  name
	place uint64 // of the last commit that the slot had reported at its moment
}

// meet makes this time a quiet moment, and writes its fences. It returns their number: none if there is no room for all
// of them.
func (c *core) meet(at time.Time) int {
	c.quiet(at)
	c.since, c.short, c.metAt, c.foldedBefore = 0, false, c.commits, c.counts.folded[acrossMoment]
	var first []*session
	for _, s := range c.sessions {
		if !s.fenced {
			first = append(first, s)
		}
	}
	if len(first) == 0 {
		first = c.sessions[:1]
	}
	n := len(first) + len(c.sessions) - 1
	if n > c.opt.Limit-c.remain {
		return 0
	}
	for _, s := range first {
		c.fence(s, c.moments.last())
	}
	for _, s := range c.sessions {
		if s != first[len(first)-1] {
			c.fence(s, c.moments.last())
		}
	}
	c.fencedAt.set(c.moments.last())
	return n
}

// fence writes a fence of a moment into a session, as the last one of all.
func (c *core) fence(s *session, moment time.Time) {
	e := &entry{its: record.Transaction{Began: moment, Ended: moment}, session: s, name: named(s.index, s.next), fence: true,
		from: c.last, size: sizeOfTold}
	s.next++
	c.remain++
	c.bytes += e.size
	s.fence, s.fenced = moment, true
	s.waiting = append(s.waiting, e)
	c.last, c.met = e.name, moment
	place := c.commits
	if s.joins {
		place = c.metAt
	}
	c.fences = append(c.fences, fence{e.name, place})
}

// numbers returns the sessions' next ones.
func (c *core) numbers() []uint64 {
	its := make([]uint64, len(c.sessions))
	for i, s := range c.sessions {
		its[i] = s.next
	}
	return its
}

// isWritten reports whether everything below these numbers is in lines.
func (c *core) isWritten(numbers []uint64) bool {
	for i, number := range numbers { // a session may have joined since
		if c.sessions[i].written < number {
			return false
		}
	}
	return true
}
