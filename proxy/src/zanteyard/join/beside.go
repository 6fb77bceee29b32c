package join

import "time"

// A writer waits for the reports of the transactions that ran beside it: one of them may have asked by a condition that
// nobody has asked by before, and passed over what the writer wrote. Once the writer is offered, it is too late for that
// condition's register. Whoever doesn't wait loses such a violation, and makes none up.

// besides are the connections on which something was open at a time, until each has reported a transaction since.
type besides struct {
	at   time.Time
	open []*connection
}

const (
	besidePause = 20 * time.Millisecond
	mostBesides = 256
)

// openNow is a Meeter that knows on which connections something is open. Of proxies elsewhere nobody knows that, and no
// condition is followed there.
type openNow interface {
	Open(connections []uint64) []uint64
}

// lookBeside learns for whom writers wait: for nobody if no statement is followed by its condition.
func (j *Joiner) lookBeside(now time.Time) {
	c := j.core
	its, is := j.meeter.(openNow)
	if !is || c.counts.asks == 0 || j.meeting.phase != apart || !c.writes.After(c.looked) || now.Sub(c.looked) < besidePause || len(c.besides) >= mostBesides {
		return
	}
	one := besides{at: now}
	for _, number := range its.Open(c.audited()) {
		if conn := c.connections[number]; conn != nil {
			one.open = append(one.open, conn)
		}
	}
	c.besides, c.looked = append(c.besides, one), now
}

// passBeside forgets for whom nobody has to wait any more.
func (c *core) passBeside() {
	for len(c.besides) > 0 {
		one := &c.besides[0]
		if c.now.Sub(one.at) < c.opt.Late {
			for len(one.open) > 0 && (one.open[0].ended || one.open[0].active.After(one.at)) {
				one.open = one.open[1:]
			}
			if len(one.open) > 0 || !c.now.After(one.at) {
				return
			}
		}
		c.beside, c.besides = one.at, c.besides[1:]
	}
}

// waitsBeside reports whether a transaction isn't offered yet because of those that ran beside it.
func (c *core) waitsBeside(e *entry) bool {
	if c.looked.IsZero() || e.writer == nil || !e.told.After(c.beside) || c.now.Sub(e.told) >= c.opt.Late || c.left() < c.remain+c.opt.fenceRoom() {
		return false
	}
	for _, one := range e.writer.writes() {
		if c.questions.of[one.row.id.relation] != nil {
			return true
		}
	}
	return false
}
