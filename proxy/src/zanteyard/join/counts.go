package join

import "zanteyard/record"

// counts is what coverage reports, from the beginning of the audit.
type counts struct {
	committed, offered, fences, aborted, ever, rounds, dropped, lost, unread uint64
	handed                                                                   uint64 // sessions that were handed on
	bare                                                                     uint64 // commits without a row, of nobody known
	folded, partly                                                           map[string]uint64
	reads, readsOffered, own, before, readsFolded                            uint64
	leftReads                                                                map[string]uint64
	writes, writesOffered                                                    uint64
	leftWrites                                                               map[string]uint64
	unnumbered                                                               uint64 // rows of such transactions, by their own words
	untold                                                                   uint64 // rows of commits that may be theirs
	early                                                                    uint64 // of unnumbered, those of transactions that may have ended before the slot began
	awaited                                                                  uint64 // such transactions, each of which has one commit at most
	procedures                                                               bool   // one of them may have several
	// totals has what is decided, except that what was offered since the last round is in fresh.
	totals, fresh              Totals
	asks, asksFollowed, passed uint64 // conditions, and rows they passed over
	leftAsks                   map[string]uint64
	leftPassed                 map[string]uint64 // rows that followed conditions may have passed over
	refused                    map[string]uint64 // connections that the proxy didn't serve
}

func newCounts() counts {
	return counts{folded: map[string]uint64{}, partly: map[string]uint64{}, leftReads: map[string]uint64{},
		leftWrites: map[string]uint64{}, leftAsks: map[string]uint64{},
		leftPassed: map[string]uint64{}, refused: map[string]uint64{}}
}

func (c *counts) fold(reason string) { c.folded[reason]++ }

func (c *counts) leaveReads(reason string, n uint64) {
	if n > 0 {
		c.leftReads[reason] += n
	}
}

func (c *counts) leaveAsk(reason string) { c.leftAsks[reason]++ }

// leaveAsks counts the conditions of a transaction that is left out.
func (c *counts) leaveAsks(it *record.Transaction, reason string) {
	for i := range it.Asks {
		if it.Asks[i].Why == "" {
			c.leaveAsk(reason)
		}
	}
}

func (c *counts) leaveWrites(reason string, n uint64) {
	if n > 0 {
		c.leftWrites[reason] += n
		c.totals.RowsWritten.leave(reason, n)
	}
}

// unleaveWrites takes back what leaveWrites has counted.
func (c *counts) unleaveWrites(reason string, n uint64) {
	if n > 0 {
		c.leftWrites[reason] -= n
		c.totals.RowsWritten.NotChecked[reason] -= n
	}
}

// wrote counts rows in the slot.
func (c *counts) wrote(n uint64) {
	c.writes += n
	c.totals.RowsWritten.All += n
}

// outside counts commits that no client of the proxy made, and their rows, or takes them back.
func (c *counts) outside(commits, rows int64) {
	c.totals.Outside += uint64(commits)
	c.totals.OutsideRows += uint64(rows)
	c.totals.RowsWritten.All -= uint64(rows)
	c.leftWrites[byOthers] += uint64(rows)
}

// awaits counts a transaction whose number isn't known. One with a procedure may have committed several times.
func (c *counts) awaits(hasProcedures bool) {
	c.awaited++
	c.procedures = c.procedures || hasProcedures
}

// bypassed is how many of the commits of which it isn't known whose they are can't be of these transactions.
func (c *counts) bypassed() uint64 {
	if untold := c.totals.Untold; untold > c.awaited && !c.procedures {
		return untold - c.awaited
	}
	return 0
}

// put counts a transaction that is offered. One of which nothing was offered after all counts as left out.
func (c *counts) put(e *entry, to *resolution) {
	if e.fence {
		c.offered++
		c.fences++
		return
	}
	why := e.whyPartly(to)
	c.fresh.take(e, to, why)
	switch {
	case why != "" && to.offersNothing():
		c.fold(why)
	case why != "":
		c.partly[why]++
		c.offered++
	default:
		c.offered++
	}
	c.leaveReads(notKept, uint64(e.its.Beyond))
	left := uint64(0)
	for reason, n := range to.left {
		c.leftReads[reason] += n
		left += n
	}
	c.asksFollowed += to.asks
	c.passed += to.passed
	for reason, n := range to.leftPassed {
		c.leftPassed[reason] += n
	}
	for reason, n := range to.leftAsks {
		c.leftAsks[reason] += n
	}
	c.own += to.own
	c.before += to.before
	c.readsFolded += to.folded
	c.readsOffered += uint64(len(e.its.Reads)+len(e.its.Absent)) - min(left+to.own, uint64(len(e.its.Reads)+len(e.its.Absent)))
	c.writesOffered += uint64(len(to.writes) - to.marked)
}

func min(a, b uint64) uint64 {
	if a < b {
		return a
	}
	return b
}
