package join

import "zanteyard/record"

// Why a transaction isn't offered, or its writes aren't.
const (
	byOthers     = "committed without the proxy"
	noConnection = "unknown connection"
	noSession    = "its connection has no session"
	isHeld       = "the outcome of the one before it on its connection was unknown"
	acrossMoment = "it ran during a meeting, or while sessions changed hands"
	noRoom       = "the auditor fell behind"
	isUnclear    = "its outcome is unknown"
	elsewhere    = "its connection uses another database"
	sampledOut   = "its connection isn't in the sample"
	itAborted    = "it aborted"
	notKept      = record.NotKept
)

// tell handles a transaction that has ended.
func (c *core) tell(it record.Transaction) {
	it.Outcome = c.outcome(&it)
	c.counts.reads += readsOf(&it) + uint64(it.Beyond)
	c.counts.totals.told(&it)
	c.countAsks(&it)
	conn := c.connections[it.Connection]
	if conn != nil {
		if conn.active = c.now; it.Held {
			conn = c.asideOf(conn)
			conn.active = c.now
		}
	}
	if it.Outcome != record.Aborted && (conn == nil || !c.isElsewhere(conn.its)) && !c.isOutside(&it) {
		c.await(&it)
	}
	if conn != nil && conn.session == nil && c.mayHaveSeat(conn, &it) {
		c.seat(conn, &it)
	}
	switch {
	case it.Outcome == record.Aborted:
		c.counts.aborted++
		c.counts.leaveAsks(&it, itAborted)
		c.counts.leaveReads(itAborted, readsOf(&it)+uint64(it.Beyond))
	case it.Unaudited:
		c.leave(it, c.whyUnaudited(&it))
	case conn == nil:
		c.leave(it, noConnection)
	case conn.session == nil && c.isElsewhere(conn.its):
		c.leave(it, elsewhere)
	case conn.session == nil && !c.sampled(it.Connection):
		c.leave(it, sampledOut)
	case conn.session == nil || it.Unsent > 0:
		c.leave(it, noSession)
	case conn.held != nil:
		c.leave(it, isHeld)
	case it.Outcome == record.Unclear && it.Number == 0:
		c.leave(it, isUnclear)
	case isEmpty(it):
		c.leave(it, whyEmpty(&it))
	default:
		c.take(it, conn)
	}
}

// mayHaveSeat reports whether a connection is audited, and works.
func (c *core) mayHaveSeat(conn *connection, it *record.Transaction) bool {
	works := !isEmpty(*it) || it.Unsent > 0 // then it has one for what it does next
	return it.Outcome != record.Aborted && !it.Unaudited && works && c.sampled(it.Connection) && !c.isElsewhere(conn.its)
}

// outcome returns how a transaction ended, or what it counts as.
func (c *core) outcome(it *record.Transaction) record.Outcome {
	if it.OnlyRead && c.opt.Rollbacks {
		return record.Committed
	}
	return it.Outcome
}

// isOutside reports whether a transaction had ended before the slot had begun.
func (c *core) isOutside(it *record.Transaction) bool {
	_, ended := span(it)
	return ended.Before(c.sought)
}

// mayBeBefore reports whether a transaction may have ended before the slot had begun.
func (c *core) mayBeBefore(it *record.Transaction) bool {
	_, ended := span(it)
	return ended.Before(c.opened)
}

// whyUnaudited returns why nothing of a transaction is told.
func (c *core) whyUnaudited(it *record.Transaction) string {
	switch {
	case !it.Known.IsZero(): // its times are those of another machine's clock
		return notConnected
	case it.Ended.Before(c.began):
		return beforeAudit
	}
	return betweenAudits
}

// countAsks counts what a transaction asked for by conditions, and forgets it if none is followed.
func (c *core) countAsks(it *record.Transaction) {
	c.counts.asks += uint64(len(it.Asks))
	follows := false
	for i := range it.Asks {
		if why := it.Asks[i].Why; why != "" {
			c.counts.leaveAsk(why)
		} else {
			follows = true
		}
	}
	if !follows {
		it.Asks = nil
	}
}

// isEmpty reports whether a transaction has nothing to offer. Such a transaction takes no number.
func isEmpty(it record.Transaction) bool {
	return it.Number == 0 && len(it.Reads) == 0 && len(it.Absent) == 0 && len(it.Asks) == 0
}

// readsOf returns how many rows it read, including absent ones.
func readsOf(it *record.Transaction) uint64 {
	return uint64(len(it.Reads) + len(it.Absent) + it.Unsent)
}

// leave folds a whole transaction.
func (c *core) leave(it record.Transaction, reason string) {
	c.leaveRest(&it, reason)
	switch {
	case it.Number == 0 && c.isOutside(&it):
		c.counts.totals.wrote(&it, c.spare.without(&it), reason)
		return
	case it.Number == 0, c.unclaim(it.Number, reason) != "":
		return // what it may have written without a number is found by foldOther
	}
	if w := c.writer(it); w.fate == undecided {
		c.leaveWriter(w, reason, c.spare.without(&it))
	}
}

// leaveRest counts a transaction that is left out, and its reads.
func (c *core) leaveRest(it *record.Transaction, reason string) {
	own := ownReads(it)
	c.counts.fold(reason)
	c.counts.leaveAsks(it, reason)
	c.counts.totals.leave(it, reason)
	c.counts.own += own
	c.counts.leaveReads(reason, readsOf(it)+uint64(it.Beyond)-own)
}

// leaveWriter leaves out what a transaction wrote: as many rows by its statements' own words, if the slot hasn't reported it.
func (c *core) leaveWriter(w *writer, reason string, rows uint64) {
	c.counts.leaveWrites(reason, uint64(len(w.writes())))
	c.fold(w)
	if w.place == 0 {
		c.owe(w, reason, rows)
	}
}

// owe makes a transaction's writes be counted once the slot reports them.
func (c *core) owe(w *writer, reason string, rows uint64) {
	if c.owed == nil {
		c.owed = map[uint32]string{}
	}
	c.owed[w.number] = reason
	c.expected = append(c.expected, expected{c.batch, w, rows})
	c.batched = true
}

// writer returns the one with the transaction's number.
func (c *core) writer(it record.Transaction) *writer {
	number := uint32(it.Number)
	w := c.writers[number]
	if w == nil {
		w = &writer{number: number}
		c.writers[number] = w
	}
	w.named = true
	for _, sub := range it.Versions {
		if sub != number && !w.is(sub) {
			w.addSubs(sub)
		}
	}
	return w
}

// take offers a transaction of a connection that has a session, unless it can't stand there.
func (c *core) take(it record.Transaction, conn *connection) {
	e := &entry{its: it, conn: conn, session: conn.session, batch: c.batch, told: c.now}
	if it.Number != 0 {
		c.writes = c.now
	}
	c.batched = true
	for _, one := range it.Reads {
		c.tables.Use(one.Relation)
	}
	for _, one := range it.Absent {
		c.tables.Use(one.Relation)
	}
	c.takeAsks(e)
	if it.Outcome == record.Unclear { // the slot will say
		conn.held, e.writer = e, c.writer(it)
		c.held = append(c.held, e)
		return
	}
	c.name(e)
}

// name numbers the transaction, if it may follow the previous one in its session, and if there is room.
func (c *core) name(e *entry) {
	s, it := e.session, e.its
	follows := s.own && s.tenant == e.conn && it.Place > s.place
	switch {
	case c.fellBehind():
		c.leave(it, noRoom)
		return
	case !c.mayStand(s, &it, follows):
		c.leave(it, acrossMoment)
		return
	case it.Number != 0 && c.isOld(uint32(it.Number)):
		// It was over, though its client hadn't heard so yet. What it wrote is part of the rows as they were at first: the
		// version of a subtransaction of its counts as that.
		c.leave(it, betweenAudits)
		return
	}
	if it.Number != 0 {
		if e.late = c.unclaim(it.Number, tooLate); e.late != "" && len(it.Reads) == 0 && len(it.Absent) == 0 && len(it.Asks) == 0 {
			c.leaveRest(&it, e.late)
			return
		} else if w := c.writer(it); e.late == "" && w.fate == undecided {
			e.writer = w
		}
	}
	e.name = named(s.index, s.next)
	s.next++
	e.size = sizeOf(&it)
	c.remain++
	c.bytes += e.size
	if e.writer != nil {
		e.writer.fate, e.writer.name = offered, e.name
		_, ended := span(&it)
		e.writer.over = ended.Sub(c.began)
		if e.writer.place != 0 {
			delete(c.writers, e.writer.number)
		}
	}
	if !s.last.IsZero() && !follows && s.had != e.conn.its.Number {
		c.counts.handed++
	}
	s.had = e.conn.its.Number
	s.own, s.place = s.tenant == e.conn, it.Place
	c.stood(s, &it)
	s.fenced = false
	c.since++
	c.unchecked++
	s.waiting = append(s.waiting, e)
}

// decideHeld names what was held back: transactions whose connection didn't learn whether they were committed, once the
// slot reports that. It reports whether there was any.
func (c *core) decideHeld() bool {
	kept := c.held[:0]
	for _, e := range c.held {
		if e.batch > c.passed || !c.isOver(e.writer) {
			kept = append(kept, e)
			continue
		}
		c.decideUnclear(e)
		e.conn.held = nil
		if e.conn.ended {
			c.release(e.conn)
		}
	}
	for i := len(kept); i < len(c.held); i++ {
		c.held[i] = nil
	}
	moved := len(kept) < len(c.held)
	c.held = kept
	return moved
}

// isOver reports whether a transaction that the slot may have reported isn't running any more. Its commit is in the log
// before others see it, for example until a standby has it: until then it hasn't ended. One for which that takes long is
// folded.
func (c *core) isOver(w *writer) bool {
	switch {
	case w.place == 0 || w.fate != undecided || c.shows != nil && c.shows.has(w.number):
		return true
	case c.now.Sub(c.began)-w.seen >= c.opt.Late:
		c.leaveWriter(w, isUnclear, 0)
		return true
	}
	c.batched = true // another snapshot is wanted
	return false
}

// decideUnclear offers a transaction whose connection was lost, if the slot has reported it by now. It may have ended at
// any time until now: nothing that began before is offered after it.
func (c *core) decideUnclear(e *entry) {
	w := e.writer
	if w.place == 0 || w.fate != undecided {
		c.leaveRest(&e.its, isUnclear)
		if w.place == 0 && c.unclaim(uint64(w.number), isUnclear) != "" {
			return
		}
		if w.fate == undecided {
			c.leaveWriter(w, isUnclear, 0) // perhaps it wasn't committed
		}
		return
	}
	e.its.Ended = c.now
	if !e.its.Known.IsZero() {
		e.its.Known = c.now
	}
	c.name(e)
	e.session.own = false
}
