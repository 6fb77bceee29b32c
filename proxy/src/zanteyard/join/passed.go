package join

import (
	"time"

	"zanteyard/condition"
	"zanteyard/record"
)

// What a statement passed over. It asked a table for the rows of which a condition holds, and didn't get a row: it has
// seen a version of which the condition doesn't hold. Which one that is, isn't known, but which ones it may have seen
// is: those in the log by the time it was answered, from the last one that was visible before it was sent; or just one,
// if its snapshot is known. Of these, versions of which the condition holds are none (docs/FOLDING.md, third law).

// Why rows that a condition passed over aren't offered as reads.
const (
	askUnknown       = "a condition that isn't followed"
	askChanged       = "the table has changed, or isn't known yet"
	askAmbiguous     = "a row that may have been passed over in several versions"
	askOwn           = "a row that the transaction itself wrote"
	askOwnUnknown    = "after a write of the transaction's own that isn't known"
	askContradicts   = "a row that each version it may have seen satisfies"
	askGap           = "a row of which a change may be missing"
	askBeside        = "beside a row that may have changed since it was read"
	valueUnknown     = "a change to a value that isn't known: too long, or a number that may be NULL or NaN"
	askOwnBeside     = "beside rows of a table that the transaction itself wrote to"
	notChecked       = "a row whose foreign keys may not have been checked, in a join of no rows"
	tooManyRegisters = "more rows than are kept of one condition"
	tooManyChanges   = "changes from before their condition was known, more than are looked at"
	tooManyPassed    = "more rows than are kept of one transaction's conditions"
)

// mostPassed is how many rows that one transaction's conditions passed over are looked at for one more condition.
const mostPassed = 128

// sight is one state of a key that a statement may have seen: everything of it up to this place in the log, and nothing
// after that.
type sight struct {
	place uint64
	v     *version // nil: nothing is known of it
}

// asking is one statement's question, as far as its resolution needs it.
type asking struct {
	of    *question
	its   *record.Ask
	found map[record.Key]bool // the keys of the rows that it got
	from  time.Time           // its snapshot is no older
	shows *snapshot           // what it shows, if that is known
	upTo  uint64              // it shows nothing that the log has after this commit
}

// openAsk prepares a transaction's question for its resolution.
func (c *core) openAsk(e *entry, i int) asking {
	one := &e.its.Asks[i]
	it := asking{of: e.asks[i], its: one, upTo: c.placeOf(e.batch), found: make(map[record.Key]bool, len(one.Found))}
	for _, key := range one.Found {
		it.found[key] = true
	}
	it.from, _ = span(&e.its)
	switch e.its.Level {
	case record.ReadCommitted:
		if e.its.Known.IsZero() {
			it.from = one.From
		}
	case record.RepeatableRead, record.Serializable:
		if shows, ok := snapshotOf(e.its.Snapshot); ok {
			it.shows = &shows
		}
	}
	return it
}

// states returns the states of a key that a statement may have seen, from the key's last row on; false if the
// transaction itself wrote one of its versions.
func (c *core) states(e *entry, it *asking, top *row, to []sight) ([]sight, bool) {
	for r := top; ; r = r.earlier {
		first := uint64(0)
		for v := r.last; v != nil; v = v.before {
			w := v.writer
			first = w.place
			switch {
			case w == e.writer:
				return to, false
			case w.place > it.upTo, it.shows != nil && !it.shows.has(w.number):
				continue
			}
			to = append(to, sight{w.place, v})
			if it.shows != nil || c.isOverBy(w, it.from) {
				return to, true
			}
		}
		switch {
		case r.last == nil && r.earlier != nil: // nobody has written it yet
		case r.earlier == nil || r.trimmed || r.earlier.last == nil || !r.earlier.last.deleted:
			before := uint64(0)
			if first > 0 {
				before = first - 1
			}
			to = append(to, sight{place: before})
		}
		if r.earlier == nil || r.trimmed {
			return to, true
		}
	}
}

// isOverBy reports whether everybody whose snapshot was taken at this time or later sees a transaction.
func (c *core) isOverBy(w *writer, at time.Time) bool {
	if w.over != 0 && c.began.Add(w.over).Before(at) {
		return true
	}
	its := c.questions.shown
	for i := len(its) - 1; i >= 0; i-- {
		if !its[i].at.After(at) {
			return its[i].its.has(w.number)
		}
	}
	return false
}

// show records a snapshot that the server has taken by now.
func (c *core) show(its snapshot) {
	q := c.questions
	if len(q.shown) >= mostShown {
		q.shown = append(q.shown[:0], q.shown[mostShown/2:]...)
	}
	q.shown = append(q.shown, shownAt{c.now, its})
}

// passes remembers how much the slot had reported when it had passed a batch.
type passes struct {
	batch, commits uint64
}

const mostPasses = 1 << 12

// passTo records that the slot has passed a batch.
func (c *core) passTo(batch uint64) {
	c.passed = batch
	if len(c.passes) >= mostPasses {
		c.passes = append(c.passes[:0], c.passes[mostPasses/2:]...)
	}
	c.passes = append(c.passes, passes{batch, c.commits})
}

// placeOf returns the last commit that the log may have had when a batch ended.
func (c *core) placeOf(batch uint64) uint64 {
	low, high := 0, len(c.passes)
	for low < high {
		if middle := (low + high) / 2; c.passes[middle].batch < batch {
			low = middle + 1
		} else {
			high = middle
		}
	}
	if low == len(c.passes) || low == 0 && c.passes[0].batch > batch {
		return c.commits
	}
	return c.passes[low].commits
}

// resolveAsks finds the versions of registers that a transaction's questions have read.
func (c *core) resolveAsks(e *entry, to *resolution) bool {
	for i := range e.asks {
		q := e.asks[i]
		switch {
		case e.its.Asks[i].Why != "": // it was counted
			continue
		case q == nil:
			to.loseAsk(i, askUnknown)
			continue
		case q.gone || !c.sameTable(&e.its.Asks[i]) || c.mayHaveChanged(q, e, i):
			to.loseAsk(i, askChanged)
			continue
		case e.hidesOwn(&e.its.Asks[i]):
			to.loseAsk(i, askOwnUnknown)
			continue
		}
		it := c.openAsk(e, i)
		if !c.hadGiven(e, &it) {
			to.loseAsk(i, askBeside)
			continue
		}
		if q.its.Checked() && c.mayHaveRemoved(e, it.its) {
			to.loseAsk(i, askOwnBeside)
			continue
		}
		for n := len(q.registers) - 1; n >= 0; n-- { // the last ones may matter most
			if to.passed >= mostPassed {
				to.leftAlone(uint64(n) + 1)
				break
			}
			if !c.resolveRegister(e, &it, q.registers[n], to, askAt+int32(i)) {
				return false
			}
		}
		to.asks++
		began, _ := span(&e.its)
		for _, at := range q.await(c, began) {
			to.passed++
			to.add(e, at, initial, int(askAt)+i, isOffered)
		}
	}
	return true
}

// mayHaveChanged reports whether the transaction may have begun before it was seen that a condition may have meant
// something else, or that some rows were hidden. Who began before the audit did may have begun before the audit in front
// of it saw that.
func (c *core) mayHaveChanged(q *question, e *entry, i int) bool {
	began, _ := span(&e.its)
	for _, its := range e.its.Asks[i].Relies {
		if c.isFromBefore(c.tables.Root(its.Relation), &e.its) {
			return true
		}
	}
	return c.isFromBefore(q.relation, &e.its) || !c.comparedAsUsual(e) || began.Before(c.began)
}

// hidesOwn reports whether the statement may have seen a version of its own transaction's that isn't known as one.
func (e *entry) hidesOwn(one *record.Ask) bool {
	return one.Wrote && (e.late != "" || e.its.Number == 0 && e.its.MayHaveWritten)
}

// askAt is what source.at counts the questions from.
const askAt int32 = 1 << 30

// resolveRegister finds the version of a register that a statement has read by passing its row over. It returns false
// as long as it isn't known whether that is offered.
func (c *core) resolveRegister(e *entry, it *asking, at *row, to *resolution, number int32) bool {
	on := at.as.on
	if it.found[on.id.key] || c.isBehind(e, at) {
		return true
	}
	its, reason := c.maySee(e, it, on)
	if reason == askOwn && it.its.Writes {
		return true // it got the row, or had written it before
	}
	if reason != "" {
		to.leavePassed(reason)
		return true
	}
	var from name
	for i, one := range its {
		named, how := at.readAt(one.place)
		switch {
		case how == undecidedYet:
			return false
		case how == isForgotten, i > 0 && named != from:
			to.leavePassed(askAmbiguous)
			return true
		}
		from = named
	}
	if len(its) > 0 {
		to.passed++
		to.add(e, at, from, int(number), isOffered)
	}
	return true
}

// maySee returns the states of a row's key that a statement may have seen, although it didn't get the row.
func (c *core) maySee(e *entry, it *asking, on *row) (kept []sight, reason string) {
	top := c.rows.by[on.id]
	for r := top; r != on; r = r.earlier {
		if r == nil {
			return nil, "" // it was forgotten
		}
	}
	its, ok := c.states(e, it, top, nil)
	if !ok {
		return nil, askOwn
	}
	if gap := c.questions.lastGap(it.of.relation); gap > 0 && gap <= it.upTo && c.spoils(top, its, gap) {
		return nil, askGap
	}
	for _, one := range its {
		if one.v == nil || it.of.holds(one.v) != condition.Yes {
			kept = append(kept, one)
		}
	}
	if len(kept) == 0 {
		return nil, askContradicts
	}
	return kept, ""
}

// spoils reports whether a change of the row may be missing between those that are known: in a commit after the first
// state that may have been seen, or after the first version that is known.
func (c *core) spoils(top *row, its []sight, gap uint64) bool {
	lowest := its[len(its)-1]
	if lowest.v != nil {
		return gap >= lowest.place
	}
	return gap > lowest.place
}

// certainty says whether the last offered version is known.
type certainty uint8

const (
	isCertain certainty = iota
	undecidedYet
	isForgotten
)

// readAt returns the last offered version of a register up to a place in the log.
func (r *row) readAt(place uint64) (name, certainty) {
	v := r.last
	for v != nil && v.writer.place > place {
		v = v.before
	}
	if v == nil && r.trimmed {
		return initial, isForgotten
	}
	if v == nil {
		return initial, isCertain
	}
	v.settle()
	from, known := under(v)
	if !known {
		return initial, undecidedYet
	}
	return from, isCertain
}

// settle lets the versions of a register stay folded of which it isn't known whether they changed something: somebody
// reads past them.
func (v *version) settle() {
	for ; v != nil && v.isFolded(); v = v.before {
		v.unsure = false
	}
}

// resolveMarks makes each version of a register a read of the one before it.
func (c *core) resolveMarks(e *entry, to *resolution) bool {
	for _, one := range e.writer.marks() {
		if one.version.before != nil {
			one.version.before.settle()
		}
		from, known := one.version.predecessor()
		if !known {
			return false
		}
		to.marked++
		to.writes = append(to.writes, one.row)
		to.reads = append(to.reads, source{row: one.row, from: from})
	}
	return true
}

// takeAsks finds the questions that a transaction has asked.
func (c *core) takeAsks(e *entry) {
	if len(e.its.Asks) == 0 {
		return
	}
	_, ended := span(&e.its)
	e.asks = make([]*question, len(e.its.Asks))
	for i := range e.its.Asks {
		if e.its.Asks[i].Why != "" {
			continue
		}
		c.tables.Use(e.its.Asks[i].Condition.Table())
		for _, its := range e.its.Asks[i].Relies {
			c.tables.Use(its.Relation)
		}
		e.asks[i] = c.ask(&e.its.Asks[i], ended)
	}
}

// isBehind reports whether all of a register's writers are on the other side of a moment: arcs from there are in no
// cycle.
func (c *core) isBehind(e *entry, at *row) bool {
	began, _ := span(&e.its)
	w := at.last.writer
	return w.over != 0 && c.moments.between(c.began.Add(w.over), began)
}

// deduce finds out what rows were before their first known versions, from what the transactions that may be resolved by
// now have passed over. It has to be done before any of these is resolved.
func (c *core) deduce() {
	if c.deduced == c.passed {
		return
	}
	c.deduced = c.passed
	for _, s := range c.sessions {
		for _, e := range s.waiting {
			if e.batch > c.passed {
				break
			}
			if !e.deduced {
				e.deduced = true
				c.deduceFrom(e)
			}
		}
	}
}

func (c *core) deduceFrom(e *entry) {
	began, _ := span(&e.its)
	if !began.After(c.began) { // it may have seen what is older than what the audit began with
		return
	}
	for i, q := range e.asks {
		if q == nil || q.gone || c.mayHaveChanged(q, e, i) || e.hidesOwn(&e.its.Asks[i]) {
			continue
		}
		it := c.openAsk(e, i)
		if !c.hadGiven(e, &it) {
			continue
		}
		for _, at := range q.registers {
			if v := at.first0(); v != nil && v.unsure && !it.found[at.as.on.id.key] && c.toldBefore(e, &it, at) {
				c.sure(write{at, v})
			}
		}
	}
}

// first0 returns a register's first version.
func (r *row) first0() *version {
	v := r.last
	for v != nil && v.before != nil {
		v = v.before
	}
	return v
}

// toldBefore reports whether a statement that passed a row over has seen it just before the first version of a register:
// then the condition didn't hold, and that version changed it.
func (c *core) toldBefore(e *entry, it *asking, at *row) bool {
	on, v := at.as.on, at.first0()
	if on.trimmed || on.earlier != nil {
		return false
	}
	first := on.last
	for first.before != nil {
		first = first.before
	}
	if first.writer != v.writer {
		return false
	}
	its, reason := c.maySee(e, it, on)
	return reason == "" && len(its) == 1 && its[0].v == nil
}
