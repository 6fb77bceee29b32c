package join

import (
	"time"

	"zanteyard/record"
)

// Each transaction that a session reports is counted in one place (Totals). The slot reports the commits of the same
// transactions, and of those that nobody reports. If no transaction whose number is unknown can have made such a commit,
// somebody has who doesn't use the proxy; otherwise it isn't known whose it is, and its rows are counted as such.

// Why a transaction that is offered isn't checked in full, or one that has nothing to offer isn't checked.
const (
	noNumber       = "its writes couldn't be told apart"
	tooLate        = "reported too late"
	nothingSeen    = "no statement of it was seen"
	noRows         = "it read and wrote no row"
	someStatements = "some statements weren't seen"
	someRows       = "some row reads or writes were left out"
	someEmpty      = "a statement of it found no row"
	beforeAudit    = "it ended before the audit began"
	betweenAudits  = "it was under way when the audit began"
	notConnected   = "its machine's proxy wasn't connected to the audit"
	auditEnded     = "the audit ended before its next round"
	noAudit        = "no audit was running"
	tooFast        = "reported faster than they could be processed"
	unanswered     = "the server didn't answer the audit for long"
)

// unnumbered is a transaction that may have written, and whose number isn't known: its commit is one of those that no
// session reports, after it began and up to what the slot had reported once it had passed the batch.
type unnumbered struct {
	began   time.Time
	batch   uint64
	until   uint64 // that commit's place at most, once over is set
	over    bool
	open    time.Time // if its outcome is unknown: until then it may still be committed
	defines bool      // its commit may be one without a row
	rows    uint64    // that it wrote, by its statements' own words
}

// stillOpen is for how many times Options.Late the commit of a transaction is awaited whose outcome is unknown, such as
// one that was prepared for a second phase.
const stillOpen = 10

const (
	mostUnnumbered = 1 << 16
	mostLookedAt   = 1 << 10 // of them, for one commit
	mostUnclaimed  = 1 << 16
)

// await records that a commit without a session may be this transaction's.
func (c *core) await(it *record.Transaction) {
	if it.Number != 0 || !it.MayHaveWritten {
		return
	}
	began, _ := span(it)
	if len(c.unnumbered) >= mostUnnumbered {
		c.unnumbered = c.unnumbered[1:]
	}
	rows := it.Did.Written
	if began.Before(c.opened) {
		if c.mayBeBefore(it) || it.Unaudited && !it.Known.IsZero() { // from elsewhere: it may have ended at any time
			rows = c.spare.without(it)
		}
		c.counts.early += rows
	}
	c.counts.unnumbered += rows
	c.counts.awaits(it.Did.Others > 0)
	its := unnumbered{began: began, batch: c.batch, defines: it.Defines, rows: rows}
	if it.Outcome == record.Unclear {
		its.open = c.now.Add(stillOpen * c.opt.Late)
	}
	c.unnumbered = append(c.unnumbered, its)
	c.batched = true
}

// passUnnumbered records which commits the slot has reported for those whose batch it has passed, and forgets those for
// which there is none left.
func (c *core) passUnnumbered() {
	for i := range c.unnumbered {
		if u := &c.unnumbered[i]; u.batch > c.passed {
			break
		} else if !u.over && !c.now.Before(u.open) {
			u.over, u.until = true, c.commits
		}
	}
	n := 0
	for ; n < len(c.unnumbered); n++ {
		u := &c.unnumbered[n]
		if !u.over || len(c.late) > 0 && c.late[0].place <= u.until {
			break
		}
	}
	if c.unnumbered = c.unnumbered[n:]; len(c.unnumbered) == 0 {
		c.unnumbered = nil
	}
}

// mayBeUnnumbered reports whether a commit that nobody reports may be one of these transactions'. If not, somebody made
// it who doesn't use the proxy.
func (c *core) mayBeUnnumbered(w *writer) bool {
	seen, looked := c.began.Add(w.seen), 0
	for i := range c.unnumbered {
		u := &c.unnumbered[i]
		if u.over && u.until < w.place {
			continue
		}
		if looked++; looked > mostLookedAt || (u.defines || !w.bare) && !u.began.After(seen) {
			return true
		}
	}
	return false
}

// isApart reports whether a proxy elsewhere may yet report a commit: it doesn't feed the audit, or is late.
func (c *core) isApart(w *writer) bool { return c.apart != nil && c.apart(c.began.Add(w.seen)) }

// claims are the last commits that were counted without a session, by number.
type claims struct {
	by    map[uint32]claim
	order []uint32
}

// claim is how such a commit was counted: with how many writes, and other rows, as without a row, as one that an unnumbered
// transaction may have made, or by the audit before this one.
type claim struct {
	writes                 uint64
	rows                   uint64 // all of them
	bare, unknown, earlier bool
	elsewhere              bool // a proxy that doesn't feed the audit at the moment may have reported it
}

func (c *claims) put(number uint32, it claim) {
	if c.by == nil {
		c.by = map[uint32]claim{}
	}
	if len(c.order) >= mostUnclaimed {
		delete(c.by, c.order[0])
		c.order = c.order[1:]
	}
	c.by[number] = it
	c.order = append(c.order, number)
}

// unclaim takes back how a commit was counted whose session reports it only now. Its writes are left out for this reason.
// It returns why they can't be offered, or "" if there is no such commit, or none with a row.
func (c *core) unclaim(number uint64, reason string) (why string) {
	it, was := c.others.by[uint32(number)]
	if number == 0 || !was {
		return ""
	}
	delete(c.others.by, uint32(number))
	switch {
	case it.earlier:
		owed := c.spare.claimed(uint32(number))
		c.counts.wrote(owed)
		c.counts.leaveWrites(betweenAudits, owed)
		return betweenAudits
	case it.bare:
		c.counts.bare--
		return ""
	case it.unknown:
		c.counts.totals.Untold--
		c.counts.untold -= it.rows
		if it.elsewhere {
			c.counts.awaited--
		}
		c.counts.unleaveWrites(noNumber, it.writes)
	default:
		c.counts.folded[byOthers]--
		c.counts.outside(-1, -int64(it.writes))
	}
	c.counts.leaveWrites(reason, it.writes)
	return tooLate
}

// foldOther counts a commit that no session has reported in time.
func (c *core) foldOther(w *writer) {
	its := claim{writes: uint64(len(w.writes())), rows: w.rows(), bare: w.bare}
	unnumbered := c.mayBeUnnumbered(w)
	its.elsewhere = !unnumbered && !w.bare && c.isApart(w)
	switch {
	case unnumbered, its.elsewhere:
		its.bare, its.unknown = false, true
		c.counts.totals.Untold++
		c.counts.untold += its.rows
		c.counts.leaveWrites(noNumber, its.writes)
		if its.elsewhere {
			c.counts.awaits(false)
		}
	case w.bare:
		c.counts.bare++
	default:
		for _, one := range w.leftOut() {
			c.counts.unleaveWrites(one.reason, one.rows)
			its.writes += one.rows
		}
		c.counts.fold(byOthers)
		c.counts.outside(1, int64(its.writes))
	}
	c.others.put(w.number, its)
	c.fold(w)
}

// inherit takes over from the audit before what the slot and the sessions have yet to report of transactions that were
// counted there: they are in no place of this one.
func (c *core) inherit(from *core) {
	rows := from.unreportedRows()
	for number, w := range from.writers {
		if w.named && w.place == 0 {
			c.owe(&writer{number: number, named: true, fate: folded}, betweenAudits, rows[number])
			c.writers[number] = c.expected[len(c.expected)-1].writer
		}
	}
	for _, number := range from.others.order {
		if it, is := from.others.by[number]; is && (it.unknown || it.earlier) {
			c.others.put(number, claim{earlier: true, rows: it.rows})
		} else if is {
			c.others.put(number, claim{earlier: true})
		}
	}
	for _, w := range from.late {
		if w.fate == undecided && !w.named {
			c.others.put(w.number, claim{earlier: true, rows: w.rows()})
		}
	}
	c.counts.unnumbered = from.unreported()
	c.counts.early = min(from.counts.early, c.counts.unnumbered)
	for _, u := range from.unnumbered {
		if !u.over {
			u.batch = c.batch
			c.unnumbered = append(c.unnumbered, u)
			c.counts.awaits(from.counts.procedures)
			c.batched = true
		}
	}
}

// drop counts a transaction for which there was no room before the joiner. Nothing else of it is known.
func (c *core) drop(it *record.Transaction, why string) {
	c.await(it)
	if it.Number == 0 || c.unclaim(it.Number, why) != "" {
		return
	}
	if w := c.writer(*it); w.fate == undecided {
		c.leaveWriter(w, why, c.spare.without(it))
	}
}

// whyUnnumbered returns why the number of a transaction that may have written isn't known.
func whyUnnumbered(it *record.Transaction) string {
	if it.Unnumbered != "" {
		return it.Unnumbered
	}
	return noNumber
}

// whyEmpty returns why a transaction has nothing to offer.
func whyEmpty(it *record.Transaction) string {
	switch {
	case it.MayHaveWritten:
		return whyUnnumbered(it)
	case isUnseen(it):
		return nothingSeen
	}
	return noRows
}

// isUnseen reports whether something of a transaction wasn't seen, other than that a row wasn't found.
func isUnseen(it *record.Transaction) bool {
	for _, one := range it.Did.Left {
		if one.Reason != record.FoundNoRow {
			return true
		}
	}
	return it.Partly
}

// whyPartly returns why something of a transaction that is offered isn't, or "".
func (e *entry) whyPartly(to *resolution) string {
	switch {
	case e.its.Number == 0 && e.its.MayHaveWritten:
		return whyUnnumbered(&e.its)
	case e.late != "":
		return e.late
	case len(to.left) > 0, e.its.Beyond > 0, e.writer != nil && e.writer.lacks:
		return someRows
	case isUnseen(&e.its):
		return someStatements
	case len(e.its.Did.Left) > 0:
		return someEmpty
	}
	for _, one := range e.its.Did.Selects {
		if one.Ask > 0 && e.whyNotAsked(one.Ask, to) != "" {
			return someEmpty
		}
	}
	return ""
}

// whyNotAsked returns why a SELECT that found no row isn't checked, "" if what it passed over is followed.
func (e *entry) whyNotAsked(ask int32, to *resolution) string {
	if int(ask) > len(e.its.Asks) || e.its.Asks[ask-1].Why != "" {
		return record.FoundNoRow
	}
	for _, one := range to.lostAsks {
		if one == ask {
			return record.FoundNoRow
		}
	}
	return ""
}

// ownReads returns how many of a transaction's reads are of what it wrote itself, as far as its session knows.
func ownReads(it *record.Transaction) uint64 {
	n := uint64(0)
	for i := range it.Reads {
		if isOwn(it, it.Reads[i].Version) {
			n++
		}
	}
	return n
}

func isOwn(it *record.Transaction, version uint32) bool {
	if it.Number != 0 && uint32(it.Number) == version {
		return true
	}
	for _, its := range it.Versions {
		if its == version {
			return true
		}
	}
	return false
}
