package join

import (
	"time"

	"zanteyard/record"
)

// core joins what sessions report with what the slot has, step by step, with no goroutines and no clock. All calls are
// made by one goroutine (Joiner).
//
// Reports of sessions and of the slot may arrive in any order. Once a transaction is reported, it waits until the slot
// has passed the place where the server's log stood at that time (batch): everything that it read was committed by
// then, so what the slot hasn't reported by then it never reports. It also waits until it is known whether each version
// that it read or overwrote, and those before, are offered: a version is once a session has reported its transaction;
// it isn't if none has within a while of its commit.
type core struct {
	opt         Options
	tables      Tables
	out         func(line []byte) // takes a line for the auditor, without its newline; it copies what it keeps
	began, now  time.Time
	slotted     time.Time // what was committed before this may be missing in the slot
	spare       *spare
	sought      time.Time // what had ended before this is
	opened      time.Time // what had begun before this may be
	connections map[uint64]*connection
	queue       []*connection // those without a session
	sessions    []*session
	database    string   // the slot's; empty if any will do
	held        []*entry // whose outcome isn't known yet
	moments     moments
	fencedAt    moments       // those of them that have fences in all sessions
	ended       time.Time     // when the last one of the named transactions had ended
	last        name          // the last fence
	met         time.Time     // its moment
	metAt       uint64        // the place of the last commit that the slot had reported then
	short       bool          // since the last meeting a connection that works has found no session
	remain      int           // how many transactions count towards the limit: named, and not gone
	bytes       int           // about how many bytes these take
	asking      time.Time     // since when a round isn't answered; zero if each is
	inRound     int           // how many it is about
	going       int           // and how many of these it may let the auditor forget
	took        time.Duration // by the last one that was answered
	prepares    time.Duration // how long a meeting takes, with what was reported before it
	until       []uint64      // of each session, the numbers that are before the moment of the meeting under way; nil: there is none
	fit         int           // how many a round should have, by the time that rounds take
	most        int           // how many may come between two meetings, by the same
	good        time.Duration // how long a round should take
	leftBefore  uint64        // how many were left out for want of room up to the last round
	crowded     bool          // some were since the one before
	full        time.Time     // since when there is no room; zero if there is

	rows       *rows
	writers    map[uint32]*writer   // those that only the slot or only a session has reported
	late       []*writer            // commits in the slot's order that may still turn out to be somebody else's
	others     claims               // those that did
	apart      func(time.Time) bool // whether a proxy elsewhere may yet report what was committed by then; nil: there is none
	owed       map[uint32]string    // why writes of folded transactions that the slot hasn't reported yet are left out, by number
	unnumbered []unnumbered
	expected   []expected
	commits    uint64    // how many the slot has reported: the place of the last one
	fenced     uint64    // the place of the last fence that is gone
	fences     []fence   // those that may remain
	used       uint64    // count of transactions in lines
	inspects   bool      // subtransactions can be asked for
	unsub      []*writer // commits whose subtransactions are still to be asked for
	texts      int       // bytes of statements that are kept
	base       uint32    // all transactions with lower numbers were over when the audit began
	newest     uint64    // how far the newest number that the slot has reported is past the base
	batch      uint64    // of what is reported now
	batched    bool      // something was reported in it
	asked      []batchAt // batches whose place in the log is known, and that the slot hasn't passed
	passed     uint64    // the slot has passed this batch
	passes     []passes  // when it did, by commits
	deduced    uint64    // what was reported up to this batch has told what it passed over
	shows      *snapshot // the latest one
	progress   uint64
	since      int // number of transactions named since the last meeting
	unchecked  int // and since the last round
	// foldedBefore is how many were folded since they ran across a moment, up to the last meeting.
	foldedBefore uint64
	counts       counts
	beyond       []beyond
	beyondReads  int                                      // that these keep in memory
	judged       func(of name, read source, matters bool) // of a test: what was decided of a read beyond the limit
	questions    *conditions
	besides      []besides // oldest first
	beside       time.Time // what was reported by then waits for nobody any more
	looked       time.Time // when the last of besides was taken; zero if nobody takes them
	writes       time.Time // when a writer was reported last
	reread       time.Time // until then, sessions may take the server's settings for what they were
}

type batchAt struct {
	batch uint64
	place uint64
	at    time.Time // when it was asked for
}

// newCore begins an audit of a server. All transactions below the base were over, and the slot reports every commit
// that a snapshot of that time doesn't show.
func newCore(opt Options, tables Tables, base uint32, out func([]byte), now time.Time) *core {
	opt = opt.withDefaults()
	c := &core{
		opt: opt, tables: tables, out: out, began: now, now: now, base: base,
		connections: map[uint64]*connection{},
		rows:        newRows(opt.Rows),
		writers:     map[uint32]*writer{},
		last:        initial,
		batch:       1,
		counts:      newCounts(),
		questions:   newConditions(opt.Conditions),
		good:        goodRound,
		fit:         least(firstFit, opt.Limit),
		most:        opt.Limit, // as long as no round was answered
	}
	for i := 0; i < opt.First; i++ {
		c.sessions = append(c.sessions, &session{index: i, fenced: true})
	}
	return c
}

// isOld reports whether a row's xmin is of a transaction that was over when the audit began, so that the slot never
// reports it. Numbers have 32 bits here: one that could as well be newer counts as unknown. That includes numbers up to
// 2^30 above all commits of the slot so far, since a subtransaction's may be above all of them.
func (c *core) isOld(xmin uint32) bool {
	const ahead = 1 << 30
	if xmin < 3 {
		return true // what was there before any transaction
	}
	return c.newest+ahead < 1<<32 && uint64(xmin-c.base) >= c.newest+ahead
}

// commit handles the slot's next commit.
func (c *core) commit(it record.Commit) {
	c.counts.committed++
	c.commits++
	if ahead := int32(it.Number - c.base - uint32(c.newest)); ahead > 0 {
		c.newest += uint64(ahead)
	}
	w := c.writers[it.Number]
	if w != nil && w.place != 0 {
		w = nil // the same number again, after it was used up
	}
	if w == nil {
		w = &writer{number: it.Number}
	}
	w.place, w.start, w.seen, w.bare = c.commits, it.Start, c.now.Sub(c.began), it.Bare
	w.addSubs(it.Subs...)
	c.addVersions(w, it)
	if w.fate == undecided {
		c.writers[it.Number] = w
		if !w.named {
			c.late = append(c.late, w)
		}
		return
	}
	delete(c.writers, it.Number)
	if w.fate == folded {
		c.counts.leaveWrites(c.owed[it.Number], uint64(len(w.writes())))
		delete(c.owed, it.Number)
		w.forgetWrites()
	}
}

func (c *core) addVersions(w *writer, it record.Commit) {
	for _, relation := range it.Emptied {
		c.rows.emptied(c.tables.Root(relation), w)
	}
	if it.Dropped > 0 {
		c.rows.lose(w.seen) // some of them may have been inserted or deleted
		c.counts.wrote(it.Dropped)
		c.leaveOut(w, beyondKept, it.Dropped)
	}
	c.counts.wrote(it.Keyless)
	c.leaveOut(w, keyless, it.Keyless)
	w.lacks = it.Dropped > 0 || it.Keyless > 0
	gaps := c.gaps(it)
	var news []fresh
	for _, one := range it.Writes {
		id := rowID{c.tables.Root(one.Relation), one.Key}
		if r := c.rows.by[id]; r != nil && r.last != nil && r.last.writer == w && !r.last.left {
			r.last.deleted = one.Deleted // keys of two partitions have become one row's
			c.questions.letGo(r.last)
			continue
		}
		c.counts.wrote(1)
		r := c.rows.write(id, one.Inserted, w)
		v := &version{writer: w, deleted: one.Deleted, left: len(w.writes()) >= mostOfEach, inserted: one.Inserted}
		c.rows.check(r, &one, it.LSN)
		c.rows.add(r, v)
		if !gaps {
			c.questions.keep(v, one.New, one.Bytes)
		}
		if it := (fresh{r, v, one.Old}); it.tells() {
			news = append(news, it)
		}
		if !v.left {
			w.addWrite(write{r, v})
		} else {
			c.leaveOut(w, tooManyWrites, 1)
			w.lacks = true
		}
	}
	c.changes(news)
}

// leaveOut leaves out rows that a transaction wrote.
func (c *core) leaveOut(w *writer, reason string, n uint64) {
	if n == 0 {
		return
	}
	c.counts.leaveWrites(reason, n)
	if left := w.leftOut(); len(left) > 0 && left[len(left)-1].reason == reason {
		left[len(left)-1].rows += n
		return
	}
	w.needBeside().left = append(w.leftOut(), leftRows{reason, n})
}

// fold leaves out the writer's versions.
func (c *core) fold(w *writer) {
	w.fate = folded
	w.forgetWrites()
	if w.place != 0 {
		delete(c.writers, w.number)
	}
}

// advance records how far the slot is: it has reported every commit before this place in the log.
func (c *core) advance(place uint64) {
	if place > c.progress {
		c.progress = place
	}
	for len(c.asked) > 0 && reached(c.progress, c.asked[0].place) {
		c.passTo(c.asked[0].batch)
		c.asked = c.asked[1:]
	}
}

// reached reports whether the slot has come to a place. If a page of the log is full, the place where the next record
// is inserted comes after the next page's header, which the slot reports only with that record.
func reached(progress, place uint64) bool {
	const page, header = 8192, 40
	return progress >= place || progress%page == 0 && place-progress <= header
}

// wantsPlace reports whether something was reported for which the log's place has to be asked. Whatever is reported
// from then on belongs to the next batch.
func (c *core) wantsPlace() (batch uint64, wanted bool) {
	if !c.batched {
		return 0, false
	}
	c.batched = false
	c.batch++
	return c.batch - 1, true
}

// placed records where the log stood when it was asked for a batch.
func (c *core) placed(batch uint64, place Place, asked time.Time) {
	if its, ok := snapshotOf(place.Shows); ok {
		c.shows = &its
		c.show(its)
	}
	c.asked = append(c.asked, batchAt{batch, place.At, asked})
	c.advance(c.progress)
}

// lag returns for how long the slot has been behind.
func (c *core) lag() time.Duration {
	if len(c.asked) == 0 {
		return 0
	}
	return c.now.Sub(c.asked[0].at)
}

// step does everything that can be done by now, except writing fragments (flush).
func (c *core) step(now time.Time) {
	c.now = now
	c.foldLate()
	c.passBeside()
	c.giveUpExpected()
	c.deduce()
	for moved := true; moved; {
		moved = c.decideHeld()
		for _, s := range c.sessions {
			moved = c.write(s) || moved
		}
	}
}

// foldLate counts commits as somebody else's if no session has reported them for a while.
func (c *core) foldLate() {
	c.passUnnumbered()
	for len(c.late) > 0 {
		w := c.late[0]
		if w.fate == undecided && !w.named {
			if c.now.Sub(c.began)-w.seen < c.opt.Late {
				return
			}
			c.foldOther(w)
		}
		c.late[0] = nil
		c.late = c.late[1:]
	}
}

// expected is a folded transaction that the slot hasn't reported yet, with the rows that its statements wrote by their own
// words.
type expected struct {
	batch  uint64
	writer *writer
	rows   uint64
}

// isAwaited reports whether the slot hasn't reported a transaction.
func (c *core) isAwaited(w *writer) bool { return w.place == 0 && c.writers[w.number] == w }

// missing counts the rows of a folded transaction that was committed where the slot doesn't report it.
func (c *core) missing(one expected, was bool) {
	if was {
		c.counts.wrote(one.rows)
		c.counts.leaveWrites(c.owed[one.writer.number], one.rows)
	}
}

// end counts as not checked what isn't decided at the audit's end, and what nobody has taken out of the inbox. What the
// slot hasn't reported by then counts with the rows that its statements wrote by their own words.
func (c *core) end(rest []message) {
	c.endBeyond()
	for _, one := range rest {
		it := one.dropped
		if one.transaction != nil {
			it = one.transaction
			it.Outcome = c.outcome(it)
			c.counts.totals.told(it)
		}
		switch {
		case it == nil || it.Outcome == record.Aborted:
		case it.Number == 0:
			c.await(it)
		case !c.isReported(it.Number):
			c.counts.wrote(c.spare.without(it))
		default:
			if w := c.writers[uint32(it.Number)]; w != nil {
				w.named = true
			}
		}
	}
	c.endUnnumbered()
	for number, rows := range c.unreportedRows() {
		c.counts.wrote(rows)
		if why, is := c.owed[number]; is {
			c.counts.leaveWrites(why, rows)
		}
	}
	c.counts.totals.close(auditEnded)
}

// addUnreported adds to what is told of an audit that is stopped, and goes on, what end would count for the slot.
func (c *core) addUnreported(to *Totals) {
	rows := c.unreported()
	to.RowsWritten.All += rows
	to.RowsWritten.leave(noNumber, rows)
	for number, rows := range c.unreportedRows() {
		to.RowsWritten.All += rows // these wait, unless they are left out
		if why, is := c.owed[number]; is {
			to.RowsWritten.leave(why, rows)
		}
	}
}

// endUnnumbered counts the rows of those whose number isn't known, as far as the slot hasn't reported them.
func (c *core) endUnnumbered() { c.counts.wrote(c.unreported()) }

// unreported is how many rows of those whose number isn't known the slot has yet to report, by their statements' own words:
// at most those of what it hasn't passed, and of what may have ended before it began.
func (c *core) unreported() uint64 {
	most, reported := c.counts.early, c.counts.untold
	for _, u := range c.unnumbered {
		if u.batch > c.passed {
			most += u.rows
		}
	}
	reported += c.unnamedRows()
	if n := c.counts.unnumbered; n > reported {
		return min(n-reported, most)
	}
	return 0
}

// unnamedRows is how many rows the slot has reported of commits of which it isn't decided whose they are.
func (c *core) unnamedRows() (n uint64) {
	for _, w := range c.late {
		if w.fate == undecided && !w.named {
			n += w.rows()
		}
	}
	return n
}

// unclaimed are the commits whose rows are counted, and that no session has reported.
func (c *core) unclaimed() (its unclaimed) {
	for number, one := range c.others.by {
		if !one.bare && (one.unknown || one.earlier) {
			its.put(number, one.rows)
		}
	}
	for _, w := range c.late {
		if w.fate == undecided && !w.named && !w.bare {
			its.put(w.number, w.rows())
		}
	}
	if rows, n := c.unnamedRows()+c.counts.untold, c.counts.unnumbered; rows > n {
		its.rows = rows - n
	}
	return its
}

// unreportedRows are the rows that transactions wrote by their statements' own words, by number, of those that the slot hasn't
// reported.
func (c *core) unreportedRows() map[uint32]uint64 {
	its := map[uint32]uint64{}
	for _, one := range c.expected {
		if c.isAwaited(one.writer) {
			its[one.writer.number] = one.rows
		}
	}
	add := func(e *entry) {
		if !e.fence && e.writer != nil && e.writer.place == 0 {
			its[e.writer.number] = e.its.Did.Written
		}
	}
	for _, s := range c.sessions {
		for _, e := range s.waiting {
			add(e)
		}
	}
	for _, e := range c.held {
		add(e)
	}
	return its
}

// isReported reports whether the slot has reported the commit of a number that no session has named.
func (c *core) isReported(number uint64) bool {
	w := c.writers[uint32(number)]
	_, was := c.others.by[uint32(number)]
	return was || w != nil && w.place != 0
}

// giveUpExpected drops folded transactions that the slot never reports.
func (c *core) giveUpExpected() {
	for len(c.expected) > 0 && c.expected[0].batch <= c.passed {
		if one := c.expected[0]; c.isAwaited(one.writer) {
			c.missing(one, c.isOld(one.writer.number))
			delete(c.writers, one.writer.number)
			delete(c.owed, one.writer.number)
		}
		c.expected[0].writer = nil
		c.expected = c.expected[1:]
	}
}

// forgetTables forgets tables' rows, since their names or keys have another meaning from now on, or may have had one.
func (c *core) forgetTables(its map[record.Relation]bool) {
	if len(its) == 0 {
		return
	}
	c.rows.forgetTables(its, c.now.Sub(c.began))
	for relation := range its {
		c.questions.forgetTable(c.tables.Root(relation), c.commits)
	}
}

// forgetMeanings drops all conditions, since an operator or the like may mean something else from now on, or may have
// meant it.
func (c *core) forgetMeanings() {
	c.questions.remakes(c.now)
	for relation := range c.questions.of {
		c.questions.forgetAll(relation)
	}
}

// settles is how long it takes until all sessions have learned of settings that were read again: until then what they say of a
// transaction's level, or took a name for, may be of before.
const settles = 30 * time.Second

// forget drops versions that were overwritten long ago, which nobody is expected to read any more.
func (c *core) forget() {
	before := c.now.Sub(c.began) - c.opt.Stale
	old := func(v *version) bool {
		return v.writer.fate != undecided && (v.writer.place <= c.fenced || v.writer.seen < before)
	}
	c.rows.trim(old)
	c.forgetQuestions(old)
	least := c.used
	for _, s := range c.sessions {
		if len(s.kept) > 0 && s.kept[0].used < least {
			least = s.kept[0].used
		}
	}
	c.rows.forgetRead(least)
}
