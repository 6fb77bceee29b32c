package join

import (
	"sort"
	"strconv"
	"strings"
	"time"

	"zanteyard/record"
)

// mostOfEach is the largest number of reads, and of writes, that the auditor takes from one transaction.
const mostOfEach = 256

// Why a read of an offered transaction is left out.
const (
	versionUnknown = "its version is unknown"
	keyChanged     = "its table's key has changed, or the table isn't known yet"
	subUnknown     = "its version may be from a savepoint, which can't be looked up"
	readOfItself   = "its version was written after the reader's own"
	absentAtLevel  = "an absent row, read without a snapshot"
	absentUnknown  = "an absent row whose last known version exists"
	absentOwn      = "an absent row that the transaction itself wrote"
	absentMeant    = "an absent row, asked for while operators were made or dropped"
	absentUndone   = "an absent row, asked for after a write that ROLLBACK TO may have undone"
	tooMany        = "more than 256 reads of one transaction"
)

// Why a write of an offered transaction is left out.
const (
	tooManyWrites = "more than 256 writes of one transaction"
	beyondKept    = "more than 65,536 rows of one transaction"
	keyless       = "in a table without a key, or one that isn't audited"
)

// resolution is what a transaction is offered with.
type resolution struct {
	reads  []source
	writes []*row
	left   map[string]uint64
	own    uint64
	before uint64  // how many of the offered reads found a version that was written before the audit
	folded uint64  // and how many one that isn't offered: they count as reads of the last offered one before it
	lost   []lost  // the reads that are left out
	owned  []int32 // those of what the transaction itself had written
	// How many rows were returned with those of before and of folded.
	beforeRows, foldedRows uint64
	beyond                 []source // for which there is no place, until it is known whether they need one
	// Conditions that are followed, rows that they passed over, and how many of the writes are versions of registers.
	asks, passed uint64
	marked       int
	leftAsks     map[string]uint64
	leftPassed   map[string]uint64 // and rows
	lostAsks     []int32           // the places of those that aren't followed, counted from 1
}

func (r *resolution) leavePassed(reason string) {
	if r.leftPassed == nil {
		r.leftPassed = map[string]uint64{}
	}
	r.leftPassed[reason]++
}

// leftAlone counts registers that aren't looked at.
func (r *resolution) leftAlone(n uint64) {
	if r.leftPassed == nil {
		r.leftPassed = map[string]uint64{}
	}
	r.leftPassed[tooManyPassed] += n
}

func (r *resolution) loseAsk(i int, reason string) {
	if r.leftAsks == nil {
		r.leftAsks = map[string]uint64{}
	}
	r.leftAsks[reason]++
	r.lostAsks = append(r.lostAsks, int32(i)+1)
}

// lost is a read that is left out: its place as in a source.
type lost struct {
	at     int32
	reason string
}

func (r *resolution) leave(at int, reason string) {
	if r.left == nil {
		r.left = map[string]uint64{}
	}
	r.left[reason]++
	r.lost = append(r.lost, lost{int32(at), reason})
}

func (r *resolution) isOwn(at int) {
	r.own++
	r.owned = append(r.owned, int32(at))
}

func (r *resolution) offersNothing() bool {
	return len(r.reads) == 0 && len(r.writes) == 0 && r.own == 0
}

// resolve finds the sources of a transaction's reads. It returns false as long as the slot hasn't reported everything
// that the transaction may have seen, or it isn't known yet whether one of these versions is offered.
func (c *core) resolve(e *entry) (resolution, bool) {
	var to resolution
	if e.fence {
		if e.session.joins && !(c.isGiven(e.from) && c.isNext(e.session)) {
			return to, false // the auditor takes no session that begins with a fence which reads an unknown one
		}
		to.reads, to.writes = []source{{row: c.rows.fence, from: e.from}}, []*row{c.rows.fence}
		return to, true
	}
	if e.batch > c.passed {
		return to, false
	}
	if began, _ := span(&e.its); !began.After(c.reread) {
		e.its.Level = record.UnknownLevel
	}
	if e.writer != nil && e.writer.place == 0 { // it wrote nothing that the slot reports
		delete(c.writers, e.writer.number)
		e.writer = nil
		if _, ended := span(&e.its); ended.Before(c.slotted) {
			e.late = betweenAudits
			c.counts.wrote(e.its.Did.Written)
			c.counts.leaveWrites(e.late, e.its.Did.Written)
		}
	}
	if c.waitsBeside(e) || !c.resolveWrites(e, &to) {
		return to, false
	}
	return to, c.resolveReads(e, &to) && c.resolveAbsent(e, &to) && c.resolveAsks(e, &to)
}

// resolveWrites makes each write a read of the version before it.
func (c *core) resolveWrites(e *entry, to *resolution) bool {
	if e.writer == nil {
		return true
	}
	for _, one := range e.writer.writes() {
		from, known := one.version.predecessor()
		if !known {
			return false
		}
		to.writes = append(to.writes, one.row)
		if from == e.name {
			continue // it wrote the row twice: the slot has each row once
		}
		to.reads = append(to.reads, source{row: one.row, from: from})
	}
	return c.resolveMarks(e, to)
}

// resolveReads finds the version that each row's xmin names. Unknown ones are left out: rows of tables that the slot
// doesn't report, rows that an ALTER TABLE rewrote, versions of unknown subtransactions, forgotten ones.
func (c *core) resolveReads(e *entry, to *resolution) bool {
	asks := false
	for i, one := range e.its.Reads {
		if isOwn(&e.its, one.Version) { // also one that it has undone since, which the slot never reports
			to.isOwn(i + 1)
			continue
		}
		if !c.tables.Same(one.Relation, one.Identity) {
			to.leave(i+1, keyChanged)
			continue
		}
		id := rowID{c.tables.Root(one.Relation), one.Key}
		if c.isFromBefore(id.relation, &e.its) {
			to.leave(i+1, keyChanged)
			continue
		}
		r := c.rows.by[id]
		at, v := r.find(one.Version)
		switch {
		case v != nil && v.writer == e.writer:
			to.isOwn(i + 1)
		case v != nil:
			from, known := under(v)
			if !known {
				return false
			}
			to.add(e, at, from, i+1, foundIn(v))
		case c.isOld(one.Version):
			if at = c.rows.before(id); at == nil || c.missed(id.relation, &e.its) {
				to.leave(i+1, versionUnknown)
				continue
			}
			to.add(e, at, initial, i+1, fromBefore)
		case c.askSubs(r, one.Version):
			asks = true
		case !c.inspects && r.mayBeSub(one.Version):
			to.leave(i+1, subUnknown)
		default:
			to.leave(i+1, versionUnknown)
		}
	}
	return !asks
}

// foundIn returns what a read of a version found.
func foundIn(v *version) found {
	if v.isFolded() {
		return notOffered
	}
	return isOffered
}

// add adds a read.
func (r *resolution) add(e *entry, of *row, from name, at int, is found) {
	if from == e.name {
		r.leave(at, readOfItself)
		return
	}
	r.reads = append(r.reads, source{of, from, int32(at), is})
}

// visible is how long after the slot has reported a commit everybody who begins sees it. The server writes a commit to
// its log, from which the slot has it, a moment before it shows it to others.
const visible = 2 * time.Second

// missed reports whether the transaction may have begun before an insertion or deletion that is forgotten: then a row
// that it found, or didn't find, may have been another one than that which has the key now.
func (c *core) missed(of record.Relation, it *record.Transaction) bool {
	began, _ := span(it)
	lost := c.rows.lost
	if its := c.rows.forgotten[of]; its > lost {
		lost = its
	}
	return lost > 0 && !began.After(c.began.Add(lost+visible))
}

// isFromBefore reports whether the transaction may have begun before it was seen that a table's definition had been
// written: what it read by the table's name may have been something else.
func (c *core) isFromBefore(table record.Relation, it *record.Transaction) bool {
	at, is := c.rows.forgotten[table]
	began, _ := span(it)
	return is && !began.After(c.began.Add(at))
}

// comparedAsUsual reports whether no operator was seen to have been made or dropped since the transaction may have begun. What
// another machine's proxy takes names for may be of a while before.
func (c *core) comparedAsUsual(e *entry) bool {
	began, _ := span(&e.its)
	if !e.its.Known.IsZero() {
		began = began.Add(-settles)
	}
	return began.After(c.questions.remade)
}

// resolveAbsent finds the versions that made rows absent. At read committed each statement has its own snapshot, which
// isn't known.
func (c *core) resolveAbsent(e *entry, to *resolution) bool {
	if len(e.its.Absent) == 0 {
		return true
	}
	shows, ok := snapshotOf(e.its.Snapshot)
	if !ok || e.its.Level != record.RepeatableRead && e.its.Level != record.Serializable {
		for i := range e.its.Absent {
			to.leave(-i-1, absentAtLevel)
		}
		return true
	}
	compared := c.comparedAsUsual(e) // with the key that was asked for
	for i, one := range e.its.Absent {
		if !compared {
			to.leave(-i-1, absentMeant)
			continue
		}
		if one.Undone {
			to.leave(-i-1, absentUndone)
			continue
		}
		if !c.tables.Same(one.Relation, one.Identity) {
			to.leave(-i-1, keyChanged)
			continue
		}
		id := rowID{c.tables.Root(one.Relation), one.Key}
		if c.isFromBefore(id.relation, &e.its) {
			to.leave(-i-1, keyChanged)
			continue
		}
		if c.rows.by[id].wrote(e.writer) {
			to.leave(-i-1, absentOwn)
			continue
		}
		if !c.absence(e, to, id, shows, -i-1) {
			return false
		}
	}
	return true
}

// absence resolves a read that found no row with this key. It has two sources: the deletion of the last row with the
// key that the snapshot shows, if there was any, and the beginning of the next one, which it doesn't show. It returns
// false as long as it isn't known whether the deletion is offered.
func (c *core) absence(e *entry, to *resolution, id rowID, shows snapshot, at int) bool {
	var last *version // that is shown
	var next *row
	gone := c.rows.by[id]
	for gone != nil && last == nil {
		last = gone.shown(shows)
		switch {
		case last != nil:
		case !gone.born && gone.last == nil: // it was there before the audit, and what removed it isn't known
			gone = nil
		case !gone.born || gone.trimmed:
			to.leave(at, absentUnknown)
			return true
		default:
			next, gone = gone, gone.earlier
		}
	}
	if last != nil && !last.deleted || last == nil && c.missed(id.relation, &e.its) {
		to.leave(at, absentUnknown)
		return true
	}
	if last != nil {
		from, known := under(last)
		if !known {
			return false
		}
		to.add(e, gone, from, at, foundIn(last))
	}
	if next == nil {
		next = c.rows.awaited(id)
	}
	to.add(e, next, initial, at, isOffered)
	return true
}

// snapshot says which transactions' writes a transaction saw.
type snapshot struct {
	end     uint32
	running []uint32
}

// snapshotOf parses the text of a pg_snapshot. Of its 64-bit numbers, the slot reports the lower 32 bits.
func snapshotOf(text string) (snapshot, bool) {
	parts := strings.Split(text, ":")
	if len(parts) != 3 {
		return snapshot{}, false
	}
	end, err := strconv.ParseUint(parts[1], 10, 64)
	if err != nil {
		return snapshot{}, false
	}
	its := snapshot{end: uint32(end)}
	if parts[2] == "" {
		return its, true
	}
	for _, one := range strings.Split(parts[2], ",") {
		number, err := strconv.ParseUint(one, 10, 64)
		if err != nil {
			return snapshot{}, false
		}
		its.running = append(its.running, uint32(number))
	}
	return its, true
}

func (s snapshot) has(number uint32) bool {
	if int32(number-s.end) >= 0 {
		return false
	}
	for _, one := range s.running {
		if one == number {
			return false
		}
	}
	return true
}

// mostAsked limits the commits that are looked into for one read to the last ones that wrote the row.
const mostAsked = 16

// askSubs makes the joiner ask for the subtransactions of the commits that the xmin may belong to: the row's versions
// with a lower number. It reports whether one of them isn't answered yet.
func (c *core) askSubs(r *row, xmin uint32) bool {
	if !c.inspects {
		return false
	}
	waits := false
	candidates := 0
	r.first(func(v *version) bool {
		w := v.writer
		if w.start == 0 || int32(xmin-w.number) <= 0 {
			return false
		}
		candidates++
		if w.subsAre == unasked {
			w.subsAre = asked
			c.unsub = append(c.unsub, w)
		}
		waits = waits || w.subsAre == asked
		return candidates == mostAsked
	})
	return waits
}

// mayBeSub reports whether an unknown xmin may be a subtransaction of a transaction that wrote the row: its number is
// greater than that one's.
func (r *row) mayBeSub(xmin uint32) bool {
	_, v := r.first(func(v *version) bool { return int32(xmin-v.writer.number) > 0 })
	return v != nil
}

// answered records the subtransactions that were asked for, in the same order; none for those that couldn't be read.
func (c *core) answered(writers []*writer, subs [][]uint32) {
	for i, w := range writers {
		w.subsAre = answered
		if i < len(subs) {
			w.addSubs(subs[i]...)
		}
	}
}

// rowsOf returns how many rows were returned with a read.
func (e *entry) rowsOf(at int32) uint64 {
	if at <= 0 {
		return 0
	}
	return e.its.Did.Weight(int(at) - 1)
}

// settle sorts the reads, numbers their rows, and leaves out what is too much (choose).
func (c *core) settle(e *entry, to *resolution) {
	if len(to.reads) > c.opt.Reads {
		c.choose(e, to)
	}
	for _, one := range to.reads {
		c.rows.number(one.row, c.used)
		to.found(e, one)
	}
	for _, one := range to.writes {
		c.rows.number(one, c.used)
	}
	sort.Slice(to.reads, func(i, j int) bool { return to.reads[i].below(to.reads[j]) })
	kept := to.reads[:0]
	for i, one := range to.reads {
		if i == 0 || !one.same(to.reads[i-1]) {
			kept = append(kept, one)
		}
	}
	to.reads = kept
	sort.Slice(to.writes, func(i, j int) bool { return to.writes[i].number < to.writes[j].number })
}
