package join

import (
	"time"

	"zanteyard/condition"
	"zanteyard/record"
)

// Folding. Let H be all committed transactions, including those of others than the proxy, and let an order of H explain
// it: each read finds, before its reader, the version it names as the last one of its row. A row ends with its deletion:
// what is inserted with its key is another row. Every order of H has each row's versions in the order in which the slot
// reports them, since each write reads the version before it, and the first one "init". Take any
// set of writes out of H; take reads out, and whole transactions; and let each remaining read name the last remaining
// version at or before the one that it named. The same order, without what is gone, explains what remains: the
// remaining versions of a row stand in it as they stood before, and the last one before the reader is the last
// remaining one at or before the version that was read. So if what remains has no order, H had none: nothing is made
// up.
//
// Which writes are taken out may be decided by anything except the order itself, at any time before a reader of them is
// offered: that nobody knows them, that they came late, that there is no room.

// fate says whether a transaction's writes are offered.
type fate uint8

const (
	undecided fate = iota // its session may still report it
	offered
	folded
)

// inquiry says how far the server was asked for a transaction's subtransactions.
type inquiry uint8

const (
	unasked inquiry = iota
	asked
	answered
)

// writer is a transaction that wrote, with what its versions need. There may be as many as rows (Options.Rows): what
// only few of them have, or none for long, is kept in beside.
type writer struct {
	fate    fate
	subsAre inquiry
	named   bool          // a session reported it: it isn't somebody else's
	bare    bool          // the slot reported no row in it
	lacks   bool          // some of the rows that it wrote aren't offered
	number  uint32        // the server's
	name    name          // where it is offered
	place   uint64        // in the order of commits, from 1; 0 until the slot has reported it
	start   uint64        // where its commit record begins, or 0 if unknown
	seen    time.Duration // when the slot reported it, since the audit began
	over    time.Duration // when it had ended, by the session that reported it; 0 if none did
	done    bool          // it is in a line, or folded: it writes nothing more
	beside  *beside       // nil if it would be empty
}

type beside struct {
	subs   []uint32 // its subtransactions, as far as they are known
	writes []write  // until it is resolved
	marks  []write  // versions of registers, until then
	left   []leftRows
}

// leftRows are rows that a transaction wrote, and that aren't among its writes.
type leftRows struct {
	reason string
	rows   uint64
}

func (w *writer) leftOut() []leftRows {
	if w.beside == nil {
		return nil
	}
	return w.beside.left
}

// rows returns how many rows it wrote.
func (w *writer) rows() uint64 {
	n := uint64(len(w.writes()))
	for _, left := range w.leftOut() {
		n += left.rows
	}
	return n
}

func (w *writer) subs() []uint32 {
	if w.beside == nil {
		return nil
	}
	return w.beside.subs
}

func (w *writer) writes() []write {
	if w.beside == nil {
		return nil
	}
	return w.beside.writes
}

func (w *writer) addSubs(its ...uint32) {
	if len(its) > 0 {
		w.needBeside().subs = append(w.beside.subs, its...)
	}
}

func (w *writer) addWrite(its write) {
	w.needBeside().writes = append(w.beside.writes, its)
}

func (w *writer) marks() []write {
	if w.beside == nil {
		return nil
	}
	return w.beside.marks
}

func (w *writer) addMark(its write) {
	w.needBeside().marks = append(w.beside.marks, its)
}

func (w *writer) needBeside() *beside {
	if w.beside == nil {
		w.beside = &beside{}
	}
	return w.beside
}

// forgetWrites is called when it is resolved.
func (w *writer) forgetWrites() {
	w.done = true
	if subs := w.subs(); len(subs) > 0 {
		w.beside.writes, w.beside.left, w.beside.marks = nil, nil, nil
	} else {
		w.beside = nil
	}
}

// is reports whether a row's xmin is this transaction's.
func (w *writer) is(xmin uint32) bool {
	if w.number == xmin {
		return true
	}
	for _, sub := range w.subs() {
		if sub == xmin {
			return true
		}
	}
	return false
}

type write struct {
	row     *row
	version *version
}

// version is a row as one transaction left it.
type version struct {
	writer  *writer
	before  *version
	down    *version // if this one is folded: one before it, with only folded ones in between
	base    name     // if before is nil: the last offered version before this one
	deleted bool     // the row isn't there
	left    bool     // this write isn't offered, although its transaction may be
	// inserted: there was no row before. Of a row alone.
	inserted bool
	// unsure: it isn't known yet whether this changed its condition's truth; left is set. Of a register alone.
	unsure bool
	bytes  int32
	values *condition.Row // nil if they aren't known, or are forgotten
}

// row is a row of a table, by its primary key, from its insertion to its deletion: what is inserted after that is
// another row, which has the key from then on. If a row that was forgotten comes again, it gets another number, and so
// do its versions: to the auditor it is another row. That takes writes out of the history of the first one, and the
// second begins as if everything before were folded.
type row struct {
	id     rowID
	number uint64 // the auditor's key: 0 for the fences' row, and for rows that weren't offered yet
	last   *version
	// born: the audit has seen the row, or will see it, being inserted; a reader of "init" found no row. Otherwise it was
	// there when it was first heard of, and a reader of "init" found it.
	born    bool
	checked bool      // it was inserted while the server checked its foreign keys, as they still are (checked.go)
	earlier *row      // the row that had the key before this one, as long as it is known
	trimmed bool      // versions before those in the list were forgotten, or rows before this one
	many    bool      // it is in the list of rows that have more than one version, or one before them
	used    uint64    // the count of offered transactions when it was last used
	queued  uint64    // the value of used when it was last looked at
	as      *register // nil for a row of a table
}

type rowID struct {
	relation record.Relation
	key      record.Key
}

func (v *version) isFolded() bool { return v.left || v.writer.fate == folded }

// next returns the version to look at if this one is folded.
func (v *version) next() *version {
	if v.down != nil {
		return v.down
	}
	return v.before
}

// under returns the last offered version at or before v. It isn't known while one of them is undecided. A row that only
// others write has a long list of folded versions, which is gone through only once.
func under(v *version) (name, bool) {
	at := v
	for at.isFolded() && at.before != nil {
		at = at.next()
	}
	if !at.isFolded() && at.writer.fate == undecided {
		return initial, false
	}
	for v != at {
		v, v.down = v.next(), at
	}
	if at.isFolded() {
		return at.base, true
	}
	return at.writer.name, true
}

// predecessor returns the last offered version before v.
func (v *version) predecessor() (name, bool) {
	if v.before == nil {
		return v.base, true
	}
	return under(v.before)
}

// first returns the first version, last one first, for which is holds, and its row: this one, or one that had the key
// earlier.
func (r *row) first(is func(*version) bool) (*row, *version) {
	for it := r; it != nil; it = it.earlier {
		for v := it.last; v != nil; v = v.before {
			if is(v) {
				return it, v
			}
		}
	}
	return nil, nil
}

// find returns the version with this xmin, and its row.
func (r *row) find(xmin uint32) (*row, *version) {
	return r.first(func(v *version) bool { return v.writer.is(xmin) })
}

// wrote reports whether the transaction made a version.
func (r *row) wrote(w *writer) bool {
	if w == nil {
		return false
	}
	_, v := r.first(func(v *version) bool { return v.writer == w })
	return v != nil
}

// shown returns the row's last version in a snapshot.
func (r *row) shown(in snapshot) *version {
	for v := r.last; v != nil; v = v.before {
		if in.has(v.writer.number) {
			return v
		}
	}
	return nil
}

// trim forgets what is before the last version for which old holds. If somebody still reads one of these versions, that
// read isn't resolved, and is left out.
func (r *row) trim(old func(*version) bool) {
	it, v := r.first(old)
	if v == nil || v.before == nil && it.earlier == nil {
		return
	}
	base, known := v.predecessor()
	if !known {
		return
	}
	v.before, v.down, v.base, it.earlier, it.trimmed = nil, nil, base, nil, true
	for above := it.last; above != v; above = above.before {
		above.down = nil // it may lead to what is forgotten
	}
}
