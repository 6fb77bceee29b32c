package join

import (
	"time"

	"zanteyard/record"
)

// rows has the rows whose versions are known, or that were read by a transaction which may remain.
type rows struct {
	by      map[rowID]*row // the row that has a key, or will have it
	next    uint64         // the next key's number
	most    int
	written fifo   // rows that have versions, those known longest first
	read    []*row // rows that had none when they were made
	many    []*row // rows that have more than one version, or a row before them
	fence   *row   // which nobody writes: its key is 0
	// lost is just after the slot reported the last insertion or deletion that is forgotten; 0 for none.
	lost time.Duration
	// forgotten are tables whose rows were forgotten, and when.
	forgotten map[record.Relation]time.Duration
	unchecked uint64 // up to this place in the log it isn't certain that foreign keys were checked
}

func newRows(most int) *rows {
	return &rows{by: map[rowID]*row{}, next: 1, most: most, fence: &row{}}
}

// get returns the row, which is made if it isn't known.
func (r *rows) get(id rowID) *row {
	it := r.by[id]
	if it == nil {
		it = &row{id: id}
		r.by[id] = it
		r.read = append(r.read, it)
	}
	return it
}

// makeRoom forgets the rows that were written longest ago, beyond the limit.
func (r *rows) makeRoom() {
	for chances := 0; r.written.len() > r.most; chances++ {
		old := r.written.pop()
		if chances < 8 && old.used != old.queued { // used since: another chance
			old.queued = old.used
			r.written.push(old)
			continue
		}
		r.drop(old)
	}
}

// drop forgets the row.
func (r *rows) drop(old *row) {
	if at := r.by[old.id]; at == old {
		delete(r.by, old.id)
		if old.last != nil && (old.born || old.earlier != nil || old.last.deleted) {
			r.lose(old.last.writer.seen)
		}
	} else {
		for ; at != nil; at = at.earlier {
			if at.earlier == old {
				at.earlier, at.trimmed = nil, true
			}
		}
	}
}

// lose records that nobody knows any more which rows were inserted and deleted up to this time.
func (r *rows) lose(until time.Duration) {
	if until >= r.lost {
		r.lost = until + 1
	}
}

// succeed puts another row under the same key: this one is gone, and the key is, or will be, inserted again. The
// inserting transaction needn't see in its snapshot that the row is gone, so an insert isn't a read of what precedes it.
func (r *rows) succeed(old *row) *row {
	it := &row{id: old.id, born: true, earlier: old, many: true}
	r.by[it.id] = it
	r.read, r.many = append(r.read, it), append(r.many, it)
	return it
}

// mostForgotten limits the tables that are remembered as forgotten.
const mostForgotten = 100_000

// forgetTables forgets the rows of tables.
func (r *rows) forgetTables(its map[record.Relation]bool, now time.Duration) {
	for id := range r.by {
		if its[id.relation] {
			delete(r.by, id)
		}
	}
	if len(r.forgotten)+len(its) > mostForgotten {
		r.forgotten = nil
		r.lose(now)
	}
	if r.forgotten == nil {
		r.forgotten = map[record.Relation]time.Duration{}
	}
	for relation := range its {
		r.forgotten[relation] = now
	}
}

// write returns the row that a transaction wrote.
func (r *rows) write(id rowID, inserted bool, w *writer) *row {
	it := r.by[id]
	switch {
	case it == nil:
		it = r.get(id)
		it.born = inserted
	case inserted && (it.last != nil || !it.born):
		return r.succeed(it)
	case !inserted && it.last != nil && it.last.deleted && it.last.writer != w: // what inserted it again isn't known
		return r.succeed(it)
	}
	return it
}

// awaited returns the row that will have a key, if no row has it now.
func (r *rows) awaited(id rowID) *row {
	it := r.by[id]
	switch {
	case it == nil:
		it = r.get(id)
		it.born = true
	case it.last != nil || !it.born:
		return r.succeed(it)
	}
	return it
}

// before returns the row that had the key before the audit began, or nil if it isn't known.
func (r *rows) before(id rowID) *row {
	it := r.get(id)
	for it.earlier != nil {
		it = it.earlier
	}
	if it.born {
		return nil
	}
	return it
}

// number numbers the row's key.
func (r *rows) number(it *row, used uint64) {
	if it.number == 0 && it != r.fence {
		it.number = r.next
		r.next++
	}
	it.used = used
}

// add appends a version to those of the row.
func (r *rows) add(it *row, v *version) {
	v.before, v.base, it.last = it.last, initial, v
	if v.before == nil {
		r.written.push(it)
		r.makeRoom()
	}
	if v.before != nil && !it.many {
		it.many = true
		r.many = append(r.many, it)
	}
}

// trim forgets old versions of all rows.
func (r *rows) trim(old func(*version) bool) {
	kept := r.many[:0]
	for _, it := range r.many {
		it.trim(old)
		if it.many = it.last != nil && it.last.before != nil || it.earlier != nil; it.many {
			kept = append(kept, it)
		}
	}
	for i := len(kept); i < len(r.many); i++ {
		r.many[i] = nil
	}
	r.many = kept
}

// forgetRead forgets rows that nobody wrote and that were read only by transactions that are gone.
func (r *rows) forgetRead(least uint64) {
	kept := r.read[:0]
	for _, it := range r.read {
		switch {
		case it.last != nil: // it is among the written ones
		case it.used < least && it.earlier != nil && r.by[it.id] == it:
			r.by[it.id] = it.earlier
		case it.used < least:
			r.drop(it)
		default:
			kept = append(kept, it)
		}
	}
	for i := len(kept); i < len(r.read); i++ {
		r.read[i] = nil
	}
	r.read = kept
}

// emptied folds a version in which the row is absent into all known rows of the table. Of the others, what is inserted
// after that is another row in any case.
func (r *rows) emptied(relation record.Relation, w *writer) {
	for id, it := range r.by {
		if id.relation == relation && it.last != nil {
			r.add(it, &version{writer: w, deleted: true, left: true})
		}
	}
}

// fifo is a queue of rows in one slice.
type fifo struct {
	its  []*row
	from int
}

func (f *fifo) len() int { return len(f.its) - f.from }

func (f *fifo) push(it *row) {
	if f.from > 1024 && f.from > len(f.its)/2 {
		n := copy(f.its, f.its[f.from:])
		for i := n; i < len(f.its); i++ {
			f.its[i] = nil
		}
		f.its, f.from = f.its[:n], 0
	}
	f.its = append(f.its, it)
}

func (f *fifo) pop() *row {
	it := f.its[f.from]
	f.its[f.from] = nil
	f.from++
	return it
}
