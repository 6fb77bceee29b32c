package slot

import (
	"zanteyard/condition"
	"zanteyard/record"
)

// mostWrites limits what is kept of one transaction. The rest is counted and left out, as nobody's: reads of it aren't
// resolved.
const mostWrites = 1 << 16

// transaction collects what one transaction wrote: each row once, with its last change.
type transaction struct {
	number  uint32
	start   uint64
	names   uint64
	writes  []record.Write
	at      map[place]int // index of a row in writes, if there are many
	emptied []record.Relation
	touched bool // the slot reported a change of some table
	dropped uint64
	keyless uint64 // changes of rows whose key isn't known, or of tables that aren't audited
	gaps    []record.Relation
}

type place struct {
	relation record.Relation
	key      record.Key
}

// few is up to how many rows are searched one by one.
const few = 8

func (t *transaction) begin(number uint32, start, names uint64) {
	*t = transaction{number: number, start: start, names: names}
}

// values are those of a changed row's columns: afterwards and before, as far as the log has them and they are wanted.
type values struct {
	now, was *condition.Row
	bytes    int
	moved    bool // the key was another one's
}

func (t *transaction) write(relation record.Relation, key record.Key, inserted, deleted bool, its values) {
	if i, found := t.find(relation, key); found {
		one := &t.writes[i]
		one.Deleted, one.New, one.Bytes, one.Moved = deleted, asRow(its.now), its.bytes, one.Moved || its.moved
		return
	}
	if len(t.writes) >= mostWrites {
		t.dropped++
		return
	}
	if t.at != nil {
		t.at[place{relation, key}] = len(t.writes)
	}
	t.writes = append(t.writes, record.Write{Relation: relation, Key: key, Deleted: deleted, Inserted: inserted, Moved: its.moved,
		New: asRow(its.now), Old: asRow(its.was), Bytes: its.bytes})
}

// asRow keeps a nil a nil.
func asRow(it *condition.Row) record.Row {
	if it == nil {
		return nil
	}
	return it
}

// gap records that a change of some row of a table is missing, or of some table.
func (t *transaction) gap(relation record.Relation) {
	for _, one := range t.gaps {
		if one == relation {
			return
		}
	}
	t.gaps = append(t.gaps, relation)
}

func (t *transaction) find(relation record.Relation, key record.Key) (int, bool) {
	if len(t.writes) < few {
		for i := range t.writes {
			if t.writes[i].Relation == relation && t.writes[i].Key == key {
				return i, true
			}
		}
		return 0, false
	}
	if t.at == nil {
		t.at = make(map[place]int, 4*few)
		for i, one := range t.writes {
			t.at[place{one.Relation, one.Key}] = i
		}
	}
	i, found := t.at[place{relation, key}]
	return i, found
}

// empty records that all rows of a table were removed without being named, including those that this transaction wrote
// before. Of a partition it isn't known which rows of the whole table these were.
func (t *transaction) empty(table *Table) {
	relation := table.Root
	if t.gap(relation); table.Relation != relation {
		return
	}
	for i := range t.writes {
		if t.writes[i].Relation == relation {
			t.writes[i].Deleted = true
		}
	}
	t.emptied = append(t.emptied, relation)
}

func (t *transaction) commit(end, used uint64) record.Commit {
	return record.Commit{
		Number: t.number, LSN: end, Start: t.start, Writes: t.writes, Emptied: t.emptied, Names: t.names,
		Bare: !t.touched, Dropped: t.dropped, Keyless: t.keyless, Used: used,
		Gaps: t.gaps,
	}
}
