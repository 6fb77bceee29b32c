package join

import "zanteyard/record"

// A join that found no row, of a table and those to which its foreign keys refer, has passed over those of the table's rows of
// which it is known that they have what they refer to: the audit has seen them being inserted, the server checks the keys, and
// nobody has changed a table's definition since. Others may have been written while it checked nothing.

// check records whether a row's foreign keys were checked when it was inserted, up to this place in the log. It is called
// before the version is added.
func (r *rows) check(it *row, one *record.Write, at uint64) {
	switch {
	case one.Moved: // the keys are another row's
		it.checked = false
	case it.last == nil:
		it.checked = one.Inserted && at > r.unchecked
	}
}

// uncheck records that up to this place somebody may have switched off that foreign keys are checked.
func (r *rows) uncheck(upTo uint64) {
	if upTo > r.unchecked {
		r.unchecked = upTo
	}
	for _, it := range r.by {
		for ; it != nil; it = it.earlier {
			it.checked = false
		}
	}
}

// mayHaveRemoved reports whether the transaction may have removed what rows refer to before it asked: a key that is checked at
// its end alone allows that.
func (c *core) mayHaveRemoved(e *entry, its *record.Ask) bool {
	switch {
	case !its.Wrote || e.writer == nil && e.its.Number == 0:
		return false
	case e.writer == nil || e.writer.lacks:
		return true
	}
	for _, one := range e.writer.writes() {
		for _, beside := range its.Relies {
			if one.row.id.relation == c.tables.Root(beside.Relation) {
				return true
			}
		}
	}
	return false
}
