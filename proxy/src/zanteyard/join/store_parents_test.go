package join

import (
	"time"

	"zanteyard/condition"
	"zanteyard/record"
)

// A store's rows may refer to parents by y, which the store checks as PostgreSQL checks a foreign key: who writes a row that
// refers to another one locks that one, and none is removed to which somebody refers, at once or when the transaction ends.
// Rows that were there at first may refer to nothing.

const mostParents = 4 // y is below that, or NULL

func (s *store) addParents() {
	for i := 0; i < mostParents; i++ {
		one := &storeKey{name: string(rune('0' + i)), isParent: true, shares: map[*storeTxn]bool{}}
		if s.r.Intn(2) == 0 {
			one.versions = append(one.versions, storeVersion{exists: true})
		}
		s.parents = append(s.parents, one)
	}
	s.deferred = s.r.Intn(2) == 0
}

// withParents lets a transaction do something with parents, now and then.
func (s *store) withParents(t *storeTxn, from time.Time) bool {
	switch s.r.Intn(5) {
	case 0:
		s.writeParent(t)
	case 1:
		s.askJoined(t, from)
	default:
		return false
	}
	return true
}

// all are the keys of rows, and then those of parents.
func (s *store) all() []*storeKey {
	return append(s.keys[:len(s.keys):len(s.keys)], s.parents...)
}

// isChecked reports whether what a row refers to was checked when it was inserted.
func (k *storeKey) isChecked(row int) bool {
	for i := range k.versions {
		if k.versions[i].row == row {
			return k.versions[i].by != nil
		}
	}
	return false
}

// mayRefer checks and locks what a row refers to, if that has changed. False: the statement fails, or would wait.
func (s *store) mayRefer(t *storeTxn, was, is *storeVersion) bool {
	y := is.values[1]
	if s.parents == nil || !is.exists || y < 0 || was.exists && was.values[1] == y {
		return true
	}
	parent := s.parents[y]
	last := len(parent.versions) - 1
	if own := t.own[parent]; own != nil {
		return own.exists
	}
	if parent.lock != nil && parent.lock != t || !parent.at(last).exists ||
		t.level != record.ReadCommitted && parent.seen(t.snapshot) != last {
		return false
	}
	parent.shares[t] = true
	return true
}

// isReferred reports whether a row refers to a parent, by what is committed and the transaction's own.
func (s *store) isReferred(t *storeTxn, y int) bool {
	for _, key := range s.keys {
		its := key.at(len(key.versions) - 1)
		if own := t.own[key]; own != nil {
			its = own
		}
		if its.exists && its.values[1] == y {
			return true
		}
	}
	return false
}

// writeParent inserts a parent, or removes it.
func (s *store) writeParent(t *storeTxn) {
	y := s.r.Intn(mostParents)
	parent := s.parents[y]
	if parent.lock != nil && parent.lock != t {
		return
	}
	i := len(parent.versions) - 1
	last := parent.at(i)
	if own := t.own[parent]; own != nil {
		last = own
	} else if last.exists && t.level != record.ReadCommitted && parent.seen(t.snapshot) != i {
		return
	}
	is := &storeVersion{by: t, row: last.row, exists: !last.exists}
	if is.exists {
		is.row = s.rowsOf(parent, t)
	} else {
		for other := range parent.shares {
			if other != t {
				return
			}
		}
		if !s.deferred && s.isReferred(t, y) {
			return
		}
	}
	if t.number == 0 {
		s.next++
		t.number = s.next
	}
	t.wrote = true
	parent.lock, t.own[parent] = t, is
}

// keepsReferences reports whether each row has what it refers to when the transaction ends.
func (s *store) keepsReferences(t *storeTxn) bool {
	for y, parent := range s.parents {
		if own := t.own[parent]; own != nil && !own.exists && s.isReferred(t, y) {
			return false
		}
	}
	return true
}

// askJoined asks for rows beside their parents. If there are none, it has passed the checked rows over, unless it has removed
// a parent.
func (s *store) askJoined(t *storeTxn, from time.Time) {
	it := storeAsk{of: s.condition(), from: from, wrote: t.wrote}
	it.of.checked = true
	removed := false
	there := func(y int) bool {
		shown, own := s.parents[y].at(s.parents[y].seen(t.snapshot)), t.own[s.parents[y]]
		return own != nil && own.exists || shown.exists && (own == nil || own.row != shown.row)
	}
	for _, parent := range s.parents {
		own := t.own[parent]
		removed = removed || own != nil && !own.exists && parent.at(len(parent.versions)-1).exists
	}
	for _, key := range s.keys {
		i, own := key.seen(t.snapshot), t.own[key]
		it.saw, it.own = append(it.saw, i), append(it.own, -1)
		shown := key.at(i)
		if own != nil {
			it.own[len(it.own)-1] = own.row
			if it.of.holds(own) && there(own.values[1]) {
				return
			}
			if own.row == shown.row {
				continue
			}
		}
		if !it.of.holds(shown) {
			continue
		}
		if there(shown.values[1]) {
			return
		}
		if !removed && key.isChecked(shown.row) {
			s.t.Fatalf("key %s refers to nothing, and was checked:\n%s", key.name, s)
		}
	}
	switch {
	case removed && s.wrong == everChecked: // it has another fault
	case removed:
		t.voids = append(t.voids, it)
	default:
		t.asks = append(t.asks, it)
	}
}

// reportedOf is what is reported of a condition: a joiner that is made wrong takes each row for one that was checked.
func (s *store) reportedOf(one *storeAsk) (Condition, []record.Columns) {
	switch {
	case !one.of.checked:
		return one.of, nil
	case s.wrong == everChecked:
		return &takenFor{fakeCondition: one.of}, []record.Columns{{Relation: 2}}
	case s.wrong == nothingRemoved:
		return one.of, nil
	}
	return one.of, []record.Columns{{Relation: 2}}
}

// takenFor is a condition of checked rows that is taken for one of all rows.
type takenFor struct{ *fakeCondition }

func (f *takenFor) Checked() bool                            { return false }
func (f *takenFor) Key() string                              { return "all " + f.fakeCondition.Key() }
func (f *takenFor) Holds(row *condition.Row) condition.Truth { return f.fakeCondition.Holds(row) }
