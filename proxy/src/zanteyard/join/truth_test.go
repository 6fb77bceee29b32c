package join

import (
	"fmt"

	"zanteyard/record"
)

// What is true of a store's history: whether some order of all of its transactions, with each connection's own order,
// explains its reads, by the definitions of docs/FOLDING.md.

// changes are a key's versions that change whether a condition holds of one of its rows, by index.
func (k *storeKey) changes(of *fakeCondition, row int) (its []int) {
	held := false
	for i := range k.versions {
		v := &k.versions[i]
		if v.row != row {
			continue
		}
		if v.by == nil {
			held = of.holds(v)
		} else if is := of.holds(v); is != held {
			its, held = append(its, i), is
		}
	}
	return its
}

func (k *storeKey) rows() int {
	if len(k.versions) == 0 {
		return 0
	}
	return k.versions[len(k.versions)-1].row + 1
}

// storeArcs returns for each transaction those that have to come later.
func (s *store) arcs(conditions bool) [][]int {
	to := make([][]int, len(s.done))
	arc := func(from, behind *storeTxn) {
		if from != nil && behind != nil && from != behind {
			to[from.at] = append(to[from.at], behind.at)
		}
	}
	last := map[*storeConn]*storeTxn{}
	for _, t := range s.done {
		arc(last[t.conn], t)
		last[t.conn] = t
		for _, read := range t.reads {
			v := read.key.versions[read.version]
			arc(v.by, t)
			if n := read.version + 1; n < len(read.key.versions) && read.key.versions[n].row == v.row {
				arc(t, read.key.versions[n].by)
			}
		}
		if !conditions {
			continue
		}
		for _, ask := range t.asks {
			for k, saw := range ask.saw {
				s.passedArcs(t, s.keys[k], ask, saw, ask.own[k], arc)
			}
		}
	}
	for _, key := range s.all() {
		for i := 1; i < len(key.versions); i++ {
			if key.versions[i].row == key.versions[i-1].row {
				arc(key.versions[i-1].by, key.versions[i].by)
			}
		}
	}
	return to
}

// passedArcs are those of one key: the last change at or before what was seen comes before the reader, and the next one
// comes after it.
func (s *store) passedArcs(t *storeTxn, key *storeKey, ask storeAsk, saw, own int, arc func(from, to *storeTxn)) {
	for row := 0; row < key.rows(); row++ {
		if row == own || ask.of.checked && !key.isChecked(row) {
			continue
		}
		var before *storeTxn
		for _, i := range key.changes(ask.of, row) {
			if i > saw {
				arc(t, key.versions[i].by)
				break
			}
			before = key.versions[i].by
		}
		arc(before, t)
	}
}

// hasOrder reports whether there is no cycle.
func hasOrder(to [][]int) bool {
	state := make([]int, len(to))
	var visit func(i int) bool
	visit = func(i int) bool {
		state[i] = 1
		for _, j := range to[i] {
			if state[j] == 1 || state[j] == 0 && !visit(j) {
				return false
			}
		}
		state[i] = 2
		return true
	}
	for i := range to {
		if state[i] == 0 && !visit(i) {
			return false
		}
	}
	return true
}

// explained tries every order: each read finds the version that it names as the last one of its row, each write the one
// before its own, and of each condition and row the last change in front of who asked is the last one at or before the
// version that it saw. By values: no more than that the condition doesn't hold of what it finds.
func (s *store) explained(byValues bool) bool {
	used := make([]bool, len(s.done))
	last := map[[2]int]int{} // by key and row, the last version in front, by index from 1
	tried := map[string]bool{}
	var search func(left int) bool
	search = func(left int) bool {
		if left == 0 {
			return true
		}
		at := fmt.Sprint(used)
		if tried[at] {
			return false
		}
		tried[at] = true
		for i, t := range s.done {
			if used[i] || !s.mayBeNext(t, used) || !s.finds(t, last, byValues) {
				continue
			}
			was := map[[2]int]int{}
			for place, v := range last {
				was[place] = v
			}
			for k, key := range s.all() {
				for n := range key.versions {
					if key.versions[n].by == t {
						last[[2]int{k, key.versions[n].row}] = n + 1
					}
				}
			}
			used[i] = true
			if search(left - 1) {
				return true
			}
			used[i], last = false, was
		}
		return false
	}
	return search(len(s.done))
}

func (s *store) mayBeNext(t *storeTxn, used []bool) bool {
	for j, other := range s.done {
		if !used[j] && other.conn == t.conn && other.at < t.at {
			return false
		}
	}
	return true
}

// finds reports whether everything that a transaction read is what it finds behind these versions.
func (s *store) finds(t *storeTxn, last map[[2]int]int, byValues bool) bool {
	index := map[*storeKey]int{}
	for k, key := range s.all() {
		index[key] = k
		for n := range key.versions {
			if key.versions[n].by == t && s.front(k, n) != last[[2]int{k, key.versions[n].row}] {
				return false
			}
		}
	}
	for _, read := range t.reads {
		k, row := index[read.key], read.key.versions[read.version].row
		is := last[[2]int{k, row}]
		if is != read.version+1 && !(is == 0 && read.key.versions[read.version].by == nil) {
			return false
		}
	}
	for _, ask := range t.asks {
		for k, saw := range ask.saw {
			for row := 0; row < s.keys[k].rows(); row++ {
				if row != ask.own[k] && !s.findsNone(k, row, saw, ask, last[[2]int{k, row}], byValues) {
					return false
				}
			}
		}
	}
	return true
}

// front returns the version of the same row before this one, by index from 1; 0 for none that somebody wrote.
func (s *store) front(k, n int) int {
	its := s.all()[k].versions
	if n > 0 && its[n-1].row == its[n].row && its[n-1].by != nil {
		return n
	}
	return 0
}

// findsNone reports whether who passed over a row finds it passed over behind this version.
func (s *store) findsNone(k, row, saw int, ask storeAsk, at int, byValues bool) bool {
	key := s.keys[k]
	if ask.of.checked && !key.isChecked(row) {
		return true
	}
	if byValues {
		v := &storeVersion{}
		if at > 0 {
			v = &key.versions[at-1]
		} else if len(key.versions) > 0 && key.versions[0].by == nil && row == 0 {
			v = &key.versions[0]
		}
		found := false
		if saw >= 0 && key.versions[saw].row == row {
			for _, one := range ask.found {
				found = found || one == record.Key(key.name)
			}
		}
		return ask.of.holds(v) == found
	}
	for _, i := range key.changes(ask.of, row) {
		if (i <= saw) != (i+1 <= at) {
			return false
		}
	}
	return true
}

func (s *store) String() string {
	text := ""
	for _, key := range s.all() {
		text += "key " + key.name + ":"
		for i, v := range key.versions {
			by := "first"
			if v.by != nil {
				by = fmt.Sprint("by ", v.by.at)
			}
			text += fmt.Sprintf(" %d: row %d %s %v %v;", i, v.row, by, v.exists, v.values)
		}
		text += "\n"
	}
	for _, t := range s.done {
		text += fmt.Sprintf("%d: connection %d level %d number %d, %v to %v", t.at, t.conn.number, t.level, t.number,
			t.began.Format("05.000000"), t.ended.Format("05.000000"))
		for _, one := range t.reads {
			text += fmt.Sprintf(", read %s %d", one.key.name, one.version)
		}
		for _, one := range t.asks {
			text += fmt.Sprintf(", asked %s saw %v found %v", one.of.Key(), one.saw, one.found)
		}
		text += "\n"
	}
	return text
}
