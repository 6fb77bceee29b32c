package join

import (
	"time"

	"zanteyard/condition"
	"zanteyard/record"
)

// change updates or deletes the rows of which a condition holds. At read committed its snapshot may be from when it was
// sent: then it has waited for those who wrote a row since, and looks at what they have made of it.
func (s *store) change(t *storeTxn, from time.Time) {
	it := storeAsk{of: s.condition(), from: from, wrote: t.wrote, writes: true}
	deletes, x := s.r.Intn(3) == 0, s.some()
	if t.level == record.ReadCommitted && s.r.Intn(2) == 0 {
		t.snapshot = t.conn.visible
	}
	write := map[*storeKey]*storeVersion{}
	for _, key := range s.keys {
		i, own := key.seen(t.snapshot), t.own[key]
		shown := key.at(i)
		if own != nil {
			shown = own
		}
		it.own = append(it.own, -1)
		if own != nil {
			it.own[len(it.own)-1] = own.row
		}
		it.saw = append(it.saw, i)
		if own != nil && i >= 0 && key.versions[i].row != own.row && it.of.holds(key.at(i)) {
			s.unlock(t) // it still sees the row that had its key, which somebody has deleted
			t.conn.open = nil
			return
		}
		if !it.of.holds(shown) {
			continue
		}
		if key.lock != nil && key.lock != t {
			return // it would wait
		}
		last := len(key.versions) - 1
		if own == nil && last != i {
			if t.level != record.ReadCommitted {
				s.unlock(t)
				t.conn.open = nil
				return
			}
			if key.versions[last].row != shown.row { // the row is gone, and another one has its key
				for last = i; last+1 < len(key.versions) && key.versions[last+1].row == shown.row; {
					last++
				}
			}
			it.saw[len(it.saw)-1] = last
			if shown = key.at(last); !it.of.holds(shown) {
				continue
			}
		}
		is := &storeVersion{by: t, row: shown.row, exists: !deletes, values: x}
		if !s.mayRefer(t, shown, is) {
			return
		}
		write[key], it.own[len(it.own)-1] = is, is.row
	}
	for key, is := range write {
		if t.number == 0 {
			s.next++
			t.number = s.next
		}
		t.wrote, it.wrote = true, true
		key.lock, t.own[key] = t, is
	}
	t.asks = append(t.asks, it)
}

// commitOf returns what the slot reports of a transaction.
func (s *store) commitOf(t *storeTxn) record.Commit {
	s.place += 100
	it := record.Commit{Number: t.number, LSN: s.place, Start: s.place - 50}
	for _, key := range s.all() {
		v := t.own[key]
		if v == nil {
			continue
		}
		last := key.at(len(key.versions) - 1)
		inserted := !last.exists
		if inserted && !v.exists {
			if s.r.Intn(2) == 0 {
				continue // inserted and deleted again: some report nothing
			}
		}
		one := record.Write{Relation: 1, Key: record.Key(key.name), Inserted: inserted, Deleted: !v.exists}
		if key.isParent {
			one.Relation = 2
		}
		if v.exists && !s.leaves(8) {
			one.New, one.Bytes = s.row(v.values), 50
		}
		if !inserted && s.full {
			one.Old = s.row(last.values)
		}
		if s.wrong == oneRow {
			one.Inserted, one.Deleted = false, false
			if !v.exists {
				row := condition.NewRow(nil)
				s.values[row], one.New = [2]int{-1, -1}, row
			}
		}
		if s.leaves(12) || s.wrong == gapsIgnored && s.r.Intn(3) == 0 {
			s.drop(&it)
			continue
		}
		it.Writes = append(it.Writes, one)
	}
	return it
}

// drop lets a write be one that the slot's reader knows nothing of.
func (s *store) drop(it *record.Commit) {
	if s.wrong == gapsIgnored {
		return
	}
	switch s.r.Intn(3) {
	case 0:
		it.Dropped++
	case 1:
		it.Gaps, it.Keyless = append(it.Gaps, 1), it.Keyless+1
	default:
		it.Gaps, it.Keyless = append(it.Gaps, record.NoRelation), it.Keyless+1
	}
}

// report returns what the session reports of a transaction, a part of it left out.
func (s *store) report(t *storeTxn) record.Transaction {
	it := record.Transaction{Connection: t.conn.number, Place: t.conn.place, Began: t.began, Ended: t.ended, Level: t.level,
		Number: uint64(t.number)}
	t.conn.place++
	if t.level == record.RepeatableRead && (s.whole || s.r.Intn(3) > 0) {
		it.Snapshot = t.shows
	}
	unknown := t.number != 0 && s.leaves(8)
	if unknown {
		it.Number, it.MayHaveWritten = 0, true
	}
	for _, one := range t.reads {
		if !s.leaves(10) {
			it.Reads = append(it.Reads, s.read(one))
		}
	}
	for _, one := range append(t.asks[:len(t.asks):len(t.asks)], t.voids...) {
		if s.leaves(10) {
			continue
		}
		ask := record.Ask{Found: one.found, From: one.from, Wrote: one.wrote, Writes: one.writes}
		ask.Condition, ask.Relies = s.reportedOf(&one)
		if one.beside != nil && len(one.found) == 0 && s.wrong != stillThere {
			ask.Given = []record.Read{s.read(*one.beside)}
		}
		if s.leaves(10) {
			ask.From = it.Began
		}
		it.Asks = append(it.Asks, ask)
	}
	s.spoil(t, &it)
	return it
}

func (s *store) read(one storeRead) record.Read {
	it := record.Read{Relation: 1, Key: record.Key(one.key.name), Version: 7}
	if by := one.key.versions[one.version].by; by != nil {
		it.Version = by.number
	}
	return it
}

// joins lets some of what waits reach the joiner.
func (s *store) joins() {
	for len(s.untold) > 0 && s.r.Intn(3) == 0 {
		s.tellOne(s.r.Intn(len(s.untold)))
	}
	for s.delivered < len(s.log) && s.r.Intn(3) == 0 {
		s.deliver()
	}
	if !s.asking && s.r.Intn(3) == 0 {
		s.askPlace()
	}
	for len(s.replies) > 0 && s.r.Intn(2) == 0 {
		s.reply()
	}
	switch s.r.Intn(60) {
	case 0:
		s.core.flush()
	case 1:
		if !s.whole {
			s.core.forget()
		}
	case 2:
		if !s.whole || s.r.Intn(20) == 0 {
			s.quiet()
		}
	case 3:
		if !s.whole {
			s.core.meet(s.now)
		}
	}
	s.core.step(s.now)
}

// tellOne reports a transaction, after all of its connection's earlier ones.
func (s *store) tellOne(i int) {
	for j := 0; j < i; j++ {
		if s.untold[j].Connection == s.untold[i].Connection {
			i = j
		}
	}
	it := s.untold[i]
	s.untold = append(s.untold[:i], s.untold[i+1:]...)
	if s.leaves(12) {
		return // lost
	}
	s.core.now = s.now
	s.core.tell(it)
}

func (s *store) deliver() {
	it := s.log[s.delivered]
	s.delivered++
	s.core.now = s.now
	s.core.commit(it)
	s.core.advance(it.LSN)
}

// askPlace asks the server for the log's place; reply answers.
func (s *store) askPlace() {
	batch, wanted := s.core.wantsPlace()
	if !wanted {
		return
	}
	s.asking = true
	at, shows, now := s.place, s.text(), s.now
	if s.wrong == inTheLog {
		shows = "3:2000000000:"
	}
	core := s.core
	s.replies = append(s.replies, func() {
		s.core.now = s.now
		core.placed(batch, Place{At: at, Shows: shows}, now)
		s.asking = false
	})
}

func (s *store) reply() {
	f := s.replies[0]
	s.replies = s.replies[1:]
	f()
}

// finish lets everything reach the joiner.
func (s *store) finish() {
	for _, c := range s.conns {
		if c.open != nil {
			s.unlock(c.open)
			c.open = nil
		}
	}
	for len(s.hidden) > 0 {
		s.see(s.hidden[0])
	}
	for n := 0; n < 4; n++ {
		for len(s.untold) > 0 {
			s.tellOne(0)
		}
		for s.delivered < len(s.log) {
			s.deliver()
		}
		s.askPlace()
		for len(s.replies) > 0 {
			s.reply()
		}
		s.core.advance(s.place)
		s.later(s.core.opt.Late + time.Millisecond)
		s.core.step(s.now)
	}
	s.core.flush()
}
