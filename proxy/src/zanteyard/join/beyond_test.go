package join

import (
	"fmt"
	"testing"
	"time"

	"zanteyard/record"
)

// judgedRead is a read for which there was no place, and what was decided of it.
type judgedRead struct {
	of      name
	key     int64
	from    [2]int64
	matters bool
}

// Faults of a joiner made wrong on purpose.
const (
	withoutFences fault = "moments without fences count as meetings"
	rashly        fault = "what needs a place is decided before everything is in lines"
	unfenced      fault = "a moment has fences only in some sessions"
)

// judging makes the joiner of a store that keeps nothing take few reads of a transaction, and records what it decides of
// the others.
func judging(t testing.TB, seed int64, reads, steps, meetings int, wrong fault) (*world, []judgedRead) {
	w := newWorld(t, seed, wrong)
	w.loose, w.core.opt.Reads = true, reads
	forgets := seed%3 == 0
	if forgets {
		w.core.rows.most, w.core.opt.Stale = 3, 20*time.Millisecond
	}
	var its []judgedRead
	w.core.judged = func(of name, one source, matters bool) {
		w.core.rows.number(one.row, w.core.used)
		from := [2]int64{-1, -1}
		if one.from != initial {
			from = [2]int64{int64(one.from.session()), int64(one.from.number())}
		}
		its = append(its, judgedRead{of, int64(one.row.number), from, matters})
	}
	for n := 0; n < meetings; n++ {
		w.most = 2 + w.r.Intn(4)
		for i := 0; i < steps; i++ {
			w.step()
			if w.r.Intn(30) == 0 {
				w.quiet()
				if wrong == withoutFences {
					w.core.fencedAt.set(w.core.moments.last())
				}
			}
			if forgets && w.r.Intn(10) == 0 {
				w.core.forget()
			}
		}
		w.meet()
	}
	w.seeAll()
	w.tellAll()
	w.deliver()
	w.bench.settle()
	w.bench.settle()
	w.core.endBeyond()
	w.core.flush()
	return w, its
}

// with returns what was offered, with these reads.
func (m *model) with(its []judgedRead, wanted func(judgedRead) bool) *model {
	to := &model{sessions: make([]modelSession, len(m.sessions)), limit: m.limit}
	for s := range m.sessions {
		for _, t := range m.sessions[s].its {
			t.reads = append([][3]int64(nil), t.reads...)
			to.sessions[s].its = append(to.sessions[s].its, t)
		}
	}
	for _, one := range its {
		if wanted(one) {
			t := &to.sessions[one.of.session()].its[one.of.number()]
			t.reads = append(t.reads, [3]int64{one.key, one.from[0], one.from[1]})
		}
	}
	return to
}

// modelEvent is the begin or the commit of an offered transaction: the same, unless snapshots are asked about.
type modelEvent struct {
	at      [2]int64
	commits bool
}

// order is what must come before what, in an order that explains what was offered.
type order struct {
	after map[modelEvent][]modelEvent
	next  map[int64]map[[2]int64][2]int64 // by key and version: who wrote the one after it
	split bool
}

func (o *order) begin(at [2]int64) modelEvent  { return modelEvent{at, false} }
func (o *order) commit(at [2]int64) modelEvent { return modelEvent{at, o.split} }

func (o *order) add(from, to modelEvent) { o.after[from] = append(o.after[from], to) }

func (m *model) order(split bool) *order {
	o := &order{map[modelEvent][]modelEvent{}, map[int64]map[[2]int64][2]int64{}, split}
	none := [2]int64{-1, -1}
	each := func(f func(at [2]int64, t modelTxn)) {
		for s := range m.sessions {
			for n, t := range m.sessions[s].its {
				f([2]int64{int64(s), int64(n)}, t)
			}
		}
	}
	// Whoever wrote a key has read the version before: the last one of those it has read, in the order of the writers.
	places := map[int64]map[[2]int64]int{}
	each(func(at [2]int64, t modelTxn) {
		for _, key := range t.writes {
			if places[key] == nil {
				places[key] = map[[2]int64]int{none: 0}
			}
		}
	})
	for moved := true; moved; {
		moved = false
		each(func(at [2]int64, t modelTxn) {
			for _, key := range t.writes {
				most, known := -1, true
				for _, read := range t.reads {
					if place, is := places[key][[2]int64{read[1], read[2]}]; read[0] == key && is {
						most = max(most, place)
					} else if read[0] == key {
						known = false
					}
				}
				if _, is := places[key][at]; known && most >= 0 && !is {
					places[key][at], moved = most+1, true
				}
			}
		})
	}
	each(func(at [2]int64, t modelTxn) {
		for _, key := range t.writes {
			if o.next[key] == nil {
				o.next[key] = map[[2]int64][2]int64{}
			}
			for version, place := range places[key] {
				if place == places[key][at]-1 {
					o.next[key][version] = at
				}
			}
		}
	})
	each(func(at [2]int64, t modelTxn) {
		if split {
			o.add(o.begin(at), o.commit(at))
		}
		if n := at[1] + 1; n < int64(len(m.sessions[at[0]].its)) {
			o.add(o.commit(at), o.begin([2]int64{at[0], n}))
		}
		for _, read := range t.reads {
			from := [2]int64{read[1], read[2]}
			if from != none {
				o.add(o.commit(from), o.begin(at))
			}
			if to, is := o.next[read[0]][from]; is && to != at {
				o.add(o.begin(at), o.commit(to))
			}
		}
	})
	return o
}

func max(a, b int) int {
	if a > b {
		return a
	}
	return b
}

// says reports whether one event comes before another.
func (o *order) says(from, to modelEvent) bool {
	seen, open := map[modelEvent]bool{from: true}, []modelEvent{from}
	for len(open) > 0 {
		at := open[len(open)-1]
		open = open[:len(open)-1]
		if at == to {
			return true
		}
		for _, next := range o.after[at] {
			if !seen[next] {
				seen[next] = true
				open = append(open, next)
			}
		}
	}
	return false
}

// saysMore returns the reads that say more than the others do, of those that are said to need no place.
func saysMore(m *model, its []judgedRead, split bool) (more []judgedRead) {
	o := m.with(its, func(one judgedRead) bool { return one.matters }).order(split)
	for _, one := range its {
		if one.matters {
			continue
		}
		at := [2]int64{int64(one.of.session()), int64(one.of.number())}
		after := one.from[0] < 0 || o.says(o.commit(one.from), o.begin(at))
		next, is := o.next[one.key][one.from]
		if !after || is && next != at && !o.says(o.begin(at), o.commit(next)) {
			more = append(more, one)
		}
	}
	return more
}

// TestReadsThatNeedNoPlace: of a store that keeps nothing, what needs no place says nothing that the rest doesn't say.
func TestReadsThatNeedNoPlace(t *testing.T) {
	needless, mattering := 0, 0
	for seed := int64(1); seed <= int64(*histories)/10; seed++ {
		w, its := judging(t, seed, 1+int(seed%3), 60, 5, "")
		for _, one := range its {
			if one.matters {
				mattering++
			} else {
				needless++
			}
		}
		for _, split := range []bool{false, true} {
			if more := saysMore(w.model, its, split); len(more) > 0 {
				t.Fatalf("seed %d, snapshots %v: %+v of %d need a place\n%v", seed, split, more, len(its), w.lines)
			}
		}
	}
	t.Logf("%d needed no place, and %d did", needless, mattering)
	if needless < *histories/5 || mattering < *histories/5 {
		t.Error("too few are of one kind")
	}
}

// TestWrongChoices: each of these faults takes a read for one that needs no place.
func TestWrongChoices(t *testing.T) {
	for _, wrong := range []fault{withoutFences, rashly, unfenced} {
		found := 0
		for seed := int64(1); seed <= 400 && found == 0; seed++ {
			w, its := judging(t, seed, 1, 60, 5, wrong)
			found += len(saysMore(w.model, its, false))
		}
		if found == 0 {
			t.Errorf("%s: that makes no difference", wrong)
		}
	}
}

// TestReadsThatNeedNoPlaceInSmallHistories tries every order, with and without what needs no place.
func TestReadsThatNeedNoPlaceInSmallHistories(t *testing.T) {
	var needless, explained, violated int
	for seed := int64(1); seed <= int64(*histories); seed++ {
		w, its := judging(t, seed, 1, 12, 2, "")
		n := 0
		for s := range w.model.sessions {
			n += len(w.model.sessions[s].its)
		}
		if n > 30 {
			continue
		}
		whole := w.model.with(its, func(judgedRead) bool { return true })
		rest := w.model.with(its, func(one judgedRead) bool { return one.matters })
		for _, one := range its {
			if !one.matters {
				needless++
			}
		}
		is := rest.explained()
		if is != whole.explained() {
			t.Fatalf("seed %d: without what needs no place an order explains the rest: %v; %+v\n%v", seed, is, its, w.lines)
		}
		if keeps := rest.keepsSnapshot(); keeps != whole.keepsSnapshot() {
			t.Fatalf("seed %d: without what needs no place the rest keeps snapshots: %v; %+v\n%v", seed, keeps, its, w.lines)
		}
		if is {
			explained++
		} else {
			violated++
		}
	}
	t.Logf("%d needed no place; %d are explained, %d violated", needless, explained, violated)
	if needless < *histories/10 || explained < *histories/10 || violated < *histories/20 {
		t.Error("too few are of one kind")
	}
}

// TestBeyond: of a transaction that reads more than the auditor takes, what nobody overwrites before the next meeting is
// checked, and so is what was written before the last one. The rest is left out.
func TestBeyond(t *testing.T) {
	for _, x := range []struct {
		name            string
		before, written int // rows that others write before the last meeting, and after the reader
		checked, left   uint64
	}{
		{"nobody writes", 0, 0, 600, 0},
		{"others write some after it was offered", 0, 300, 300, 300},
		{"all were written before the last meeting", 600, 0, 600, 0},
		{"and some are written again", 600, 300, 300, 300},
	} {
		t.Run(x.name, func(t *testing.T) {
			b := newBench(t, Options{Sessions: 3})
			b.connect(1, 2)
			version, place := map[int]uint32{}, uint64(0)
			write := func(from, to int, number uint32) {
				for ; from < to; from, number = from+100, number+1 {
					var keys []string
					for i := from; i < from+100 && i < to; i++ {
						keys, version[i] = append(keys, fmt.Sprint("k", i)), number
					}
					b.commit(number, keys...)
					b.tell(2, place, record.Transaction{Number: uint64(number)})
					place++
				}
			}
			write(0, x.before, 1001)
			b.overFences()
			var reads []record.Read
			for i := 0; i < 600; i++ {
				of := version[i]
				if of == 0 {
					of = 5
				}
				reads = append(reads, read(fmt.Sprint("k", i), of))
			}
			b.tell(1, 0, record.Transaction{Reads: reads, Did: record.Did{Selects: []record.Select{{From: 0, To: 600}}}})
			b.settle()
			if n := b.totals().RowsRead; n.Waiting() != 600 {
				t.Errorf("%d rows wait", n.Waiting())
			}
			write(600-x.written, 600, 1101)
			b.settle()
			b.overFences()
			n := b.totals()
			if n.RowsRead.Checked != x.checked || n.RowsRead.NotChecked[tooMany] != x.left {
				t.Errorf("%+v", n.RowsRead)
			}
			if n.Selects.Checked != 1-x.left/300 || n.Selects.InPart[someRows] != x.left/300 {
				t.Errorf("%+v", n.Selects)
			}
			if want := x.checked * uint64(1-x.before/600); n.Before != want {
				t.Errorf("%d from before, not %d", n.Before, want)
			}
			if c := b.core.counts; c.reads != c.readsOffered+c.leftReads[tooMany] || b.core.beyondReads != 0 {
				t.Errorf("%d reads, %d offered, %v left", c.reads, c.readsOffered, c.leftReads)
			}
		})
	}
}
