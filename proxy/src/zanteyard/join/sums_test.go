package join

import (
	"fmt"
	"math/rand"
	"reflect"
	"testing"
	"time"

	"zanteyard/record"
)

// counted is what the outcome says of a story.
type counted struct {
	checked               uint64 // transactions, in full
	partly, folded        map[string]uint64
	aborted, bare         uint64
	others, rows          uint64 // somebody else's commits, and their rows
	reads, own, before    uint64 // rows that are checked, of these own ones, and those from before
	undone                uint64 // rows read by what was rolled back
	leftReads, leftWrites map[string]uint64
	writes                uint64
}

// TestEachTransactionIsInOnePlace: whatever a client finished is checked, checked in part, or left out for one reason,
// and so are its rows.
func TestEachTransactionIsInOnePlace(t *testing.T) {
	none := map[string]uint64{}
	one := func(reason string, n uint64) map[string]uint64 { return map[string]uint64{reason: n} }
	a := []record.Read{read("a", 5)}
	for _, x := range []struct {
		name  string
		story func(b *bench)
		want  counted
	}{
		{"nothing of it was seen", func(b *bench) { b.tell(1, 0, record.Transaction{Touched: true, Partly: true}) },
			counted{folded: one(nothingSeen, 1)}},
		{"it found no row", func(b *bench) { b.tell(1, 0, record.Transaction{Touched: true}) },
			counted{folded: one(noRows, 1)}},
		{"some of it was seen", func(b *bench) { b.tell(1, 0, record.Transaction{Reads: a, Touched: true, Partly: true}) },
			counted{partly: one(someStatements, 1), reads: 1, before: 1}},
		{"more reads than are kept", func(b *bench) { b.tell(1, 0, record.Transaction{Reads: a, Beyond: 7, Did: record.Did{Beyond: 7}}) },
			counted{partly: one(someRows, 1), reads: 1, before: 1, leftReads: one(notKept, 7)}},
		{"writes without a number", func(b *bench) {
			b.commit(1001, "a", "b")
			b.tell(1, 0, record.Transaction{MayHaveWritten: true, Touched: true})
		}, counted{folded: one(noNumber, 1), leftWrites: one(noNumber, 2)}},
		{"reads, and writes without a number", func(b *bench) {
			b.commit(1001, "a", "b")
			b.tell(1, 0, record.Transaction{MayHaveWritten: true, Reads: a})
		}, counted{partly: one(noNumber, 1), leftWrites: one(noNumber, 2), reads: 1, before: 1}},
		{"without a number, and the slot later", func(b *bench) {
			b.tell(1, 0, record.Transaction{MayHaveWritten: true})
			b.commit(1001, "a", "b")
		}, counted{folded: one(noNumber, 1), leftWrites: one(noNumber, 2)}},
		{"without a number, and somebody else's afterwards", func(b *bench) {
			b.commit(1001, "a", "b")
			b.tell(1, 0, record.Transaction{MayHaveWritten: true})
			b.pass()
			b.commit(1002, "c")
		}, counted{folded: one(noNumber, 1), leftWrites: one(noNumber, 2), others: 1, rows: 1}},
		{"without a number, and somebody else's before", func(b *bench) {
			b.commit(1002, "c")
			b.later(time.Millisecond)
			b.tell(1, 0, record.Transaction{MayHaveWritten: true})
			b.commit(1001, "a", "b")
		}, counted{folded: one(noNumber, 1), leftWrites: one(noNumber, 2), others: 1, rows: 1}},
		{"a definition has no row", func(b *bench) {
			b.bare(1001)
			b.tell(1, 0, record.Transaction{MayHaveWritten: true, Defines: true})
		}, counted{folded: one(noNumber, 1)}},
		{"the server's own has no row", func(b *bench) {
			b.bare(1000)
			b.commit(1001, "a")
			b.tell(1, 0, record.Transaction{MayHaveWritten: true})
		}, counted{folded: one(noNumber, 1), leftWrites: one(noNumber, 1), bare: 1}},
		{"reported too late, with reads", func(b *bench) {
			b.commit(1001, "a", "b")
			b.settle()
			b.tell(1, 0, record.Transaction{Number: 1001, Reads: []record.Read{read("c", 5)}})
		}, counted{partly: one(tooLate, 1), reads: 1, before: 1, leftWrites: one(tooLate, 2)}},
		{"reported too late, without reads", func(b *bench) {
			b.commit(1001, "a", "b")
			b.settle()
			b.tell(1, 0, record.Transaction{Number: 1001})
		}, counted{folded: one(tooLate, 1), leftWrites: one(tooLate, 2)}},
		{"a definition that is reported late", func(b *bench) {
			b.bare(1001)
			b.settle()
			b.tell(1, 0, record.Transaction{Number: 1001, Reads: a})
		}, counted{checked: 1, reads: 1, before: 1}},
		{"left out before the slot has its writes", func(b *bench) {
			b.tell(9, 0, record.Transaction{Number: 1001, Reads: a})
			b.commit(1001, "a", "b")
		}, counted{folded: one(noConnection, 1), leftReads: one(noConnection, 1), leftWrites: one(noConnection, 2)}},
		{"left out after the slot has its writes", func(b *bench) {
			b.commit(1001, "a", "b")
			b.tell(9, 0, record.Transaction{Number: 1001})
		}, counted{folded: one(noConnection, 1), leftWrites: one(noConnection, 2)}},
		{"left out, and reported too late", func(b *bench) {
			b.commit(1001, "a", "b")
			b.settle()
			b.tell(9, 0, record.Transaction{Number: 1001})
		}, counted{folded: one(noConnection, 1), leftWrites: one(noConnection, 2)}},
		{"rows without a key", func(b *bench) {
			b.place += 100
			b.core.commit(record.Commit{Number: 1001, LSN: b.place, Keyless: 4,
				Writes: []record.Write{{Relation: 1, Key: "a"}}})
			b.tell(1, 0, record.Transaction{Number: 1001})
		}, counted{partly: one(someRows, 1), writes: 1, leftWrites: one(keyless, 4)}},
		{"only rows without a key", func(b *bench) {
			b.place += 100
			b.core.commit(record.Commit{Number: 1001, LSN: b.place, Keyless: 4})
			b.tell(1, 0, record.Transaction{Number: 1001})
		}, counted{folded: one(someRows, 1), leftWrites: one(keyless, 4)}},
		{"own reads of one that is checked", func(b *bench) {
			b.commit(1001, "a")
			b.tell(1, 0, record.Transaction{Number: 1001, Reads: append([]record.Read{read("a", 1001)}, b0...)})
		}, counted{checked: 1, reads: 3, before: 2, own: 1, writes: 1}},
		{"own reads of one that isn't", func(b *bench) {
			b.commit(1001, "a")
			b.tell(9, 0, record.Transaction{Number: 1001, Versions: []uint32{1002},
				Reads: []record.Read{read("a", 1001), read("a", 1002), read("b", 5)}})
		}, counted{folded: one(noConnection, 1), leftReads: one(noConnection, 3), leftWrites: one(noConnection, 1)}},
		{"rolled back", func(b *bench) {
			b.tell(1, 0, record.Transaction{Outcome: record.Aborted, MayHaveWritten: true, Reads: b0, Beyond: 3,
				Did: record.Did{Beyond: 3}})
			b.commit(1001, "a")
		}, counted{aborted: 1, undone: 5, others: 1, rows: 1}},
		{"without a number, and somebody else's at the same time", func(b *bench) {
			b.commit(1001, "a", "b")
			b.commit(1002, "c")
			b.tell(1, 0, record.Transaction{MayHaveWritten: true})
		}, counted{folded: one(noNumber, 1), leftWrites: one(noNumber, 3)}}, // whose they are isn't known
		{"somebody else's, of rows of all kinds", func(b *bench) {
			b.place += 100
			b.core.commit(record.Commit{Number: 1001, LSN: b.place, Keyless: 4, Dropped: 2,
				Writes: []record.Write{{Relation: 1, Key: "a"}}})
		}, counted{others: 1, rows: 7}},
		{"a row that several SELECTs returned, and one of several tables", func(b *bench) {
			b.tell(1, 0, record.Transaction{Reads: append(b0, read("a", 900), read("a", 5)), Did: record.Did{
				Rows: []uint32{3, 1, 0, 2}}})
		}, counted{checked: 1, reads: 6, before: 6}},
		{"a statement that found no row beside one that did", func(b *bench) {
			it := record.Transaction{Reads: a}
			it.Did.Leave(record.FoundNoRow, false, 1, 0, 0)
			b.tell(1, 0, it)
		}, counted{partly: one(someEmpty, 1), reads: 1, before: 1}},
		{"rows that weren't seen beside some that were", func(b *bench) {
			it := record.Transaction{Reads: a}
			it.Did.Leave("an aggregate", false, 2, 0, 7)
			it.Did.Leave("a subquery", true, 1, 0, 0)
			b.tell(1, 0, it)
		}, counted{partly: one(someStatements, 1), reads: 1, before: 1, leftReads: one("an aggregate", 7)}},
		{"one for which there was no room", func(b *bench) {
			in := NewInbox(1)
			in.Transaction(record.Transaction{Number: 1001, Connection: 1, Reads: a})
			its, lost := in.take()
			if len(its) != 1 || lost != 1 {
				b.t.Fatalf("%d messages, %d lost", len(its), lost)
			}
			b.core.drop(its[0].dropped, its[0].why)
			b.commit(1001, "a", "b")
			_, _, _, totals := in.counted(false)
			b.core.counts.totals.add(&totals)
		}, counted{folded: one(tooFast, 1), leftReads: one(tooFast, 1), leftWrites: one(tooFast, 2)}},
		{"one for which there was no room, without a number", func(b *bench) {
			b.commit(1001, "a", "b")
			in := NewInbox(1)
			in.Transaction(record.Transaction{MayHaveWritten: true, Connection: 1, Began: b.now})
			its, _ := in.take()
			b.core.drop(its[0].dropped, its[0].why)
		}, counted{leftWrites: one(noNumber, 2)}},
		{"an unclear one that was counted as somebody else's", func(b *bench) {
			b.commit(1001, "a")
			b.settle()
			b.tell(1, 0, record.Transaction{Number: 1001, Outcome: record.Unclear})
		}, counted{folded: one(isUnclear, 1), leftWrites: one(isUnclear, 1)}},
		{"more than the auditor takes", func(b *bench) {
			var many []record.Read
			for i := 0; i < 300; i++ {
				many = append(many, read(fmt.Sprint("k", i), 5))
			}
			b.tell(1, 0, record.Transaction{Reads: many})
			b.commit(1001, "k290")
			b.settle()
			b.commit(1002, "k299")
			b.tell(1, 1, record.Transaction{Number: 1002})
			b.settle()
			b.overFences()
		}, counted{checked: 1, partly: one(someRows, 1), others: 1, rows: 1, reads: 299, before: 299, leftReads: one(tooMany, 1), writes: 1}},
	} {
		t.Run(x.name, func(t *testing.T) {
			b := newBench(t, Options{Sessions: 2, Late: time.Second})
			b.connect(1)
			x.story(b)
			b.settle()
			for _, its := range []*map[string]uint64{&x.want.partly, &x.want.folded, &x.want.leftReads, &x.want.leftWrites} {
				if *its == nil {
					*its = none
				}
			}
			if got := b.counted(); !reflect.DeepEqual(got, x.want) {
				t.Errorf("counted\n%+v\nwanted\n%+v", got, x.want)
			}
		})
	}
}

var b0 = []record.Read{read("b", 5), read("c", 5)}

// bare makes the slot report a commit without a row.
func (b *bench) bare(number uint32) {
	b.place += 100
	b.core.commit(record.Commit{Number: number, LSN: b.place, Bare: true})
	b.core.advance(b.place)
}

// totals are those after a round.
func (b *bench) totals() Totals {
	its := b.core.counts.totals.Copied()
	its.add(&b.core.counts.fresh)
	return its
}

func (b *bench) counted() counted {
	its := b.totals()
	for _, one := range its.each() {
		if one.Waiting() != 0 {
			b.t.Errorf("%d of %+v wait", one.Waiting(), one)
		}
	}
	some := func(its map[string]uint64) map[string]uint64 {
		to := copyOf(its)
		for reason, n := range to {
			if n == 0 {
				delete(to, reason)
			}
		}
		return to
	}
	return counted{checked: its.Transactions.Checked, partly: some(its.Transactions.InPart), folded: some(its.Transactions.NotChecked),
		aborted: its.Transactions.RolledBack, bare: b.core.counts.bare, others: its.Outside, rows: its.OutsideRows,
		reads: its.RowsRead.Checked, own: its.Own, before: its.Before, undone: its.RowsRead.RolledBack,
		leftReads: some(its.RowsRead.NotChecked), leftWrites: some(its.RowsWritten.NotChecked), writes: its.RowsWritten.Checked}
}

// TestSumsOfManyTransactions: the sums are those of what was done, with transactions of all kinds mixed.
func TestSumsOfManyTransactions(t *testing.T) {
	for seed := int64(0); seed < 200; seed++ {
		r := rand.New(rand.NewSource(seed))
		b := newBench(t, Options{Sessions: 2, Late: time.Second})
		b.connect(1, 2, 3) // the third has no session
		var told, undone, selects, undoneSelects, reads, undoneReads, writes, others uint64
		places := map[uint64]uint64{}
		for i := 0; i < 60; i++ {
			number, conn := uint32(1001+i), uint64(1+r.Intn(4)) // nobody knows the fourth
			it := record.Transaction{Touched: true, Beyond: r.Intn(2) * r.Intn(3)}
			it.Did.Beyond = uint64(it.Beyond)
			for n := r.Intn(4); n > 0; n-- {
				it.Reads = append(it.Reads, read(fmt.Sprint("k", r.Intn(20)), 5))
				it.Did.Added(len(it.Reads), uint32(r.Intn(3)))
			}
			if len(it.Reads) > 0 && r.Intn(2) == 0 {
				it.Did.Selects = append(it.Did.Selects, record.Select{To: int32(len(it.Reads))})
				it.Did.Repeated(0, len(it.Reads), 2)
			}
			if r.Intn(3) == 0 {
				it.Did.Leave("an aggregate", r.Intn(2) == 0, 2, 0, 3)
			}
			wrote, keys := r.Intn(3) > 0, []string{}
			for n := 1 + r.Intn(3); wrote && n > 0; n-- {
				keys = append(keys, fmt.Sprint("k", i, ".", n))
			}
			it.Outcome = []record.Outcome{record.Committed, record.Committed, record.Committed, record.Aborted}[r.Intn(4)]
			it.Began = b.now
			commit := func() {
				if wrote && it.Outcome == record.Committed {
					b.commit(number, keys...)
					writes += uint64(len(keys))
				}
			}
			if r.Intn(8) == 0 { // somebody else
				it.Outcome = record.Committed
				commit()
				if wrote {
					others++
				}
				b.settle()
				continue
			}
			if it.Number = uint64(number); !wrote || r.Intn(3) == 0 {
				it.Number, it.MayHaveWritten = 0, wrote
			}
			told++
			n, _, rows := it.Did.Sum(len(it.Reads))
			selects, reads = selects+n, reads+rows
			if it.Outcome == record.Aborted {
				undone, undoneSelects, undoneReads = undone+1, undoneSelects+n, undoneReads+rows
			}
			if before := r.Intn(2) == 0; before {
				commit()
				if it.Number != 0 && r.Intn(4) == 0 {
					b.settle() // it is reported too late
				}
				b.tell(conn, places[conn], it)
			} else {
				b.tell(conn, places[conn], it)
				commit()
			}
			places[conn]++
			if r.Intn(3) == 0 {
				b.settle()
			}
		}
		b.settle()
		b.settle()
		its := b.totals()
		for i, one := range []struct {
			what string
			want uint64
		}{{"transactions", told - undone}, {"SELECTs", selects - undoneSelects}, {"writes", 0}, {"rows read", reads - undoneReads},
			{"rows written", writes - its.OutsideRows}} {
			if all := its.each()[i]; all.All != one.want || all.Waiting() != 0 {
				t.Errorf("seed %d: %d %s are counted of %d, and %d wait: %+v", seed, all.All, one.what, one.want, all.Waiting(), all)
			}
		}
		if its.Transactions.RolledBack != undone || its.RowsRead.RolledBack != undoneReads || its.Outside > others {
			t.Errorf("seed %d: %d are rolled back of %d, with %d rows of %d, and %d others' of %d", seed, its.Transactions.RolledBack,
				undone, its.RowsRead.RolledBack, undoneReads, its.Outside, others)
		}
		if len(b.core.owed)+len(b.core.unnumbered) > 0 {
			t.Errorf("seed %d: %d and %d are still kept", seed, len(b.core.owed), len(b.core.unnumbered))
		}
	}
}

// TestReadsThatMatterAreKept: of too many reads those are kept whose rows somebody has written.
func TestReadsThatMatterAreKept(t *testing.T) {
	b := newBench(t, Options{Sessions: 2})
	b.connect(1, 2)
	b.commit(1001, "k290")
	b.tell(2, 0, record.Transaction{Number: 1001})
	var many []record.Read
	for i := 0; i < 300; i++ {
		many = append(many, read(fmt.Sprint("k", i), 5))
	}
	b.commit(1002, "k295")
	b.tell(1, 0, record.Transaction{Number: 1002, Reads: many})
	b.settle()
	kept := map[record.Key]bool{}
	for _, one := range b.core.sessions[0].kept[0].reads {
		kept[one.row.id.key] = true
	}
	if !kept["k290"] || !kept["k295"] {
		t.Errorf("%d reads are kept: of k290 %v, of k295 %v", len(kept), kept["k290"], kept["k295"])
	}
	b.overFences()
	if n := b.totals().RowsRead; n.Checked != 300 || n.NotChecked[tooMany] != 0 { // nobody has written the others
		t.Errorf("%+v", n)
	}
}

// TestRollbacks: what only read and was rolled back is checked if that is wanted, and beside all others if not.
func TestRollbacks(t *testing.T) {
	for _, wanted := range []bool{false, true} {
		b := newBench(t, Options{Sessions: 1, Rollbacks: wanted})
		b.connect(1)
		b.tell(1, 0, record.Transaction{Outcome: record.Aborted, OnlyRead: true, Reads: b0})
		b.tell(1, 1, record.Transaction{Outcome: record.Aborted, Reads: b0})
		b.settle()
		its := b.totals()
		checked, undone := uint64(0), uint64(2)
		if wanted {
			checked, undone = 1, 1
		}
		if its.Transactions.Checked != checked || its.RowsRead.Checked != 2*checked || its.Transactions.RolledBack != undone ||
			its.OnlyRead != undone-1 {
			t.Errorf("wanted %v: %+v", wanted, its)
		}
	}
}

// TestBypassing: commits of which it isn't known whose they are, beyond the transactions that may have made one, bypassed the
// proxy; not if one of these transactions may have made several.
func TestBypassing(t *testing.T) {
	for _, x := range []struct {
		clients, commits int
		procedures       uint64
		untold, bypassed uint64
	}{{1, 3, 0, 3, 2}, {3, 3, 0, 3, 0}, {3, 1, 0, 1, 0}, {1, 3, 1, 3, 0}, {0, 3, 0, 0, 0}} {
		b := newBench(t, Options{Sessions: 2, Late: time.Second})
		b.connect(1)
		for i := 0; i < x.commits; i++ {
			b.commit(uint32(1001+i), fmt.Sprint("k", i))
		}
		for i := 0; i < x.clients; i++ {
			b.tell(1, uint64(i), record.Transaction{Level: record.RepeatableRead, MayHaveWritten: true, Did: record.Did{Others: x.procedures}})
		}
		b.settle()
		its := b.totals()
		if n := b.core.counts.bypassed(); its.Untold != x.untold || n != x.bypassed || its.Outside != uint64(x.commits)-x.untold ||
			its.Levels[record.RepeatableRead] != uint64(x.clients) {
			t.Errorf("%+v: %d untold, %d bypassed, %+v", x, its.Untold, n, its)
		}
	}
}
