package join

import (
	"testing"
	"time"

	"zanteyard/record"
)

// All reported reads count, including absent rows, and those of transactions that aren't offered.
func TestAllReadsAreCounted(t *testing.T) {
	b := newBench(t, Options{Sessions: 1})
	b.connect(1, 2)
	its := record.Transaction{Reads: []record.Read{read("a", 5), read("b", 6)}, Absent: []record.Absence{absent("c")}}
	b.tell(1, 0, its) // the absent row is left out at this level
	b.tell(2, 0, its) // it has no session
	its.Outcome = record.Aborted
	b.tell(1, 1, its)
	b.tell(2, 1, record.Transaction{Unsent: 4})
	b.settle()
	n := b.core.counts
	if n.reads != 13 || n.readsOffered != 2 || n.aborted != 1 {
		t.Errorf("of %d reads %d are offered; %d aborted", n.reads, n.readsOffered, n.aborted)
	}
	if n.leftReads[absentAtLevel] != 1 || n.leftReads[noSession] != 7 || n.leftReads[itAborted] != 3 {
		t.Errorf("left out are %v", n.leftReads)
	}
}

// Statements are kept as long as there is room for their texts; a cut makes room again.
func TestRoomForStatements(t *testing.T) {
	one := record.Statement{Text: "SELECT 1", Parameters: []string{"x", "yz"}} // 8 + 64, and 1 + 16, and 2 + 16 bytes
	const bytes = 107
	for _, room := range []struct{ bytes, kept int }{{bytes - 1, 0}, {bytes, 1}, {2*bytes - 1, 1}, {2 * bytes, 2}} {
		b := newBench(t, Options{Sessions: 1, Texts: room.bytes})
		b.connect(1)
		for n := uint64(0); n < 3; n++ {
			b.tell(1, n, record.Transaction{Reads: []record.Read{read("a", 5)}, Statements: []record.Statement{one}})
		}
		b.settle()
		s := b.core.sessions[0]
		kept := 0
		for _, its := range s.kept {
			kept += len(its.its.Statements)
			if len(its.its.Statements)+its.dropped != 1 {
				t.Errorf("of one statement %d are kept, and %d dropped", len(its.its.Statements), its.dropped)
			}
		}
		if n := b.core.counts.dropped; kept != room.kept || n != uint64(3-kept) || b.core.texts != kept*bytes {
			t.Errorf("with room for %d bytes %d are kept, %d dropped, and %d bytes counted", room.bytes, kept, n, b.core.texts)
		}
		if !b.core.cut([]uint64{3}) || b.core.texts != 0 || len(s.kept) != 0 {
			t.Errorf("after a cut %d bytes are counted", b.core.texts)
		}
	}
}

// A transaction whose connection was lost may have been committed as late as the slot reported it, on whatever machine
// its proxy runs: it comes after what ended by then, and isn't offered if there is a quiet moment in between.
func TestUnclearOnesMayHaveEndedLate(t *testing.T) {
	for _, far := range []bool{false, true} {
		for _, moment := range []bool{false, true} {
			b := newBench(t, Options{Sessions: 1, Late: time.Second})
			b.connect(1)
			b.quiet()
			b.later(time.Millisecond)
			it := record.Transaction{Number: 1001, Outcome: record.Unclear, Began: b.now, Ended: b.now.Add(time.Millisecond)}
			if far {
				it.After, it.Known = it.Began, it.Ended
			}
			b.tell(1, 0, it)
			b.later(time.Millisecond)
			if moment {
				b.quiet()
			}
			b.commit(1001, "a")
			b.later(time.Millisecond)
			b.pass()
			n, s := b.core.counts, b.core.sessions[0]
			if moment && (n.offered != 0 || n.folded[acrossMoment] != 1) || !moment && (n.offered != 1 || !s.last.Equal(b.now)) {
				t.Errorf("from elsewhere %v, with a moment %v: %d offered, folded %v; it ended at %v, and now is %v", far, moment,
					n.offered, n.folded, s.last, b.now)
			}
		}
	}
}

// A commit is in the server's log before others see it. One whose connection was lost has ended only when a snapshot
// shows it: until then a moment may come that it spans, after which somebody reads the version before it.
func TestUnclearOnesEndWhenTheyAreSeen(t *testing.T) {
	for _, one := range []struct {
		name    string
		shown   bool // before the moment
		late    time.Duration
		offered uint64 // without fences
	}{
		{"seen before the moment", true, 0, 2},
		{"seen after it", false, 0, 1},
		{"not seen for long", false, 2 * time.Second, 1},
	} {
		b := newBench(t, Options{Sessions: 2, Late: time.Second})
		b.connect(1, 2)
		b.shows = "1001:1002:1001"
		b.commit(1001, "a")
		b.tell(1, 0, record.Transaction{Number: 1001, Outcome: record.Unclear})
		b.pass()
		b.later(one.late)
		b.pass()
		if n := b.core.counts.folded[isUnclear]; b.core.counts.offered != 0 || n == 0 != (one.late == 0) {
			t.Errorf("%s: %d are offered at once, folded %v", one.name, b.core.counts.offered, b.core.counts.folded)
		}
		if one.shown {
			b.shows = "1002:1002:"
			b.pass()
		}
		b.later(time.Millisecond).core.meet(b.now)
		b.later(time.Millisecond)
		version := uint32(7)
		if one.shown {
			version = 1001
		}
		b.tell(2, 0, record.Transaction{Reads: []record.Read{read("a", version)}})
		b.shows = "1002:1002:"
		b.settle()
		b.settle()
		n := b.core.counts
		if !b.model.explained() || n.offered-n.fences != one.offered || len(b.core.held) > 0 {
			t.Errorf("%s: offered %d, folded %v\n%v", one.name, n.offered-n.fences, n.folded, b.lines)
		}
	}
}

// One whose number isn't known either may be committed later, as in a second phase: its commit is nobody else's.
func TestUnclearOnesMayBeCommittedLater(t *testing.T) {
	b := newBench(t, Options{Sessions: 1, Late: time.Second})
	b.connect(1)
	b.tell(1, 0, record.Transaction{MayHaveWritten: true, Touched: true, Outcome: record.Unclear})
	for i := 0; i < 4; i++ {
		b.settle()
	}
	b.commit(1001, "a", "b")
	b.settle()
	its := b.totals()
	if its.Outside != 0 || its.Transactions.NotChecked[isUnclear] != 1 || its.RowsWritten.NotChecked[noNumber] != 2 {
		t.Errorf("%d are others', transactions %v, rows %v", its.Outside, its.Transactions.NotChecked, its.RowsWritten.NotChecked)
	}
	for i := 0; i < stillOpen; i++ {
		b.settle()
	}
	b.commit(1002, "c")
	b.settle()
	if its = b.totals(); its.Outside != 1 || len(b.core.unnumbered) > 0 {
		t.Errorf("%d are others', and %d are awaited", its.Outside, len(b.core.unnumbered))
	}
}
