package join

import (
	"testing"
	"time"

	"zanteyard/record"
)

// TestTakenForAnother: a transaction without a number may be taken for a commit that an audit's end has left. If another
// one turns out to have made that, the rows of both count, whoever is reported first.
func TestTakenForAnother(t *testing.T) {
	for _, x := range []struct {
		name      string
		its       unclaimed
		reported  []uint64 // by number, 0 if that isn't known
		wantsOwed uint64   // of the rows that they wrote, four each
	}{
		{"the commit's own", unclaimed{map[uint32]uint64{7: 4}, 4}, []uint64{7}, 0},
		{"one without a number", unclaimed{map[uint32]uint64{7: 4}, 4}, []uint64{0}, 0},
		{"that, and then the commit's own", unclaimed{map[uint32]uint64{7: 4}, 4}, []uint64{0, 7}, 4},
		{"the commit's own, and then that", unclaimed{map[uint32]uint64{7: 4}, 4}, []uint64{7, 0}, 4},
		{"one that the audit before has taken for it", unclaimed{map[uint32]uint64{7: 4}, 0}, []uint64{7}, 4},
		{"two commits' own, and one without a number", unclaimed{map[uint32]uint64{7: 4, 8: 4}, 8}, []uint64{7, 0, 8}, 4},
		{"one that bypassed the proxy", unclaimed{map[uint32]uint64{7: 0}, 0}, []uint64{7}, 0},
		{"another one", unclaimed{map[uint32]uint64{7: 4}, 4}, []uint64{9}, 4},
	} {
		began := time.Now()
		s, owed := &spare{until: began.Add(time.Second), unclaimed: x.its}, uint64(0)
		for _, number := range x.reported {
			owed += s.without(&record.Transaction{Number: number, Began: began, Did: record.Did{Written: 4}})
		}
		if owed != x.wantsOwed {
			t.Errorf("%s: %d rows count, want %d", x.name, owed, x.wantsOwed)
		}
	}
}

// TestStoppedHasAllRows: what is told of an audit that is stopped has the rows of transactions whose commits the slot never
// reports, since they ended before it had begun, and of those that it has yet to report. Nothing counts twice.
func TestStoppedHasAllRows(t *testing.T) {
	b := newBench(t, Options{Sessions: 2, Late: time.Second})
	b.connect(1)
	b.core.opened = b.now.Add(time.Second)
	b.tell(1, 0, record.Transaction{MayHaveWritten: true, Began: b.now, Ended: b.now, Did: record.Did{Writes: 1, Written: 3}})
	b.settle()
	b.later(2 * time.Second)
	b.tell(1, 1, record.Transaction{Number: 1001, Began: b.now, Ended: b.now, Did: record.Did{Writes: 1, Written: 2}})
	its := b.totals()
	b.core.addUnreported(&its)
	if its.RowsWritten.All != 5 || its.RowsWritten.NotChecked[noNumber] != 3 || its.RowsWritten.Waiting() != 2 {
		t.Errorf("stopped with %+v", its.RowsWritten)
	}
	if its = b.totals(); its.RowsWritten.All != 0 {
		t.Errorf("the audit that goes on has %+v", its.RowsWritten)
	}
	b.commit(1001, "a", "b")
	b.settle()
	b.core.end(nil)
	if its = b.core.counts.totals; its.RowsWritten.All != 5 || its.RowsWritten.Waiting() != 0 {
		t.Errorf("ended with %+v", its.RowsWritten)
	}
}
