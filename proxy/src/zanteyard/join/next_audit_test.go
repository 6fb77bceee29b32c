package join

import (
	"testing"
	"time"

	"zanteyard/record"
)

// TestToldToTheNextAudit: what ended on another machine while its proxy didn't feed the audit is told to the next one. Its
// rows count once, also if the slot had reported them to the audit before.
func TestToldToTheNextAudit(t *testing.T) {
	numbered := record.Transaction{Number: 1001, Did: record.Did{Writes: 1, Written: 3}}
	unnumbered := record.Transaction{MayHaveWritten: true, Did: record.Did{Writes: 1, Written: 3}}
	undone := numbered
	undone.Outcome = record.Aborted
	for _, x := range []struct {
		name      string
		late      record.Transaction
		reported  bool // its commit, to the audit before
		decided   bool // that is counted as one that may be a local transaction's
		isRestart bool // both audits are the same parent's
		want      uint64
	}{
		{"its number is known", numbered, true, false, false, 3},
		{"its number is known, after a restart", numbered, true, false, true, 3},
		{"its number is known, and its commit was decided", numbered, true, true, false, 3},
		{"the slot hadn't it", numbered, false, false, false, 3},
		{"its number is unknown", unnumbered, true, false, false, 3},
		{"its number is unknown, after a restart", unnumbered, true, false, true, 3},
		{"its number is unknown, and its commit was decided", unnumbered, true, true, false, 3},
		{"the slot hadn't it, and its number is unknown", unnumbered, false, false, false, 3},
		{"it was rolled back", undone, false, false, false, 0},
	} {
		t.Run(x.name, func(t *testing.T) {
			b := newBench(t, Options{Sessions: 2, Late: time.Second})
			b.connect(1)
			x.late.Began = b.now
			if x.decided { // by one whose statement changed no row
				b.tell(1, 0, record.Transaction{MayHaveWritten: true, Did: record.Did{Writes: 1}})
			}
			if x.reported {
				b.commit(1001, "a", "b", "c")
			}
			if x.decided {
				b.settle()
				if n := b.totals().RowsWritten.NotChecked[noNumber]; n != 3 {
					t.Errorf("%d rows are decided", n)
				}
			}
			inbox := NewInbox(1 << 20)
			inbox.now = func() time.Time { return b.now.Add(time.Second) }
			before := b.core
			next := newCore(before.opt, plainTables{}, 2000, func([]byte) {}, b.now.Add(2*time.Second))
			if x.isRestart {
				before.counts.totals.close(auditEnded)
				next.inherit(before)
				next.spare = inbox.keeps(before.unclaimed())
			} else {
				before.end(inbox.end())
				inbox.spares(before.unclaimed())
				next.spare = inbox.spare
			}
			next.sought, next.opened, next.slotted = next.now, next.now, next.now
			b.later(3 * time.Second)
			next.now, b.core = b.now, next
			x.late.Unaudited, x.late.Known = true, b.now
			next.tell(x.late)
			b.settle()
			next.end(nil)
			if rows := before.counts.totals.RowsWritten.All + next.counts.totals.RowsWritten.All; rows != x.want {
				t.Errorf("%d rows are counted of %d", rows, x.want)
			}
			if n := before.counts.totals.Outside + next.counts.totals.Outside; n != 0 {
				t.Errorf("%d commits are said to bypass the proxy", n)
			}
		})
	}
}

// TestNobodyBypassesWhileOneIsAway: as long as another machine's proxy doesn't feed the audit, a commit may be its clients'.
func TestNobodyBypassesWhileOneIsAway(t *testing.T) {
	for _, isApart := range []bool{false, true} {
		b := newBench(t, Options{Sessions: 2, Late: time.Second})
		b.connect(1)
		b.core.apart = func(time.Time) bool { return isApart }
		b.commit(1001, "a", "b", "c")
		b.settle()
		its := b.totals()
		if isApart && (its.Outside != 0 || its.Untold != 1 || b.core.counts.bypassed() != 0 || its.RowsWritten.NotChecked[noNumber] != 3) ||
			!isApart && (its.Outside != 1 || its.OutsideRows != 3 || its.RowsWritten.All != 0) {
			t.Errorf("one is away: %v; counted are %+v, %d at least bypassed", isApart, its, b.core.counts.bypassed())
		}
		b.tell(1, 0, record.Transaction{Number: 1001, Known: b.now, Unaudited: true, Did: record.Did{Writes: 1, Written: 3}})
		its = b.totals()
		if its.Outside != 0 || its.Untold != 0 || b.core.counts.awaited != 0 || its.RowsWritten.All != 3 ||
			its.RowsWritten.NotChecked[notConnected] != 3 {
			t.Errorf("one was away: %v; counted are %+v", isApart, its)
		}
	}
}
