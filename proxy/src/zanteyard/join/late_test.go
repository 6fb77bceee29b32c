package join

import (
	"testing"
	"time"

	"zanteyard/record"
)

// TestWhatEndsWithoutAnAudit: of transactions that are told once an audit is over, or that nobody had taken out by then,
// each is counted once: in the next audit if there is one. One that was rolled back has no reason.
func TestWhatEndsWithoutAnAudit(t *testing.T) {
	one := record.Transaction{Number: 7, Did: record.Did{Again: 1, Writes: 1, Written: 2}}
	undone := one
	undone.Outcome = record.Aborted
	other := one
	other.Elsewhere = true
	ended := func() *Inbox {
		its := NewInbox(1 << 20)
		its.Transaction(one) // nobody takes it out
		its.Close()
		for _, it := range []record.Transaction{one, undone, other} {
			its.Transaction(it)
		}
		return its
	}
	first, next := ended(), NewInbox(1<<20)
	late := first.Late()
	if late.Transactions.All != 3 || late.Transactions.RolledBack != 1 || late.RowsWritten.All != 6 || late.Ended() != 4 {
		t.Errorf("counted are %+v", late)
	}
	if late := NewInbox(1 << 20).After(first); late.Ended() != 0 {
		t.Errorf("the next audit has what was told before: %+v", late)
	}
	first = ended()
	late = next.After(first)
	next.Adds(&late)
	first.Transaction(one) // on a connection that hasn't heard of the next audit
	_, _, _, totals := next.counted(false)
	if late := first.Late(); late.Transactions.All != 0 {
		t.Errorf("counted twice are %+v", late)
	}
	for _, it := range totals.each() {
		if it.Waiting() != 0 || it.NotChecked[noAudit] != it.All {
			t.Errorf("of %+v some aren't in their place: %+v", totals, it)
		}
	}
	if totals.Transactions.All != 4 || totals.Selects.All != 4 || totals.Writes.All != 4 || totals.RowsWritten.All != 8 {
		t.Errorf("the next audit has %+v", totals)
	}
}

// TestUntoldCountsNext: what nobody was told of, as of an audit that never began, counts with what ended since; and what is
// told after the next audit's end, with what ended since that.
func TestUntoldCountsNext(t *testing.T) {
	one := record.Transaction{Did: record.Did{Again: 1}}
	before, first, next, last := NewInbox(0), NewInbox(1<<20), NewInbox(1<<20), NewInbox(1<<20)
	before.Close()
	before.Transaction(one)
	late := first.After(before)
	first.Adds(&late)
	before.Transaction(one)
	first.Close() // it never began, so it has told nothing
	first.Transaction(one)
	if late = next.After(first); late.Transactions.All != 3 || late.Selects.All != 3 {
		t.Errorf("before the next one %+v have ended", late)
	}
	before.Transaction(one)
	if _, _, _, totals := next.counted(false); totals.Transactions.All != 1 {
		t.Errorf("the next one has %+v", totals)
	}
	next.Close()
	before.Transaction(one)
	before.Lose("on the way", 1)
	if late = last.After(next); late.Transactions.All != 2 {
		t.Errorf("before the last one %+v have ended", late)
	}
	before.Transaction(one)
	if _, _, _, totals := last.counted(false); totals.Transactions.All != 1 {
		t.Errorf("the last one has %+v", totals)
	}
}

// TestUndoneElsewhere: a transaction on a connection to another server counts as rolled back alone if it was.
func TestUndoneElsewhere(t *testing.T) {
	b := NewInbox(1 << 20)
	b.Transaction(record.Transaction{Elsewhere: true, Outcome: record.Aborted, Did: record.Did{Again: 1}})
	if _, _, _, totals := b.counted(false); totals.Transactions.Waiting() != 0 || totals.Transactions.RolledBack != 1 {
		t.Errorf("counted are %+v", totals)
	}
}

// TestUnauditedIsCounted: what ended before the audit read the catalog is in one place, with the rows that its statements
// wrote by their own words, if it had ended before the slot began.
func TestUnauditedIsCounted(t *testing.T) {
	b := newBench(t, Options{Sessions: 2})
	b.connect(1)
	b.core.sought, b.core.opened = b.core.now, b.core.now
	it := record.Transaction{Connection: 1, MayHaveWritten: true, Unaudited: true, Did: record.Did{Writes: 1, Written: 3}}
	b.core.tell(it)
	n := &b.core.counts.totals
	if n.Transactions.NotChecked[beforeAudit] != 1 || n.RowsWritten.All != 3 || n.RowsWritten.NotChecked[beforeAudit] != 3 {
		t.Errorf("counted are %+v", n)
	}
}

// TestEndCountsWhatIsLeft: what nobody took out of the inbox by the audit's end, and what the slot hadn't told.
func TestEndCountsWhatIsLeft(t *testing.T) {
	b := newBench(t, Options{Sessions: 2})
	b.connect(1)
	b.core.end([]message{
		{transaction: &record.Transaction{Connection: 1, Number: 1001, Did: record.Did{Writes: 1, Written: 2}}},
		{transaction: &record.Transaction{Connection: 1, MayHaveWritten: true, Did: record.Did{Writes: 1, Written: 3}}},
	})
	n := &b.core.counts.totals
	if n.Transactions.NotChecked[auditEnded] != 2 || n.RowsWritten.NotChecked[auditEnded] != 5 || n.RowsWritten.All != 5 {
		t.Errorf("counted are %+v", n)
	}
}

// TestLostWithoutAnAudit: what is lost on its way once an audit is over counts once, too: in the next audit if there is one.
func TestLostWithoutAnAudit(t *testing.T) {
	const reason = "lost on the way"
	first, next := NewInbox(1<<20), NewInbox(1<<20)
	first.Close()
	first.Lose(reason, 3)
	if late := first.Late(); late.Transactions.All != 3 || late.Transactions.NotChecked[reason] != 3 {
		t.Errorf("counted are %+v", late)
	}
	late := next.After(first)
	next.Adds(&late)
	if late.Transactions.All != 0 { // they were told
		t.Errorf("counted again are %+v", late)
	}
	first.Lose(reason, 2)
	_, _, _, totals := next.counted(false)
	if late := first.Late(); late.Transactions.All != 0 || totals.Transactions.All != 2 || totals.Transactions.NotChecked[reason] != 2 {
		t.Errorf("counted are %+v, and late %+v", totals, late)
	}
}

// TestRowsAcrossRestarts: what the slot hasn't reported as one audit takes the place of another is owed by the next one, and
// counts once: as the slot reports it, or by its statements' own words, if the slot doesn't by that one's end.
func TestRowsAcrossRestarts(t *testing.T) {
	for _, reported := range []bool{false, true} {
		b := newBench(t, Options{Sessions: 2, Late: time.Second})
		b.connect(1, 2)
		b.tell(1, 0, record.Transaction{Number: 1001, Did: record.Did{Writes: 1, Written: 2}})
		b.tell(9, 0, record.Transaction{Number: 1002, Did: record.Did{Writes: 1, Written: 1}}) // nobody knows its connection
		b.tell(2, 0, record.Transaction{MayHaveWritten: true, Did: record.Did{Writes: 1, Written: 4}})
		for restarts := 0; restarts < 2; restarts++ {
			b.core.counts.totals.close(auditEnded)
			if rows := b.totals().RowsWritten.All; rows != 0 {
				t.Errorf("%d rows are counted before the slot has them", rows)
			}
			next := newCore(b.core.opt, plainTables{}, base, func([]byte) {}, b.now)
			next.inherit(b.core)
			b.core = next
		}
		if reported {
			b.commit(1001, "a", "b")
			b.commit(1002, "c")
			b.commit(1003, "d", "e", "f", "g")
			b.settle()
		}
		b.core.end(nil)
		its := b.totals()
		if its.RowsWritten.All != 7 || its.RowsWritten.Waiting() != 0 || its.Transactions.All+its.Outside != 0 {
			t.Errorf("reported %v: counted are %+v, %d transactions, %d of others", reported, its.RowsWritten, its.Transactions.All, its.Outside)
		}
	}
}

// TestToldAfterTheEnd: a row that the slot had reported by an audit's end is counted there, and not once more when its
// session tells of the transaction.
func TestToldAfterTheEnd(t *testing.T) {
	for _, x := range []struct {
		name       string
		committed  int // rows of a commit of which no session had told by the end
		unnumbered uint64
		began      time.Duration // when the late one did, after the end
		want       uint64        // rows in both places
	}{
		{"it is counted", 3, 0, -time.Second, 3},
		{"it began later", 3, 0, time.Second, 6},
		{"the slot hadn't it", 0, 0, -time.Second, 3},
		{"the slot had another one's", 2, 2, -time.Second, 5},
	} {
		t.Run(x.name, func(t *testing.T) {
			b := newBench(t, Options{Sessions: 2, Late: time.Minute})
			b.connect(1)
			if x.committed > 0 {
				b.commit(1001, []string{"a", "b", "c"}[:x.committed]...)
			}
			if x.unnumbered > 0 {
				b.tell(1, 0, record.Transaction{MayHaveWritten: true, Began: b.now.Add(-time.Second), Did: record.Did{Written: x.unnumbered}})
			}
			inbox := NewInbox(1 << 20)
			end := b.now
			inbox.now = func() time.Time { return end }
			rest := inbox.end()
			late := record.Transaction{Unaudited: true, Began: end.Add(x.began), Ended: end.Add(2 * time.Second), Did: record.Did{Written: 3}}
			inbox.Transaction(late) // while it ends
			b.core.end(rest)
			inbox.spares(b.core.unclaimed())
			its := inbox.Late()
			if rows := b.totals().RowsWritten.All + its.RowsWritten.All; rows != x.want || its.Transactions.All != 1 {
				t.Errorf("%d rows are counted of %d, and %d transactions late", rows, x.want, its.Transactions.All)
			}
		})
	}
}

// TestFaultAsAnAuditEnds: after a fault in counting an audit's end, what is told isn't kept for ever: it is counted.
func TestFaultAsAnAuditEnds(t *testing.T) {
	inbox := NewInbox(1 << 20)
	inbox.end()
	inbox.Transaction(record.Transaction{Connection: 1, Did: record.Did{Written: 2}})
	inbox.ends()
	if late := inbox.Late(); late.Transactions.All != 1 || late.RowsWritten.All != 2 || len(inbox.waiting) != 0 || inbox.ending {
		t.Errorf("counted: %+v, %d wait", late, len(inbox.waiting))
	}
	inbox.ends() // nothing is counted twice
	if late := inbox.Late(); late.Transactions.All != 0 {
		t.Errorf("once more: %+v", late)
	}
}
