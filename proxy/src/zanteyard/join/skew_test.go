package join

import (
	"fmt"
	"testing"
	"time"

	"zanteyard/record"
)

// TestOtherClocks: whatever the clocks of other machines show, their transactions are checked, and counted for the same
// reasons. One of them has only locked a row: it has a number, and the slot reports nothing of it.
func TestOtherClocks(t *testing.T) {
	counted := func(skew time.Duration) string {
		b := newBench(t, Options{Sessions: 2})
		b.connect(1)
		b.core.slotted, b.core.sought, b.core.opened = b.now, b.now, b.now
		b.later(time.Second)
		theirs := b.now.Add(skew)
		b.commit(1001, "a")
		for place, number := range []uint64{1001, 1002} {
			b.tell(1, uint64(place), record.Transaction{Number: number, Reads: []record.Read{read("a", 5)},
				Began: theirs, Ended: theirs, After: b.now, Known: b.now, Did: record.Did{Writes: 1, Written: 1}})
			b.later(time.Millisecond)
		}
		b.core.tell(record.Transaction{Connection: 1, MayHaveWritten: true, Unaudited: true, Began: theirs, Ended: theirs,
			Known: b.now, Did: record.Did{Writes: 1, Written: 3}})
		spare := &spare{until: b.now, unclaimed: unclaimed{rows: 5}}
		left := spare.without(&record.Transaction{Began: theirs, After: b.now, Known: b.now, Did: record.Did{Written: 3}})
		b.settle()
		its := b.totals()
		return fmt.Sprint(b.lines, its.Transactions, its.RowsWritten, left)
	}
	want := counted(0)
	for _, skew := range []time.Duration{-time.Hour, -2 * time.Second, 2 * time.Second, time.Hour} {
		if got := counted(skew); got != want {
			t.Errorf("with a clock that differs by %v:\n%s\nwithout:\n%s", skew, got, want)
		}
	}
}
