package join

import (
	"context"
	"testing"
	"time"

	"zanteyard/condition"
	"zanteyard/record"
)

// openRoom knows on which connections something is open.
type openRoom struct{ open []uint64 }

func (openRoom) Meet(context.Context, []uint64, func(time.Duration)) {}

func (openRoom) Busy([]uint64) (underWay, idle int) { return 0, 0 }
func (r openRoom) Open([]uint64) []uint64           { return r.open }

// TestWritersWaitBeside: of two bookings each one asks by a condition of its own, passes the other one's row over, and
// inserts a row that the other one's condition has. The one that ends first waits for what the other one reports.
func TestWritersWaitBeside(t *testing.T) {
	for _, x := range []struct {
		name          string
		open          []uint64 // when the first one was reported
		later         time.Duration
		limit         int
		quiet         bool // a moment is before both
		waits, skewed bool
	}{
		{name: "the other one is open", open: []uint64{2}, later: 50 * time.Millisecond, waits: true, skewed: true},
		{name: "after a moment, with others' writes", open: []uint64{2}, later: 50 * time.Millisecond, quiet: true, waits: true, skewed: true},
		{name: "nothing is open", later: 50 * time.Millisecond},
		{name: "no longer than for late reports", open: []uint64{2}, later: 1100 * time.Millisecond},
		{name: "not if there is little room", open: []uint64{2}, later: 50 * time.Millisecond, limit: 4},
	} {
		t.Run(x.name, func(t *testing.T) {
			b := newBench(t, Options{Sessions: 2, Limit: 16})
			b.connect(1, 2)
			for i := 0; i < x.limit; i++ {
				b.tell(1, uint64(i), record.Transaction{Reads: []record.Read{{Relation: 1, Key: "z", Version: 3}}})
			}
			row := condition.NewRow(nil)
			values := map[*condition.Row][2]int{row: {1, 1}}
			its := [2]*fakeCondition{{kind: "x", c: 1, values: values}, {kind: "y", d: 1, values: values}}
			insert := func(number uint32, key record.Key) {
				b.place += 100
				b.core.commit(record.Commit{Number: number, LSN: b.place, Start: b.place - 50, Writes: []record.Write{
					{Relation: 1, Key: key, Inserted: true, New: row, Bytes: 10}}})
				b.core.advance(b.place)
			}
			if x.quiet {
				b.later(step).quiet()
				b.later(step)
			}
			began, place := b.now, uint64(x.limit)
			level, shows := record.ReadCommitted, ""
			if insert(1001, "a"); x.quiet { // somebody else's write is the last one of the row
				level, shows = record.RepeatableRead, "3:1001:"
				b.commit(1500, "-a")
			}
			b.tell(1, place, record.Transaction{Number: 1001, Level: level, Snapshot: shows, Began: began,
				Asks: []record.Ask{{Condition: its[0], From: began}}})
			j := &Joiner{core: b.core, meeter: openRoom{x.open}}
			b.later(step)
			j.lookBeside(b.now)
			b.later(step).pass()
			waits := len(b.core.sessions[0].waiting)+len(b.core.sessions[1].waiting) > 0
			if waits != x.waits && x.later < time.Second {
				t.Errorf("waits: %v", waits)
			}
			b.later(x.later).pass()
			insert(1002, "b")
			b.tell(2, 0, record.Transaction{Number: 1002, Level: level, Snapshot: shows, Began: began,
				Asks: []record.Ask{{Condition: its[1], From: began}}})
			b.settle()
			if b.model.explained() == x.skewed {
				t.Errorf("write skew: %v, wanted %v: %v", !x.skewed, x.skewed, b.lines)
			}
		})
	}
}
