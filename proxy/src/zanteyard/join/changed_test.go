package join

import (
	"testing"
	"time"

	"zanteyard/condition"
	"zanteyard/record"
)

// TestAskedWhileDefinitionsChanged: what a condition passed over is left out, and counted, if a table's definition was
// written, or an operator or the like made, after the transaction had begun, though all is as before by now: row security
// may have hidden rows, and the condition may have meant something else.
func TestAskedWhileDefinitionsChanged(t *testing.T) {
	for _, x := range []struct {
		what   string
		change func(*core)
		left   bool
		relies []record.Columns
	}{
		{"nothing", func(*core) {}, false, nil},
		{"another table", func(c *core) { c.forgetTables(map[record.Relation]bool{2: true}) }, false, []record.Columns{{Relation: 3}}},
		{"a table in a subquery", func(c *core) { c.forgetTables(map[record.Relation]bool{2: true}) }, true, []record.Columns{{Relation: 3}, {Relation: 2}}},
		{"the table", func(c *core) { c.forgetTables(map[record.Relation]bool{1: true}) }, true, nil},
		{"an operator", func(c *core) { c.forgetMeanings() }, true, nil},
		{"perhaps an operator", func(c *core) { (&gate{}).verify(Place{MayMean: true}, c) }, true, nil},
	} {
		for _, reported := range []bool{false, true} { // before the change is seen
			row := condition.NewRow(nil)
			its := &fakeCondition{kind: "y", values: map[*condition.Row][2]int{row: {1, 1}}}
			b := newBench(t, Options{Sessions: 2})
			b.connect(1)
			ask := func(place uint64, began time.Time) {
				b.tell(1, place, record.Transaction{Level: record.ReadCommitted, Began: began, Asks: []record.Ask{{Condition: its, From: began, Relies: x.relies}}})
			}
			began := b.now
			if b.later(time.Second); reported {
				ask(0, began)
			}
			x.change(b.core)
			if b.later(time.Second); !reported {
				ask(0, began)
			}
			b.settle()
			if n := b.core.counts; n.leftAsks[askChanged] != uint64(btoi(x.left)) || n.asksFollowed != uint64(btoi(!x.left)) {
				t.Errorf("%s has changed, reported before: %v; %d followed, left out %v", x.what, reported, n.asksFollowed, n.leftAsks)
			}
			ask(1, b.now) // it began afterwards
			b.settle()
			if n := b.core.counts; n.asksFollowed != uint64(btoi(!x.left))+1 {
				t.Errorf("after %s has changed %d are followed, left out %v", x.what, n.asksFollowed, n.leftAsks)
			}
		}
	}
}

// TestSettingsReadAgain: for a while after the server's settings were read again nobody's level is certain, and no name is.
func TestSettingsReadAgain(t *testing.T) {
	for _, x := range []struct {
		what  string
		began time.Duration // after the settings were read
		level record.Level
		left  bool
	}{
		{"before", -time.Second, record.UnknownLevel, true},
		{"soon", settles, record.UnknownLevel, true},
		{"later", settles + time.Second, record.RepeatableRead, false},
	} {
		b := newBench(t, Options{Sessions: 2})
		b.connect(1)
		read := b.now
		(&gate{}).verify(Place{Reread: true}, b.core)
		b.core.forgetMeanings() // that lets nobody begin earlier
		b.later(time.Minute)
		it := record.Transaction{Level: record.RepeatableRead, Snapshot: "1001:1001:", Began: read.Add(x.began), Ended: b.now,
			Asks: []record.Ask{{Condition: &fakeCondition{kind: "y"}, From: read.Add(x.began)}}}
		e := entry{its: it}
		b.core.resolve(&e)
		b.tell(1, 0, it)
		b.settle()
		if n := b.core.counts; e.its.Level != x.level || n.leftAsks[askChanged] != uint64(btoi(x.left)) {
			t.Errorf("%s: level %d, left out %v", x.what, e.its.Level, n.leftAsks)
		}
	}
}

// TestAskedOfOtherColumns: the same, if a table in a subquery has other columns than the statement took it for.
func TestAskedOfOtherColumns(t *testing.T) {
	b := newBench(t, Options{Sessions: 2})
	b.connect(1)
	for place, its := range []record.Columns{{Relation: 2}, {Relation: 2, Identity: 1}} {
		b.tell(1, uint64(place), record.Transaction{Level: record.ReadCommitted, Began: b.now,
			Asks: []record.Ask{{Condition: &fakeCondition{kind: "y"}, From: b.now, Relies: []record.Columns{its}}}})
		b.settle()
	}
	if n := b.core.counts; n.asksFollowed != 1 || n.leftAsks[askUnknown]+n.leftAsks[askChanged] != 1 {
		t.Errorf("%d followed, left out %v", n.asksFollowed, n.leftAsks)
	}
}

func btoi(is bool) int {
	if is {
		return 1
	}
	return 0
}
