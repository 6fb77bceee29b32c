package join

import (
	"testing"

	"zanteyard/condition"
	"zanteyard/record"
)

// TestCheckedRows: of which rows it is known that they have what they refer to. A transaction passes them over, by a join that
// finds none of them, and then somebody changes one so that it would have been found.
func TestCheckedRows(t *testing.T) {
	inserted := record.Write{Relation: 1, Key: "a", Inserted: true}
	moved := inserted
	moved.Moved = true
	definition := func(b *bench, at uint64) { (&gate{}).verify(Place{At: at, Changed: []record.Relation{5}}, b.core) }
	for _, x := range []struct {
		name   string
		before func(b *bench, write func(record.Write))
		is     bool
	}{
		{"inserted", func(b *bench, write func(record.Write)) { write(inserted) }, true},
		{"there before", func(b *bench, write func(record.Write)) { write(record.Write{Relation: 1, Key: "a"}) }, false},
		{"deleted and inserted", func(b *bench, write func(record.Write)) {
			write(record.Write{Relation: 1, Key: "a", Deleted: true})
			write(inserted)
		}, true},
		{"another row's key was changed", func(b *bench, write func(record.Write)) { write(moved) }, false},
		{"another row has taken its key", func(b *bench, write func(record.Write)) {
			write(inserted)
			write(record.Write{Relation: 1, Key: "a", Moved: true})
		}, false},
		{"before somebody changed a definition", func(b *bench, write func(record.Write)) {
			write(inserted)
			definition(b, b.place)
		}, false},
		{"before that was seen", func(b *bench, write func(record.Write)) {
			definition(b, b.place+100)
			write(inserted)
		}, false},
		{"afterwards", func(b *bench, write func(record.Write)) {
			definition(b, b.place+99)
			write(inserted)
		}, true},
		{"before the row was there", func(b *bench, write func(record.Write)) {}, true}, // the last write inserts it
	} {
		for _, checked := range []bool{true, false} {
			b := newBench(t, Options{Sessions: 2})
			b.connect(1, 2)
			b.later(1)
			no, yes := condition.NewRow(nil), condition.NewRow(nil)
			values := map[*condition.Row][2]int{no: {0, 0}, yes: {1, 0}}
			number := uint32(base)
			write := func(one record.Write) {
				number++
				b.place += 100
				if one.New == nil && !one.Deleted {
					one.New, one.Bytes = no, 10
				}
				b.core.commit(record.Commit{Number: number, LSN: b.place, Start: b.place - 50, Writes: []record.Write{one}})
				b.core.advance(b.place)
			}
			x.before(b, write)
			its := &fakeCondition{kind: "x", c: 1, values: values, checked: checked}
			b.later(1000)
			b.tell(1, 0, record.Transaction{Level: record.ReadCommitted, Began: b.now, Asks: []record.Ask{{Condition: its, From: b.now}}})
			b.settle()
			last := record.Write{Relation: 1, Key: "a", New: yes, Bytes: 10}
			last.Inserted = number == base
			write(last)
			n, left := len(b.core.questions.by[its.Key()].registers), b.core.counts.leftPassed[notChecked]
			if is := x.is || !checked; n != btoi(is) || left != uint64(btoi(!is)) {
				t.Errorf("%s, of checked rows alone %v: %d registers, left out %v", x.name, checked, n, b.core.counts.leftPassed)
			}
		}
	}
}

// TestRemovedBefore: a join that finds no row says nothing if its transaction may have removed what rows refer to, until it ends.
func TestRemovedBefore(t *testing.T) {
	for _, x := range []struct {
		name             string
		wrote, lacks, is bool
		relation         record.Relation
		deleted          bool
	}{
		{name: "nothing", relation: 1, is: true},
		{name: "another table", relation: 3, wrote: true, is: true},
		{name: "the rows themselves", relation: 1, wrote: true, is: true},
		{name: "what they refer to", relation: 2, wrote: true, deleted: true},
		{name: "its partition", relation: 11, wrote: true, deleted: true},
		{name: "what they refer to, afterwards", relation: 2, deleted: true, is: true},
		{name: "rows that aren't known", relation: 3, wrote: true, lacks: true},
	} {
		b := newBench(t, Options{Sessions: 2})
		b.connect(1)
		b.later(1)
		its := &fakeCondition{kind: "x", c: 1, values: map[*condition.Row][2]int{}, checked: true}
		b.place += 100
		commit := record.Commit{Number: 1001, LSN: b.place, Start: b.place - 50, Writes: []record.Write{{Relation: x.relation, Key: "z", Deleted: x.deleted}}}
		if x.lacks {
			commit.Keyless = 1
		}
		b.core.commit(commit)
		b.core.advance(b.place)
		b.tell(1, 0, record.Transaction{Number: 1001, Level: record.ReadCommitted, Began: b.now,
			Asks: []record.Ask{{Condition: its, From: b.now, Wrote: x.wrote, Relies: []record.Columns{{Relation: 2}, {Relation: 10}}}}})
		b.settle()
		if n := b.core.counts; n.leftAsks[askOwnBeside] != uint64(btoi(!x.is)) || n.asksFollowed != uint64(btoi(x.is)) {
			t.Errorf("%s was written: %d followed, left out %v", x.name, n.asksFollowed, n.leftAsks)
		}
	}
}
