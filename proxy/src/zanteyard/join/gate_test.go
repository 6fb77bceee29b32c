package join

import (
	"fmt"
	"reflect"
	"sort"
	"testing"
	"time"

	"zanteyard/record"
)

// Two tables swap their names. What was read with the old names, or written before it is known which are right, counts
// for neither.
func TestRenamedTables(t *testing.T) {
	b := newBench(t, Options{})
	b.connect(1)
	var g gate
	number := uint32(base)
	tell := func(relation record.Relation, place, names uint64) {
		number++
		g.put(fromSlot{commit: &record.Commit{Number: number, LSN: place, Names: names,
			Writes: []record.Write{{Relation: relation, Key: "k"}, {Relation: 3, Key: "k"}}}})
	}
	tell(1, 100, 1)
	tell(1, 200, 1)
	g.release(b.core)
	if len(g.queue) != 2 {
		t.Error("commits are let go before their names are verified")
	}
	g.verify(Place{At: 150, Names: 1, Shows: all}, b.core)
	if len(g.queue) != 1 || b.core.progress != 150 {
		t.Errorf("%d wait, and the slot counts as being at %d", len(g.queue), b.core.progress)
	}
	tell(1, 300, 1) // after the change, with the old names
	tell(2, 250, 2) // before the change, with the new ones
	tell(2, 400, 2)
	g.put(fromSlot{place: 450})
	g.verify(Place{At: 350, Changed: []record.Relation{1, 2}, Names: 2, Shows: all}, b.core)
	g.verify(Place{At: 500, Names: 2, Shows: all}, b.core)
	if len(g.queue) != 0 || b.core.progress != 450 {
		t.Errorf("%d wait, and the slot counts as being at %d", len(g.queue), b.core.progress)
	}
	got := map[rowID][]uint32{}
	for id, r := range b.core.rows.by {
		for v := r.last; v != nil; v = v.before {
			got[id] = append(got[id], v.writer.number)
		}
	}
	want := map[rowID][]uint32{
		{2, "k"}: {1005},
		{3, "k"}: {1005, 1004, 1003, 1002, 1001},
	}
	if !reflect.DeepEqual(got, want) {
		t.Errorf("the rows' versions are %v, and should be %v", got, want)
	}
}

// A table's definition was written, and its name is as it was. What was committed up to then may have another table's
// rows under its name; what comes after it is right.
func TestRewrittenTables(t *testing.T) {
	b := newBench(t, Options{})
	b.connect(1)
	var g gate
	tell := func(number uint32, place uint64, key record.Key) {
		g.put(fromSlot{commit: &record.Commit{Number: number, LSN: place, Writes: []record.Write{{Relation: 1, Key: key}, {Relation: 3, Key: key}}}})
	}
	tell(1001, 100, "before")
	g.verify(Place{At: 150, Shows: all}, b.core)
	tell(1002, 200, "between")
	tell(1003, 300, "by it")
	tell(1004, 400, "after it")
	g.verify(Place{At: 500, Shows: all, Rewritten: []Rewritten{{Relation: 1, Root: 1, By: []uint32{1003}}}}, b.core)
	g.verify(Place{At: 600, Shows: all, Rewritten: []Rewritten{{Relation: 1, Root: 1, By: []uint32{1009}}}}, b.core) // which isn't reported
	tell(1005, 590, "before another one")
	tell(1006, 610, "after that")
	g.verify(Place{At: 700, Shows: all}, b.core)
	var keys []string
	for id := range b.core.rows.by {
		if id.relation == 1 {
			keys = append(keys, string(id.key))
		}
	}
	if !reflect.DeepEqual(keys, []string{"after that"}) || len(b.core.rows.by) != 1+6 {
		t.Errorf("the table has the rows %q, and all have %d", keys, len(b.core.rows.by))
	}
	if began := b.core.now.Add(-time.Second); !b.core.isFromBefore(1, &record.Transaction{Began: began, Ended: began}) {
		t.Error("who began before it was seen may count")
	}
}

// TestRewrittenByTwo: what is committed between two that have written parts of a definition isn't right yet, whichever of
// them wrote the table's own row, and whether they are found together or not. If nothing says who did, all waits for the
// place. What was changed long ago is forgotten.
func TestRewrittenByTwo(t *testing.T) {
	one := func(by ...uint32) []Rewritten {
		return []Rewritten{{Relation: 1, Root: 1, By: by}, {Relation: 2, Root: 2, By: by}}
	}
	for _, x := range []struct {
		name  string
		finds [2][]Rewritten
		right []string
	}{
		{"one after the other", [2][]Rewritten{one(1002, 1004)}, []string{"5", "6", "7"}},
		{"found in turn", [2][]Rewritten{one(1002), one(1004)}, []string{"5", "6", "7"}},
		{"the later one is found first", [2][]Rewritten{one(1004), one(1002)}, []string{"5", "6", "7"}},
		{"found twice", [2][]Rewritten{one(1002, 1004), one(1004)}, []string{"5", "6", "7"}},
		{"who isn't known", [2][]Rewritten{one()}, []string{"7"}},
		{"who isn't known, and one who is", [2][]Rewritten{one(), one(1002)}, []string{"7"}},
		{"nothing", [2][]Rewritten{}, []string{"2", "3", "4", "5", "6", "7"}},
	} {
		b := newBench(t, Options{})
		var g gate
		for number := uint32(1002); number <= 1006; number++ {
			g.put(fromSlot{commit: &record.Commit{Number: number, LSN: uint64(number), Writes: []record.Write{{Relation: 1, Key: record.Key(fmt.Sprint(number - 1000))}}}})
		}
		g.verify(Place{At: 1008, Shows: "1001:1001:", Rewritten: x.finds[0]}, b.core)
		g.verify(Place{At: 1009, Shows: all, Rewritten: x.finds[1]}, b.core)
		g.put(fromSlot{commit: &record.Commit{Number: 1007, LSN: 1010, Writes: []record.Write{{Relation: 1, Key: "7"}}}})
		g.verify(Place{At: 1011, Shows: all}, b.core)
		var keys []string
		for id := range b.core.rows.by {
			if id.relation == 1 {
				keys = append(keys, string(id.key))
			}
		}
		sort.Strings(keys)
		if !reflect.DeepEqual(keys, x.right) {
			t.Errorf("%s: the table has the rows %q", x.name, keys)
		}
		if len(g.changed)+len(g.awaited) > 0 {
			t.Errorf("%s: %v and %v are remembered", x.name, g.changed, g.awaited)
		}
	}
}

// all is a snapshot that shows everything.
const all = "1:100000:"

// A commit waits until the place's snapshot shows it, and until all of its tables were looked at.
func TestGateWaitsForWhatWasLookedAt(t *testing.T) {
	for _, x := range []struct {
		name  string
		place Place
		waits bool
	}{
		{"all", Place{At: 100, Shows: "1:2000:", Used: 3}, false},
		{"before its end", Place{At: 99, Shows: "1:2000:", Used: 3}, true},
		{"it isn't seen yet", Place{At: 100, Shows: "1001:2000:1001", Used: 3}, true},
		{"nor is anything later", Place{At: 100, Shows: "1001:1001:", Used: 3}, true},
		{"not all of its tables", Place{At: 100, Shows: "1:2000:", Used: 2}, true},
		{"nothing was verified", Place{At: 100, Used: 3}, true},
	} {
		b := newBench(t, Options{})
		var g gate
		g.put(fromSlot{commit: &record.Commit{Number: 1001, LSN: 100, Used: 3}})
		g.verify(x.place, b.core)
		if g.waits() != x.waits {
			t.Errorf("%s: it waits: %v", x.name, g.waits())
		}
		g.verify(Place{At: 200, Shows: all, Used: 3}, b.core)
		if g.waits() {
			t.Errorf("%s: it waits for ever", x.name)
		}
	}
}

func TestGateIsBounded(t *testing.T) {
	b := newBench(t, Options{})
	var g gate
	for n := 0; n < mostHeld; n++ {
		if g.isFull() {
			t.Fatalf("it is full with %d", n)
		}
		g.put(fromSlot{place: uint64(n)})
	}
	if !g.isFull() {
		t.Error("it takes any number")
	}
	g.verify(Place{At: mostHeld, Shows: all}, b.core)
	if g.isFull() || g.waits() {
		t.Error("what is verified waits")
	}
}
