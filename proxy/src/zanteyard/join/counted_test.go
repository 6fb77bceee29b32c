package join

import (
	"encoding/json"
	"fmt"
	"testing"

	"zanteyard/record"
)

// TestAsManyReadsAsTheAuditorTakes: of a transaction with 256 reads or writes all are offered, of one with 257 all but
// one. Such a write is left out, and counted. So nobody is offered as a writer of the row of that read, which needs no
// place.
func TestAsManyReadsAsTheAuditorTakes(t *testing.T) {
	for _, x := range []struct{ did, left int }{{255, 0}, {256, 0}, {257, 1}, {300, 44}} {
		b := newBench(t, Options{Sessions: 2})
		b.connect(1, 2)
		var reads []record.Read
		var keys []string
		for i := 0; i < x.did; i++ {
			keys = append(keys, fmt.Sprint("k", i))
			reads = append(reads, read(keys[i], 5))
		}
		b.tell(1, 0, record.Transaction{Reads: reads})
		b.commit(1001, keys...)
		b.tell(2, 1, record.Transaction{Number: 1001})
		b.settle()
		var readers, writers []any
		for _, line := range b.lines[1:] {
			var it []any
			if err := json.Unmarshal([]byte(line), &it); err != nil {
				t.Fatal(err)
			}
			did := it[3].([]any)[0].([]any)
			if it[1].(float64) == 0 {
				readers = append(readers, did[0].([]any)...)
			} else {
				writers = append(writers, did[1].([]any)...)
			}
		}
		if len(readers) != x.did-x.left || len(writers) != x.did-x.left {
			t.Errorf("of %d reads and writes there are %d and %d", x.did, len(readers), len(writers))
		}
		b.overFences()
		n := b.core.counts
		if n.leftReads[tooMany] != 0 || n.leftWrites["more than 256 writes of one transaction"] != uint64(x.left) {
			t.Errorf("of %d are left out %v and %v", x.did, n.leftReads, n.leftWrites)
		}
	}
}

// TestReadsOfVersionsFromBeforeTheAudit: all such versions of a row are its initial state, and are counted.
func TestReadsOfVersionsFromBeforeTheAudit(t *testing.T) {
	b := newBench(t, Options{Sessions: 2})
	b.connect(1, 2)
	b.commit(1001, "a")
	b.tell(1, 0, record.Transaction{Number: 1001, Reads: []record.Read{read("a", 5), read("b", 7)}})
	b.tell(2, 0, record.Transaction{Reads: []record.Read{read("a", 1001), read("b", 7)}})
	b.settle()
	if n := b.core.counts; n.before != 3 || n.readsOffered != 4 {
		t.Errorf("%d of %d reads were of versions from before", n.before, n.readsOffered)
	}
}

// TestReadsOfVersionsThatArentOffered: they count as reads of the version before, and are counted.
func TestReadsOfVersionsThatArentOffered(t *testing.T) {
	b := newBench(t, Options{Sessions: 3})
	b.connect(1, 2, 3)
	b.commit(1001, "a") // somebody else's, with nothing offered before it
	b.commit(1002, "b")
	b.commit(1003, "b", "-c") // somebody else's
	b.tell(1, 0, record.Transaction{Number: 1002, Reads: []record.Read{read("a", 1001)}})
	b.tell(2, 0, record.Transaction{Reads: []record.Read{read("a", 1001), read("b", 1003), read("b", 1002)}})
	b.tell(3, 0, record.Transaction{Level: record.RepeatableRead, Snapshot: "1004:1004:", Absent: []record.Absence{absent("c")}})
	b.settle()
	if n := b.core.counts; n.readsFolded != 4 || n.before != 0 || n.readsOffered != 5 {
		t.Errorf("%d of %d reads were of versions that aren't offered, %d of versions from before", n.readsFolded, n.readsOffered, n.before)
	}
}

// TestFencesAreCountedApart: a fence is offered, but neither its read nor its write counts as the application's.
func TestFencesAreCountedApart(t *testing.T) {
	c := newBench(t, Options{Sessions: 2}).core
	c.counts.put(&entry{fence: true}, &resolution{})
	c.counts.put(&entry{its: record.Transaction{Reads: []record.Read{read("a", 5)}}}, &resolution{})
	if n := c.counts; n.offered != 2 || n.fences != 1 || n.readsOffered != 1 {
		t.Errorf("offered are %d, of them fences %d, with reads %d", n.offered, n.fences, n.readsOffered)
	}
}

// TestWhatIsFoldedTakesNoRoom: nobody looks up its writer by number any more.
func TestWhatIsFoldedTakesNoRoom(t *testing.T) {
	b := newBench(t, Options{Sessions: 2})
	b.commit(1001, "a")
	w := b.core.writers[1001]
	if w == nil || w.place == 0 {
		t.Fatalf("the writer is %v", w)
	}
	b.core.fold(w)
	if its := b.core.writers[1001]; its != nil || w.fate != folded || len(w.writes()) != 0 {
		t.Errorf("it is still there: %v", its)
	}
}

// TestFencesDontAskForMeetings: only what the application did counts from one meeting to the next.
func TestFencesDontAskForMeetings(t *testing.T) {
	b := newBench(t, Options{Sessions: 2})
	b.connect(1)
	b.core.meet(b.now)
	if b.core.since != 0 {
		t.Errorf("after fences it is %d", b.core.since)
	}
	b.tell(1, 1, record.Transaction{Reads: []record.Read{read("a", 5)}})
	if b.core.since != 1 {
		t.Errorf("after a transaction it is %d", b.core.since)
	}
}

// TestRowsOfManyVersionsAreLookedAtAgain: as long as a row has older versions, a later trim may forget them.
func TestRowsOfManyVersionsAreLookedAtAgain(t *testing.T) {
	b := newBench(t, Options{Sessions: 2})
	b.commit(1001, "a", "b")
	b.commit(1002, "a")
	b.commit(1003, "a")
	r := b.core.rows
	for i := 0; i < 2; i++ {
		r.trim(func(*version) bool { return false })
		if len(r.many) != 1 {
			t.Errorf("after %d looks that forget nothing there are %d", i+1, len(r.many))
		}
	}
}

// TestAsksThatArentFollowed: each is counted by its reason, and a transaction that did nothing else isn't offered.
func TestAsksThatArentFollowed(t *testing.T) {
	b := newBench(t, Options{Sessions: 2})
	b.connect(1, 2)
	b.tell(1, 0, record.Transaction{Asks: []record.Ask{{Why: "LIMIT"}, {Why: "LIMIT"}}})
	its := &fakeCondition{kind: "x", c: 1}
	b.tell(2, 0, record.Transaction{Asks: []record.Ask{{Why: "several tables"}, {Condition: its, From: b.now}}})
	b.settle()
	n := b.core.counts
	if n.asks != 4 || n.asksFollowed != 1 || n.leftAsks["LIMIT"] != 2 || n.leftAsks["several tables"] != 1 || len(n.leftAsks) != 2 {
		t.Errorf("%d, %d, %v", n.asks, n.asksFollowed, n.leftAsks)
	}
	if len(b.lines) != 2 || n.offered != 1 {
		t.Errorf("%d offered: %v", n.offered, b.lines)
	}
}

// TestFoundNoRowByACondition: a SELECT that found no row is checked if what it passed over is followed, and else isn't.
func TestFoundNoRowByACondition(t *testing.T) {
	its := &fakeCondition{kind: "x", c: 1}
	for _, x := range []struct {
		name    string
		ask     record.Ask
		level   record.Level
		checked uint64
	}{
		{"followed", record.Ask{Condition: its}, record.ReadCommitted, 1},
		{"undone", record.Ask{Why: "undone"}, record.ReadCommitted, 0},
		{"of a table that has changed", record.Ask{Condition: its, Columns: 1}, record.ReadCommitted, 0},
	} {
		t.Run(x.name, func(t *testing.T) {
			b := newBench(t, Options{Sessions: 2})
			b.connect(1)
			one := record.Transaction{Asks: []record.Ask{x.ask}, Reads: []record.Read{{Relation: 1, Key: "a", Version: 3}}}
			one.Did.Selects = []record.Select{{From: 0, To: 1}, {From: 1, To: 1, Ask: 1}}
			one.Touched = true
			b.tell(1, 0, one)
			b.settle()
			n := &b.core.counts.fresh
			if n.Selects.Checked != 1+x.checked || n.Selects.NotChecked[record.FoundNoRow] != 1-x.checked ||
				n.Transactions.Checked != x.checked || n.Transactions.InPart[someEmpty] != 1-x.checked {
				t.Errorf("%+v, %+v", n.Selects, n.Transactions)
			}
		})
	}
}

// TestSelectsOfReadsThatAreLost: a SELECT is checked if all that it rests on is, whether it made these reads or they had been
// made before; one of which no read was kept isn't.
func TestSelectsOfReadsThatAreLost(t *testing.T) {
	b := newBench(t, Options{Sessions: 2})
	b.connect(1)
	one := record.Transaction{Reads: []record.Read{
		{Relation: 1, Key: "a", Version: 3}, {Relation: 1, Key: "b", Version: 4, Identity: 1},
		{Relation: 1, Key: "b", Version: 5, Identity: 1}}, Beyond: 2}
	one.Did.Selects = []record.Select{
		{To: 1},                        // a
		{From: 1, To: 3},               // b, whose key may be another one by now
		{From: 3, To: 3, EarlierTo: 1}, // a again
		{From: 3, To: 3, EarlierFrom: 1, EarlierTo: 2}, // b again
		{From: 3, To: 3, EarlierTo: 2},                 // both
		{From: 3, To: 3, Unkept: 1},                    // what isn't kept
		{From: 3, To: 3, EarlierTo: 1, Unkept: 1},      // a, and what isn't kept
	}
	one.Did.Beyond, one.Touched = 2, true
	b.tell(1, 0, one)
	b.settle()
	its := &b.core.counts.fresh.Selects
	left := uint64(0)
	for _, n := range its.NotChecked {
		left += n
	}
	if its.Checked != 2 || its.InPart[someRows] != 2 || its.NotChecked[notKept] != 1 || left != 3 {
		t.Errorf("%+v", its)
	}
}
