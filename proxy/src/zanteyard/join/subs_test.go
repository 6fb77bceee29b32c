package join

import (
	"reflect"
	"testing"
	"time"

	"zanteyard/record"
)

// unsub returns the numbers of the commits that still have to be asked for.
func (b *bench) unsub() []uint32 {
	var its []uint32
	for _, w := range b.core.unsub {
		its = append(its, w.number)
	}
	return its
}

// An unknown version may belong to a subtransaction of the transactions with lower numbers that wrote the row: the last
// 16 of them are asked for theirs, once each, and the read waits for the answer.
func TestWhichSubtransactionsAreAskedFor(t *testing.T) {
	counted := func(from, to uint32) (its []uint32) {
		for ; from >= to; from-- {
			its = append(its, from)
		}
		return its
	}
	for _, one := range []struct {
		name    string
		commits int // of the numbers from 1001
		version uint32
		want    []uint32
	}{
		{"no commit wrote the row", 0, 1100, nil},
		{"all of a few", 3, 1100, counted(1003, 1001)},
		{"sixteen", 16, 1100, counted(1016, 1001)},
		{"of more the last sixteen", 20, 1100, counted(1020, 1005)},
	} {
		t.Run(one.name, func(t *testing.T) {
			b := newBench(t, Options{Late: time.Second})
			b.core.inspects = true
			b.connect(1)
			b.commit(1200, "other") // so that the numbers below aren't old ones
			for n := 0; n < one.commits; n++ {
				b.commit(uint32(1001+n), "a")
			}
			b.tell(1, 0, record.Transaction{Reads: []record.Read{read("a", one.version)}})
			b.pass()
			if got := b.unsub(); !reflect.DeepEqual(got, one.want) {
				t.Errorf("asked for %v, wanted %v", got, one.want)
			}
			if waits := len(b.lines) == 1; waits != (one.want != nil) {
				t.Errorf("it waits for the answer: %v; offered: %v", waits, b.lines[1:])
			}
			b.pass()
			if got := b.unsub(); !reflect.DeepEqual(got, one.want) {
				t.Errorf("asked again: %v", got)
			}
		})
	}
}

// A commit after the version's number can't be the one that the subtransaction belongs to, and one whose record's place
// isn't known can't be looked into.
func TestCommitsThatArentLookedInto(t *testing.T) {
	b := newBench(t, Options{Late: time.Second})
	b.core.inspects = true
	b.connect(1)
	b.commit(1001, "a")
	b.place += 100
	b.core.commit(record.Commit{Number: 1002, LSN: b.place, Writes: []record.Write{{Relation: 1, Key: "a"}}})
	b.commit(1005, "a")
	b.commit(1009, "a")
	b.tell(1, 0, record.Transaction{Reads: []record.Read{read("a", 1006)}})
	b.pass()
	if got, want := b.unsub(), []uint32{1005, 1001}; !reflect.DeepEqual(got, want) {
		t.Errorf("asked for %v, wanted %v", got, want)
	}
}

// The answers come in the order of the questions, and the read finds its writer by them; without an answer it is left
// out.
func TestAnswersSayWhoseAVersionIs(t *testing.T) {
	for _, one := range []struct {
		name    string
		answers [][]uint32
		want    string
		left    uint64
	}{
		{"the first one's", [][]uint32{{1011, 1012}, {1008}}, `["offer",1,0,[[[[1,0,1]],[]]]]`, 0},
		{"the other one's", [][]uint32{{1011}, {1008, 1012}}, `["offer",1,0,[[[[1,0,0]],[]]]]`, 0},
		{"neither's", [][]uint32{{1011}, {1008}}, `["offer",1,0,[[[],[]]]]`, 1},
		{"no answer", nil, `["offer",1,0,[[[],[]]]]`, 1},
	} {
		t.Run(one.name, func(t *testing.T) {
			b := newBench(t, Options{Late: time.Second})
			b.core.inspects = true
			b.connect(1, 2)
			b.commit(1001, "a")
			b.commit(1010, "a")
			b.tell(1, 0, record.Transaction{Number: 1001})
			b.tell(1, 1, record.Transaction{Number: 1010})
			b.tell(2, 0, record.Transaction{Reads: []record.Read{read("a", 1012)}})
			b.pass()
			writers := b.core.unsub
			if len(writers) != 2 {
				t.Fatalf("asked for %v", b.unsub())
			}
			b.core.unsub = nil
			before := len(b.lines)
			b.core.answered(writers, one.answers)
			b.settle()
			if its := b.lines[before:]; len(its) != 1 || its[0] != one.want {
				t.Errorf("offered: %v, wanted %s", its, one.want)
			}
			if left := b.core.counts.leftReads[versionUnknown]; left != one.left {
				t.Errorf("%d reads are left out, wanted %d", left, one.left)
			}
		})
	}
}

// At the end of a page, the place where the next record is inserted comes after the next page's header: 24 bytes, or 40
// where a file of the log begins.
func TestHowFarTheSlotIs(t *testing.T) {
	const page = 8192
	for _, one := range []struct {
		progress, place uint64
		want            bool
	}{
		{100, 100, true},
		{101, 100, true},
		{100, 101, false},
		{page, page + 24, true},
		{page, page + 40, true},
		{page, page + 41, false},
		{7 * page, 7*page + 40, true},
		{7 * page, 8*page + 24, false},
		{page - 8, page + 24, false},
		{page + 8, page + 24, false},
		{page, page - 8, true},
	} {
		if got := reached(one.progress, one.place); got != one.want {
			t.Errorf("from %d it has come to %d: %v", one.progress, one.place, got)
		}
	}
}

// TestReadsWhatItUndid: a version that the transaction itself wrote, and undid by ROLLBACK TO, is its own, though the slot
// doesn't have it. One of another number isn't.
func TestReadsWhatItUndid(t *testing.T) {
	for version, isOwn := range map[uint32]bool{1001: true, 1002: true, 1003: false} {
		b := newBench(t, Options{Sessions: 2})
		b.connect(1)
		b.core.inspects = false
		b.tell(1, 0, record.Transaction{Number: 1001, Versions: []uint32{1001, 1002}, Reads: []record.Read{read("b", version)},
			Did: record.Did{Selects: []record.Select{{To: 1}}, Writes: 2, Written: 2}})
		b.commit(1001, "a")
		b.settle()
		b.core.round()
		its := b.totals()
		if own := its.Own == 1 && its.RowsRead.Checked == 1 && its.Selects.Checked == 1; own != isOwn {
			t.Errorf("version %d: counted are %+v", version, its)
		}
	}
}
