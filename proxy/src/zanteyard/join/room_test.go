package join

import (
	"testing"
	"time"

	"zanteyard/record"
)

// At the limit transactions are folded, but there is room for a moment's fences, since a cut needs them.
func TestLimit(t *testing.T) {
	b := newBench(t, Options{Sessions: 2, Limit: 20})
	b.connect(1)
	for n := uint64(0); n < 30; n++ {
		b.commit(uint32(1001+n), "a")
		b.tell(1, n, record.Transaction{Number: 1001 + n})
	}
	if n := b.core.counts.folded[noRoom]; n != 14 {
		t.Errorf("%d are folded for want of room", n)
	}
	if n := b.core.meet(b.now); n != 2 {
		t.Errorf("there are %d fences", n)
	}
	b.settle()
	marks, found := b.model.settled()
	if !found || marks[0] != 17 || !b.core.cut(marks) {
		t.Errorf("right marks are refused: %v", marks)
	}
	b.commit(1100, "a")
	b.tell(1, 50, record.Transaction{Number: 1100})
	b.settle()
	if got := len(b.model.sessions[0].its); got != 18 {
		t.Errorf("after a cut there are %d", got)
	}
}

// An audit with a small limit has fewer sessions, so that their fences leave room for transactions.
func TestSessionsOfASmallLimit(t *testing.T) {
	for _, one := range []struct{ sessions, limit, want int }{
		{64, 4096, 64}, {64, 100, 25}, {3, 100, 3}, {0, 8, 2}, {9, 1, 9}, {0, 0, 256}, {1000, 1 << 30, 256},
	} {
		if got := (Options{Sessions: one.sessions, Limit: one.limit}).withDefaults().Sessions; got != one.want {
			t.Errorf("%+v: %d sessions", one, got)
		}
	}
}

// TestUnsent: a transaction whose reads weren't sent is folded, even if its connection has got a session since.
func TestUnsent(t *testing.T) {
	b := newBench(t, Options{Sessions: 1})
	b.connect(1)
	b.connect(2)
	if its := b.core.unaudited(); len(its) != 1 || its[0] != 2 {
		t.Errorf("the connections %v have no session", its)
	}
	b.commit(1001, "a")
	b.tell(1, 0, record.Transaction{Number: 1001, Unsent: 3})
	b.settle()
	if n := len(b.model.sessions[0].its); n != 0 || b.core.counts.folded[noSession] != 1 || b.core.counts.leftReads[noSession] != 3 {
		t.Errorf("%d are offered, and folded are %v", n, b.core.counts.folded)
	}
}

func TestWrongMarks(t *testing.T) {
	b := newBench(t, Options{Sessions: 2})
	b.connect(1)
	b.commit(1001, "a")
	b.tell(1, 0, record.Transaction{Number: 1001})
	b.settle()
	for _, marks := range [][]uint64{nil, {0}, {0, 0, 0}, {2, 0}, {0, 1}} {
		if b.core.cut(marks) {
			t.Errorf("the marks %v are taken", marks)
		}
	}
	if !b.core.cut([]uint64{1, 0}) || b.core.cut([]uint64{0, 0}) {
		t.Error("marks go back")
	}
}

// More connections than sessions: the others wait, and get the session of one that has ended or that is idle.
func TestConnectionsBeyondTheSessions(t *testing.T) {
	b := newBench(t, Options{Sessions: 1, Idle: time.Second})
	b.connect(1, 2, 3)
	run := func(connection, place, number uint64) {
		b.commit(uint32(number), "a")
		b.tell(connection, place, record.Transaction{Number: number})
	}
	run(1, 0, 1001)
	run(2, 0, 1002)
	b.core.enter(record.Connection{Number: 1, Ended: true})
	run(2, 1, 1003) // there is no quiet moment between this one and the first connection's
	b.quiet()
	run(2, 2, 1006)
	b.later(2 * time.Second)
	b.core.reseat()
	b.quiet()
	for number := uint64(10); number < 20; number++ { // they come and go, and wait for nothing
		b.connect(number)
		b.core.enter(record.Connection{Number: number, Ended: true})
	}
	if len(b.core.queue) != 1 || len(b.core.connections) != 2 {
		t.Errorf("%d wait, and %d are there", len(b.core.queue), len(b.core.connections))
	}
	run(3, 0, 1004)
	run(2, 3, 1005)
	b.settle()
	if got, want := b.lines[1], `["offer",0,0,[[[[1,"init"]],[1]],[[[1,0,0]],[1]],[[[1,0,1]],[1]]]]`; got != want {
		t.Errorf("offered %s, wanted %s", got, want)
	}
	if n := b.core.counts.folded[noSession]; n != 3 {
		t.Errorf("%d are folded for want of a session", n)
	}
}

// Another database's tables may have the same identifiers.
func TestOtherDatabase(t *testing.T) {
	b := newBench(t, Options{})
	b.core.database = "shop"
	b.core.enter(record.Connection{Number: 1, Database: "shop"})
	b.core.enter(record.Connection{Number: 2, Database: "other"})
	for connection := uint64(1); connection < 3; connection++ {
		b.tell(connection, 0, record.Transaction{Reads: []record.Read{read("a", 5)}})
	}
	b.settle()
	if n := b.core.counts; n.offered != 1 || n.folded[elsewhere] != 1 {
		t.Errorf("offered %d, folded %v", n.offered, n.folded)
	}
}

// A sample is of connections, and about as large as it was asked for.
func TestSample(t *testing.T) {
	b := newBench(t, Options{Sample: 0.25})
	n := 0
	for number := uint64(0); number < 10_000; number++ {
		if b.core.sampled(number) {
			n++
		}
	}
	if n < 2300 || n > 2700 {
		t.Errorf("%d of 10,000 are in a sample of a quarter", n)
	}
}

// 32-bit numbers: which of them were used up before the audit began.
func TestOldNumbers(t *testing.T) {
	for _, one := range []struct {
		base, newest uint32
		xmin         uint32
		want         bool
	}{
		{1000, 1000, 999, true},
		{1000, 1000, 1000, false},
		{1000, 1_000_000, 1_500_000, false}, // a subtransaction's may be above all commits
		{1000, 1_000_000, 3_000_000_000, true},
		{1000, 1000, 2, true},
		{4_294_967_000, 500, 4_294_966_999, true}, // across the end of the numbers
		{4_294_967_000, 500, 4_294_967_290, false},
		{4_294_967_000, 500, 100, false},
		{4_294_967_000, 500, 3_000_000_000, true},
	} {
		b := newBench(t, Options{})
		b.core.base = one.base
		b.core.commit(record.Commit{Number: one.newest})
		if got := b.core.isOld(one.xmin); got != one.want {
			t.Errorf("%+v: %v", one, got)
		}
	}
	b := newBench(t, Options{})
	for n := uint64(0); n < 3; n++ { // and when nearly all have been used up, no number is known to be old
		b.core.commit(record.Commit{Number: uint32(base + (n+1)<<30)})
	}
	if b.core.isOld(999) {
		t.Error("a number counts as old although it may be new")
	}
}

// The inbox drops what it has no room for, but no connections.
func TestInbox(t *testing.T) {
	b := NewInbox(2000)
	for n := 0; n < 20; n++ {
		b.Connection(record.Connection{Number: uint64(n)})
		b.Transaction(record.Transaction{Place: uint64(n)})
	}
	its, lost := b.take() // nothing is kept of those that are dropped: they have no number and wrote nothing
	connections := 0
	for _, one := range its {
		if one.connection != nil {
			connections++
		}
	}
	if connections != 20 || lost == 0 || uint64(len(its)-20)+lost != 20 {
		t.Errorf("%d connections of %d messages, %d lost", connections, len(its), lost)
	}
	for n := 0; n < 2*mostShapes; n++ {
		b.Unseen(string(rune('a'+n%7))+string(rune(n)), "a reason", true)
		b.Unseen("the same", "a reason", true)
	}
	shapes, _, _, _ := b.counted(false)
	total := uint64(0)
	for _, one := range shapes {
		total += one.Count
	}
	if len(shapes) != mostShapes+1 || shapes[0].Shape != "the same" || total != 4*mostShapes {
		t.Errorf("%d shapes, the first %+v, %d in all", len(shapes), shapes[0], total)
	}
	b.Close()
	b.Transaction(record.Transaction{})
	if its, _ := b.take(); len(its) != 0 {
		t.Error("a closed inbox takes something")
	}
}

// TestUnsentHasASeat: a connection of another machine that has only read while it had no session gets one for what it reads
// next, and keeps it while it works: until then its proxy sends none of its reads.
func TestUnsentHasASeat(t *testing.T) {
	const connections = 6
	b := newBench(t, Options{Sessions: 8, First: 2})
	for number := uint64(1); number <= connections; number++ {
		b.core.enter(record.Connection{Number: number, Proxy: "elsewhere"})
	}
	places := map[uint64]uint64{}
	for round := 0; round < 3; round++ {
		b.later(time.Second)
		b.core.meet(b.now)
		b.later(time.Millisecond)
		for number := uint64(1); number <= connections; number++ {
			it := record.Transaction{Reads: []record.Read{read("a", 7)}}
			if b.core.connections[number].session == nil {
				it = record.Transaction{Unsent: 1}
			}
			b.tell(number, places[number], it)
			places[number]++
		}
		b.settle()
		if left := len(b.core.unaudited()); left > 0 {
			t.Errorf("after round %d %d connections have no session", round, left)
		}
	}
	if n := b.core.counts.folded[noSession]; n != connections-2 {
		t.Errorf("%d transactions are left out", n)
	}
}
