package join

import (
	"flag"
	"fmt"
	"testing"
	"time"

	"zanteyard/record"
)

var worlds = flag.Int("worlds", 60, "random lives of a proxy over a store that is serializable, and keeps no order in time")

// Sessions are handed from connection to connection, and fences are written that nobody ran, at moments that are met
// badly: what the application did has an order, and so has what was offered of it, with the sessions and the fences.
func TestHandingOnMakesUpNothing(t *testing.T) {
	var offered, handed, fences, cuts, commits, held uint64
	for seed := int64(0); seed < int64(*worlds); seed++ {
		w := newWorld(t, seed, "")
		w.live1(12)
		if path := w.model.cycle(false); path != nil {
			t.Fatalf("seed %d: what was committed has an order, and what was offered hasn't:\n%s", seed, path)
		}
		n := w.core.counts
		offered, fences, handed = offered+n.offered, fences+n.fences, handed+n.handed
		commits, cuts, held = commits+uint64(w.ids), cuts+uint64(w.cuts), held+w.held
	}
	t.Logf("of %d transactions %d were offered; %d fences, %d cuts; handed on %d times; %d of cursors WITH HOLD", commits, offered-fences,
		fences, cuts, handed, held)
	if held < uint64(*worlds) || handed < uint64(*worlds) || cuts < uint64(*worlds) || offered-fences < commits/4 {
		t.Error("that is too little to find anything")
	}
}

// Each joiner that is made wrong on purpose is found to be wrong.
func TestWrongJoiners(t *testing.T) {
	for _, one := range []fault{byTheClock, spanning, late, early, wrongOrder, hasty, fetched, disordered} {
		findWrong(t, one, false)
	}
}

// findWrong fails unless a joiner with a fault makes a violation up.
func findWrong(t *testing.T, wrong fault, snapshots bool) {
	for seed := int64(0); seed < 20*int64(*worlds); seed++ {
		w := newWorld(t, seed, wrong)
		w.snapshot = snapshots
		w.live1(12)
		if path := w.model.cycle(snapshots); path != nil {
			t.Logf("%s: seed %d: a cycle of %d", wrong, seed, len(path))
			return
		}
	}
	t.Errorf("nothing was found, although %s", wrong)
}

// straddle is a history at repeatable read whose only order has connection 3 before connection 2, which had ended
// before 3 began: 1 read y before 2 wrote it, and writes x after 3 has read it. between is called when 2 has ended.
func straddle(b *bench, between func()) {
	b.connect(1, 2)
	began := b.now
	b.later(time.Millisecond)
	b.commit(1001, "y")
	b.tell(2, 0, record.Transaction{Number: 1001})
	between()
	b.later(time.Millisecond)
	b.tell(3, 0, record.Transaction{Reads: []record.Read{read("x", 7)}})
	b.commit(1005, "x")
	b.tell(1, 0, record.Transaction{Began: began, Number: 1005, Reads: []record.Read{read("y", 7)}})
	b.settle()
}

// How a session is handed on: fences of the two connections would make a cycle, as time does; a quiet moment makes
// none.
func TestWhatGrantsTheOrderOfConnections(t *testing.T) {
	b := newBench(t, Options{Sessions: 3})
	for _, line := range []string{
		`["offer",0,0,[[[[1,"init"],[2,"init"]],[1]]]]`, // connection 1
		`["offer",1,0,[[[[2,"init"]],[2]],[[[0,"init"]],[0]]]]`,
		`["offer",2,0,[[[[0,1,1]],[0]],[[[1,"init"]],[]]]]`,
	} {
		b.line([]byte(line))
	}
	if b.model.explained() {
		t.Error("with a fence of each of the two connections there is an order")
	}
	for _, one := range []struct {
		name     string
		sessions int
		between  func(b *bench)
		want     bool
		offered  uint64
	}{
		{"each has a session of its own", 3, func(b *bench) { b.connect(3) }, true, 3},
		{"each has one, and a meeting comes between", 3, func(b *bench) {
			b.connect(3)
			b.later(time.Millisecond).core.meet(b.now)
			b.later(time.Millisecond)
		}, true, 2 + 3}, // what ran across the meeting is folded
		{"no session is handed on without a moment", 2, func(b *bench) {
			b.core.enter(record.Connection{Number: 2, Ended: true})
			b.connect(3)
		}, true, 2},
		{"a session is handed on at a moment", 2, func(b *bench) {
			b.core.enter(record.Connection{Number: 2, Ended: true})
			b.later(time.Millisecond).quiet()
			b.connect(3)
		}, true, 2},
	} {
		t.Run(one.name, func(t *testing.T) {
			b := newBench(t, Options{Sessions: one.sessions, Late: time.Second})
			straddle(b, func() { one.between(b) })
			if got := b.model.explained(); got != one.want || b.core.counts.offered != one.offered {
				t.Errorf("%d were offered, and that they have an order is %v: %v\n%v", b.core.counts.offered, got, b.core.counts.folded,
					b.lines)
			}
		})
	}
}

// The fences of a meeting, as lines: in each session after what it had, with one that comes after all the first ones
// and before all the second ones. A session without anything has one.
func TestFences(t *testing.T) {
	b := newBench(t, Options{Sessions: 4})
	b.connect(1, 2)
	for connection := uint64(1); connection < 3; connection++ {
		b.tell(connection, 0, record.Transaction{Reads: []record.Read{read("a", 7)}})
	}
	if n := b.later(time.Millisecond).core.meet(b.now); n != 5 {
		t.Errorf("there are %d", n)
	}
	b.later(time.Millisecond)
	b.tell(1, 1, record.Transaction{Reads: []record.Read{read("a", 7)}})
	b.settle()
	for i, want := range []string{
		`["offer",0,0,[[[[1,"init"]],[]],[[[0,"init"]],[0]],[[[0,1,1]],[0]],[[[1,"init"]],[]]]]`,
		`["offer",1,0,[[[[1,"init"]],[]],[[[0,0,1]],[0]]]]`,
		`["offer",2,0,[[[[0,0,2]],[0]]]]`,
		`["offer",3,0,[[[[0,2,0]],[0]]]]`,
	} {
		if got := b.lines[1+i]; got != want {
			t.Errorf("offered %s, wanted %s", got, want)
		}
	}
	if marks, found := b.model.settled(); !found || fmt.Sprint(marks) != "[2 2 0 0]" {
		t.Errorf("what can be forgotten is %v", marks)
	}
	if n := b.core.meet(b.now); n != 4 { // the next one's first fence is in the only session with something since
		t.Errorf("at the next meeting there are %d", n)
	}
	if n := b.core.meet(b.now); n != 4 {
		t.Errorf("at one with nothing since there are %d", n)
	}
	b.settle()
	if marks, _ := b.model.settled(); fmt.Sprint(marks) != "[6 3 2 2]" {
		t.Errorf("then what can be forgotten is %v", marks)
	}
}

// What had ended before a meeting's moment, and is reported after it, isn't offered: its session has the moment's
// fences already. What was reported in time is, and so is what the connection does next.
func TestReportedAfterTheFences(t *testing.T) {
	b := newBench(t, Options{Sessions: 2, Late: time.Second})
	b.connect(1)
	began := b.now
	b.tell(1, 0, record.Transaction{Reads: []record.Read{read("a", 7)}})
	b.later(time.Millisecond)
	it := record.Transaction{Began: began.Add(time.Millisecond), Ended: b.now, Reads: []record.Read{read("a", 7)}}
	b.later(time.Millisecond).core.meet(b.now)
	b.tell(1, 1, it)
	b.later(time.Millisecond)
	b.tell(1, 2, record.Transaction{Reads: []record.Read{read("a", 7)}})
	b.settle()
	if n := b.core.counts; n.offered-n.fences != 2 || n.folded[acrossMoment] != 1 {
		t.Errorf("offered %d, folded %v", n.offered-n.fences, n.folded)
	}
}

// A moment comes after the end of everything that is named, even if the clock was read before that was reported; and no
// two moments are at one time.
func TestMomentsComeAfterWhatIsNamed(t *testing.T) {
	b := newBench(t, Options{Sessions: 2, Late: time.Second})
	b.connect(1, 2)
	read0 := []record.Read{read("a", 7)}
	began, clock := b.now, b.later(time.Millisecond).now
	ended := clock.Add(5 * time.Millisecond)
	b.core.tell(record.Transaction{Connection: 1, Began: began, Ended: ended, Reads: read0})
	b.core.meet(clock)
	if at := b.core.moments.last(); !at.After(ended) {
		t.Errorf("the moment is at %v, and something ends at %v", at, ended)
	}
	b.core.tell(record.Transaction{Connection: 2, Began: clock.Add(1), Ended: ended.Add(time.Millisecond), Reads: read0})
	if n := b.core.counts.folded[acrossMoment]; n != 1 {
		t.Errorf("%d of those that span it are folded", n)
	}
	first := b.core.moments.last()
	b.core.quiet(first)
	if !b.core.moments.last().After(first) {
		t.Error("two moments are at one time")
	}
}

// Without room for all of a moment's fences none is written, and a round comes all the same.
func TestNoRoomForFences(t *testing.T) {
	b := newBench(t, Options{Sessions: 2, Limit: 8})
	b.connect(1, 2)
	tell := func(place uint64) {
		b.later(time.Millisecond)
		for connection := uint64(1); connection < 3; connection++ {
			b.tell(connection, place, record.Transaction{Reads: []record.Read{read("a", 7)}})
		}
		b.later(time.Millisecond)
	}
	tell(0)
	tell(1)
	for i, want := range []int{3, 0} {
		if n := b.core.meet(b.now); n != want {
			t.Errorf("meeting %d has %d fences, wanted %d", i, n, want)
		}
		tell(uint64(2 + i))
	}
	b.settle()
	if n := b.core.counts; n.offered != 7 || n.folded[noRoom] != 4 {
		t.Errorf("offered %d, folded %v", n.offered, n.folded)
	}
	if !b.core.wantsMeeting(b.now.Add(-time.Hour), nobody) {
		t.Error("there is no room, and no meeting is wanted to make some")
	}
	marks, found := b.model.settled()
	if !found || !b.core.cut(marks) || b.core.wantsMeeting(b.now.Add(-time.Hour), nobody) {
		t.Errorf("after a cut at %v there is still no room", marks)
	}
}
