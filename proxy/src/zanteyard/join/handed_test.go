package join

import (
	"testing"
	"time"

	"zanteyard/record"
)

// A session counts as handed on once another connection's transaction is in it, after one of the previous connection.
func TestHowOftenSessionsAreHandedOn(t *testing.T) {
	b := newBench(t, Options{Sessions: 1})
	number := uint64(1000)
	run := func(connection, place uint64, want uint64) {
		t.Helper()
		number++
		b.commit(uint32(number), "a")
		b.tell(connection, place, record.Transaction{Number: number})
		if n := b.core.counts.handed; n != want {
			t.Errorf("after %d transactions it is %d, and should be %d", number-1000, n, want)
		}
	}
	quiet := func() {
		b.later(time.Millisecond)
		b.quiet()
		b.later(time.Millisecond)
	}
	end := func(connection uint64) {
		b.core.enter(record.Connection{Number: connection, Ended: true})
		quiet()
	}
	b.connect(1)
	run(1, 0, 0)
	b.later(time.Millisecond).core.meet(b.now)
	b.later(time.Millisecond)
	run(1, 1, 0)
	end(1)
	b.connect(2)
	run(2, 0, 1)
	run(2, 1, 1)
	end(2)
	b.connect(3)
	end(3)
	b.connect(4)
	run(4, 0, 2)
	b.settle()
	if n := len(b.model.sessions[0].its); n != 6 {
		t.Errorf("%d are offered", n)
	}
}

// A quiet moment other than a meeting's folds about one transaction of each busy session: it is worth that if four
// connections wait for each busy session, if none is busy, or if connections wait for long.
func TestWhenAQuietMomentIsWorthwhile(t *testing.T) {
	for _, one := range []struct {
		stale, busy, queue int
		passed             time.Duration
		want               bool
	}{
		{0, 0, 1, time.Minute, false},
		{1, 0, 0, time.Minute, true},
		{1, 0, 0, leastBetween, true},
		{1, 0, 0, leastBetween - 1, false},
		{1, 1, 0, time.Minute, false},
		{3, 1, 0, time.Minute, false},
		{4, 1, 0, time.Minute, true},
		{7, 2, 0, time.Minute, false},
		{8, 2, 0, time.Minute, true},
		{1, 5, 1, 2 * time.Second, true},
		{1, 5, 1, 2*time.Second - 1, false},
		{1, 5, 0, time.Minute, false},
	} {
		b := newBench(t, Options{Sessions: 10, Between: 2 * time.Second})
		for n, s := range b.core.sessions {
			if n >= one.stale {
				s.tenant = &connection{}
			}
			s.last = b.now
		}
		b.core.moments.set(b.now)
		b.later(one.passed)
		b.core.queue = make([]*connection, one.queue)
		if got := b.core.wantsMoment(func() int { return one.busy }); got != one.want {
			t.Errorf("%+v: %v", one, got)
		}
	}
	b := newBench(t, Options{Sessions: 10}) // as many are free as would be
	for n, s := range b.core.sessions {
		if n < 4 {
			s.last = b.now
		}
		if n >= 9 {
			s.tenant = &connection{}
		}
	}
	b.core.moments.set(b.now)
	b.later(time.Minute)
	if b.core.wantsMoment(func() int { return 0 }) {
		t.Error("one is wanted although five sessions are free, and four aren't")
	}
}

// The inbox's limit is in bytes, including keys and statements' texts.
func TestHowMuchRoomATransactionTakes(t *testing.T) {
	for _, one := range []struct {
		its  record.Transaction
		want int
	}{
		{record.Transaction{}, 256},
		{record.Transaction{Reads: []record.Read{read("abc", 1), read("de", 1)}}, 256 + 2*48 + 5},
		{record.Transaction{Absent: []record.Absence{absent("a")}}, 256 + 48},
		{record.Transaction{Versions: []uint32{1, 2}}, 256 + 8},
		{record.Transaction{Statements: []record.Statement{{Text: "BEGIN"}, {Parameters: []string{"x"}}}}, 256 + 5 + 2*64 + 17},
	} {
		if got := sizeOf(&one.its); got != one.want {
			t.Errorf("%+v takes %d, and should take %d", one.its, got, one.want)
		}
	}
}
