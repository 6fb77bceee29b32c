package join

import (
	"testing"
	"time"

	"zanteyard/record"
)

// tellFar makes another machine's proxy report a transaction. Its clock is wrong, by an hour or by about the time of
// one or two transactions. A tick is made every five milliseconds, and arrives some time later.
func (w *world) tellFar(it record.Transaction) {
	const tick = 5 * time.Millisecond
	began := it.Began.Add(-time.Duration(w.r.Intn(3)) * tick).Truncate(tick)
	wrong := time.Duration(w.r.Intn(41)-20) * time.Millisecond
	if it.Connection%4 == 0 {
		wrong = time.Hour
	}
	it.Began, it.Ended = it.Began.Add(wrong), it.Ended.Add(wrong)
	w.later2(func() {
		if w.fault != trusting {
			it.After, it.Known = began, w.now
		}
		before := w.named()
		w.core.tell(it)
		w.far += w.named() - before
	})
}

// named returns how many transactions have a number.
func (w *world) named() uint64 {
	n := uint64(0)
	for _, s := range w.core.sessions {
		n += s.next
	}
	return n
}

// Half of the connections are those of a proxy on another machine, with another clock: nothing is made up.
func TestElsewhereMakesUpNothing(t *testing.T) {
	var offered, fences, handed, commits, far uint64
	for seed := int64(0); seed < int64(*worlds); seed++ {
		w := newWorld(t, seed, "")
		w.elsewhere = true
		w.live1(12)
		if path := w.model.cycle(false); path != nil {
			t.Fatalf("seed %d: what was committed has an order, and what was offered hasn't:\n%s", seed, path)
		}
		n := w.core.counts
		offered, fences, handed, commits = offered+n.offered, fences+n.fences, handed+n.handed, commits+uint64(w.ids)
		far += w.far
	}
	t.Logf("of %d transactions %d were offered, %d of them from elsewhere; handed on %d times", commits, offered-fences, far, handed)
	if handed < uint64(*worlds) || far < commits/20 {
		t.Error("that is too little to find anything")
	}
}

// If the other machine's clock is trusted, the test finds that to be wrong.
func TestAnotherClock(t *testing.T) {
	for seed := int64(0); seed < 20*int64(*worlds); seed++ {
		w := newWorld(t, seed, trusting)
		w.elsewhere = true
		w.live1(12)
		if path := w.model.cycle(false); path != nil {
			t.Logf("seed %d: %d transactions make a cycle", seed, len(path))
			return
		}
	}
	t.Error("nothing was found")
}
