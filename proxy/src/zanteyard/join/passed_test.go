package join

import (
	"flag"
	"math/rand"
	"testing"

	"zanteyard/record"
)

var stores = flag.Int("stores", 800, "random small histories with conditions")

// What a joiner made wrong on purpose believes.
const (
	oneRow       = "a key's rows are one"
	unknownHolds = "what isn't known holds"
	tooNew       = "a statement's snapshot is taken when it is answered"
	gapsIgnored  = "no change is missing"
	foundNothing = "what was returned isn't known"
	lastSnapshot = "a transaction at read committed has the snapshot of its last statement"
	inTheLog     = "what is in the log is visible"
	tooEarly     = "a transaction has ended before it has"
	cutOff       = "a limit cut nothing off"
	stillThere   = "a row that was read is still there"

	everChecked    = "each row has what it refers to"
	nothingRemoved = "nothing that rows refer to was removed"
)

// spoil makes what is reported of a transaction wrong.
func (s *store) spoil(t *storeTxn, it *record.Transaction) {
	if s.wrong == tooEarly && len(t.own) > 0 {
		it.Ended = it.Began
	}
	if s.wrong == lastSnapshot && it.Level == record.ReadCommitted {
		it.Level, it.Snapshot = record.RepeatableRead, t.shows
	}
	for i := range it.Asks {
		ask := &it.Asks[i]
		switch s.wrong {
		case tooNew:
			ask.From = it.Ended
			if it.Level == record.RepeatableRead {
				it.Level = record.ReadCommitted
			}
		case foundNothing:
			ask.Found = nil
		case cutOff:
			if len(ask.Found) > 1 {
				ask.Found = ask.Found[:1]
			}
		}
	}
}

// live lets a store's clients do things until so many have committed.
func (s *store) live(txns int) {
	for n := 0; len(s.done) < txns && n < 100*txns; n++ {
		s.step()
	}
	s.finish()
}

// TestPassingOverMakesUpNothing: if some order explains a small history, with what its conditions passed over, then some
// order explains what was offered of it, however the joiner comes to leave a part out. Every order is tried.
func TestPassingOverMakesUpNothing(t *testing.T) {
	r := rand.New(rand.NewSource(20261129))
	var whole, broken, byRows, found, values, passed, followed uint64
	var of, foundOf uint64 // histories of which nothing was left out, violated by conditions alone
	left := map[string]uint64{}
	for n := 0; n < *stores; n++ {
		s := newStore(t, r, "", Options{})
		s.live(3 + r.Intn(4))
		explained := s.explained(false)
		if explained != hasOrder(s.arcs(true)) {
			t.Fatalf("history %d: that it has an order is %v", n, explained)
		}
		offered := s.model.explained()
		passed, followed = passed+s.core.counts.passed, followed+s.core.counts.asksFollowed
		if s.core.counts.leftPassed[askContradicts] > 0 {
			t.Fatalf("history %d: what may have been seen lacks what was:\n%s\n%v", n, s, s.lines)
		}
		for reason, n := range s.core.counts.leftPassed {
			left[reason] += n
		}
		switch {
		case explained && !offered:
			t.Fatalf("history %d is explained, and what was offered of it isn't:\n%s\n%v", n, s, s.lines)
		case explained:
			whole++
		default:
			broken++
			alone := !hasOrder(s.arcs(false))
			if alone {
				byRows++
			}
			if s.whole && !alone {
				of++
				if !offered {
					foundOf++
				}
			}
			if !offered {
				found++
				if s.explained(true) {
					values++
				}
			}
		}
	}
	t.Logf("explained %d; violated %d, of these by rows alone %d; found %d, of these explained by values %d; of %d in which nothing "+
		"was lost and only conditions show it, %d found; %d questions, %d reads of registers; left out %v", whole, broken, byRows,
		found, values, of, foundOf, followed, passed, left)
	if whole < uint64(*stores)/10 || found < uint64(*stores)/20 {
		t.Error("too few are of one kind")
	}
}

// TestPassingOverInLongLives: the same over longer lives of a store whose clients come and go. It commits nothing that
// would leave what was committed without an order.
func TestPassingOverInLongLives(t *testing.T) {
	r := rand.New(rand.NewSource(12))
	var done, aborted, passed uint64
	for n := 0; n < *stores/20; n++ {
		s := newStore(t, r, "", Options{Conditions: []int{0, 2000}[r.Intn(2)]})
		s.keeps = true
		s.live(40)
		if path := s.model.cycle(false); path != nil {
			t.Fatalf("life %d has an order, and what was offered of it has none:\n%s\n%v", n, s, path)
		}
		done, aborted, passed = done+uint64(len(s.done)), aborted+uint64(s.aborted), passed+s.core.counts.passed
	}
	t.Logf("%d committed, %d aborted, %d reads of registers", done, aborted, passed)
	if passed < done || aborted < done/50 {
		t.Error("that is too little to find anything")
	}
}

// TestPassingOverMakesUpNoBrokenSnapshot: what PostgreSQL does at repeatable read keeps snapshot isolation, and so does
// what was offered of it.
func TestPassingOverMakesUpNoBrokenSnapshot(t *testing.T) {
	r := rand.New(rand.NewSource(13))
	var done, passed, skewed uint64
	for n := 0; n < *stores/20; n++ {
		s := newStore(t, r, "", Options{Snapshot: true})
		s.repeats = true
		s.live(30)
		if path := s.model.cycle(true); path != nil {
			t.Fatalf("life %d keeps snapshot isolation, and what was offered of it doesn't:\n%s\n%v", n, s, path)
		}
		if s.model.cycle(false) != nil {
			skewed++
		}
		done, passed = done+uint64(len(s.done)), passed+s.core.counts.passed
	}
	t.Logf("%d committed, %d reads of registers; %d of %d lives aren't serializable", done, passed, skewed, *stores/20)
	if passed < done || skewed < uint64(*stores)/80 {
		t.Error("that is too little to find anything")
	}
}

// TestWrongPassing: each joiner that is made wrong on purpose makes a violation up.
func TestWrongPassing(t *testing.T) {
	for _, wrong := range []string{oneRow, unknownHolds, tooNew, gapsIgnored, foundNothing, lastSnapshot, inTheLog, tooEarly,
		cutOff, stillThere, everChecked, nothingRemoved} {
		r := rand.New(rand.NewSource(7))
		for n := 0; ; n++ {
			if n == 4**stores {
				t.Errorf("nothing was found, although a joiner believes: %s", wrong)
				break
			}
			s := newStore(t, r, wrong, Options{})
			s.keeps = true
			s.live(25)
			if s.model.cycle(false) != nil {
				t.Logf("life %d: %s", n, wrong)
				break
			}
		}
	}
}
