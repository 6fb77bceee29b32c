package join

import (
	"fmt"
	"testing"

	"zanteyard/record"
)

// TestInboxWakes: the joiner is woken only if there is much.
func TestInboxWakes(t *testing.T) {
	b := NewInbox(10_000)
	for n := 0; n < 40 && len(b.wake) == 0; n++ {
		b.Transaction(record.Transaction{})
		if its := len(b.its); (len(b.wake) > 0) != (b.bytes > 5_000) {
			t.Fatalf("with %d transactions, %d bytes: woken %d", its, b.bytes, len(b.wake))
		}
	}
	if len(b.wake) == 0 {
		t.Error("a full inbox doesn't wake the joiner")
	}
}

// TestInboxWakesForConnections: while nothing happens, the joiner's steps are long.
func TestInboxWakesForConnections(t *testing.T) {
	b := NewInbox(10_000)
	b.Connection(record.Connection{Number: 1})
	if len(b.wake) == 0 {
		t.Error("a connection that begins doesn't wake the joiner")
	}
	<-b.wake
	b.Connection(record.Connection{Number: 1, Ended: true})
	if len(b.wake) > 0 {
		t.Error("a connection that ends wakes the joiner")
	}
}

// TestInboxCountsAnew: an audit doesn't get the counts of a previous one, and none of those are lost.
func TestInboxCountsAnew(t *testing.T) {
	b := NewInbox(sizeOf(&record.Transaction{}))
	count := func(n uint64) {
		b.UnseenMany("a", "why", true, n)
		for shape := 0; shape < mostShapes; shape++ {
			b.Unseen(fmt.Sprint(shape), "why", true)
		}
		b.Lose("gone", n)
		b.Transaction(record.Transaction{})
		b.Transaction(record.Transaction{}) // there is no room for it
	}
	wanted := func(when string, isLast bool, shapes int, most, gone, lost uint64) {
		t.Helper()
		its, losses, dropped, _ := b.counted(isLast)
		if len(its) != shapes || shapes > 0 && its[0].Count != most || losses["gone"] != gone || dropped != lost {
			t.Errorf("%s: %d shapes, the first %v; lost %v and %d", when, len(its), its, losses, dropped)
		}
	}
	count(3)
	_, dropped := b.take()
	wanted("while it runs", false, mostShapes+1, 3, 3, dropped)
	wanted("as it ends", true, mostShapes+1, 3, 3, dropped)
	wanted("at the next one's begin", false, 0, 0, 0, 0)
	count(2)
	wanted("in the next one", false, mostShapes+1, 2, 2, 1)
}
