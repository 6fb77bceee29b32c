package remote

import (
	"testing"
	"time"

	"zanteyard/record"
)

// newTestPost makes a post that is attached to a watch.
func newTestPost(t *testing.T, run string) *Post {
	t.Helper()
	p, err := NewPost(someOptions(), "web-2", 1<<20, nil)
	if err != nil {
		t.Fatal(err)
	}
	p.run = run
	return p
}

func (p *Post) reported() (its []record.Transaction) {
	for _, one := range p.items {
		if one.Transaction != nil {
			its = append(its, one.Transaction.Its)
		}
	}
	return its
}

// TestWhatEndsWithoutAnAttachment: it is sent with the next one to the same watch, without what is of use only to be checked.
func TestWhatEndsWithoutAnAttachment(t *testing.T) {
	one := func(number uint64) record.Transaction {
		return record.Transaction{Number: number, Reads: []record.Read{{Relation: 3, Key: "a", Version: 7}}, Snapshot: "3:5:",
			Statements: []record.Statement{{Text: "SELECT 1"}},
			Did:        record.Did{Selects: []record.Select{{From: 0, To: 1}}, Written: 2}}
	}
	p := newTestPost(t, "first")
	p.Transaction(one(1)) // it was never attached
	p.lock.Lock()
	p.attach(&answer{Epoch: 4})
	p.lock.Unlock()
	if its := p.reported(); len(its) != 0 {
		t.Errorf("%+v was sent", its)
	}
	p.Transaction(one(2))
	p.lock.Lock()
	p.detach() // it wasn't sent
	p.lock.Unlock()
	p.Transaction(one(3))
	p.lock.Lock()
	p.run = "first"
	p.attach(&answer{Epoch: 5})
	p.lock.Unlock()
	its := p.reported()
	if len(its) != 2 || its[0].Number != 2 || its[1].Number != 3 || p.dropped != 0 {
		t.Fatalf("%+v, %d dropped", its, p.dropped)
	}
	for _, it := range its {
		selects, _, rows := it.Did.Sum(0)
		if !it.Unaudited || it.Reads != nil || it.Statements != nil || it.Snapshot != "" || selects != 1 || rows != 1 || it.Did.Written != 2 {
			t.Errorf("%+v", it)
		}
	}
	p.lock.Lock()
	defer p.lock.Unlock()
	p.detach()
	for number := uint64(10); number < 10+mostIdle; number++ {
		p.keep(one(number))
	}
	if len(p.idle) != mostIdle || p.dropped != 2 {
		t.Errorf("%d wait, and %d don't", len(p.idle), p.dropped)
	}
	p.run = "second"
	p.attach(&answer{Epoch: 1})
	if its := p.reported(); len(its) != 0 || p.idle != nil {
		t.Errorf("another watch was told of %d", len(its))
	}
}

// TestSentToAnEndedAttachment: what was on its way is counted, and nothing twice.
func TestSentToAnEndedAttachment(t *testing.T) {
	to := newHeard()
	h := newTestHub(t, to)
	h.greet(someHello(h, "p", 1), time.Now())
	send := func(epoch, number, sent uint64, its ...item) {
		h.one(&toHub{Run: h.run, Proxy: "p", Epoch: epoch, Number: number, Sent: sent, Items: its}, time.Now())
	}
	its := func(number uint64) item {
		return item{Transaction: &transaction{Its: record.Transaction{Connection: 5, Number: number, Reads: make([]record.Read, 3)}}}
	}
	send(1, 0, 1, item{Connection: &record.Connection{Number: 5}}, its(1001))
	h.Begins(nil)
	send(1, 1, 2, its(1002))
	send(1, 1, 2, its(1002)) // again
	send(1, 3, 4, its(1004)) // after one that is lost
	h.mark = 7
	hello := someHello(h, "p", 2)
	hello.Sent = 4
	h.greet(hello, time.Now())
	send(1, 2, 3, its(1003)) // it was counted as lost
	if len(to.its) != 2 || to.its[0].Unaudited || !to.its[1].Unaudited || to.its[1].Connection != 0 || to.its[1].Reads != nil {
		t.Errorf("%+v", to.its)
	}
	if to.lost[lostOnTheWay] != 2 || len(to.wrong) > 0 {
		t.Errorf("%v are lost; %v", to.lost, to.wrong)
	}
}
