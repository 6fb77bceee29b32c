package remote

import (
	"context"
	"testing"
	"time"

	"zanteyard/record"
)

// TestApart: a commit may be of a proxy elsewhere, and not of somebody who bypasses the proxies, until a message has come
// that this proxy made after the commit was answered, and behind which nothing waits.
func TestApart(t *testing.T) {
	to := newHeard()
	h := newTestHub(t, to)
	m := NewMeeter(nil, h)
	committed := time.Now()
	if !m.Apart(committed) {
		t.Error("one that fed an earlier watch may not have come yet")
	}
	h.base = committed.Add(-gathering)
	if m.Apart(committed) {
		t.Error("there is no other proxy")
	}
	h.greet(someHello(h, "p", 1), time.Now())
	if !m.Apart(committed) {
		t.Error("nothing has come from it yet")
	}
	number := uint64(0)
	comes := func(after time.Duration, isLast bool) {
		now := committed.Add(after)
		message := &toHub{Run: h.run, Proxy: "p", Epoch: h.proxies["p"].epoch, Number: number}
		if isLast {
			message.Tick = int64(now.Sub(h.base))
		}
		number++
		h.one(message, now.Add(time.Second))
	}
	for _, one := range []struct {
		after  time.Duration
		isLast bool
		want   bool
	}{
		{-time.Second, true, true},
		{reporting / 2, true, true},
		{2 * reporting, false, true},
		{2 * reporting, true, false},
		{3 * reporting, false, false},
	} {
		if comes(one.after, one.isLast); m.Apart(committed) != one.want {
			t.Errorf("%v after the commit, the last one: %v; it may be its: %v", one.after, one.isLast, !one.want)
		}
	}
	if !m.Apart(committed.Add(2 * reporting)) {
		t.Error("a later commit can't be its")
	}
	h.end(h.proxies["p"], "it fell silent")
	if !m.Apart(committed) {
		t.Error("it doesn't feed the audit any more")
	}
}

// TestTellsWhatIsReported: a proxy's message says how far its reports go, unless more wait.
func TestTellsWhatIsReported(t *testing.T) {
	p, err := NewPost(someOptions(), "p", 1<<30, someRoom{})
	if err != nil {
		t.Fatal(err)
	}
	p.one(context.Background(), &fromHub{Run: "r", Number: 1, Tick: 5}, true)
	p.attach(&answer{Proxy: p.id, Epoch: 1, Mark: 7})
	for i := 0; i < 3*mostItems/2; i++ {
		p.Transaction(record.Transaction{Number: uint64(i + 1)})
	}
	p.one(context.Background(), &fromHub{Run: "r", Number: 2, Tick: 9}, true)
	for more := true; more; {
		var m *toHub
		m, more = p.message(false)
		if (m.Tick == 9) == more || m.Tick != 0 && m.Tick != 9 {
			t.Errorf("with more behind it: %v; it tells %d", more, m.Tick)
		}
	}
	if m, _ := p.message(true); m.Tick != 9 {
		t.Errorf("a sign of life tells %d", m.Tick)
	}
}
