package remote

import (
	"context"
	"fmt"
	"strconv"
	"strings"
	"testing"
	"time"
)

// TestPlayedAgainAfterSilence: what a watch has said is played again after it has fallen silent. An answer that attaches
// the proxy where the watch has given it up would lose what it reports from then on, and nobody would count that.
func TestPlayedAgainAfterSilence(t *testing.T) {
	p, err := NewPost(someOptions(), "p", 1<<20, someRoom{})
	if err != nil {
		t.Fatal(err)
	}
	p.try = 1
	hears := func(run string, number uint64) bool {
		p.wanted = nil
		p.one(context.Background(), &fromHub{Run: run, Number: number, Answer: &answer{Proxy: p.id, Try: 1, Epoch: 1, Mark: 7}}, true)
		return p.wanted != nil
	}
	falls := func() {
		p.heard = time.Now().Add(-2 * silence)
		if err := p.lookOnce(context.Background(), nil, nil); err != nil {
			t.Fatal(err)
		}
	}
	for i, one := range []struct {
		run    string
		number uint64
		silent bool // before
		hears  bool
	}{
		{"a", 5, false, true}, {"a", 5, false, false}, {"a", 5, true, false}, {"a", 4, true, false}, {"a", 6, true, true},
		{"b", 1, false, false}, {"b", 1, true, true}, {"a", 6, true, false}, {"a", 7, true, true}, {"b", 1, true, false},
	} {
		if one.silent {
			falls()
		}
		if got := hears(one.run, one.number); got != one.hears {
			t.Errorf("%d: %s %d is heard: %v", i, one.run, one.number, got)
		}
	}
	for i := 0; i < 2*mostRuns; i++ {
		falls()
		if run := fmt.Sprint(i); !hears(run, 3) || hears(run, 3) {
			t.Fatalf("run %d isn't heard just once", i)
		}
	}
	if len(p.numbers.last) != mostRuns || len(p.numbers.runs) != mostRuns {
		t.Errorf("%d runs are remembered, of which %d in order", len(p.numbers.last), len(p.numbers.runs))
	}
}

// TestSilentForHours: a proxy falls silent, and more than an hour later its hello is played again. It isn't shown as
// feeding. When it really comes back, what was held back meanwhile is counted.
func TestSilentForHours(t *testing.T) {
	to := newHeard()
	h := newTestHub(t, to)
	hello := someHello(h, "p", 1)
	h.greet(hello, time.Now())
	h.one(&toHub{Run: h.run, Proxy: "p", Epoch: 1, Sent: 3}, time.Now())
	h.end(h.proxies["p"], "it fell silent")
	h.retire(time.Now().Add(2 * time.Hour))
	for len(h.out) > 0 {
		<-h.out
	}
	h.greet(hello, time.Now())
	for _, its := range h.Remotes().Proxies {
		if its.Feeds {
			t.Errorf("it is shown as feeding after its hello was played again: %+v", its)
		}
	}
	if len(h.out) > 0 {
		t.Errorf("the hello was answered: %+v", <-h.out)
	}
	again := someHello(h, "p", 2)
	again.Sent, again.Dropped = 10, 4
	h.greet(again, time.Now())
	if its := h.Remotes().Proxies; len(its) != 1 || !its[0].Feeds {
		t.Errorf("it doesn't feed the audit again: %+v", its)
	}
	if to.lost[lostOnTheWay] != 7 || to.lost[noRoomThere] != 4 {
		t.Errorf("counted as lost: %v", to.lost)
	}
}

// TestProxiesAreForgotten: of proxies that come and go for a month, only those of the last day are remembered; a hello of
// one that is forgotten can't be played again, and one that comes back after so long says so.
func TestProxiesAreForgotten(t *testing.T) {
	h := newTestHub(t, newHeard())
	var said []string
	h.options.Log = func(text string) { said = append(said, text) }
	now := time.Now()
	answers := func(m *toHub) bool {
		for len(h.out) > 0 {
			<-h.out
		}
		h.greet(m, now)
		return len(h.out) > 0
	}
	hello := func(name string, try uint64) *toHub {
		its := someHello(h, name, try)
		its.Hello.Tick = int64(now.Sub(h.base))
		return its
	}
	first := hello("first", 1)
	if !answers(first) || answers(first) {
		t.Fatal("a hello isn't answered just once")
	}
	h.end(h.proxies["first"], "it fell silent")
	for day := 0; day < 30; day++ {
		for n := 0; n < 1000; n++ {
			name := strconv.Itoa(day) + "-" + strconv.Itoa(n)
			if now = now.Add(86 * time.Second); !answers(hello(name, 1)) {
				t.Fatalf("%s isn't answered", name)
			}
			h.end(h.proxies[name], "it fell silent")
			h.retire(now)
			if answers(first) {
				t.Fatalf("day %d: a hello that was played again is answered", day)
			}
		}
		if len(h.past)+len(h.proxies) > 1100 {
			t.Fatalf("day %d: %d and %d are remembered", day, len(h.past), len(h.proxies))
		}
	}
	if h.past["first"].try != 0 {
		t.Error("the first one is remembered")
	}
	said = nil
	again := hello("first", 2)
	if again.Hello.Again = true; !answers(again) {
		t.Error("it can't come back")
	}
	if !strings.Contains(strings.Join(said, "\n"), "isn't counted") {
		t.Errorf("said: %q", said)
	}
	if late := hello("late", 1); !answers(late) {
		t.Error("a fresh hello isn't answered")
	}
	for _, tick := range []int64{0, int64(now.Sub(h.base) - fresh - time.Second), int64(now.Sub(h.base) + time.Second)} {
		its := hello("older", 1)
		if its.Hello.Tick = tick; answers(its) {
			t.Errorf("a hello of tick %d is answered", tick)
		}
	}
}

// TestProxiesAreBounded: what is remembered of them is.
func TestProxiesAreBounded(t *testing.T) {
	h := newTestHub(t, newHeard())
	for n := 0; n < mostProxies; n++ {
		h.past[strconv.Itoa(n)] = past{try: 1}
	}
	h.greet(someHello(h, "one more", 1), time.Now())
	if reply := (<-h.out).Answer; reply.Refused == "" {
		t.Errorf("%+v", reply)
	}
	h.greet(someHello(h, "7", 2), time.Now())
	if reply := (<-h.out).Answer; reply.Refused != "" {
		t.Errorf("%+v", reply)
	}
}
