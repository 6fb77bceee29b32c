package session

import (
	"fmt"
	"testing"
	"time"

	"zanteyard/plan"
)

// TestSeldomRepeated: an application whose statements hardly repeat doesn't wait for trials of all of them. What comes
// again is seen, on whichever connection, and gives back what trials may cost.
func TestSeldomRepeated(t *testing.T) {
	needServer(t)
	sql(t, fill)
	shared := NewShared()
	shared.patience.trials, shared.patience.time = 20, -time.Hour
	connect := func() *proxied { return through(t, "postgres", func(o *Options) { o.Shared = shared }) }
	one, other := connect(), connect()
	number := 0
	fresh := func() step {
		number++
		its := fmt.Sprintf("SELECT v AS a%d FROM t WHERE id < 5", number)
		if number%2 == 0 {
			return extended(its, nil)
		}
		return query(its)
	}
	seen := func(p *proxied, what string, want int, steps ...step) {
		t.Helper()
		p.sink.forget()
		got, all := p.seenIn(1, steps...)
		if got != want || all != len(steps) || p.sink.left(Seldom) != (want < all) {
			t.Errorf("%s: %d of %d were seen, not %d: %q", what, got, all, want, p.sink.unseen)
		}
	}
	var first, late []step
	for i := 0; i < 20; i++ {
		first = append(first, fresh())
	}
	for i := 0; i < 10; i++ {
		late = append(late, fresh())
	}
	seen(one, "as many as may be tried", 20, first...)
	seen(one, "those after them", 0, late...)
	one.session.state.Lock()
	queued := len(one.session.trust.queue)
	one.session.state.Unlock()
	if queued > 0 {
		t.Errorf("%d of them wait for a trial", queued)
	}
	seen(other, "new ones on another connection", 0, fresh(), fresh())
	seen(one, "what comes again", 1, late[3])
	seen(other, "what comes again, on another connection", 2, late[5], first[7])
	seen(one, "what comes a third time, which repeats", 1, late[3])
	var more []step
	for i := 0; i < 2*eachRepeat; i++ {
		more = append(more, fresh())
	}
	seen(other, "as many more, and what first[7] has given back on another connection", 2*eachRepeat, more...)
	seen(other, "those after them", 0, fresh())
}

// TestPatience: trials beyond the number take no more than a share of the connections' time.
func TestPatience(t *testing.T) {
	p := newPatience()
	p.trials = 1
	made := func() []*use { return []*use{{plan: &plan.Plan{}}} }
	its := made()
	if !p.affords(its[0].plan, 0) {
		t.Fatal("nothing may be tried")
	}
	p.spend(its, time.Hour, 0)
	if p.trials != 0 || p.time != mostPatience {
		t.Fatalf("a trial that was given: %d, %v are left", p.trials, p.time)
	}
	spent, lasted := time.Duration(0), time.Duration(0)
	const each = 7 * time.Millisecond
	for i := 0; i < 10000; i++ {
		lasted += time.Millisecond
		if next := made(); p.affords(next[0].plan, time.Millisecond) {
			p.spend(next, each, each)
			spent, lasted = spent+each, lasted+each
		}
	}
	if least, limit := lasted/trialsShare-each, mostPatience+lasted/trialsShare+each; spent < least || spent > limit {
		t.Errorf("trials took %v of %v", spent, lasted)
	}
	p.spend(made(), time.Hour, 0)
	if p.time != -mostPatience {
		t.Errorf("it owes %v", p.time)
	}
	if !p.affords(its[0].plan, 0) {
		t.Error("what was tried before isn't tried again")
	}
	for i := 0; i < 3*mostMet; i++ {
		p.meets(&plan.Plan{})
	}
	if n := len(p.young) + len(p.old); n > 2*mostMet {
		t.Errorf("%d plans are kept", n)
	}
}
