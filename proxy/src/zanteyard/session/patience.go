package session

import (
	"sync"
	"time"

	"zanteyard/plan"
)

// A statement's first run waits for its trial, which pays if the statement runs again, on whichever connection. An
// application whose statements hardly repeat, as when it makes up names in each, would wait at every one. So there is a
// bound on what trials of statements that haven't run before may cost all connections together: a number of them, which
// statements that repeat give back, and beyond that a share of the connections' time. A statement that comes again is
// tried in any case.

const (
	mostTrials   = 1000                   // of statements of which hardly any repeats
	eachRepeat   = 10                     // trials that a statement gives back when it repeats
	trialsShare  = 20                     // beyond those, trials take one part in so many of a connection's time
	mostPatience = 100 * time.Millisecond // of that time, how much may be saved up, or owed
	mostMet      = 1024
)

// Seldom is why a statement isn't seen that wasn't tried because of this bound.
const Seldom = "a new statement, where statements hardly repeat"

// patience is what is left of the bound. Safe for use by many goroutines.
type patience struct {
	lock   sync.Mutex
	trials int
	time   time.Duration
	// Plans whose statements have run before, or were tried, and whether they have repeated. When the younger map is full
	// it becomes the older one.
	young, old map[*plan.Plan]bool
}

func newPatience() patience {
	return patience{trials: mostTrials, time: mostPatience, young: map[*plan.Plan]bool{}}
}

// has reports whether a plan's statement has run before. Called with the lock held.
func (p *patience) has(its *plan.Plan) bool {
	_, is := p.young[its]
	if repeats, old := p.old[its]; !is && old {
		p.add(its, repeats)
		return true
	}
	return is
}

func (p *patience) add(its *plan.Plan, repeats bool) {
	if len(p.young) >= mostMet {
		p.young, p.old = map[*plan.Plan]bool{}, p.young
	}
	p.young[its] = repeats
}

// affords reports whether a plan may be tried. So much time of the connection wasn't accounted for.
func (p *patience) affords(its *plan.Plan, since time.Duration) bool {
	p.lock.Lock()
	defer p.lock.Unlock()
	p.earn(since)
	return p.has(its) || p.trials > 0 || p.time > 0
}

func (p *patience) earn(since time.Duration) {
	if p.time += since / trialsShare; p.time > mostPatience {
		p.time = mostPatience
	}
}

// spend accounts for a trial.
func (p *patience) spend(uses []*use, took, since time.Duration) {
	p.lock.Lock()
	defer p.lock.Unlock()
	p.earn(since)
	paid := true
	for _, u := range uses {
		if !p.has(u.plan) {
			p.add(u.plan, false)
			paid = paid && p.trials > 0
			p.trials--
		}
	}
	if p.trials < 0 {
		p.trials = 0
	}
	if paid {
		return
	}
	if p.time -= took; p.time < -mostPatience {
		p.time = -mostPatience // that the server stood still isn't the application's fault
	}
}

// repeats is called when a statement was seen for a second time.
func (p *patience) repeats(its *plan.Plan) {
	p.lock.Lock()
	defer p.lock.Unlock()
	if p.has(its) && p.young[its] {
		return
	}
	p.add(its, true)
	if p.trials += eachRepeat; p.trials > mostTrials {
		p.trials = mostTrials
	}
}

// meets is called when a statement has run that wasn't tried because of the bound.
func (p *patience) meets(its *plan.Plan) {
	p.lock.Lock()
	defer p.lock.Unlock()
	if !p.has(its) {
		p.add(its, false)
	}
}

// affords reports whether a plan may be tried now.
func (t *trust) affords(p *plan.Plan) bool {
	return t.shared == nil || t.shared.patience.affords(p, t.accounts(clock()))
}

// spent accounts for a trial that has ended.
func (t *trust) spent(w *trial) {
	if t.shared != nil && len(w.uses) > 0 {
		now := clock()
		t.shared.patience.spend(w.uses, now.Sub(w.began), t.accounts(now))
	}
}

// accounts returns how much of the connection's time wasn't accounted for yet.
func (t *trust) accounts(now time.Time) time.Duration {
	since := now.Sub(t.accounted)
	t.accounted = now
	return since
}

// ran is called when a statement has run, rewritten or not.
func (t *trust) ran(u *use, rewritten bool) {
	switch {
	case t.shared == nil:
	case rewritten && !u.repeats:
		if u.repeats = u.ran; u.repeats {
			t.shared.patience.repeats(u.plan)
		}
		u.ran = true
	case u.state == putOff:
		u.state = untried
		t.shared.patience.meets(u.plan)
		delete(t.uses, u.plan) // its plan may not come again
	}
}
