package join

import "time"

// some lets a few things happen.
func (w *world) some(most int) {
	for n := w.r.Intn(most + 1); n > 0; n-- {
		w.step()
	}
}

// meet is a meeting that may go wrong in many ways: some connections aren't held, or not for long enough; some of what
// is under way goes on after the moment; some of what had ended before is reported after it.
func (w *world) meet() {
	for _, c := range w.live {
		c.held = w.fault != early && w.r.Intn(8) > 0 // what is held can't show that fault
	}
	w.some(20)
	for _, c := range w.live {
		if w.r.Intn(20) == 0 {
			c.held = false // its client was held for long enough
		}
	}
	w.some(4)
	if w.r.Intn(3) > 0 {
		w.tellAll()
	}
	w.tick()
	w.moment()
	upTo := w.core.numbers()
	if w.fault == rashly {
		w.core.decideBeyond()
	}
	w.some(2)
	for _, c := range w.live {
		c.held = false
	}
	w.some(8)
	w.tellAll()
	w.deliver()
	w.bench.settle()
	if w.core.isWritten(upTo) {
		w.core.decideBeyond()
	}
	w.core.round()
	marks, found := w.model.settled()
	if found {
		w.cuts++
	}
	w.core.cut(marks)
}

// moment notes a meeting's moment, and writes its fences, unless the joiner is made wrong on purpose.
func (w *world) moment() {
	switch w.fault {
	case early:
		w.core.ended = time.Time{}
		w.core.meet(w.now.Add(-20 * time.Millisecond))
	case wrongOrder:
		w.inWrongOrder()
	case unfenced:
		w.quiet()
		for _, s := range w.core.sessions {
			if w.r.Intn(2) == 0 {
				w.core.fence(s, w.core.moments.last())
			}
		}
		w.core.fencedAt.set(w.core.moments.last())
	default:
		w.core.meet(w.now)
	}
}

// inWrongOrder writes some sessions' fences of a moment only after the others' of the next one, and holds back until
// then what is reported in these sessions.
func (w *world) inWrongOrder() {
	last := w.core.moments.last()
	w.quiet()
	was := w.delayed
	w.delayed = map[*session][]func(){}
	for _, s := range w.core.sessions {
		switch {
		case was[s] != nil:
		case s.tenant != nil && w.r.Intn(3) == 0:
			w.delayed[s] = []func(){func() {}}
		default:
			w.core.fence(s, w.core.moments.last())
		}
	}
	for s, tells := range was {
		w.core.fence(s, last)
		for _, tell := range tells {
			tell()
		}
	}
}
