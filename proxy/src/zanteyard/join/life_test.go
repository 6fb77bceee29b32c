package join

import (
	"math/rand"
	"testing"
	"time"

	"zanteyard/record"
)

// settled is the model's cut: the last fence that everything else in the sessions comes before or after, by fences
// alone, and that every session has passed. It returns the sessions' marks, and whether there is such a fence.
func (m *model) settled() ([]uint64, bool) {
	place := m.chain()
	marks, found := make([]uint64, len(m.sessions)), false
	for at := 0; at < len(place); at++ {
		its := make([]uint64, len(m.sessions))
		ok := true
		for i := range m.sessions {
			its[i], ok = m.front(i, at, place)
			if !ok {
				break
			}
		}
		if ok {
			copy(marks, its)
			found = true
		}
	}
	for i := range m.sessions {
		if int(marks[i]) > m.sessions[i].mark {
			m.sessions[i].mark = int(marks[i])
		}
		marks[i] = uint64(m.sessions[i].mark)
	}
	return marks, found
}

// chain numbers the fences in the order in which each has read the previous one.
func (m *model) chain() map[[2]int]int {
	next := map[[2]int64][2]int{}
	for i, s := range m.sessions {
		for n, t := range s.its {
			if t.isFence() {
				next[[2]int64{t.reads[0][1], t.reads[0][2]}] = [2]int{i, n}
			}
		}
	}
	place := map[[2]int]int{}
	for at, more := [2]int64{-1, -1}, true; more; {
		var id [2]int
		if id, more = next[at]; more {
			place[id] = len(place)
			at = [2]int64{int64(id[0]), int64(id[1])}
		}
	}
	return place
}

// front returns how many of a session's transactions come at or before the fence with this place in the chain. It
// returns false if that isn't known of all, or the session hasn't passed the fence.
func (m *model) front(session, at int, place map[[2]int]int) (uint64, bool) {
	s := m.sessions[session]
	count, passed := 0, false
	known := len(s.its) == 0
	for n, t := range s.its {
		known = false
		if !t.isFence() {
			continue
		}
		if place[[2]int{session, n}] <= at {
			count, known = n+1, true
		}
		if place[[2]int{session, n}] >= at {
			passed = true
			if place[[2]int{session, n}] > at && n > count {
				return 0, false // what comes between this fence and the previous one may be on either side
			}
			known = true
			break
		}
	}
	if count < s.mark {
		count = s.mark
	}
	return uint64(count), known && passed || passed && count == len(s.its)
}

// life is a random life of a proxy: connections come and go, their transactions overlap, meetings are kept or missed.
type life struct {
	*bench
	r      *rand.Rand
	next   uint32
	live   []*liveConnection
	ever   uint64
	cuts   int
	missed int
	offers map[name][2]time.Time
	whose  map[name]uint64
}

type liveConnection struct {
	number, place uint64
	began         time.Time // of what is under way
}

func (l *life) connect() {
	l.ever++
	l.live = append(l.live, &liveConnection{number: l.ever})
	l.bench.connect(l.ever)
}

func (l *life) commit(keys ...string) uint32 {
	l.next++
	l.bench.commit(l.next, keys...)
	return l.next
}

func (l *life) tick() { l.later(time.Millisecond) }

// step does one thing.
func (l *life) step() {
	l.tick()
	switch n := l.r.Intn(20); {
	case n == 0 && len(l.live) < 12:
		l.connect()
	case n == 1 && len(l.live) > 0:
		i := l.r.Intn(len(l.live))
		l.core.enter(record.Connection{Number: l.live[i].number, Ended: true})
		l.live = append(l.live[:i], l.live[i+1:]...)
	case n == 2:
		l.commit("a") // somebody else's
	case len(l.live) > 0:
		c := l.live[l.r.Intn(len(l.live))]
		if c.began.IsZero() {
			c.began = l.now
			return
		}
		l.end(c)
	}
	if l.r.Intn(5) == 0 {
		l.pass()
	}
}

func (l *life) end(c *liveConnection) {
	it := record.Transaction{Began: c.began, Reads: []record.Read{read("b", 7)}}
	if l.r.Intn(2) == 0 {
		it.Number = uint64(l.commit(string(rune('a' + l.r.Intn(5)))))
	}
	if l.r.Intn(20) == 0 {
		it.Outcome = record.Unclear
	}
	l.tick()
	it.Ended = l.now
	l.tell(c.number, c.place, it)
	c.place++
	c.began = time.Time{}
}

// busy returns the connections in the middle of a transaction.
func (l *life) busy() []*liveConnection {
	var its []*liveConnection
	for _, c := range l.live {
		if !c.began.IsZero() {
			its = append(its, c)
		}
	}
	return its
}

// meet is a meeting: what is under way ends, but for some of it, and nothing begins.
func (l *life) meet() {
	for _, c := range l.busy() {
		if l.r.Intn(4) > 0 {
			l.end(c)
		}
	}
	l.tick()
	sessions := len(l.core.sessions)
	if n := l.core.meet(l.now); n < sessions || n > 2*sessions-1 {
		l.t.Errorf("%d sessions have %d fences", sessions, n)
	}
	upTo := l.core.numbers()
	l.bench.settle()
	if !l.core.isWritten(upTo) {
		for _, s := range l.core.sessions {
			if s.written < upTo[s.index] {
				e := s.waiting[0]
				l.t.Errorf("session %d stands at %d, and not at %d: batch %d, passed %d, %+v, writer %+v", s.index, s.written,
					upTo[s.index], e.batch, l.core.passed, e.its, e.writer)
			}
		}
		l.t.FailNow()
	}
	l.core.round()
	marks, found := l.model.settled()
	if found {
		l.cuts++
	} else {
		l.missed++
	}
	l.note()
	if !l.core.cut(marks) {
		l.t.Fatalf("the core doesn't take the marks %v", marks)
	}
}

// note records when each offered transaction ran, before a cut makes it forgotten.
func (l *life) note() {
	for _, s := range l.core.sessions {
		for i, one := range s.kept {
			id := named(s.index, s.mark+uint64(i))
			l.offers[id] = [2]time.Time{one.its.Began, one.its.Ended}
			if !one.fence {
				l.whose[id] = one.from.Number
			}
		}
	}
}

// Whatever happens, the auditor accepts every line; each session's transactions follow one another in time, except
// fences; and each meeting leads to a cut that leaves nothing but fences.
func TestLives(t *testing.T) {
	for seed := int64(0); seed < 12; seed++ {
		r := rand.New(rand.NewSource(seed))
		l := &life{bench: newBench(t, Options{Sessions: 8, First: 8 - 6*int(seed%2), Limit: 600, Late: time.Second}), r: r, next: base,
			offers: map[name][2]time.Time{}, whose: map[name]uint64{}}
		for meetings := 0; meetings < 40; meetings++ {
			for n := 0; n < 60; n++ {
				l.step()
			}
			l.meet()
		}
		l.note()
		for _, s := range l.core.sessions {
			var ended time.Time
			for n := uint64(0); n < s.written; n++ {
				this := named(s.index, n)
				if _, is := l.whose[this]; !is {
					continue
				}
				if l.offers[this][0].Before(ended) {
					t.Errorf("seed %d: in session %d number %d began before the one before it had ended", seed, s.index, n)
				}
				ended = l.offers[this][1]
			}
		}
		if l.missed > 0 || l.core.remain > 8 {
			t.Errorf("seed %d: %d cuts, %d missed, %d remain", seed, l.cuts, l.missed, l.core.remain)
		}
		if l.ever > 12 && l.core.counts.offered < 300 {
			t.Errorf("seed %d: of %d connections %d transactions were offered: %v", seed, l.ever, l.core.counts.offered, l.core.counts.folded)
		}
	}
}
