package join

import (
	"fmt"
	"math/rand"
	"strings"
	"testing"
	"time"

	"zanteyard/record"
)

// The lines of a session that joins: it begins with a fence, which reads the last one, and comes in a line behind that
// one's.
func TestASessionJoins(t *testing.T) {
	b := newBench(t, Options{Sessions: 3, First: 1})
	b.connect(1, 2, 3, 4)
	tell := func(connection, place uint64) {
		b.later(time.Millisecond)
		b.tell(connection, place, record.Transaction{Reads: []record.Read{read("a", 7)}})
	}
	tell(1, 0)
	tell(2, 0) // there is no fence that a session could begin with
	if !b.core.wantsMeeting(b.now, nobody) {
		t.Error("sessions are short, and no meeting is wanted that allows others to join")
	}
	b.later(time.Millisecond).core.meet(b.now)
	for place := uint64(1); place < 3; place++ {
		for connection := uint64(1); connection < 5; connection++ {
			tell(connection, place)
		}
	}
	b.settle()
	if got, want := strings.Join(b.lines, "\n"), strings.Join([]string{
		`["open",1,131072,3]`,
		`["offer",0,0,[[[[1,"init"]],[]],[[[0,"init"]],[0]],[[[1,"init"]],[]],[[[1,"init"]],[]]]]`,
		`["join",1,[[[[0,0,1]],[0]],[[[1,"init"]],[]],[[[1,"init"]],[]]]]`,
		`["join",2,[[[[0,1,0]],[0]],[[[1,"init"]],[]],[[[1,"init"]],[]]]]`,
	}, "\n"); got != want {
		t.Errorf("offered:\n%s\nwanted:\n%s", got, want)
	}
	if n := b.core.counts.folded[noSession]; n != 3 { // the second one's first, and all of the fourth
		t.Errorf("%d are folded for want of a session", n)
	}
	b.later(time.Millisecond).core.meet(b.now)
	b.settle()
	marks, found := b.model.settled()
	if !found || fmt.Sprint(marks) != "[5 4 4]" || !b.core.cut(marks) || b.core.remain != 2 {
		t.Errorf("what can be forgotten is %v, and %d remain", marks, b.core.remain)
	}
}

// A session waits for the fence with which it begins: that may come behind something which isn't resolved yet.
func TestASessionThatJoinsWaitsForItsFence(t *testing.T) {
	b := newBench(t, Options{Sessions: 2, First: 1})
	b.connect(1, 2)
	b.commit(1001, "a") // somebody may still report it
	b.tell(1, 0, record.Transaction{Reads: []record.Read{read("a", 1001)}})
	b.later(time.Millisecond).core.meet(b.now)
	b.later(time.Millisecond)
	b.tell(1, 1, record.Transaction{Reads: []record.Read{read("c", 7)}})
	b.tell(2, 0, record.Transaction{Reads: []record.Read{read("b", 7)}})
	b.pass()
	if len(b.lines) != 1 {
		t.Errorf("written is %v", b.lines)
	}
	b.settle()
	if got, want := b.lines[len(b.lines)-1], `["join",1,[[[[0,0,1]],[0]],[[[3,"init"]],[]]]]`; got != want {
		t.Errorf("written is %s, wanted %s", got, want)
	}
}

// The auditor takes sessions in order: one that could join waits for those before it, whose fences may read one that isn't
// written yet.
func TestSessionsJoinInOrder(t *testing.T) {
	b := newBench(t, Options{Sessions: 4, First: 2})
	b.connect(1, 2, 3, 4)
	b.commit(1001, "a") // somebody may still report it
	b.tell(1, 0, record.Transaction{Reads: []record.Read{read("a", 1001)}})
	b.tell(2, 0, record.Transaction{Reads: []record.Read{read("b", 7)}})
	b.later(time.Millisecond).core.meet(b.now)
	others := func(place uint64) { // they keep their sessions
		for connection := uint64(1); connection < 3; connection++ {
			b.tell(connection, place, record.Transaction{Reads: []record.Read{read("b", 7)}})
		}
	}
	b.later(time.Millisecond)
	others(1)
	b.tell(3, 0, record.Transaction{Reads: []record.Read{read("c", 7)}}) // behind a fence of the first session
	b.later(time.Millisecond).core.meet(b.now)
	b.later(time.Millisecond)
	others(2)
	b.tell(3, 1, record.Transaction{Reads: []record.Read{read("c", 7)}})
	b.tell(4, 0, record.Transaction{Reads: []record.Read{read("d", 7)}}) // behind one of the second
	if from := b.core.sessions[3].after; from.session() != 1 {
		t.Fatalf("the fence that it reads is of session %d", from.session())
	}
	b.pass()
	joined := func() (all []string) {
		for _, line := range b.lines {
			if strings.HasPrefix(line, `["join",`) {
				all = append(all, line[:9])
			}
		}
		return all
	}
	if got := joined(); len(got) > 0 {
		t.Errorf("%v joins before the session in front of it", got)
	}
	b.settle()
	if got := fmt.Sprint(joined()); got != `[["join",2 ["join",3]` {
		t.Errorf("joined is %s", got)
	}
}

// Marks of a round from before a session joined don't have it.
func TestCutFromBeforeASessionJoined(t *testing.T) {
	b := newBench(t, Options{Sessions: 2, First: 1})
	b.connect(1, 2)
	b.tell(1, 0, record.Transaction{Reads: []record.Read{read("a", 7)}})
	b.later(time.Millisecond).core.meet(b.now)
	b.settle()
	marks, _ := b.model.settled()
	b.later(time.Millisecond)
	b.tell(1, 1, record.Transaction{Reads: []record.Read{read("a", 7)}})
	b.tell(2, 0, record.Transaction{Reads: []record.Read{read("a", 7)}})
	b.settle()
	if !b.core.cut(marks) || b.core.cut(nil) || b.core.cut([]uint64{9, 0}) || b.core.remain != 3 {
		t.Errorf("%v isn't taken, or %d remain", marks, b.core.remain)
	}
}

// The session of a connection goes to another one only if it has done nothing since the last meeting. What it does next
// is in another session, behind a fence.
func TestWhoseSessionIsTaken(t *testing.T) {
	b := newBench(t, Options{Sessions: 2})
	b.connect(1, 2, 3)
	tell := func(connection, place uint64) {
		b.later(time.Millisecond)
		b.tell(connection, place, record.Transaction{Reads: []record.Read{read("a", 7)}})
	}
	meet := func() { b.later(time.Millisecond).core.meet(b.now) }
	seated := func() string { return fmt.Sprint(b.core.audited()) }
	tell(1, 0)
	tell(2, 0)
	tell(3, 0)
	if got := seated(); got != "[1 2]" || b.core.counts.folded[noSession] != 1 {
		t.Errorf("in the same meeting it is taken: %s", got)
	}
	meet()
	tell(2, 1)
	tell(3, 1)
	if got := seated(); got != "[3 2]" {
		t.Errorf("after a meeting that of the idle one isn't taken: %s", got)
	}
	tell(1, 1)
	if got := seated(); got != "[3 2]" || b.core.counts.folded[noSession] != 2 {
		t.Errorf("one that works is taken: %s", got)
	}
	meet()
	tell(1, 2)
	if got := seated(); got != "[3 1]" { // both were idle since, the second one for longer
		t.Errorf("the one that has been idle for longest isn't taken: %s", got)
	}
}

// What ran across a meeting is folded, and its connection has a session for what it does next; no further meeting is wanted
// for it.
func TestASessionForWhatRanAcrossAMeeting(t *testing.T) {
	b := newBench(t, Options{Sessions: 1})
	b.connect(1, 2)
	b.tell(1, 0, record.Transaction{Reads: []record.Read{read("a", 7)}})
	began := b.now
	b.later(time.Millisecond).core.meet(b.now)
	b.later(time.Millisecond)
	b.tell(2, 0, record.Transaction{Began: began, Reads: []record.Read{read("a", 7)}})
	if n := b.core.counts.folded; n[acrossMoment] != 1 || b.core.short {
		t.Errorf("folded are %v; sessions are short: %v", n, b.core.short)
	}
	b.later(time.Millisecond)
	b.tell(2, 1, record.Transaction{Reads: []record.Read{read("a", 7)}})
	b.settle()
	if n := b.core.counts.offered - b.core.counts.fences; n != 2 {
		t.Errorf("%d are offered", n)
	}
}

// pool is an application with more connections than work at a time, in simulated time.
type pool struct {
	*bench
	r       *rand.Rand
	began   map[uint64]time.Time // of those with a transaction open
	ends    map[uint64]time.Time
	places  map[uint64]uint64
	met     time.Time
	longest time.Duration // a transaction
}

func newPool(t testing.TB, connections int, seed int64) *pool {
	b := newBench(t, Options{Sessions: 256, First: 8})
	p := &pool{b, rand.New(rand.NewSource(seed)), map[uint64]time.Time{}, map[uint64]time.Time{}, map[uint64]uint64{}, b.now,
		6 * time.Millisecond}
	for n := 1; n <= connections; n++ {
		b.connect(uint64(n))
	}
	return p
}

// run lets each of these connections have one transaction after another for so long.
func (p *pool) run(those []uint64, d time.Duration) {
	for until := p.now.Add(d); p.now.Before(until); {
		p.later(time.Millisecond)
		for _, c := range those {
			if ends, is := p.ends[c]; is && !p.now.Before(ends) {
				p.end(c)
			}
			if _, is := p.ends[c]; !is {
				p.began[c] = p.now
				p.ends[c] = p.now.Add(time.Duration(1 + p.r.Int63n(int64(p.longest))))
			}
		}
		if p.core.wantsMeeting(p.met, nobody) {
			p.meet()
		}
		if p.core.wantsMoment(func() int { return len(p.ends) }) {
			p.quiet()
		}
		if p.now.UnixMilli()%5 == 0 {
			p.pass()
		}
	}
	for c := range p.ends {
		p.end(c)
	}
}

func (p *pool) end(c uint64) {
	it := record.Transaction{Connection: c, Place: p.places[c], Began: p.began[c], Ended: p.now,
		Reads: []record.Read{read(string(rune('a'+p.r.Intn(20))), 7)}}
	p.places[c]++
	delete(p.ends, c)
	p.core.tell(it)
}

// meet holds the connections with a session until what is under way on them has ended.
func (p *pool) meet() {
	for _, c := range p.core.audited() {
		if _, is := p.ends[c]; is {
			p.end(c)
		}
	}
	p.later(time.Millisecond)
	p.core.meet(p.now)
	p.met = p.now
	p.pass()
	p.core.round()
	p.core.roundAsked(1, p.core.remain, true)
	p.core.roundAnswered(0)
	marks := make([]uint64, len(p.core.sessions))
	for i, s := range p.core.sessions {
		marks[i] = s.written
		p.model.sessions[i].mark = int(s.written)
	}
	p.core.cut(marks)
}

func (p *pool) some(n, of int) []uint64 {
	var those []uint64
	for _, i := range p.r.Perm(of)[:n] {
		those = append(those, uint64(i+1))
	}
	return those
}

// share returns the share of the transactions that were offered, in percent.
func (p *pool) share() float64 {
	all, n := uint64(0), p.core.counts
	for _, places := range p.places {
		all += places
	}
	return 100 * float64(n.offered-n.fences) / float64(all)
}

// Sessions go to those that work: of 500 connections of a pool of which 50 are busy, others each second or one after
// another, and of 256 that are all busy.
func TestSessionsGoToThoseThatWork(t *testing.T) {
	for _, one := range []struct {
		name             string
		connections, all int
		change           func(p *pool, those []uint64) []uint64
		want             float64
		most             int // sessions
	}{
		{"50 of 500", 500, 50, func(_ *pool, those []uint64) []uint64 { return those }, 99.5, 60},
		{"50 of 500, others each second", 500, 50, func(p *pool, _ []uint64) []uint64 { return p.some(50, 500) }, 99.5, 110},
		{"50 of 500, one after another", 500, 50, func(p *pool, those []uint64) []uint64 {
			return append(those[1:], p.some(1, 500)[0])
		}, 99.5, 60},
		{"256 of 256", 256, 256, func(_ *pool, those []uint64) []uint64 { return those }, 99.5, 256},
		{"200 of 500, others each second", 500, 200, func(p *pool, _ []uint64) []uint64 { return p.some(200, 500) }, 99, 256},
	} {
		p := newPool(t, one.connections, 1)
		those := p.some(one.all, one.connections)
		for n := 0; n < 4; n++ {
			p.run(those, time.Second)
			those = one.change(p, those)
		}
		p.settle()
		if share, n := p.share(), len(p.core.sessions); share < one.want || n > one.most {
			t.Errorf("%s: %.2f of 100 are offered, by %d sessions: %v", one.name, share, n, p.core.counts.folded)
		} else {
			t.Logf("%s: %.2f of 100 are offered, by %d sessions: %v", one.name, share, n, p.core.counts.folded)
		}
	}
}

// An audit about snapshots says so in its first line, and a line has half as many transactions.
func TestLinesAboutSnapshots(t *testing.T) {
	for snapshot, want := range map[bool]string{
		false: `["open",1,131072,3] 256 44`, true: `["open",1,131072,3,"snapshot"] 128 128 44`,
	} {
		b := newBench(t, Options{Sessions: 1, Snapshot: snapshot})
		b.connect(1)
		for place := uint64(0); place < 300; place++ {
			b.tell(1, place, record.Transaction{Reads: []record.Read{read("a", 7)}})
		}
		b.settle()
		got := b.lines[0]
		for _, line := range b.lines[1:] {
			got += fmt.Sprint(" ", strings.Count(line, `"init"`))
		}
		if got != want {
			t.Errorf("written is %s, wanted %s", got, want)
		}
	}
}

// TestJoinsBetweenMomentAndRound: sessions that join after a meeting's moment, and before its round is asked for, end no audit.
func TestJoinsBetweenMomentAndRound(t *testing.T) {
	s := newStage(t, Options{Sessions: 64, First: 1, Between: time.Millisecond})
	var all []uint64
	for n := uint64(1); n <= 24; n++ {
		all = append(all, n)
	}
	s.connect(all...)
	for begin := time.Now(); time.Since(begin) < 3*time.Second; {
		for _, n := range all {
			s.update(n, fmt.Sprint("row", n))
		}
		select {
		case err := <-s.ended:
			t.Fatalf("the audit has ended: %v", err)
		case <-time.After(5 * time.Millisecond):
		}
	}
}
