package join

import (
	"strings"
	"testing"
	"time"

	"zanteyard/record"
)

// The auditor has fallen behind if a round isn't answered for some time, or if what it holds takes too much room, in
// number or in bytes. What is left out then is counted, and once it has caught up everything is offered again.
func TestFallingBehind(t *testing.T) {
	big := []record.Statement{{Text: strings.Repeat("x", 2000)}}
	for _, one := range []struct {
		name  string
		opt   Options
		delay time.Duration // until the round is answered
		told  int           // transactions in this time
		left  int           // of these
	}{
		{"it answers in time", Options{Behind: time.Second}, 900 * time.Millisecond, 10, 0},
		{"it answers late", Options{Behind: time.Second}, time.Second, 10, 10},
		{"there is no room for more transactions", Options{Limit: 16}, time.Millisecond, 20, 8},
		{"there is no room for more bytes", Options{Bytes: 30_000}, time.Millisecond, 20, 8},
	} {
		t.Run(one.name, func(t *testing.T) {
			one.opt.Sessions = 1
			b := newBench(t, one.opt)
			b.connect(1)
			tell := func(place uint64) {
				b.tell(1, place, record.Transaction{Statements: big, Reads: []record.Read{read("a", 7)}})
			}
			tell(0)
			b.later(time.Millisecond).core.meet(b.now)
			b.pass()
			b.core.round()
			b.core.asking = b.now
			b.later(one.delay)
			for n := 0; n < one.told; n++ {
				tell(uint64(1 + n))
			}
			if n := b.core.counts.folded[noRoom]; int(n) != one.left {
				t.Errorf("%d are left out", n)
			}
			b.core.roundAnswered(0)
			b.pass()
			b.core.cut([]uint64{b.core.sessions[0].written})
			b.model.sessions[0].mark = int(b.core.sessions[0].written)
			if b.core.remain != 0 || b.core.bytes != 0 || b.core.fellBehind() {
				t.Errorf("after it has caught up %d remain, with %d bytes", b.core.remain, b.core.bytes)
			}
			tell(99)
			b.settle()
			if n := b.core.counts; int(n.offered-n.fences) != one.told-one.left+2 {
				t.Errorf("%d are offered", n.offered-n.fences)
			}
		})
	}
}

// A round answered while another one waits: the time counts from then.
func TestLateRounds(t *testing.T) {
	b := newBench(t, Options{Sessions: 1, Behind: time.Second})
	b.core.asking = b.now
	b.later(time.Second)
	b.core.roundAnswered(1)
	if b.core.isLate() || !b.later(time.Second).core.isLate() {
		t.Error("the time doesn't count from the last answer")
	}
}

// kept is an Output that keeps events.
type kept struct{ events *[]Event }

func (kept) Line([]byte)      {}
func (k kept) Event(it Event) { *k.events = append(*k.events, it) }

// People are told once a minute why transactions are left out; and the parent, that another audit should begin, once
// nothing could be forgotten for a minute although rounds are answered.
func TestWhatIsToldOfFallingBehind(t *testing.T) {
	b := newBench(t, Options{Sessions: 1, Limit: 8})
	b.connect(1)
	var told []Event
	j := &Joiner{core: b.core, output: kept{&told}, unanswered: 1}
	place := uint64(0)
	second := func() {
		for n := 0; n < 10; n++ {
			b.tell(1, place, record.Transaction{Reads: []record.Read{read("a", 7)}})
			place++
		}
		j.lookBehind()
		b.later(time.Second)
	}
	for n := 0; n < 70; n++ {
		second()
	}
	warning, is := told[0].(Warning)
	if len(told) != 1 || !is || !strings.HasPrefix(warning.Text, "the auditor fell behind: there is no room") {
		t.Fatalf("told: %+v", told)
	}
	j.unanswered = 0
	second()
	if behind, is := told[len(told)-1].(Behind); len(told) != 2 || !is || !strings.HasPrefix(behind.Reason, "the auditor fell behind") {
		t.Errorf("told: %+v", told)
	}
	second()
	if len(told) != 2 {
		t.Errorf("it is told again: %+v", told)
	}
	b.pass()
	b.core.cut([]uint64{b.core.sessions[0].written})
	b.core.asking = b.now.Add(-time.Hour)
	second()
	if warning, is := told[len(told)-1].(Warning); len(told) != 3 || !is || !strings.Contains(warning.Text, "hasn't answered for 5 s") {
		t.Errorf("told: %+v", told)
	}
}

func nobody() int { return 0 }

// A meeting that folds much isn't soon followed by another one, unless nothing is under way; there are rounds in between.
func TestWhenSessionsMeet(t *testing.T) {
	for _, one := range []struct {
		offered, folded, busy int
		passed                time.Duration
		want                  bool
	}{
		{1, 0, 9, time.Second, true},
		{1, 0, 9, time.Second - 1, false},
		{0, 0, 0, time.Hour, false},
		{1, 1, 9, time.Second, false},
		{1, 1, 0, time.Second, true},
		{999, 1, 9, time.Second, false},
		{1000, 1, 9, time.Second, true},
		{1000, 2, 9, time.Second, false},
		{2000, 2, 9, time.Second, true},
		{1, 9, 9, 5*time.Second - 1, false},
		{1, 9, 9, 5 * time.Second, true},
	} {
		b := newBench(t, Options{Sessions: 1})
		b.core.meet(b.now)
		b.core.since, b.core.counts.folded[acrossMoment] = one.offered, uint64(one.folded)
		last := b.now
		b.later(one.passed)
		if got := b.core.wantsMeeting(last, func() int { return one.busy }); got != one.want {
			t.Errorf("%+v: %v", one, got)
		}
	}
	b := newBench(t, Options{Sessions: 1})
	last := b.now
	b.core.unchecked = 1
	if b.later(time.Second-1).core.wantsRound(last) || !b.later(1).core.wantsRound(last) {
		t.Error("there isn't a round each second")
	}
	if b.core.unchecked = 0; b.core.wantsRound(last) {
		t.Error("a round is wanted about nothing new")
	}
}

// Rounds without a meeting are told as such, and come each second even if something is under way all the time and
// meetings fold it.
func TestRoundsWithoutMeetings(t *testing.T) {
	opt := often
	opt.Within = time.Hour
	s := newStage(t, opt)
	s.connect(1)
	s.lock.Lock()
	s.busy[1] = true
	s.lock.Unlock()
	s.update(1, "a")
	s.until("a first meeting", func() bool { return s.lined("truncate") > 0 })
	looks, began := 0, time.Now().Add(-time.Hour)
	s.until("rounds without a meeting", func() bool {
		if looks++; looks%30 == 0 {
			go s.update(1, "b")
		}
		if looks%3 == 0 { // one that ran across the last meeting
			s.tell(1, record.Transaction{Began: began, Reads: []record.Read{read("a", 7)}})
		}
		checking := 0
		for _, one := range s.events {
			if _, is := one.(Checking); is {
				checking++
			}
		}
		return checking > 2 && s.lined("round") > 3
	})
}

// How many come between two meetings, and may remain, follows from how long rounds take.
func TestPace(t *testing.T) {
	const second = time.Second
	type round struct {
		n    int
		took time.Duration
		fit  int
		left uint64 // for want of room
	}
	for _, one := range []struct {
		name   string
		rounds []round
	}{
		{"fast ones", []round{{100, second / 1000, 8_192, 0}, {8_000, second / 5, 17_888, 0}, {18_000, second / 10, 56_920, 0}, {60_000, second / 100, 131_072, 0}}},
		{"slow ones", []round{{10_000, second, 9_999, 0}, {10_000, 4 * second, 4_999, 0}, {5_000, 400 * second, 4_096, 0}, {4_096, 100 * second, 4_096, 0}}},
		{"slow for another reason", []round{{4_095, 10 * second, 8_192, 0}, {10_000, 100 * second, 4_096, 0}, {1_023, second / 100, 10_229, 0}}},
		{"some are left out", []round{{20_000, second, 14_142, 1}, {20_000, second, 9_999, 1}, {20_000, second, 7_071, 1}, {20_000, second, 7_071, 9},
			{8_000, second / 8, 7_999, 0}, {8_000, second / 20, 14_142, 0}}},
	} {
		b, known := newBench(t, Options{Sessions: 256, Limit: 131_072}), false
		for _, its := range one.rounds {
			b.core.remain = its.n
			b.core.roundAsked(1, b.core.remain, true)
			b.later(its.took)
			b.core.counts.folded[noRoom] += its.left
			b.core.roundAnswered(0)
			if b.core.fit != its.fit {
				t.Errorf("%s: after %d in %v so many fit: %d, wanted %d", one.name, its.n, its.took, b.core.fit, its.fit)
			}
			most := 131_072
			if known = known || its.fit != firstFit; known {
				most = least(its.fit+its.fit/4, most)
			}
			if room := b.core.room(); b.core.most != most || room != least(most, least(131_072, 2*most+1024)-512-its.n) {
				t.Errorf("%s: %d may come, and there is room for %d", one.name, b.core.most, room)
			}
		}
	}
	b := newBench(t, Options{Sessions: 1, Limit: 4})
	b.core.remain = 4
	b.core.roundAsked(1, b.core.remain, true)
	b.later(time.Hour).core.roundAnswered(0)
	if b.core.most != 4 || b.core.fit != 4 {
		t.Errorf("of a limit of 4 it leaves %d and %d", b.core.most, b.core.fit)
	}
}

// While a round takes long, fewer may come.
func TestRoomDuringALongRound(t *testing.T) {
	b := newBench(t, Options{Sessions: 1})
	b.core.fits(10_000)
	b.core.remain, b.core.since = 10_000, 100
	b.core.roundAsked(1, b.core.remain, true)
	const second = time.Second
	for _, x := range []struct {
		passed       time.Duration
		most, remain int // may come until the next meeting, and remain
	}{{second, 12_500, 35_002}, {3 * second / 2, 8_164, 26_330}, {100 * second, 4_096, 18_194}} {
		b.core.now = b.core.asking.Add(x.passed)
		if most, remain := b.core.mostNow(), b.core.left()+b.core.remain; most != x.most || remain != x.remain {
			t.Errorf("after %v %d may come, and %d remain", x.passed, most, remain)
		}
	}
	if b.core.roundAsked(1, leastFit-1, true); b.core.mostNow() != 12_500 {
		t.Errorf("during a round of few %d may come", b.core.mostNow())
	}
	if b.core.now = b.now.Add(time.Hour); b.core.mostNow() != 12_500 {
		t.Errorf("during a round of few that takes long %d may come", b.core.mostNow())
	}
}

// While transactions are left out, rounds take as long as a meeting does.
func TestRoundsTakeAsLongAsMeetings(t *testing.T) {
	const second = time.Second
	b := newBench(t, Options{Sessions: 256})
	for _, x := range []struct {
		prepared, good time.Duration
		left           uint64
	}{
		{second / 5, second, 0}, {second / 5, second / 2, 1}, {second / 5, second / 4, 1}, {second / 5, second / 5, 1},
		{second / 5, second / 5, 0}, {second, second / 4, 1}, {second, second * 5 / 16, 1}, {second / 100, second * 25 / 64, 1},
	} {
		b.core.prepared(x.prepared)
		b.core.remain = 10_000
		b.core.roundAsked(1, b.core.remain, false)
		b.later(second)
		b.core.counts.folded[noRoom] += x.left
		if b.core.roundAnswered(0); b.core.good != x.good {
			t.Errorf("%+v: rounds should take %v", x, b.core.good)
		}
	}
}

// A slow round leaves less room, which is told, and everything that there is room for is still offered.
func TestLessRoomAfterASlowRound(t *testing.T) {
	b := newBench(t, Options{Sessions: 1, Limit: 16_384})
	b.connect(1)
	var told []Event
	j := &Joiner{core: b.core, output: kept{&told}, unanswered: 1}
	place := uint64(0)
	tell := func(n int) {
		for ; n > 0; n-- {
			b.tell(1, place, record.Transaction{Reads: []record.Read{read("a", 7)}})
			place++
		}
		j.lookBehind()
	}
	round := func(took time.Duration) {
		b.later(time.Millisecond).core.meet(b.now)
		b.pass()
		b.core.roundAsked(1, b.core.remain, true)
		b.later(took).core.roundAnswered(0)
		b.core.cut([]uint64{b.core.sessions[0].written})
		b.model.sessions[0].mark = int(b.core.sessions[0].written)
	}
	tell(5000)
	round(4 * time.Second)
	if tell(4096 + 1024); b.core.counts.folded[noRoom] != 0 || len(told) > 0 {
		t.Errorf("%d are left out, told %v", b.core.counts.folded[noRoom], told)
	}
	tell(100)
	if n := b.core.counts.folded[noRoom]; n != 100 {
		t.Errorf("%d are left out", n)
	}
	if warning, is := told[0].(Warning); len(told) != 1 || !is || !strings.Contains(warning.Text, "it is given 5120 transactions at a time") {
		t.Errorf("told: %+v", told)
	}
}

// Sessions meet when so much was offered as a round should have, though that folds much; and for those that find no session
// less often if all others work.
func TestMeetingsByWhatWasOffered(t *testing.T) {
	b := newBench(t, Options{Sessions: 16})
	busy := func() int { return 9 }
	b.core.meet(b.now)
	last := b.now
	for _, one := range []struct {
		since  int
		passed time.Duration
		want   bool
	}{{firstFit - 1, time.Second, false}, {firstFit, time.Second/4 - 1, false}, {firstFit, time.Second / 4, true}} {
		b.core.since, b.core.counts.folded[acrossMoment] = one.since, 1_000_000
		b.core.now = last.Add(one.passed)
		if got := b.core.wantsMeeting(last, busy); got != one.want {
			t.Errorf("%+v: a meeting is wanted: %v", one, got)
		}
	}
	b.core.since, b.core.short = 0, true
	for n := 13; n <= 14; n++ {
		for len(b.core.sessions) < 14 {
			b.core.sessions = append(b.core.sessions, &session{})
		}
		for i, s := range b.core.sessions {
			s.fenced = i >= n
		}
		for _, x := range []struct {
			passed time.Duration
			want   bool
		}{{time.Second/4 - 1, false}, {time.Second / 4, n < 14}, {time.Second/2 - 1, n < 14}, {time.Second / 2, true}} {
			b.core.now = last.Add(x.passed)
			if got := b.core.wantsMeeting(last, busy); got != x.want {
				t.Errorf("with %d sessions of 16 that were used, after %v a meeting is wanted: %v", n, x.passed, got)
			}
		}
	}
	b.core.unchecked, b.core.took = 1, 400*time.Millisecond
	if b.core.wantsRound(b.core.now.Add(1-2*time.Second)) || !b.core.wantsRound(b.core.now.Add(-2*time.Second)) {
		t.Error("rounds without a meeting take more than a fifth of the time, or aren't wanted")
	}
}
