package join

import (
	"context"
	"errors"
	"fmt"
	"sort"
	"strings"
	"testing"
	"time"

	"zanteyard/guard"
	"zanteyard/record"
)

// often are options of an audit whose sessions meet as often as they can.
var often = Options{
	Sessions: 4, First: 4, Between: 30 * time.Millisecond, Late: time.Minute, Stale: time.Hour,
	Idle: time.Hour,
}

// Each meeting is of the connections that have a session, and is followed by a round and a cut, by which everything is
// forgotten but fences.
func TestMeetings(t *testing.T) {
	s := newStage(t, often)
	s.connect(1, 2, 3, 4, 5)
	for i := 0; i < 3; i++ {
		s.update(1, "a")
		s.update(2, "b")
	}
	s.update(3, "c")
	s.leave(3) // its session is handed on
	s.until("a first round", func() bool { return s.lined("truncate") > 0 })
	s.update(2, "b")
	s.until("a meeting of those with a session, and that nothing is left but fences", func() bool {
		for _, one := range s.model.sessions {
			for _, it := range one.its[one.mark:] {
				if !it.isFence() {
					return false
				}
			}
		}
		last := append([]uint64(nil), s.asked[len(s.asked)-1]...)
		sort.Slice(last, func(i, j int) bool { return last[i] < last[j] })
		return s.lined("truncate") > 1 && fmt.Sprint(last) == "[1 2 4 5]"
	})
	s.lock.Lock()
	defer s.lock.Unlock()
	if n := s.warnings(""); n > 0 {
		t.Errorf("%d warnings: %v", n, s.events)
	}
	if first := fmt.Sprint(s.asked[0]); first != "[1 2 3 4]" && first != "[1 2 4]" && first != "[1 2 5 4]" {
		t.Errorf("the first meeting is of %v", first)
	}
	moments := 0
	for _, one := range s.events {
		switch it := one.(type) {
		case Checking:
			moments++
		case Meeting:
			moments++
			if it.Fences < 4 || it.Fences > 7 || it.Took != time.Millisecond {
				t.Errorf("told: %+v", it)
			}
		}
	}
	if moments < s.lined("round") {
		t.Errorf("%d rounds are of %d meetings", s.lined("round"), moments)
	}
}

// A meeting waits for a gap, but not for long: with something under way all the time it takes place, too.
func TestMeetingsOfTheBusy(t *testing.T) {
	s := newStage(t, often)
	s.connect(1)
	s.busy[1] = true
	s.update(1, "a")
	s.until("a round", func() bool { return s.lined("round") > 0 })
}

// gaps is a Meeter with something under way.
type gaps struct{ underWay int }

func (g gaps) Meet(context.Context, []uint64, func(time.Duration)) {}
func (g gaps) Busy([]uint64) (underWay, idle int)                  { return g.underWay, 9 }

// A meeting waits until nothing is under way, so that nobody is held for it; but not for long, and not if there is
// little room. Who is idle in a transaction doesn't matter.
func TestMeetingsWaitForAGap(t *testing.T) {
	for _, one := range []struct {
		underWay int
		passed   time.Duration
		short    bool
		want     bool
	}{
		{0, 0, false, true},
		{1, 0, false, false},
		{1, seek - 1, false, false},
		{1, seek, false, true},
		{1, 0, true, true},
	} {
		b := newBench(t, Options{Sessions: 1, Limit: 16})
		b.connect(1)
		for place := uint64(0); one.short && place < 16; place++ {
			b.tell(1, place, record.Transaction{Reads: []record.Read{read("a", 7)}})
		}
		j := &Joiner{core: b.core, meeter: gaps{one.underWay}, inbox: NewInbox(1000), wanted: true}
		for _, at := range []time.Time{b.now, b.now.Add(one.passed)} {
			j.meet(context.Background(), at)
		}
		if got := j.meeting.phase == together; got != one.want || j.wanted == got {
			t.Errorf("%+v: it begins: %v", one, got)
		}
		if b.core.isShort() != one.short {
			t.Errorf("%+v: there is little room: %v", one, b.core.isShort())
		}
	}
}

// A moment that was sought for an audit before this one, or twice, isn't noted.
func TestMomentOfAnotherAudit(t *testing.T) {
	b := newBench(t, Options{Sessions: 1})
	events := 0
	j := &Joiner{core: b.core, inbox: NewInbox(1000), meeting: meeting{phase: together, number: 7}, output: counting{&events}}
	for _, number := range []uint64{6, 7, 7, 8} {
		j.inbox.Moment(number, time.Millisecond)
	}
	j.empty()
	if events != 1 || len(b.core.moments.its) != 1 || j.meeting.phase != settling {
		t.Errorf("%d are noted, %d are told, the phase is %d", len(b.core.moments.its), events, j.meeting.phase)
	}
}

// A round waits for what was reported before it, if the server's log is late; the last one of an audit for longer, since
// nothing comes after it.
func TestRoundsWaitForTheLog(t *testing.T) {
	for _, one := range []struct {
		written, isLast bool
		passed          time.Duration
		want            bool
	}{
		{true, false, 0, true},
		{true, true, 0, true},
		{false, false, mostSettling, false},
		{false, false, mostSettling + 1, true},
		{false, true, mostSettling + 1, false},
		{false, true, lastSettling, false},
		{false, true, lastSettling + 1, true},
	} {
		b := newBench(t, Options{Sessions: 1})
		b.connect(1)
		events := 0
		j := &Joiner{core: b.core, inbox: NewInbox(1000), output: counting{&events}}
		j.meeting = meeting{phase: settling, noted: b.now, upTo: []uint64{1}, isLast: one.isLast}
		if one.written {
			j.meeting.upTo = []uint64{0}
		}
		j.meet(context.Background(), b.now.Add(one.passed))
		if got := j.meeting.phase == apart; got != one.want || events > 0 != (got && one.isLast) {
			t.Errorf("%+v: it ends: %v, with %d events", one, got, events)
		}
	}
}

// counting is an Output that counts events.
type counting struct{ events *int }

func (counting) Line([]byte)   {}
func (c counting) Event(Event) { *c.events++ }

// If a server doesn't say where its log is, what was reported waits until it does.
func TestServerThatDoesntTellItsPlace(t *testing.T) {
	s := newStage(t, often)
	s.lock.Lock()
	s.failing["place"] = errors.New("away")
	s.lock.Unlock()
	s.connect(1)
	s.update(1, "a")
	s.until("that it is asked again", func() bool { return len(s.events) > 0 })
	time.Sleep(3 * askPlace)
	s.lock.Lock()
	if s.applications() > 0 {
		t.Error("something was offered whose writes may not have been told")
	}
	delete(s.failing, "place")
	s.lock.Unlock()
	s.until("an offer", func() bool { return s.applications() > 0 })
}

// Stop makes a last round and reports it; the audit goes on.
func TestStop(t *testing.T) {
	opt := often
	opt.Between = time.Hour
	s := newStage(t, opt)
	s.connect(1)
	s.update(1, "a")
	s.until("an offer", func() bool { return s.lined("offer") > 0 })
	if s.count("round") > 0 {
		t.Fatal("there was a round that nobody wanted")
	}
	s.joiner.Stop()
	s.until("that it was the last round", func() bool {
		_, is := s.events[len(s.events)-1].(Stopped)
		return is && s.lined("round") == 1 && s.lined("truncate") == 1
	})
	s.update(1, "b")
	s.joiner.Round()
	s.until("one more round", func() bool { return s.lined("round") == 2 })
	stopped := 0
	s.lock.Lock()
	defer s.lock.Unlock()
	for _, one := range s.events {
		if _, is := one.(Stopped); is {
			stopped++
		}
	}
	if stopped != 1 {
		t.Errorf("it was told %d times that it was stopped", stopped)
	}
}

// TestStopAsItRestarts: an audit that is to stop, and begins anew before its last meeting has ended, stops all the same.
func TestStopAsItRestarts(t *testing.T) {
	opt := often
	opt.Between = time.Hour
	s := newStage(t, opt)
	slow := make(chan struct{})
	s.slow = slow
	s.connect(1)
	s.update(1, "a")
	s.until("an offer", func() bool { return s.lined("offer") > 0 })
	s.joiner.Stop()
	s.until("that they meet", func() bool { return s.slow == nil })
	s.joiner.Restart()
	s.until("another audit", func() bool { return s.lined("open") == 2 })
	close(slow)
	s.until("that it has stopped", func() bool {
		_, is := s.events[len(s.events)-1].(Stopped)
		return is
	})
}

// Restart begins again with the existing connections. What was under way for the previous audit is dropped: a meeting
// that it began reports nothing to the new one.
func TestRestart(t *testing.T) {
	opt := often
	opt.Between = time.Hour
	s := newStage(t, opt)
	slow := make(chan struct{})
	s.slow = slow
	s.connect(1, 2)
	s.update(1, "a")
	s.update(2, "b")
	s.until("offers", func() bool { return s.lined("offer") > 1 })
	s.joiner.Round()
	s.until("that they meet", func() bool { return s.slow == nil })
	s.joiner.Restart()
	s.until("another audit", func() bool { return s.lined("open") == 2 })
	close(slow)
	s.update(1, "b")
	s.update(2, "a")
	s.until("offers of the new one", func() bool { return s.model.remain() > 1 })
	for i := 0; i < 20; i++ { // what the meeting still reports arrives within some steps
		s.update(1, "b")
		time.Sleep(step)
	}
	if n := s.count("round"); n > 0 {
		t.Errorf("%d rounds came of a meeting of the audit before", n)
	}
	s.lock.Lock()
	defer s.lock.Unlock()
	var words []string
	for _, one := range s.events {
		switch it := one.(type) {
		case Coverage:
			if len(words) == 0 && it.Offered > 0 {
				words = append(words, "offered")
			}
		case Restarted:
			words = append(words, "restarted")
		}
	}
	if fmt.Sprint(words) != "[offered restarted]" {
		t.Errorf("told: %v", words)
	}
}

// An audit ends for a reason, and reports it last; its feeders learn that it has ended.
func TestEnd(t *testing.T) {
	s := newStage(t, often)
	s.connect(1)
	s.joiner.End(errors.New("the slot was lost"))
	s.joiner.End(errors.New("another reason"))
	if err := <-s.ended; err == nil || err.Error() != "the slot was lost" {
		t.Errorf("it ended by %v", err)
	}
	if err := s.joiner.Commit(record.Commit{}); !errors.Is(err, errEnded) {
		t.Errorf("a commit afterwards: %v", err)
	}
	s.joiner.Cut(nil) // none of these waits
	s.joiner.Round()
	last, is := s.events[len(s.events)-1].(Ended)
	if !is || last.Reason != "the slot was lost" {
		t.Errorf("told last: %+v", s.events[len(s.events)-1])
	}
	if _, is := s.events[len(s.events)-2].(Coverage); !is {
		t.Errorf("told before: %+v", s.events[len(s.events)-2])
	}
}

// faulty are tables that break after a while.
type faulty struct {
	plainTables
	broken bool
}

func (f *faulty) Use(record.Relation) {
	if f.broken {
		panic("broken")
	}
}

// TestFaultIsCounted: after a fault in the middle of what was reported, each transaction is still in one place: those before
// it in the audit's own sums, and those from there on among what ended later.
func TestFaultIsCounted(t *testing.T) {
	tables := &faulty{}
	s := &stage{t: t, inbox: NewInbox(1 << 20), failing: map[string]error{}}
	j := New(often, s.inbox, tables, s, false, s, s)
	j.core = newCore(j.opt, tables, base, s.Line, time.Now())
	j.core.open()
	one := record.Transaction{Connection: 1, Reads: []record.Read{read("a", 7)}, Did: record.Did{Again: 1}}
	s.inbox.Connection(record.Connection{Number: 1})
	for i := uint64(0); i < 3; i++ {
		one.Place = i
		s.inbox.Transaction(one)
	}
	j.empty()
	tables.broken = true
	for i := uint64(3); i < 8; i++ {
		one.Place = i
		s.inbox.Transaction(one)
	}
	err := guard.Run("a fault", func() error { j.empty(); return nil })
	if !guard.IsFault(err) {
		t.Fatal(err)
	}
	j.inbox.close()
	j.salvage(nil)
	s.inbox.Transaction(one) // after it
	its, late := j.Coverage().Totals, s.inbox.Late()
	if n := its.Ended(); n != 4 || its.Transactions.Waiting() != 0 {
		t.Errorf("the audit has %+v", its.Transactions)
	}
	if n := late.Ended(); n != 5 || late.Transactions.NotChecked[noAudit] != 5 {
		t.Errorf("later ended %+v", late.Transactions)
	}
}

// An audit that can't begin ends with that reason.
func TestServerThatIsAwayAtFirst(t *testing.T) {
	s := &stage{t: t, inbox: NewInbox(1000), failing: map[string]error{"base": errors.New("away")}}
	err := New(often, s.inbox, plainTables{}, s, false, s, s).Run(context.Background())
	if err == nil || !strings.Contains(err.Error(), "begin the audit: away") {
		t.Error(err)
	}
}

// Marks of another audit are reported, and nothing is forgotten because of them.
func TestCutOfAnotherAudit(t *testing.T) {
	opt := often
	opt.Between = time.Hour
	s := newStage(t, opt)
	s.connect(1)
	s.update(1, "a")
	s.until("an offer", func() bool { return s.lined("offer") > 0 })
	s.joiner.Cut([]uint64{1 << 40, 0, 0, 0})
	s.until("a warning", func() bool { return s.warnings("belong to another audit") == 1 })
	s.joiner.Describe(9, [][2]uint64{{0, 0}, {0, 1 << 40}, {99, 0}})
	s.until("the answer", func() bool {
		it, is := s.events[len(s.events)-1].(Transactions)
		return is && it.ID == 9 && len(it.Given) == 3 && it.Given[0].Known && !it.Given[1].Known && !it.Given[2].Known
	})
}

// While the auditor doesn't answer, the sessions don't meet.
func TestRoundsWaitForTheAuditor(t *testing.T) {
	s := newStage(t, often)
	s.held = true
	s.connect(1)
	for i := 0; i < 20000 && s.count("truncate") == 0; i++ {
		s.update(1, "a")
		time.Sleep(time.Millisecond)
	}
	for i := 0; i < 100; i++ {
		s.update(1, "a")
		time.Sleep(2 * time.Millisecond)
	}
	s.lock.Lock()
	if n := s.lined("truncate"); n != 1 {
		t.Errorf("%d rounds, and none was answered", n)
	}
	s.held = false
	marks, _ := s.model.settled()
	s.lock.Unlock()
	s.joiner.Cut(marks)
	s.until("the next round", func() bool {
		go s.update(1, "a")
		return s.lined("truncate") > 1
	})
}
