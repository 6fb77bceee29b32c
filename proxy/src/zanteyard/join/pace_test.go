package join

import (
	"context"
	"fmt"
	"math"
	"testing"
	"time"

	"zanteyard/record"
)

// paced is an audit in simulated time: connections that commit at a rate, a slot that lags, meetings that take time, and an
// auditor that takes a time for a round by how much remains.
type paced struct {
	*Joiner
	t        testing.TB
	now      time.Time
	rate     int
	lag      time.Duration // of the slot, and of reports
	meets    time.Duration // how long a meeting holds clients
	takes    func(n int) time.Duration
	places   map[uint64]uint64
	prepared []placedAt
	place    uint64
	held     time.Time // clients are held until then
	moments  chan func(time.Duration)
	upTo     []uint64    // what the last meeting's fences let the auditor forget
	marks    [][]uint64  // by the rounds that aren't answered
	due      []time.Time // when they are
	from     []time.Time // what they are about had been reported by then
	all      int
	late     int // what would have come while clients were held
	rounds   int
	kept     int // rounds for which something was kept back
	events   []Event
	longest  time.Duration
	oldest   time.Duration // a verdict, when the next one comes
	verdict  time.Time
}

type placedAt struct {
	batch uint64
	at    time.Time
}

const tick = 5 * time.Millisecond

// far is how long a transaction of the connections with odd numbers takes.
const far = 20 * time.Millisecond

func newPaced(t testing.TB, opt Options, connections, rate int, lag, meets time.Duration, takes func(n int) time.Duration) *paced {
	p := &paced{t: t, now: time.Unix(1000, 0), rate: rate, lag: lag, meets: meets, takes: takes, places: map[uint64]uint64{}, place: 100,
		moments: make(chan func(time.Duration), 1)}
	p.Joiner = New(opt, NewInbox(1<<20), plainTables{}, nil, false, nil, kept{&p.events})
	p.meeter, p.inbox.now = p, func() time.Time { return p.now }
	p.core = newCore(p.opt, plainTables{}, base, func([]byte) {}, p.now)
	p.last, p.rounded, p.verdict = p.now, p.now, p.now
	for n := 1; n <= connections; n++ {
		p.core.enter(record.Connection{Number: uint64(n)})
	}
	return p
}

// Meet implements Meeter: the moment is when step calls for it.
func (p *paced) Meet(_ context.Context, _ []uint64, moment func(held time.Duration)) {
	p.moments <- moment
}

// Busy implements Meeter.
func (p *paced) Busy([]uint64) (int, int) { return 100, 0 }

func (p *paced) run(d time.Duration) {
	ctx := context.Background()
	for until := p.now.Add(d); p.now.Before(until); {
		p.now = p.now.Add(tick)
		p.core.now = p.now
		p.answer()
		p.tell()
		p.pass()
		p.core.step(p.now)
		p.core.flush()
		was := p.unanswered
		p.step(ctx)
		if p.unanswered > was {
			p.asked()
		}
	}
}

// step is the joiner's, and a meeting's moment once clients were held.
func (p *paced) step(ctx context.Context) {
	phase := p.meeting.phase
	p.meet(ctx, p.now)
	if phase == apart && p.meeting.phase == together {
		p.held = p.now.Add(p.meets)
	}
	if p.meeting.phase != together || p.now.Before(p.held) {
		return
	}
	(<-p.moments)(p.meets)
	its, _ := p.inbox.take()
	p.Joiner.moment(*its[0].moment)
	p.upTo = p.forgettable()
}

// forgettable is what the meeting that has just been lets the auditor forget: all but the last fence of each session, and that
// of the last one that had something to be forgotten.
func (p *paced) forgettable() []uint64 {
	its := p.core.numbers()
	for i, s := range p.core.sessions {
		if n := len(s.waiting); n > 0 && s.waiting[n-1].fence && (n == 1 || its[i] > s.mark+1) {
			its[i]--
		}
	}
	return its
}

// asked notes that a round was asked for.
func (p *paced) asked() {
	n := p.core.given()
	if p.core.going > 0 && n > p.core.remain-p.core.since {
		p.t.Errorf("a round is about %d, and %d had come before its meeting", n, p.core.remain-p.core.since)
	}
	if p.core.going > 0 && p.core.since > 0 {
		p.kept++
	}
	took := p.takes(n)
	from := p.now
	if len(p.due) > 0 && p.due[len(p.due)-1].After(from) {
		from = p.due[len(p.due)-1]
	}
	p.longest = longest(p.longest, took)
	p.due, p.from, p.marks = append(p.due, from.Add(took)), append(p.from, p.now), append(p.marks, p.upTo)
	p.upTo = nil
}

func (p *paced) answer() {
	for len(p.due) > 0 && !p.due[0].After(p.now) {
		p.oldest = longest(p.oldest, p.now.Sub(p.verdict))
		p.verdict = p.from[0]
		marks := p.marks[0]
		p.due, p.from, p.marks = p.due[1:], p.from[1:], p.marks[1:]
		p.rounds++
		p.unanswered--
		p.core.roundAnswered(p.unanswered)
		if marks != nil && !p.core.cut(marks) {
			p.t.Fatal("the marks are wrong")
		}
	}
}

// tell reports what ended in this step: of each second connection a transaction takes long.
func (p *paced) tell() {
	if p.now.Before(p.held) {
		return // as many fewer are committed
	}
	n := p.rate * int(tick) / int(time.Second)
	for ; n > 0; n-- {
		p.all++
		c := uint64(p.all%len(p.core.connections)) + 1
		began := p.now.Add(-tick)
		if c%2 == 1 {
			began = p.now.Add(-far)
		}
		p.core.tell(record.Transaction{Connection: c, Place: p.places[c], Began: began, Ended: p.now, Reads: []record.Read{read("a", 7)}})
		p.places[c]++
	}
}

// pass lets the slot pass what was reported a while ago.
func (p *paced) pass() {
	if batch, wanted := p.core.wantsPlace(); wanted {
		p.prepared = append(p.prepared, placedAt{batch, p.now})
	}
	for len(p.prepared) > 0 && p.now.Sub(p.prepared[0].at) >= p.lag {
		p.place += 100
		p.core.placed(p.prepared[0].batch, Place{At: p.place, Shows: "3:2000000000:"}, p.now)
		p.core.advance(p.place)
		p.prepared = p.prepared[1:]
	}
}

func (p *paced) share() float64 {
	n := p.core.counts
	return 100 * float64(n.offered-n.fences) / float64(p.all)
}

// grows returns the time of a round whose number of transactions has this power, with a time for 100,000.
func grows(power float64, of100k time.Duration) func(int) time.Duration {
	return func(n int) time.Duration {
		return 3*time.Millisecond + time.Duration(float64(of100k)*math.Pow(float64(n)/100_000, power))
	}
}

// Seventeen thousand transactions a second, of which each meeting folds some: rounds stay so short that nearly all is checked,
// though one of all that comes in five seconds would take a minute, and though what was reported before a meeting is known late.
// An auditor that can't do with all of them is never idle.
func TestRoundsStayShort(t *testing.T) {
	const ms = time.Millisecond
	for _, x := range []struct {
		power   float64       // of the number of transactions, by which a round's time grows
		of100k  time.Duration // a round of 100,000
		lag     time.Duration
		want    float64
		longest time.Duration // a round, after some seconds
	}{
		{1, 10 * time.Second, 500 * ms, 52, time.Second},
		{1.5, 10 * time.Second, 500 * ms, 98, 1200 * ms},
		{2, time.Second, 50 * ms, 98, 1200 * ms},
		{2, time.Minute, 50 * ms, 94, 400 * ms},
		{2, time.Minute, 500 * ms, 93, 800 * ms},
	} {
		x := x
		t.Run(fmt.Sprintf("%g %v %v", x.power, x.of100k, x.lag), func(t *testing.T) {
			t.Parallel()
			p := newPaced(t, Options{Sessions: 256, First: 8}, 160, 17_000, x.lag, 25*ms, grows(x.power, x.of100k))
			p.run(10 * time.Second)
			all, offered := p.all, p.core.counts.offered-p.core.counts.fences
			p.longest, p.oldest, p.rounds, p.kept = 0, 0, 0, 0
			p.run(10 * time.Second)
			share := 100 * float64(p.core.counts.offered-p.core.counts.fences-offered) / float64(p.all-all)
			told := fmt.Sprintf("%.1f of 100 are offered, the longest of %d rounds took %v, %d without what came last, the oldest verdict was of %v ago: %v",
				share, p.rounds, p.longest, p.kept, p.oldest, p.core.counts.folded)
			t.Log(told)
			if share < x.want || p.kept == 0 || p.longest > x.longest || p.oldest > 6*time.Second {
				t.Error(told)
			}
		})
	}
}

// While a round isn't answered, sessions meet for the next one, which isn't asked for before that. The last one is, since then
// nothing else is waited for.
func TestNextRoundIsPrepared(t *testing.T) {
	const ms = time.Millisecond
	p := newPaced(t, Options{Sessions: 256, First: 8}, 160, 17_000, 50*ms, 25*ms, func(int) time.Duration { return time.Hour })
	p.run(2 * time.Second)
	if !p.meeting.follows || !p.meeting.isSettled || p.unanswered != 1 {
		t.Fatalf("no meeting waits for an answer: %+v, %d rounds aren't answered", p.meeting, p.unanswered)
	}
	meetings := p.meetings
	p.run(2 * time.Second)
	if p.meetings != meetings || p.unanswered != 1 {
		t.Errorf("%d meetings more, %d rounds aren't answered", p.meetings-meetings, p.unanswered)
	}
	p.wanted, p.stopping = true, true
	p.run(500 * ms)
	if _, is := p.events[len(p.events)-1].(Stopped); !is || p.unanswered != 3 {
		t.Errorf("the last round waits: %T, %d rounds aren't answered", p.events[len(p.events)-1], p.unanswered)
	}
	p.takes = func(int) time.Duration { return ms }
	p.due[0], p.due[1], p.due[2] = p.now, p.now, p.now
	if p.run(2 * time.Second); p.rounds < 5 || p.unanswered > 1 {
		t.Errorf("%d rounds were answered, %d aren't", p.rounds, p.unanswered)
	}
}
