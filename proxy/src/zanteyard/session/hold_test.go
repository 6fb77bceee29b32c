package session

import (
	"context"
	"testing"
	"time"

	"github.com/jackc/pgproto3/v2"

	"zanteyard/meeting"
	"zanteyard/record"
)

// locks makes a connection of its own hold a row's lock, until free is called.
func locks(t *testing.T) (free func()) {
	t.Helper()
	locker := direct(t, "postgres")
	locker.query("BEGIN")
	locker.query("UPDATE t SET v = v WHERE id = 1")
	return func() { locker.query("COMMIT") }
}

// lockedOut is a statement that waits for that lock.
const lockedOut = "UPDATE t SET v = v + 1 WHERE id = 1"

// is waits until the session's client is in a state.
func (p *proxied) is(want meeting.State) {
	p.t.Helper()
	until(p.t, "the session is in the right state", func() bool { return p.session.State() == want })
}

// TestState: what a client is doing, as far as a meeting is concerned.
func TestState(t *testing.T) {
	needServer(t)
	sql(t, fill)
	free := locks(t)
	q := func(text string) pgproto3.FrontendMessage { return &pgproto3.Query{String: text} }
	for _, one := range []struct {
		name string
		send []byte
		read string // the answers that are read first, up to messages of these types
		want meeting.State
	}{
		{"after an answer", encoded(q("SELECT 1")), "Z", meeting.Quiet},
		{"after two", encoded(q("BEGIN"), q("COMMIT")), "ZZ", meeting.Quiet},
		{"in a transaction", encoded(q("BEGIN")), "Z", meeting.Idle},
		{"in a failed one", encoded(q("BEGIN"), q("SELECT 1/0")), "ZZ", meeting.Idle},
		{"before a Sync", encoded(&pgproto3.Parse{Query: "SELECT 1"}, &pgproto3.Bind{}, &pgproto3.Execute{}, &pgproto3.Flush{}), "C",
			meeting.Idle},
		{"in a COPY", encoded(q("COPY keyless FROM STDIN")), "G", meeting.UnderWay},
		{"in a statement", encoded(q(lockedOut)), "", meeting.UnderWay},
		{"in a statement of a transaction", encoded(q("BEGIN"), q(lockedOut)), "Z", meeting.UnderWay},
		{"in the second of two", encoded(q("SELECT 1"), q(lockedOut)), "Z", meeting.UnderWay},
	} {
		t.Run(one.name, func(t *testing.T) {
			p := through(t, "postgres", nil)
			p.send(one.send)
			for i := range one.read {
				p.until(one.read[i])
			}
			p.is(one.want)
		})
	}
	free()
}

// TestMeeting: what begins waits until what is under way has ended, whoever ends it; who is idle in a transaction goes
// on, and nobody waits for it. What had ended by the moment is reported by then, and what waited begins later.
func TestMeeting(t *testing.T) {
	needServer(t)
	sql(t, fill)
	free := locks(t)
	room := meeting.NewRoom(time.Hour)
	var all []*proxied
	var numbers []uint64
	for i := 0; i < 4; i++ {
		p := through(t, "postgres", nil)
		p.query("SELECT v FROM t WHERE id = 2")
		p.settle()
		room.Enter(p.session)
		all, numbers = append(all, p), append(numbers, p.session.Number())
	}
	quiet, busy, idle, unnamed := all[0], all[1], all[2], all[3]
	idle.query("BEGIN")
	busy.send(query(lockedOut).send)
	unnamed.send(query(lockedOut).send)
	busy.is(meeting.UnderWay)
	unnamed.is(meeting.UnderWay)
	for _, p := range all {
		p.sink.take()
	}
	moment, over := make(chan time.Time, 1), make(chan bool)
	go func() {
		room.Meet(context.Background(), numbers[:3], func(time.Duration) {
			at := time.Now()
			if told := busy.sink.take(); len(told) != 1 || told[0].Ended.After(at) {
				t.Errorf("by the moment it has told %+v", told)
			}
			moment <- at
		})
		close(over)
	}()
	until(t, "all are held", func() bool {
		for _, p := range all[:3] {
			if p.session.hold.Load() == nil {
				return false
			}
		}
		return true
	})
	quiet.send(query("SELECT v FROM t WHERE id = 3").send)
	idle.query("SELECT v FROM t WHERE id = 3") // which isn't held
	if state := quiet.session.State(); state != meeting.Quiet {
		t.Errorf("what waits counts as %v", state)
	}
	select {
	case <-moment:
		t.Fatal("the moment came while something was under way")
	default:
	}
	free()
	busy.until('Z')
	at := <-moment
	<-over
	quiet.until('Z')
	idle.query("COMMIT")
	unnamed.until('Z')
	quiet.settle()
	if told := quiet.sink.take(); len(told) != 1 || told[0].Began.Before(at) {
		t.Errorf("what waited for the moment at %v is told as %+v", at, told)
	}
	if told := idle.sink.take(); len(told) != 1 || told[0].Began.After(at) || told[0].Ended.Before(at) {
		t.Errorf("what spans the moment at %v is told as %+v", at, told)
	}
}

// TestHoldIsBounded: a client waits for its bound at most, even if nobody releases it, and only once for one meeting.
func TestHoldIsBounded(t *testing.T) {
	needServer(t)
	sql(t, fill)
	p := through(t, "postgres", func(o *Options) { o.Bound = 10 * time.Millisecond })
	p.query("SELECT 1")
	p.settle()
	if state := p.session.Hold(func() { t.Error("nothing was under way") }); state != meeting.Quiet {
		t.Errorf("its state is %v", state)
	}
	if got := p.query("SELECT v FROM t WHERE id = 1"); len(got) != 4 {
		t.Errorf("got %s", show(got))
	}
	p.session.state.Lock()
	if p.session.holds() != nil {
		t.Error("it would wait again")
	}
	p.session.state.Unlock()
	p.session.Release()
	p.query("SELECT v FROM t WHERE id = 1")
}

// TestNextInTheSameWrite: a transaction that is sent together with the end of the one before has begun then, and is
// under way until its own end.
func TestNextInTheSameWrite(t *testing.T) {
	needServer(t)
	sql(t, fill)
	free := locks(t)
	p := through(t, "postgres", nil)
	p.query("SELECT v FROM t WHERE id = 2")
	p.settle()
	p.query("BEGIN")
	p.query("SELECT v FROM t WHERE id = 2")
	p.sink.take()
	p.send(encoded(&pgproto3.Query{String: "COMMIT"}, &pgproto3.Query{String: lockedOut}))
	p.until('Z')
	ended := make(chan bool, 1)
	if state := p.session.Hold(func() { ended <- true }); state != meeting.UnderWay {
		t.Errorf("its state is %v", state)
	}
	at := time.Now()
	select {
	case <-ended:
		t.Error("it counts as ended")
	default:
	}
	free()
	<-ended
	p.session.Release()
	p.until('Z')
	told := p.sink.take()
	if len(told) != 2 || told[0].Ended.After(at) || !told[1].Began.Before(told[0].Ended) || told[1].Ended.Before(at) {
		t.Errorf("told are %+v", told)
	}
}

// TestTheHeldLeave: if a connection ends, its transaction has ended, too; and one that waits for a moment may end.
func TestTheHeldLeave(t *testing.T) {
	needServer(t)
	sql(t, fill)
	free := locks(t)
	defer free()
	p := through(t, "postgres", nil)
	p.query("BEGIN")
	p.send(query(lockedOut).send)
	p.is(meeting.UnderWay)
	ended := make(chan bool, 1)
	p.session.Hold(func() { ended <- true })
	sql(t, "SELECT pg_terminate_backend(pid) FROM pg_stat_activity WHERE wait_event_type = 'Lock'")
	<-ended
	<-p.ended
	told := p.sink.take()
	if len(told) > 1 || len(told) == 1 && told[0].Outcome == record.Committed {
		t.Errorf("told are %+v", told)
	}
	q := through(t, "postgres", nil)
	q.query("SELECT 1")
	q.settle()
	q.session.Hold(func() {})
	q.send(query("SELECT 1").send)
	q.conn.Close()
	q.session.Release()
	<-q.ended
}
