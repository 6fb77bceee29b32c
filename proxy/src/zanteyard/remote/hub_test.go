package remote

import (
	"context"
	"fmt"
	"math/rand"
	"os"
	"path/filepath"
	"reflect"
	"strings"
	"testing"
	"time"

	"zanteyard/record"
)

// heard records what a hub passes on.
type heard struct {
	live  map[uint64]bool
	its   []record.Transaction
	lost  map[string]uint64
	wrong []string
}

func newHeard() *heard { return &heard{live: map[uint64]bool{}, lost: map[string]uint64{}} }

func (s *heard) Connection(it record.Connection) {
	if it.Ended != s.live[it.Number] {
		s.wrong = append(s.wrong, fmt.Sprintf("connection %d begins or ends twice", it.Number))
	}
	s.live[it.Number] = !it.Ended
}

func (s *heard) Transaction(it record.Transaction) {
	if it.Connection != 0 && !s.live[it.Connection] {
		s.wrong = append(s.wrong, fmt.Sprintf("a transaction of connection %d, which isn't there", it.Connection))
	}
	s.its = append(s.its, it)
}

func (s *heard) Unseen(string, string, bool)             {}
func (s *heard) UnseenMany(string, string, bool, uint64) {}
func (s *heard) Lose(reason string, n uint64)            { s.lost[reason] += n }
func someOptions() Options {
	return Options{Audit: "shop", Key: []byte("0123456789abcdef"), Bound: 50 * time.Millisecond, Log: func(string) {}}
}

func newTestHub(t testing.TB, to Sink) *Hub {
	t.Helper()
	h, err := NewHub(someOptions(), to, func() bool { return true })
	if err != nil {
		t.Fatal(err)
	}
	h.owns = true
	h.mark, h.who = 7, identity{"shop", "1"}
	return h
}

func someHello(h *Hub, proxy string, try uint64) *toHub {
	return &toHub{Run: h.run, Proxy: proxy, Hello: &hello{Protocol: protocol, Try: try, Name: proxy, Database: "shop",
		System: "1", Tick: int64(time.Since(h.base))}}
}

// sealed returns a message as Redis has it.
func sealed(t testing.TB, o Options, direction string, it any) entry {
	t.Helper()
	text, err := encode(it)
	if err != nil {
		t.Fatal(err)
	}
	return entry{text: text, signature: o.sign(direction, text)}
}

// TestSigned: only what is signed with the audit's key, for this audit and in this direction, is opened.
func TestSigned(t *testing.T) {
	o := someOptions()
	other, another := o, o
	other.Key, another.Audit = []byte("0123456789abcdeF"), "shop2"
	it := toHub{Run: "r", Proxy: "p", Items: []item{{Transaction: &transaction{Tick: 5, Its: record.Transaction{
		Began: time.Unix(5, 0), Number: 9, Reads: []record.Read{{Relation: 3, Key: "a\x00\xff", Version: 7}}}}}}}
	right := sealed(t, o, upwards, it)
	var back toHub
	if err := o.open(upwards, right.text, right.signature, &back); err != nil {
		t.Fatal(err)
	}
	its := back.Items[0].Transaction
	if its.Its.Reads[0] != it.Items[0].Transaction.Its.Reads[0] || !its.Its.Began.Equal(time.Unix(5, 0)) || its.Tick != 5 {
		t.Errorf("%+v has come back", its)
	}
	wrong := append([]byte(nil), right.text...)
	wrong[len(wrong)-1]++
	for name, one := range map[string]entry{
		"another key":       sealed(t, other, upwards, it),
		"another audit":     sealed(t, another, upwards, it),
		"another direction": sealed(t, o, downwards, it),
		"no signature":      {text: right.text},
		"a changed byte":    {text: wrong, signature: right.signature},
		"nothing":           {},
	} {
		if err := o.open(upwards, one.text, one.signature, &back); err == nil {
			t.Errorf("it is opened with %s", name)
		}
	}
}

// TestRefuses: a proxy of another server or database than the audit's gets no attachment.
func TestRefuses(t *testing.T) {
	for name, change := range map[string]func(*hello){
		"":            func(*hello) {},
		"version 1":   func(it *hello) { it.Protocol = 1 },
		"the databas": func(it *hello) { it.Database = "till" },
		"its server":  func(it *hello) { it.System = "2" },
	} {
		h := newTestHub(t, newHeard())
		m := someHello(h, "p", 1)
		change(m.Hello)
		h.greet(m, time.Now())
		if reply := (<-h.out).Answer; !strings.Contains(reply.Refused, name) || (name == "") != (reply.Epoch == 1 && reply.Mark == 7) {
			t.Errorf("%s: %+v", name, reply)
		}
	}
}

// TestLostAndTwice loses, doubles, reorders and replays messages on their way. For each connection the hub passes on
// what its proxy reported, in order, nothing twice, and without a gap within a connection.
func TestLostAndTwice(t *testing.T) {
	for seed := int64(0); seed < 300; seed++ {
		lossy(t, rand.New(rand.NewSource(seed)))
	}
}

// lossy is one run. The proxy's side is simulated: it attaches again when it is told that it isn't attached.
func lossy(t *testing.T, random *rand.Rand) {
	to := newHeard()
	h := newTestHub(t, to)
	var sent []*toHub // all that ever were
	var epoch, number, told, try uint64
	place := map[uint64]uint64{}
	attach := func() {
		try++
		m := someHello(h, "p", try)
		m.Sent = told
		sent = append(sent, m)
		h.greet(m, time.Now())
		for len(h.out) > 0 {
			if reply := (<-h.out).Answer; reply != nil {
				epoch, number = reply.Epoch, 0
			}
		}
	}
	deliver := func(m *toHub) {
		if m.Hello != nil {
			h.greet(m, time.Now())
		} else {
			h.one(m, time.Now())
		}
	}
	attach()
	for i := 0; i < 60; i++ {
		m := &toHub{Run: h.run, Proxy: "p", Epoch: epoch, Number: number}
		if number == 0 {
			m.Items = append(m.Items, item{Connection: &record.Connection{Number: 1}}, item{Connection: &record.Connection{Number: 2}})
		}
		for n := random.Intn(3); n > 0; n-- {
			connection := 1 + uint64(random.Intn(2))
			m.Items = append(m.Items, item{Transaction: &transaction{Its: record.Transaction{Connection: connection,
				Place: place[connection], Number: told + 1}}})
			place[connection]++
			told++
		}
		m.Sent = told
		number++
		sent = append(sent, m)
		switch random.Intn(8) {
		case 0: // lost
		case 1:
			deliver(m)
			deliver(m)
		case 2:
			deliver(sent[random.Intn(len(sent))])
			deliver(m)
		default:
			deliver(m)
		}
		gone := false
		for len(h.out) > 0 {
			gone = (<-h.out).Gone == epoch || gone
		}
		if gone {
			attach()
		}
	}
	seen := map[uint64]bool{}
	last := map[uint64]uint64{}
	for _, one := range to.its {
		if seen[one.Number] {
			t.Fatalf("transaction %d is passed on twice", one.Number)
		}
		seen[one.Number] = true
		if before, is := last[one.Connection]; is && one.Place != before+1 {
			t.Fatalf("connection %d: place %d comes after %d", one.Connection, one.Place, before)
		}
		last[one.Connection] = one.Place
	}
	if len(to.wrong) > 0 {
		t.Fatal(to.wrong)
	}
	attach() // the hello says how many there were
	if n := uint64(len(to.its)) + to.lost[lostOnTheWay]; n != told {
		t.Fatalf("%d transactions were told, %d are passed on, and %d count as lost", told, len(to.its), to.lost[lostOnTheWay])
	}
}

// TestBounds: only the hub's clock determines when a transaction ran.
func TestBounds(t *testing.T) {
	to := newHeard()
	h := newTestHub(t, to)
	h.greet(someHello(h, "p", 1), time.Now())
	now := time.Now()
	tell := func(number uint64, tick int64) record.Transaction {
		h.one(&toHub{Run: h.run, Proxy: "p", Epoch: 1, Number: number, Items: []item{{Transaction: &transaction{Tick: tick,
			Its: record.Transaction{Connection: 4, Began: now.Add(-time.Hour), Ended: now.Add(time.Hour)}}}}}, now)
		return to.its[len(to.its)-1]
	}
	for number, tick := range []int64{0, -5, int64(now.Sub(h.base)) + int64(time.Minute)} {
		if its := tell(uint64(number), tick); !its.After.IsZero() || !its.Known.Equal(now) || its.Connection != 0 {
			t.Errorf("tick %d: it ran from %v to %v", tick, its.After, its.Known)
		}
	}
	if its := tell(3, 1); !its.After.Equal(h.base.Add(1)) {
		t.Errorf("it began after %v, and not %v", its.After, h.base)
	}
	var its ticks
	for i := 0; i < 3*mostTicks; i++ {
		its.add(now.Add(time.Duration(i)*time.Second), int64(i+1))
	}
	latest := time.Duration(3*mostTicks-1) * time.Second
	for _, one := range []struct {
		at   time.Duration
		tick int64
	}{{-time.Second, 0}, {latest, 3 * mostTicks}, {latest - 1, 3*mostTicks - 1}, {latest + time.Hour, 3 * mostTicks}} {
		if tick := its.before(now.Add(one.at)); tick != one.tick {
			t.Errorf("at %v the last tick was %d, and not %d", one.at, tick, one.tick)
		}
	}
}

// someRoom is a room on whose connections nothing is under way.
type someRoom struct{ met chan []uint64 }

func (r someRoom) Meet(_ context.Context, connections []uint64, moment func(time.Duration)) {
	if r.met != nil {
		r.met <- connections
	}
	moment(0)
}

func (someRoom) Busy([]uint64) (underWay, idle int) { return 3, 4 }

// pair is a hub with a proxy elsewhere, and a second one that never answers; each has two connections.
func pair(t *testing.T) (m *Meeter, h *Hub, p *Post, met chan []uint64) {
	t.Helper()
	h = newTestHub(t, newHeard())
	met = make(chan []uint64, 1)
	var err error
	if p, err = NewPost(someOptions(), "p", 1<<20, someRoom{met}); err != nil {
		t.Fatal(err)
	}
	h.greet(someHello(h, p.id, 1), time.Now())
	p.attach((<-h.out).Answer)
	p.run = h.run
	h.greet(someHello(h, "q", 1), time.Now())
	<-h.out
	p.Connection(record.Connection{Number: 1})
	p.Connection(record.Connection{Number: 2})
	pass(h, p)
	h.one(&toHub{Run: h.run, Proxy: "q", Epoch: 2, Items: []item{{Connection: &record.Connection{Number: 1}},
		{Connection: &record.Connection{Number: 2}}}}, time.Now())
	return NewMeeter(someRoom{}, h), h, p, met
}

// pass passes on what the proxy sends.
func pass(h *Hub, p *Post) {
	for m, _ := p.message(false); m != nil; m, _ = p.message(false) {
		h.lock.Lock()
		h.one(m, time.Now())
		h.lock.Unlock()
	}
}

// TestMeeting: the proxies that have connections to be held hold these; the moment comes when they have answered, and
// what they have reported before that was passed on by then; they let go after it.
func TestMeeting(t *testing.T) {
	m, h, p, met := pair(t)
	ctx := context.Background()
	moments, over := make(chan bool, 1), make(chan bool)
	to := h.sink.(*heard)
	go func() {
		m.Meet(ctx, []uint64{7, firstConnection + 1}, func(time.Duration) {
			h.lock.Lock()
			defer h.lock.Unlock()
			moments <- len(to.its) == 1
		})
		close(over)
	}()
	hold := <-h.out
	if its := hold.Hold; its == nil || len(its.Connections) != 1 || fmt.Sprint(its.Connections[1]) != "[2]" {
		t.Fatalf("it says %+v", hold)
	}
	p.Transaction(record.Transaction{Connection: 2, Number: 5})
	p.one(ctx, &hold, true)
	if those := <-met; fmt.Sprint(those) != "[2]" {
		t.Errorf("elsewhere %v are held", those)
	}
	for {
		p.lock.Lock()
		holds := len(p.items) > 1
		p.lock.Unlock()
		if holds {
			break
		}
		time.Sleep(time.Millisecond)
	}
	select {
	case <-moments:
		t.Fatal("the moment came before the answer")
	default:
	}
	pass(h, p)
	if !<-moments {
		t.Errorf("by the moment %d transactions were passed on", len(to.its))
	}
	<-over
	last := <-h.out
	if last.Go != hold.Hold.Meeting || last.Tick < hold.Tick {
		t.Errorf("then it says %+v", last)
	}
	going := p.going
	p.one(ctx, &last, true)
	<-going
}

// TestNoAnswer: a proxy elsewhere that doesn't answer keeps nothing from going on, here or there.
func TestNoAnswer(t *testing.T) {
	m, h, p, met := pair(t)
	ctx := context.Background()
	moments := 0
	m.Meet(ctx, []uint64{firstConnection + 2}, func(held time.Duration) { // q's
		if moments++; held < answering*h.options.Bound {
			t.Errorf("it waited for an answer for %v", held)
		}
	})
	if <-h.out; (<-h.out).Go == 0 || moments != 1 {
		t.Errorf("%d moments", moments)
	}
	going := make(chan struct{}) // never closed
	began := time.Now()
	done := make(chan bool)
	go func() {
		p.meet(ctx, 1, []uint64{1}, going)
		close(done)
	}()
	<-met
	<-done
	if passed := time.Since(began); passed < holding*p.options.Bound {
		t.Errorf("elsewhere it was over after %v", passed)
	}
	gone, cancel := context.WithCancel(ctx)
	cancel()
	p.options.Bound = time.Hour
	go func() { <-met }()
	p.meet(gone, 2, []uint64{1}, going) // returns
	h.lock.Lock()
	h.end(h.proxies["q"], "")
	h.lock.Unlock()
	h.options.Bound = time.Hour
	m.Meet(ctx, []uint64{7, firstConnection + 2}, func(time.Duration) { moments++ }) // nobody is asked
	if moments != 2 || len(h.out) != 0 {
		t.Errorf("%d moments", moments)
	}
}

// TestBusyElsewhere: of connections elsewhere nobody knows what they are doing.
func TestBusyElsewhere(t *testing.T) {
	m := NewMeeter(someRoom{}, newTestHub(t, newHeard()))
	if underWay, idle := m.Busy([]uint64{1, 2}); underWay != 3 || idle != 4 {
		t.Errorf("here %d are under way, %d idle", underWay, idle)
	}
	if underWay, _ := m.Busy([]uint64{1, firstConnection}); underWay < 1<<20 {
		t.Errorf("with one elsewhere %d are under way", underWay)
	}
}

// TestRoom: what a proxy has no room for is dropped, and counted.
func TestRoom(t *testing.T) {
	p, err := NewPost(someOptions(), "p", 2000, someRoom{})
	if err != nil {
		t.Fatal(err)
	}
	p.Transaction(record.Transaction{}) // nobody takes it
	p.attach(&answer{Epoch: 1})
	for i := 0; i < 20; i++ {
		p.Transaction(record.Transaction{Number: uint64(i)})
	}
	m, more := p.message(false)
	if m == nil || more || len(m.Items) != 7 || m.Sent != 7 || m.Dropped != 13 || p.bytes != 0 {
		t.Errorf("it sends %+v, and keeps %d bytes", m, p.bytes)
	}
	p.redacts = true
	p.Transaction(record.Transaction{Statements: []record.Statement{{Text: "SELECT 'x' /*file='a.py'*/", Parameters: []string{"y"}}}})
	m, _ = p.message(false)
	want := record.Statement{Text: "SELECT ?"}
	if its := m.Items[0].Transaction.Its.Statements[0]; !reflect.DeepEqual(its, want) {
		t.Errorf("it sends %+v", its)
	}
}

// TestUnaudited: for connections without a session no reads are sent, but they are counted.
func TestUnaudited(t *testing.T) {
	p, err := NewPost(someOptions(), "p", 1<<20, someRoom{})
	if err != nil {
		t.Fatal(err)
	}
	to := newHeard()
	h := newTestHub(t, to)
	m := NewMeeter(someRoom{}, h)
	h.greet(someHello(h, "p", 1), time.Now())
	h.one(&toHub{Run: h.run, Proxy: "p", Epoch: 1, Items: []item{{Connection: &record.Connection{Number: 1}},
		{Connection: &record.Connection{Number: 2}}}}, time.Now())
	p.attach((<-h.out).Answer)
	p.run = h.run
	its := record.Transaction{Reads: make([]record.Read, 3), Absent: make([]record.Absence, 2), Statements: make([]record.Statement, 2)}
	sent := func(connection uint64) record.Transaction {
		its.Connection = connection
		p.Transaction(its)
		m, _ := p.message(false)
		return m.Items[len(m.Items)-1].Transaction.Its
	}
	told := func() {
		m := <-h.out
		p.one(context.Background(), &m, true)
	}
	if one := sent(2); len(one.Reads) != 3 || one.Unsent != 0 {
		t.Errorf("without a word it sends %+v", one)
	}
	m.Unaudited([]uint64{7, firstConnection + 1})
	told()
	if one := sent(2); len(one.Reads)+len(one.Absent)+len(one.Statements) != 0 || one.Unsent != 5 {
		t.Errorf("of a connection without a session it sends %+v", one)
	}
	if one := sent(1); len(one.Reads) != 3 || one.Unsent != 0 {
		t.Errorf("of one with a session it sends %+v", one)
	}
	m.Unaudited(nil)
	told()
	if one := sent(2); len(one.Reads) != 3 {
		t.Errorf("once it has one it sends %+v", one)
	}
}

func TestKeys(t *testing.T) {
	path := filepath.Join(t.TempDir(), "key")
	for _, one := range []struct {
		text, why string
		mode      os.FileMode
	}{{"0123456789abcdef", "", 0o600}, {"0123456789abcdef", "chmod", 0o640}, {"0123456789abcde", "fewer", 0o400}} {
		os.Remove(path)
		if err := os.WriteFile(path, []byte(one.text), one.mode); err != nil {
			t.Fatal(err)
		}
		if _, err := ReadKey(path); (one.why == "") != (err == nil) || err != nil && !strings.Contains(err.Error(), one.why) {
			t.Errorf("%q with %o: %v", one.text, one.mode, err)
		}
	}
	if _, err := ReadKey(path + "2"); err == nil {
		t.Error("a key that isn't there is read")
	}
	for url, right := range map[string]bool{"redis://a:1/0": true, "rediss://u:p@a": true, "unix:///a/b?db=0": true, "http://a": false, "a:1": false, "%": false} {
		if err := CheckURL(url); right != (err == nil) {
			t.Errorf("%s: %v", url, err)
		}
	}
}
