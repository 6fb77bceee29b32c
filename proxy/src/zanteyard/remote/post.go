package remote

import (
	"context"
	"errors"
	"strings"
	"sync"
	"sync/atomic"
	"time"

	"zanteyard/guard"
	"zanteyard/plan"
	"zanteyard/record"
)

// Room makes the sessions of this proxy meet (package meeting).
type Room interface {
	Meet(ctx context.Context, connections []uint64, moment func(held time.Duration))
	Busy(connections []uint64) (underWay, idle int)
}

// Post sends what this proxy's sessions report to the watch elsewhere. It implements record.Sink. While no watch is
// heard nothing is gathered. Safe for use by many goroutines.
type Post struct {
	options Options
	name    string
	room    Room
	id      string
	held    int // bytes that may wait
	logs    complaints
	wake    chan struct{}
	hurry   chan struct{} // what waits is sent at once
	takes   atomic.Bool   // reports are accepted: there is an attachment, and an audit
	shown   atomic.Int64  // mark, for sessions; 0 without an attachment

	lock    sync.Mutex
	live    map[uint64]record.Connection
	ticks   ticks
	run     string    // the watch that is heard
	newest  int64     // tick of it
	fed     string    // the watch that this proxy was attached to last
	heard   time.Time // when its last message arrived
	numbers numbers   // of the messages that were heard
	try     uint64
	tried   time.Time
	epoch   uint64 // of the attachment, 0 without one
	redacts bool
	hides   bool            // rows' keys too, as the audit itself does
	beyond  map[uint64]bool // connections that aren't audited
	next    uint64          // number of the next message
	sent    uint64          // transactions in messages
	dropped uint64
	items   []item
	bytes   int
	idle    []record.Transaction // those that ended without an attachment, since the last one
	unseen  map[unseen]uint64
	wanted  *answer // a hello's answer, whose mark still has to be looked for
	mark    int64
	looked  time.Time // when it was last seen
	meeting uint64    // the last one that began
	going   chan struct{}
	fail    func(error) // ends Run because of a fault
}

// NewPost makes one. The name is for people. Up to `held` bytes of reports wait for Redis.
func NewPost(options Options, name string, held int, room Room) (*Post, error) {
	id, err := drawn()
	if err != nil {
		return nil, err
	}
	return &Post{options: options, name: name, room: room, id: id, held: held, logs: complaints{log: options.Log},
		wake: make(chan struct{}, 1), hurry: make(chan struct{}, 1), live: map[uint64]record.Connection{}, unseen: map[unseen]uint64{}}, nil
}

// Auditing reports whether a watch accepts reports.
func (p *Post) Auditing() bool { return p.takes.Load() }

// Mark is the number of the lock by which the audited server is known, 0 without an attachment.
func (p *Post) Mark() int64 { return p.shown.Load() }

// Connection implements record.Sink.
func (p *Post) Connection(it record.Connection) {
	if it.Refused != "" { // its own log says so
		return
	}
	p.lock.Lock()
	defer p.lock.Unlock()
	if it.Ended {
		delete(p.live, it.Number)
	} else {
		p.live[it.Number] = it
	}
	p.put(item{Connection: &it}, 0)
}

// Transaction implements record.Sink.
func (p *Post) Transaction(it record.Transaction) {
	p.lock.Lock()
	defer p.lock.Unlock()
	switch {
	case p.epoch == 0:
		p.keep(it)
		return
	case p.beyond[it.Connection] && len(it.Reads)+len(it.Absent) > 0:
		it.Unsent, it.Did = len(it.Reads)+len(it.Absent), it.Did.Alone(len(it.Reads))
		it.Reads, it.Absent, it.Statements, it.Snapshot = nil, nil, nil, ""
	case p.redacts:
		p.redact(&it)
	}
	it.Asks = nil // what a condition holds of isn't sent
	size := sizeOf(&it)
	switch {
	case p.bytes+size > p.held, size > mostOfOne:
		p.dropped++
	default:
		p.put(item{Transaction: &transaction{Its: it, Tick: p.ticks.before(it.Began)}}, size)
	}
}

// Unseen implements record.Sink.
func (p *Post) Unseen(shape, reason string, reads bool) {
	const most = 500
	p.lock.Lock()
	defer p.lock.Unlock()
	key := unseen{Shape: shape, Reason: reason, Reads: reads}
	if _, is := p.unseen[key]; !is && len(p.unseen) >= most {
		key = unseen{Shape: "others", Reason: "more shapes than are counted separately", Reads: reads}
	}
	p.unseen[key]++
}

// redact removes the constants, parameters and comments of statements. If the audit itself redacts, it also hides the
// keys of rows: the audit then does so with those in the server's log.
func (p *Post) redact(it *record.Transaction) {
	if p.hides {
		p.options.HideKeys(it)
	}
	its := make([]record.Statement, len(it.Statements))
	for i, one := range it.Statements {
		one.Text, one.Parameters = plan.Redacted(one.Text), nil
		its[i] = one
	}
	it.Statements = its
}

// put queues an item for sending. Called with lock held.
func (p *Post) put(it item, bytes int) {
	if p.epoch == 0 {
		return
	}
	p.items = append(p.items, it)
	p.bytes += bytes
	select {
	case p.wake <- struct{}{}:
	default:
	}
}

// Run talks with the watch until ctx ends. If something in it panics, it returns that.
func (p *Post) Run(ctx context.Context) (failed error) {
	ctx, cancel := context.WithCancel(ctx)
	defer cancel()
	var once sync.Once
	fail := func(err error) {
		once.Do(func() { failed = err })
		cancel()
	}
	p.lock.Lock()
	p.fail = fail
	p.lock.Unlock()
	var all sync.WaitGroup
	for _, one := range []func(context.Context){p.send, p.look} {
		one := one
		all.Add(1)
		go func() {
			defer all.Done()
			guard.Do("what speaks to the audit", fail, func() { one(ctx) })
		}()
	}
	guard.Do("what hears the audit", fail, func() {
		stream(ctx, &p.options, p.options.watch(), func(_ *link, its []entry) { p.take(ctx, its) }, func(err error) {
			if err != nil && ctx.Err() == nil {
				p.say("Redis: " + err.Error())
			}
		})
	})
	all.Wait()
	return failed
}

func (p *Post) say(text string) {
	p.lock.Lock()
	defer p.lock.Unlock()
	p.logs.say(text)
}

// take handles what the watch has sent. A message that has waited in Redis for longer than a meeting is no reason to
// hold clients.
func (p *Post) take(ctx context.Context, its []entry) {
	const tooOld = time.Second
	var messages []fromHub
	var latest int64
	for _, one := range its {
		var m fromHub
		if err := p.options.open(downwards, one.text, one.signature, &m); err != nil {
			p.say("refused a message: " + err.Error())
			continue
		}
		if messages = append(messages, m); m.Tick > latest {
			latest = m.Tick
		}
	}
	for i := range messages {
		m := &messages[i]
		p.one(ctx, m, time.Duration(latest-m.Tick) < tooOld)
	}
}

func (p *Post) one(ctx context.Context, m *fromHub, isNew bool) {
	guard.At("a message from the audit")
	now := time.Now()
	p.lock.Lock()
	defer p.lock.Unlock()
	switch {
	case m.Run != p.run && now.Sub(p.heard) < silence:
		return // from another watch: an earlier one, or a second one
	case !p.numbers.isNext(m.Run, m.Number):
		return // a repeated one
	case m.Run != p.run:
		p.detach()
		p.run, p.newest = m.Run, 0
	}
	p.heard = now
	if m.Tick > p.newest {
		p.newest = m.Tick
	}
	p.takes.Store(p.epoch != 0 && !m.Idle)
	p.ticks.add(now, m.Tick)
	switch {
	case m.Unaudited != nil:
		p.beyond = map[uint64]bool{}
		for _, connection := range m.Unaudited[p.epoch] {
			p.beyond[connection] = true
		}
	case m.Bye:
		p.detach()
		p.run, p.heard = "", time.Time{}
	case m.Gone != 0 && m.Gone == p.epoch:
		p.detach()
	case m.Answer != nil && m.Answer.Proxy == p.id && m.Answer.Try == p.try && p.epoch == 0:
		p.answered(m.Answer)
	case m.Hold != nil && m.Hold.Meeting > p.meeting && p.epoch != 0 && isNew:
		p.meeting, p.going = m.Hold.Meeting, make(chan struct{})
		if its := m.Hold.Connections[p.epoch]; len(its) > 0 {
			meeting, going := m.Hold.Meeting, p.going
			guard.Go("a meeting", p.fail, func() { p.meet(ctx, meeting, its, going) })
		}
	case m.Go != 0 && m.Go == p.meeting && p.going != nil:
		close(p.going)
		p.going = nil
	}
}

// answered handles the answer to a hello. Called with lock held.
func (p *Post) answered(it *answer) {
	if it.Refused != "" {
		p.logs.say("the audit refused this proxy, which passes traffic on without auditing: " + it.Refused)
		p.tried = time.Now().Add(verifying) // not soon again
		return
	}
	p.wanted = it // look continues
}

// detach ends the attachment: what hasn't been sent is counted by the next one. Called with lock held.
func (p *Post) detach() {
	if p.epoch != 0 {
		p.options.Log("this proxy no longer feeds the audit; traffic is passed on without auditing")
	}
	p.epoch, p.wanted, p.meeting = 0, nil, 0
	p.takes.Store(false)
	p.shown.Store(0)
	for _, it := range p.items {
		if it.Transaction != nil {
			p.keep(it.Transaction.Its)
		}
	}
	p.items, p.bytes = nil, 0
	p.tried = time.Time{}
	p.ticks.forget()
}

// attach begins one: all existing connections are reported first. Called with lock held.
func (p *Post) attach(it *answer) {
	p.shown.Store(it.Mark)
	p.takes.Store(true)
	p.redacts, p.hides = p.options.Redacts || it.Redacts, it.Redacts
	p.epoch, p.mark, p.looked, p.next, p.wanted = it.Epoch, it.Mark, time.Now(), 0, nil
	p.items, p.bytes, p.beyond = nil, 0, nil
	for _, one := range p.live {
		one := one
		p.put(item{Connection: &one}, 0)
	}
	p.reportIdle()
	p.options.Log("this proxy feeds the audit")
}

// look asks for an attachment if there is none, and checks that the server is the audit's.
func (p *Post) look(ctx context.Context) {
	s := &server{config: p.options.Server}
	defer s.close()
	l := &link{url: p.options.Redis}
	defer l.close()
	for ctx.Err() == nil {
		pause(ctx, 50*time.Millisecond)
		if err := p.lookOnce(ctx, s, l); err != nil && ctx.Err() == nil {
			p.say(err.Error())
			pause(ctx, time.Second)
		}
	}
}

func (p *Post) lookOnce(ctx context.Context, s *server, l *link) error {
	p.lock.Lock()
	if p.run != "" && time.Since(p.heard) > silence {
		p.detach()
		p.run = ""
	}
	wanted, run, mark := p.wanted, p.run, p.mark
	greets := run != "" && p.epoch == 0 && wanted == nil && time.Since(p.tried) > again
	verifies := p.epoch != 0 && time.Since(p.looked) > verifying
	p.lock.Unlock()
	switch {
	case wanted != nil:
		mark = wanted.Mark
	case greets:
		return p.greet(ctx, s, l, run)
	case !verifies:
		return nil
	}
	sees, err := s.sees(ctx, mark)
	p.lock.Lock()
	defer p.lock.Unlock()
	switch {
	case err == nil && sees && wanted == nil:
		p.looked = time.Now()
	case err == nil && sees && wanted == p.wanted:
		p.attach(wanted)
	case err == nil && p.run == run:
		p.detach()
		p.tried = time.Now().Add(verifying)
		return errOther
	case err != nil && time.Since(p.looked) > 2*verifying:
		p.detach()
	}
	return err
}

var errOther = errors.New("this proxy's server isn't the audited one (it is a copy or a standby, or the name leads " +
	"elsewhere): traffic is passed on without auditing")

// greet sends a hello.
func (p *Post) greet(ctx context.Context, s *server, l *link, run string) error {
	who, err := s.identity(ctx)
	if err != nil {
		return err
	}
	p.lock.Lock()
	p.try++
	p.tried = time.Now()
	m := toHub{Run: run, Proxy: p.id, Sent: p.sent, Dropped: p.dropped, Hello: &hello{Protocol: protocol, Try: p.try,
		Name: p.name, Database: who.database, System: who.system, Tick: p.newest, Again: p.fed == run}}
	p.lock.Unlock()
	text, err := encode(m)
	if err != nil {
		return err
	}
	return l.add(p.options.proxies(), text, p.options.sign(upwards, text))
}

// send sends what there is, in order, and a sign of life if there is nothing. A message that may not have arrived is
// sent again unchanged.
func (p *Post) send(ctx context.Context) {
	l := &link{url: p.options.Redis}
	defer l.close()
	last := time.Now()
	for ctx.Err() == nil {
		timer := time.NewTimer(heartbeat)
		select {
		case <-ctx.Done():
			timer.Stop()
			return
		case <-p.wake:
			p.gather(ctx)
		case <-timer.C:
		}
		timer.Stop()
		for {
			m, more := p.message(time.Since(last) >= heartbeat)
			if m == nil {
				break
			}
			last = time.Now()
			p.deliver(ctx, l, m)
			if !more {
				break
			}
		}
	}
}

// gather waits for what is sent in one message, unless a meeting waits for it.
func (p *Post) gather(ctx context.Context) {
	timer := time.NewTimer(gather)
	defer timer.Stop()
	select {
	case <-ctx.Done():
	case <-p.hurry:
	case <-timer.C:
	}
}

// message returns what is sent next, or nil if there is nothing, and whether there is more.
func (p *Post) message(alive bool) (m *toHub, more bool) {
	p.lock.Lock()
	defer p.lock.Unlock()
	if p.epoch == 0 || len(p.items) == 0 && !alive {
		return nil, false
	}
	bytes, n := 0, 0
	for ; n < len(p.items) && (n == 0 || bytes < mostBytes) && n < mostItems; n++ {
		if t := p.items[n].Transaction; t != nil {
			bytes += sizeOf(&t.Its)
			p.sent++
		}
	}
	m = &toHub{Run: p.run, Proxy: p.id, Epoch: p.epoch, Number: p.next, Sent: p.sent, Dropped: p.dropped}
	m.Items = append(m.Items, p.items[:n]...)
	for i := range p.items[:n] {
		p.items[i] = item{}
	}
	p.items = p.items[n:]
	p.bytes -= bytes
	p.next++
	if len(p.items) == 0 {
		m.Tick = p.newest
	}
	for key, count := range p.unseen {
		its := key
		its.Count = count
		m.Items = append(m.Items, item{Unseen: &its})
		delete(p.unseen, key)
	}
	return m, len(p.items) > 0
}

// deliver sends a message for as long as its attachment lasts.
func (p *Post) deliver(ctx context.Context, l *link, m *toHub) {
	text, err := encode(m)
	if err != nil {
		p.say("can't write a message: " + err.Error())
		return
	}
	signature := p.options.sign(upwards, text)
	for ctx.Err() == nil {
		if err = l.add(p.options.proxies(), text, signature); err == nil {
			return
		}
		p.say("Redis: " + strings.TrimSpace(err.Error()))
		p.lock.Lock()
		over := p.epoch != m.Epoch
		p.lock.Unlock()
		if over {
			return
		}
		pause(ctx, 100*time.Millisecond)
	}
}

// meet holds connections, says so once nothing is under way on them, and lets them go on when the watch has its moment.
// If that isn't heard, they go on by themselves.
func (p *Post) meet(ctx context.Context, meeting uint64, connections []uint64, going <-chan struct{}) {
	p.room.Meet(ctx, connections, func(time.Duration) {
		p.tell(item{Held: meeting})
		timer := time.NewTimer(holding * p.options.Bound)
		defer timer.Stop()
		select {
		case <-going:
		case <-timer.C:
		case <-ctx.Done():
		}
	})
}

func (p *Post) tell(it item) {
	p.lock.Lock()
	defer p.lock.Unlock()
	p.put(it, 0)
	select {
	case p.hurry <- struct{}{}:
	default:
	}
}
