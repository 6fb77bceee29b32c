package remote

import (
	"context"
	"errors"
	"fmt"
	"sort"
	"sync"
	"time"

	"zanteyard/guard"
	"zanteyard/join"
	"zanteyard/record"
)

// Sink takes what proxies elsewhere report, like the reports of this proxy's own sessions.
type Sink interface {
	record.Sink
	UnseenMany(shape, reason string, reads bool, n uint64)
	// Lose counts transactions that never arrive, by reason.
	Lose(reason string, n uint64)
}

// Why transactions of a proxy elsewhere never arrive.
const (
	lostOnTheWay = "lost on the way from another proxy"
	noRoomThere  = "reported faster than another proxy could send them"
)

// Hub receives what proxies elsewhere send, and makes them meet. Safe for use by many goroutines.
type Hub struct {
	options Options
	sink    Sink
	running func() bool // whether there is an audit
	logs    complaints
	run     string
	base    time.Time // ticks count from it
	out     chan fromHub

	lock     sync.Mutex
	changed  chan struct{} // closed, and replaced, when a proxy holds its clients or is gone
	who      identity
	mark     int64 // 0 while there is none
	proxies  map[string]*attached
	past     map[string]past // those that fell silent long ago
	forgot   time.Time       // when some of these were forgotten last
	epochs   uint64
	numbers  uint64            // connections
	of       map[uint64]remote // by our numbers for them
	number   uint64            // of the last message
	meetings uint64
	refused  uint64
	down     string // why Redis can't be reached
	owns     bool   // no other watch has the audit's name
	// sees reports whether the audit's connection to the server sees the mark too: nil before the first audit.
	sees   func(context.Context, int64) (bool, error)
	audits int
	left   bool // proxies were sent the list of connections that aren't audited
}

// attached is a proxy elsewhere.
type attached struct {
	id, name    string
	try         uint64
	epoch       uint64 // 0: not any more
	last        uint64 // the one that ended last
	next        uint64 // number of the message that has to come next
	received    uint64 // transactions that were reported, including lost ones
	arrived     uint64
	dropped     uint64
	heard       time.Time
	reported    time.Time         // what had ended there by then has arrived
	connections map[uint64]uint64 // ours, by theirs
	holds       uint64            // the last meeting for which it has held its clients
}

// past is what is remembered of a proxy that has been silent for an hour, for a day: it may come back with what was held
// back. After that its hellos are too old to be played again.
type past struct {
	try, received, dropped uint64
	heard                  time.Time
}

const (
	mostProxies = 100_000        // that are remembered; others can't feed the audit
	fresh       = time.Hour      // a hello that was made earlier isn't heard
	remembered  = 24 * time.Hour // after this a proxy that is silent is forgotten; longer than a hello is fresh
)

type remote struct{ epoch, connection uint64 }

// firstConnection is above all numbers of this proxy's own connections.
const firstConnection = 1 << 32

// NewHub makes a hub. running reports whether there is an audit.
func NewHub(options Options, sink Sink, running func() bool) (*Hub, error) {
	run, err := drawn()
	if err != nil {
		return nil, err
	}
	return &Hub{options: options, sink: sink, running: running, logs: complaints{log: options.Log}, run: run, base: time.Now(),
		out: make(chan fromHub, 256), changed: make(chan struct{}), proxies: map[string]*attached{},
		past: map[string]past{}, of: map[uint64]remote{}}, nil
}

// Run receives messages until ctx ends. If something in it panics, it returns that.
func (h *Hub) Run(ctx context.Context) (failed error) {
	ctx, cancel := context.WithCancel(ctx)
	defer cancel()
	var once sync.Once
	fail := func(err error) {
		once.Do(func() { failed = err })
		cancel()
	}
	var all sync.WaitGroup
	for _, one := range []func(context.Context){h.write, h.look, h.keepMark} {
		one := one
		all.Add(1)
		go func() {
			defer all.Done()
			guard.Do("what speaks to proxies elsewhere", fail, func() { one(ctx) })
		}()
	}
	guard.Do("what hears proxies elsewhere", fail, func() {
		stream(ctx, &h.options, h.options.proxies(), h.take, func(err error) { h.reached(ctx, err) })
	})
	all.Wait()
	return failed
}

// reached records whether Redis can be reached.
func (h *Hub) reached(ctx context.Context, err error) {
	h.lock.Lock()
	defer h.lock.Unlock()
	switch {
	case ctx.Err() != nil:
	case err != nil:
		h.down = err.Error()
		h.logs.say("can't reach Redis, so proxies on other machines don't feed the audit: " + h.down)
	case h.down != "":
		h.down = ""
		h.options.Log("Redis is reachable again")
	}
}

// take handles messages, and makes Redis forget them.
func (h *Hub) take(l *link, its []entry) {
	now := time.Now()
	h.lock.Lock()
	owns := h.owns
	h.lock.Unlock()
	if !owns {
		return // another watch reads them, and makes Redis forget them
	}
	for _, one := range its {
		h.takeOne(one, now)
	}
	if _, err := l.do(0, "XTRIM", h.options.proxies(), "MINID", behind(its[len(its)-1].id)); err != nil {
		h.lock.Lock()
		h.logs.say("Redis can't drop what was read (it needs version 6.2): " + err.Error())
		h.lock.Unlock()
	}
}

func (h *Hub) takeOne(one entry, now time.Time) {
	guard.At("a message from a proxy elsewhere")
	var m toHub
	err := h.options.open(upwards, one.text, one.signature, &m)
	h.lock.Lock()
	defer h.lock.Unlock()
	switch {
	case err != nil:
		h.refused++
		h.logs.say("refused messages: " + err.Error())
	case m.Run != h.run: // for an earlier watch
	case m.Hello != nil:
		h.greet(&m, now)
	default:
		h.one(&m, now)
	}
}

// greet answers a hello. Called with lock held.
func (h *Hub) greet(m *toHub, now time.Time) {
	its := m.Hello
	a, before := h.proxies[m.Proxy], h.past[m.Proxy]
	if a != nil {
		before.try = a.try
	}
	if before.try != 0 && its.Try <= before.try {
		return // a repeated one
	}
	if made := h.at(its.Tick, now); its.Protocol == protocol && (made.IsZero() || now.Sub(made) > fresh) {
		return // it was held back, or is played again: whoever wants to be heard says hello once more
	}
	reply := answer{Proxy: m.Proxy, Try: its.Try, Mark: h.mark, Redacts: h.options.Redacts, Refused: h.refuses(its)}
	if a == nil && before.try == 0 && len(h.proxies)+len(h.past) >= mostProxies {
		reply.Refused = "too many proxies have fed this watch: it has to be started again"
	}
	if reply.Refused != "" || h.mark == 0 {
		if reply.Refused != "" {
			h.logs.say("the proxy " + its.Name + " was refused: " + reply.Refused)
			h.say(fromHub{Answer: &reply})
		}
		return
	}
	switch {
	case a != nil:
	case before.try != 0:
		a = &attached{id: m.Proxy, received: before.received, dropped: before.dropped}
	default:
		a = &attached{id: m.Proxy, received: m.Sent, dropped: m.Dropped}
		if its.Again {
			h.options.Log("the proxy " + its.Name + " was silent for so long that it is forgotten: what was lost on its way then " +
				"isn't counted")
		}
	}
	delete(h.past, m.Proxy)
	h.proxies[m.Proxy] = a
	h.end(a, "")
	if m.Sent > a.received {
		h.sink.Lose(lostOnTheWay, m.Sent-a.received)
		a.received = m.Sent
	}
	h.drop(a, m.Dropped)
	h.epochs++
	a.name, a.try, a.epoch, a.next, a.heard = its.Name, its.Try, h.epochs, 0, now
	a.connections, a.holds, a.reported = map[uint64]uint64{}, 0, time.Time{}
	reply.Epoch = a.epoch
	h.say(fromHub{Answer: &reply})
	h.options.Log("the proxy " + a.name + " feeds this audit")
}

// refuses returns why a proxy can't feed this audit, or "" if it can. Called with lock held.
func (h *Hub) refuses(its *hello) string {
	switch {
	case its.Protocol != protocol:
		return fmt.Sprintf("its messages have version %d, the audit's have version %d", its.Protocol, protocol)
	case its.Database != h.who.database && h.mark != 0:
		return fmt.Sprintf("it serves the database %s, but the audit is of %s", its.Database, h.who.database)
	case its.System != "" && h.who.system != "" && its.System != h.who.system:
		return fmt.Sprintf("its server (%s) isn't the audit's (%s)", its.System, h.who.system)
	}
	return ""
}

// one handles a message of an attachment, if it is the next one. Called with lock held.
func (h *Hub) one(m *toHub, now time.Time) {
	a := h.proxies[m.Proxy]
	switch {
	case a == nil || m.Epoch == 0 || m.Epoch != a.epoch:
		h.takeLate(a, m, now)
		if m.Epoch != 0 {
			h.say(fromHub{Gone: m.Epoch}) // it was silent for too long, or something was lost
		}
		return
	case m.Number < a.next:
		return // a repeated one
	case m.Number > a.next:
		h.end(a, "a message from it was lost")
		h.say(fromHub{Gone: m.Epoch})
		return
	}
	a.next, a.heard = m.Number+1, now
	h.drop(a, m.Dropped)
	for i := range m.Items {
		h.item(a, &m.Items[i], now)
	}
	a.received = m.Sent
	if at := h.at(m.Tick, now); !at.IsZero() {
		a.reported = at
	}
}

func (h *Hub) drop(a *attached, dropped uint64) {
	if dropped > a.dropped {
		h.sink.Lose(noRoomThere, dropped-a.dropped)
		a.dropped = dropped
	}
}

func (h *Hub) item(a *attached, it *item, now time.Time) {
	switch {
	case it.Connection != nil:
		h.connection(a, *it.Connection)
	case it.Transaction != nil:
		its := it.Transaction.Its
		its.Connection = a.connections[its.Connection] // 0 if it isn't known
		its.After, its.Known = h.at(it.Transaction.Tick, now), now
		a.arrived++
		h.sink.Transaction(its)
	case it.Unseen != nil:
		h.sink.UnseenMany(it.Unseen.Shape, it.Unseen.Reason, it.Unseen.Reads, it.Unseen.Count)
	case it.Held != 0:
		a.holds = it.Held
		h.signal()
	}
}

// at returns when a tick was made, or the zero time, which is before everything, if there was no such tick.
func (h *Hub) at(tick int64, now time.Time) time.Time {
	at := h.base.Add(time.Duration(tick))
	if tick <= 0 || at.After(now) {
		return time.Time{}
	}
	return at
}

func (h *Hub) connection(a *attached, it record.Connection) {
	theirs := it.Number
	number, known := a.connections[theirs]
	switch {
	case it.Ended && !known:
		return
	case it.Ended:
		delete(a.connections, theirs)
		delete(h.of, number)
	case !known:
		number = firstConnection + h.numbers
		h.numbers++
		a.connections[theirs] = number
		h.of[number] = remote{a.epoch, theirs}
	}
	it.Number, it.Proxy = number, a.name
	h.sink.Connection(it)
}

// end ends an attachment, with all of its connections. Called with lock held.
func (h *Hub) end(a *attached, why string) {
	if a.epoch == 0 {
		return
	}
	if why != "" {
		h.options.Log("the proxy " + a.name + " no longer feeds this audit: " + why)
	}
	a.epoch, a.last = 0, a.epoch
	numbers := make([]uint64, 0, len(a.connections))
	for _, number := range a.connections {
		numbers = append(numbers, number)
	}
	sort.Slice(numbers, func(i, j int) bool { return numbers[i] < numbers[j] })
	for _, number := range numbers {
		delete(h.of, number)
		h.sink.Connection(record.Connection{Number: number, Ended: true})
	}
	a.connections = nil
	h.signal()
}

// look sends ticks, and ends the attachments of proxies that are silent.
func (h *Hub) look(ctx context.Context) {
	for ctx.Err() == nil {
		h.lock.Lock()
		wait := seldom
		h.retire(time.Now())
		for _, a := range h.proxies {
			switch {
			case a.epoch == 0:
			case time.Since(a.heard) > silence:
				h.end(a, "it fell silent")
			default:
				wait = every
			}
		}
		if h.mark != 0 {
			h.say(fromHub{})
		}
		h.lock.Unlock()
		pause(ctx, wait)
	}
}

// retire keeps of proxies that have been silent for an hour only what has to be remembered, and that for a day. Called with
// lock held.
func (h *Hub) retire(now time.Time) {
	for id, a := range h.proxies {
		if a.epoch == 0 && now.Sub(a.heard) > time.Hour {
			h.past[id] = past{a.try, a.received, a.dropped, a.heard}
			delete(h.proxies, id)
		}
	}
	if now.Sub(h.forgot) < time.Minute {
		return
	}
	h.forgot = now
	for id, its := range h.past {
		if now.Sub(its.heard) > remembered {
			delete(h.past, id)
		}
	}
}

// keepMark keeps the lock by which proxies recognize the server. Without it none can feed the audit.
func (h *Hub) keepMark(ctx context.Context) {
	s := &server{config: h.options.Server}
	defer s.close()
	for ctx.Err() == nil {
		if err := h.keep(ctx, s); err != nil && ctx.Err() == nil {
			s.close()
			h.lock.Lock()
			if h.mark != 0 {
				h.mark = 0
				for _, a := range h.proxies {
					h.end(a, "the audit's connection to the server was lost")
				}
			}
			h.logs.say("no proxy on another machine can feed this audit: " + err.Error())
			h.lock.Unlock()
		}
		pause(ctx, time.Second)
	}
}

// Begins makes the hub ask an audit's connection whether it is to the server that the proxies reach. Proxies that are
// attached by then may be at another one, and attach again.
func (h *Hub) Begins(sees func(context.Context, int64) (bool, error)) {
	h.lock.Lock()
	defer h.lock.Unlock()
	h.sees, h.mark = sees, 0
	h.audits++
	for _, a := range h.proxies {
		h.end(a, "another audit begins")
	}
}

// audited reports whether the audit's connection sees the mark. If that connection can't tell, the audit ends, and then
// it doesn't matter.
func (h *Hub) audited(ctx context.Context, mark int64) error {
	h.lock.Lock()
	sees := h.sees
	h.lock.Unlock()
	if sees == nil {
		return nil
	}
	ctx, cancel := context.WithTimeout(ctx, patience)
	defer cancel()
	if is, err := sees(ctx, mark); err == nil && !is {
		return errors.New("the audit reads the log of another server than theirs")
	}
	return nil
}

func (h *Hub) keep(ctx context.Context, s *server) error {
	h.lock.Lock()
	mark, audits := h.mark, h.audits
	h.lock.Unlock()
	if mark != 0 {
		sees, err := s.sees(ctx, mark)
		if err == nil && !sees {
			err = errors.New("the lock that identifies the server is gone")
		}
		if err == nil {
			err = h.audited(ctx, mark)
		}
		return err
	}
	s.close() // with the lock of an earlier mark
	who, err := s.identity(ctx)
	if err != nil {
		return err
	}
	if mark, err = s.setMark(ctx); err != nil {
		return err
	}
	if err = h.audited(ctx, mark); err != nil {
		return err
	}
	h.lock.Lock()
	defer h.lock.Unlock()
	if h.audits == audits { // else another audit has begun, which has to be asked
		h.who, h.mark = who, mark
	}
	return nil
}

// Remotes returns the state of the proxies elsewhere.
func (h *Hub) Remotes() join.Remotes {
	h.lock.Lock()
	defer h.lock.Unlock()
	its := join.Remotes{Refused: h.refused, Down: h.down}
	for _, a := range h.proxies {
		its.Proxies = append(its.Proxies, join.Proxy{Name: a.name, Feeds: a.epoch != 0, Connections: len(a.connections),
			Transactions: a.arrived, Heard: time.Since(a.heard)})
	}
	sort.Slice(its.Proxies, func(i, j int) bool { return its.Proxies[i].Name < its.Proxies[j].Name })
	return its
}
