package main

import (
	"bufio"
	"context"
	"encoding/json"
	"fmt"
	"io"
	"sync"
	"sync/atomic"
	"time"

	"zanteyard/audit"
	"zanteyard/guard"
	"zanteyard/join"
	"zanteyard/record"
	"zanteyard/remote"
)

// audits runs one audit after another: when one has ended, the parent may request the next one by `restart`.
type audits struct {
	config  audit.Config // without In
	sink    *switched
	ready   <-chan struct{} // closed once the catalog was read: sessions report no transaction before that
	running atomic.Bool
	mark    atomic.Int64 // of the audit that runs
	log     func(string)

	last    *audit.Audit
	isNew   bool        // the last one was another parent's
	counted uint64      // transactions in this parent's audits, of which it hasn't told anybody
	since   join.Totals // what ended since its last audit; it was told as it left
	// What ended since a parent last told its outcome: transactions in audits of parents that are gone, and others.
	untold    uint64
	unaudited join.Totals

	lock    sync.Mutex
	current *current // nil if no audit runs
	its     atomic.Pointer[audit.Audit]
}

// current is the running audit.
type current struct {
	drained func()        // tells its parent that the proxy is about to end
	over    chan struct{} // closed when it has ended, or its parent wants no more of it
	once    sync.Once
}

func (c *current) end() { c.once.Do(func() { close(c.over) }) }

// lastRound is how long a parent may take for an audit's last round, and for asking about its violations, when the proxy
// has no connection left.
const lastRound = 2 * time.Minute

// finish returns when the running audit's parent has what it wants: a signal that ends the proxy is often sent to the
// parent, too, which then wants a last round.
func (a *audits) finish(ctx context.Context) {
	a.lock.Lock()
	its := a.current
	a.lock.Unlock()
	if its == nil {
		return
	}
	its.drained()
	timer := time.NewTimer(lastRound)
	defer timer.Stop()
	select {
	case <-its.over:
	case <-ctx.Done():
	case <-timer.C:
	}
}

func (a *audits) set(its *current) {
	a.lock.Lock()
	defer a.lock.Unlock()
	a.current = its
}

// fail ends the audit that is running, if one is, because of a fault of the proxy's. Traffic goes on.
func (a *audits) fail(err error) {
	a.log(err.Error() + "; traffic goes on: " + guard.Stack(err))
	if its := a.its.Load(); its != nil {
		its.End(err)
	}
}

// forever runs f again a second after it has panicked, until ctx ends.
func forever(ctx context.Context, place string, failed func(error), f func() error) {
	for ctx.Err() == nil {
		err := guard.Run(place, f)
		if err == nil {
			return
		}
		failed(err)
		select {
		case <-ctx.Done():
		case <-time.After(time.Second):
		}
	}
}

// run runs audits until ctx ends.
func (a *audits) run(ctx context.Context, in io.Reader) {
	lines := make(chan []byte)
	go readLines(ctx, in, lines)
	for {
		left, again, err := a.one(ctx, lines)
		if err != nil && ctx.Err() == nil {
			a.log("the audit has ended, traffic goes on: " + err.Error())
		}
		for again = again || left != nil && a.command(left); !again; {
			select {
			case line, ok := <-lines:
				if !ok {
					<-ctx.Done()
					a.since = a.last.Late()
					return
				}
				again = a.command(line)
			case <-ctx.Done():
				a.since = a.last.Late()
				return
			}
		}
	}
}

// attend runs audits for one attached parent after another.
func (a *audits) attend(ctx context.Context, from *control) {
	for {
		select {
		case one := <-from.parents:
			its, cancel := context.WithCancel(ctx)
			a.config.Out, a.isNew, a.counted = one, true, 0
			a.run(its, &ending{one, cancel})
			cancel()
			a.untold += a.counted
			from.detach(one)
		case <-ctx.Done():
			return
		}
	}
}

// ending is a stream whose end ends something else: with its parent an audit ends at once, since nobody is left to tell.
type ending struct {
	from io.Reader
	end  func()
}

func (e *ending) Read(to []byte) (int, error) {
	n, err := e.from.Read(to)
	if err != nil {
		e.end()
	}
	return n, err
}

// follow makes an audit count what has ended since the last one, or tells its parent how many transactions these were, if
// it had no part in that.
func (a *audits) follow(it *audit.Audit) {
	if before := a.last; a.isNew {
		late := it.Succeeds(before)
		late.Add(&a.since)
		a.unaudited.Add(&late)
		a.since = join.Totals{}
		n := late.Ended()
		if n > 0 {
			a.log(fmt.Sprintf("%d transactions ended while nothing was audited", n))
		}
		if a.untold > 0 {
			a.log(fmt.Sprintf("%d transactions ended in audits whose program is gone, and told nobody", a.untold))
		}
		if a.unaudited.Ended() > 0 || a.untold > 0 {
			it.Earlier(a.unaudited.Copied(), a.untold)
		}
	} else {
		it.After(before)
	}
	a.last, a.isNew = it, false
}

// toldAll records that the parent was told of everything up to now.
func (a *audits) toldAll() { a.counted, a.untold, a.unaudited = 0, 0, join.Totals{} }

// command handles a command while there is no audit. It reports whether another audit should begin.
func (a *audits) command(line []byte) (again bool) {
	name := nameOf(line)
	if name == "stop" {
		a.last.Late()
		a.toldAll()
		at := time.Now()
		fmt.Fprintf(a.config.Out, "{\"event\":\"stopped\",\"at\":%d.%06d}\n", at.Unix(), at.Nanosecond()/1000)
	}
	return name == "restart"
}

// nameOf returns a command's name, or "" if the line is no command.
func nameOf(line []byte) string {
	var it struct{ Command string }
	if json.Unmarshal(line, &it) != nil {
		return ""
	}
	return it.Command
}

func readLines(ctx context.Context, in io.Reader, to chan<- []byte) {
	defer close(to)
	for from := bufio.NewReader(in); ; {
		line, err := from.ReadBytes('\n')
		if len(line) > 0 {
			select {
			case to <- line:
			case <-ctx.Done():
				return
			}
		}
		if err != nil {
			return
		}
	}
}

// forCatalog is how long an audit waits until the catalog was read, so that each transaction that ends while it runs is
// reported. If the server can't be reached, the audit says so.
const forCatalog = 10 * time.Second

func awaitCatalog(ctx context.Context, ready <-chan struct{}) {
	timer := time.NewTimer(forCatalog)
	defer timer.Stop()
	select {
	case <-ready:
	case <-timer.C:
	case <-ctx.Done():
	}
}

// one runs an audit to its end, and passes the parent's commands on to it. It returns the command that came too late
// for it, and whether another audit was asked for while it ended.
func (a *audits) one(ctx context.Context, lines <-chan []byte) (left []byte, again bool, err error) {
	commands, to := io.Pipe()
	config := a.config
	config.In = commands
	it := audit.New(config)
	a.its.Store(it)       // a fault in what follows ends it
	a.sink.use(it.Sink()) // which counts what ends before the audit begins
	a.follow(it)
	awaitCatalog(ctx, a.ready)
	a.running.Store(true)
	defer a.running.Store(false)
	now := &current{drained: it.Drained, over: make(chan struct{})}
	a.set(now)
	defer now.end()
	defer a.set(nil)
	a.mark.Store(0)
	defer a.mark.Store(0)
	ended := make(chan error, 1)
	go func() {
		err := it.Run(ctx)
		commands.Close() // writers of commands don't wait any more
		ended <- err
	}()
	defer func() {
		again = it.WantsRestart()
		n, wasStopped := it.Untold()
		if wasStopped {
			a.toldAll()
		}
		a.counted += n
	}()
	for {
		select {
		case line, ok := <-lines:
			if !ok {
				now.end()
				to.Close()
				return nil, false, <-ended
			}
			if nameOf(line) == "leave" {
				now.end()
				continue
			}
			if _, err := to.Write(line); err != nil {
				return line, false, <-ended
			}
		case err := <-ended:
			return nil, false, err
		}
	}
}

// switched is a sink that passes on to another one, which can be exchanged: existing connections are reported to the
// new one.
type switched struct {
	to   atomic.Pointer[record.Sink]
	fail func(error) // what to do about a panic of the sink: it is no fault of the connection that reports something

	lock sync.Mutex
	live map[uint64]record.Connection
}

func newSwitched(to record.Sink) *switched {
	s := &switched{live: map[uint64]record.Connection{}, fail: func(error) {}}
	s.to.Store(&to)
	return s
}

func (s *switched) use(to record.Sink) {
	s.lock.Lock()
	defer s.lock.Unlock()
	for _, it := range s.live {
		it := it
		guard.Do("the record of a connection", s.fail, func() { to.Connection(it) })
	}
	s.to.Store(&to)
}

func (s *switched) Connection(it record.Connection) {
	guard.Do("the record of a connection", s.fail, func() { s.connection(it) })
}

func (s *switched) connection(it record.Connection) {
	s.lock.Lock()
	defer s.lock.Unlock()
	if it.Ended {
		delete(s.live, it.Number)
	} else if it.Refused == "" {
		s.live[it.Number] = it
	}
	(*s.to.Load()).Connection(it)
}

func (s *switched) Transaction(it record.Transaction) {
	guard.Do("the record of a transaction", s.fail, func() { (*s.to.Load()).Transaction(it) })
}

func (s *switched) Unseen(shape, reason string, reads bool) {
	guard.Do("the count of a statement", s.fail, func() { (*s.to.Load()).Unseen(shape, reason, reads) })
}

// UnseenMany implements remote.Sink.
func (s *switched) UnseenMany(shape, reason string, reads bool, n uint64) {
	if to, is := (*s.to.Load()).(remote.Sink); is {
		to.UnseenMany(shape, reason, reads, n)
	}
}

// Lose implements remote.Sink.
func (s *switched) Lose(reason string, n uint64) {
	if to, is := (*s.to.Load()).(remote.Sink); is {
		to.Lose(reason, n)
	}
}
