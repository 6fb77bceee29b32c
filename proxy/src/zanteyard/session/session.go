// Package session handles one client's connection to its server through the proxy. Two goroutines pass messages on, one
// in each direction. The answers owed for each message are kept in a queue, so it is known which rows belong to which
// statement, in pipelines too. Statements are rewritten by their plans if those were tried on the connection; the
// hidden columns are cut off, and reported in a record of each transaction.
//
// The client gets what it would get without the proxy. Whatever isn't understood is passed on unchanged.
package session

import (
	"errors"
	"fmt"
	"io"
	"net"
	"runtime/debug"
	"sync"
	"sync/atomic"
	"time"

	"zanteyard/loop"
	"zanteyard/plan"
	"zanteyard/record"
	"zanteyard/wire"
)

// Planner returns the plan for a statement's text on a connection with a search path, as catalog.PathSQL reports it; ""
// stands for the catalog's own. The plan is nil if there is no catalog.
type Planner interface {
	PlanIn(path, text string) (*plan.Plan, plan.Tokens)
	// Encoding returns the server's encoding, "" if there is no catalog.
	Encoding() string
	// Own reports whether a connection's search path is the catalog's own. The first connection that asks decides which
	// that is.
	Own(path string) bool
}

// Policy says what is kept of statements, for readers of an explanation.
type Policy struct {
	Statements bool // their texts
	Parameters bool // and the parameters of prepared ones
	Redacts    bool // of the texts only keywords and identifiers
}

// Options are the same for all sessions of a proxy. Its functions may be called by many goroutines at once.
type Options struct {
	Plans      Planner
	Sink       record.Sink
	Policy     Policy
	ReadLimit  int           // how many reads of a transaction are kept
	Auditing   func() bool   // whether statements are looked at
	Generation func() uint64 // the catalog's generation, which rises with each change
	Defined    func()        // a session is about to change a definition
	Log        func(string)  // for the people who run the proxy
	Bound      time.Duration // how long a meeting holds a client's messages
	Shared     *Shared       // nil: each connection tries its plans itself
	// Made returns how often the audit has seen that what names mean may have changed, and how many of these changes are in
	// the catalog by which statements are planned from then on. nil: there are none.
	Made func() (made, seen uint64)
	// Mark is the number of the lock by which the audited server is known, 0 while there is none. It changes with each
	// audit. nil: every server is the audited one.
	Mark func() int64
}

// Session is one connection. Its methods are safe for use by several goroutines.
type Session struct {
	number         uint64
	options        *Options
	client, server Conn

	// writes is held while writing to the server and recording the expectations for it, so that both have the same order.
	// Its holder may take state; never the other way round.
	writes   sync.Mutex
	toServer output
	sent     time.Time
	bound    wire.Bind
	int16s   []int16

	// blind: everything is passed on without looking, as on a replication connection.
	blind atomic.Bool
	hold  atomic.Pointer[hold]
	// missed: an idle moment couldn't be used, because writes was held.
	missed atomic.Bool
	// draining: the session ends at its next idle moment. left: it has told the server so; set with writes locked.
	draining, left atomic.Bool
	// keeps: what the client has sent waits for a trial or a meeting. cancels counts requests to cancel what it runs, which
	// are being passed on.
	keeps   atomic.Bool
	cancels atomic.Int32
	// greeting is set while the connection's signature is asked for, before its client may begin.
	greeting atomic.Pointer[chan struct{}]

	state      sync.Mutex // guards everything below
	waiting    sync.Cond  // for whoever waits until a replay is sent
	queue      queue
	status     byte   // of the last ReadyForQuery: I, T or E; 0 before the first
	open       bool   // messages of the extended protocol were sent since the last Sync
	skipping   bool   // after an error, the server skips everything up to the next Sync, which hasn't been sent yet
	partial    bool   // the server has part of a message
	stalled    bool   // the client's direction waits until the server has answered
	gone       bool   // the server has ended
	cancelling bool   // the server is told once more to cancel what the client ran when it asked for that
	confused   bool   // an answer wasn't expected
	backend    int    // the server's process, from the beginning of the connection
	key        []byte // by which its client may cancel what it runs
	early      bool   // the client sent something before the server was ready for it
	impatient  []byte // what each trial begins with, so that it waits for no lock
	copying    bool
	replay     replay
	failure    []byte     // the error that the client gets in place of the answer to its COMMIT
	owed       []byte     // the error by which the proxy's own statements have ended a block, until the client gets it
	ahead      *statement // the client's next one, if it was looked at
	asked      int        // trials in the block since the client has sent something
	runs       bool       // what the client sends next runs something
	next       []*use     // the plans that it needs
	charset    string     // the client's encoding, as the server reports it
	// application is the connection's application_name, as the server reports it.
	application string
	encoding    bool // texts can be looked at: the client's encoding and settings allow it
	standard    bool
	plain       bool
	level       level // that transactions begin at
	names       names
	trust       trust
	trial       *trial
	tx          transaction
	place       uint64
	heldPlace   uint64 // of the last transaction whose cursor WITH HOLD was reported
	defines     bool   // the transaction changes definitions
	now         time.Time
	slow        time.Time // until then no statement waits for a trial
	toClient    output
	columns     []wire.Column
	ends        []int
	values      [][]byte
	reads       []record.Read
}

// Conn is a connection: a net.Conn, or one of a loop.
type Conn interface {
	io.ReadWriteCloser
}

// New makes a session from two connections, after the startup message was passed on. Its number must be unique.
func New(number uint64, client, server Conn, options *Options) *Session {
	s := &Session{number: number, options: options, client: client, server: server, names: newNames()}
	s.waiting.L, s.impatient = &s.state, impatient
	s.encoding, s.standard, s.plain = true, true, true
	s.queue.levels, s.queue.doubts = &s.trust.levels, &s.trust.doubts
	s.trust.uses, s.trust.shared, s.trust.accounted = map[*plan.Plan]*use{}, options.Shared, clock()
	s.trust.doubtful(newConnection)
	s.trust.generations = map[string]uint64{}
	s.trust.renew()
	s.trust.back, s.trust.fresh = plan.Settings|plan.Level, true
	s.follow()
	return s
}

// Number is the session's number.
func (s *Session) Number() uint64 { return s.number }

// Blind makes the session pass everything on without looking, as a replication connection needs it. Must be called
// before Run.
func (s *Session) Blind() { s.blind.Store(true) }

// Run passes messages on until one of the connections ends, then closes both.
func (s *Session) Run() error {
	defer s.over()
	client, plain := s.client.(*loop.Conn)
	server, plainToo := s.server.(*loop.Conn)
	if plain && plainToo {
		return s.served(client, server)
	}
	ended := make(chan error, 1)
	go func() {
		err := s.guarded(s.back)
		s.deserted()
		s.sayGoodbye()
		s.client.Close()
		s.server.Close()
		ended <- err
	}()
	err := s.guarded(s.forth)
	s.sendEnds(err)
	return ending(err, <-ended)
}

// sendEnds ends the direction to the server. The server may still have answers to send: it closes the connection after
// Terminate, or when it finds the client gone.
func (s *Session) sendEnds(err error) {
	if half, ok := s.server.(interface{ CloseWrite() error }); ok && errors.Is(err, io.EOF) {
		half.CloseWrite()
	} else {
		s.server.Close()
	}
}

// ending returns why a session has ended, from why each direction has.
func ending(err, back error) error {
	if err == nil || errors.Is(err, io.EOF) {
		err = back
	}
	if errors.Is(err, io.EOF) || errors.Is(err, net.ErrClosed) {
		return nil
	}
	return err
}

// guarded turns a panic of the proxy into the end of this connection, not of all.
func (s *Session) guarded(f func() error) (err error) {
	defer func() {
		if fault := recover(); fault != nil {
			err = fmt.Errorf("a fault of the proxy's: %v\n%s", fault, debug.Stack())
		}
	}()
	return f()
}

// over reports what the connection's end leaves: a transaction whose COMMIT, or whose only statement, wasn't answered.
func (s *Session) over() {
	s.state.Lock()
	defer s.state.Unlock()
	outcome := record.Aborted
	for i := s.queue.head; i < len(s.queue.list); i++ {
		if e := &s.queue.list[i]; e.kind == clients && e.message != 'c' {
			outcome = record.Unclear
			s.begin()
		}
	}
	s.now = clock()
	s.drops("")
	s.finish(outcome)
	if h := s.hold.Load(); h != nil {
		h.end()
		h.release()
	}
}

// forth passes on what the client sends.
func (s *Session) forth() error {
	in := wire.NewReader(s.client)
	for {
		batch, more, err := in.Whole()
		if err != nil {
			return err
		}
		if err := s.send(in, batch, more); err != nil {
			return err
		}
		if s.blind.Load() {
			return s.unseen(s.server, s.client, in)
		}
	}
}

// send passes on messages, or the beginning of a long one and then its rest.
func (s *Session) send(in *wire.Reader, batch []byte, more int) error {
	if greeting := s.greeting.Load(); greeting != nil {
		s.keeps.Store(true)
		s.waitGreeting(*greeting)
	}
	s.writes.Lock()
	out, err := s.looked(batch, more)
	if err != nil {
		s.writes.Unlock()
		return err
	}
	_, err = s.server.Write(out)
	s.written()
	for err == nil && more > 0 {
		var part []byte
		if part, more, err = in.Chunk(); err == nil {
			_, err = s.server.Write(part)
		}
		if more == 0 {
			s.state.Lock()
			s.partial = false
			s.state.Unlock()
		}
	}
	return err
}

// written is called when everything to be sent for some messages has been written. Called with writes locked.
func (s *Session) written() {
	s.toServer.release()
	s.writes.Unlock()
	if s.missed.Load() {
		s.rest()
	}
}

// looked says what is sent for a batch of messages, or that the session has left the server. It waits for a replay, and
// while a meeting holds the client. Called with writes locked.
func (s *Session) looked(batch []byte, more int) ([]byte, error) {
	s.state.Lock()
	defer s.state.Unlock()
	var until time.Time // for trials
	for asks := 0; ; {
		h := s.holds()
		switch {
		case s.left.Load() || s.gone:
			return nil, io.EOF
		case s.replay.running, s.cancelling:
			s.waiting.Wait()
		case s.isFull():
			s.stalled = true
			s.waiting.Wait()
		case h != nil:
			s.keeps.Store(true)
			s.wait(h)
		case more == 0 && asks < mostAsks && s.needsTrial(batch):
			if asks++; asks == 1 {
				until = clock().Add(s.options.Bound)
			}
			s.keeps.Store(true)
			s.tryFirst(until)
		default:
			s.keeps.Store(false)
			return s.lookAt(batch, more), nil
		}
	}
}

// lookedNow is looked without waiting. ok is false if it would have to wait: for a replay, for a meeting, or for
// another goroutine that has the session locked.
func (s *Session) lookedNow(batch []byte) (out []byte, ok bool) {
	if !s.state.TryLock() {
		return nil, false
	}
	defer s.state.Unlock()
	if s.replay.running || s.cancelling || s.gone || s.isFull() || s.holds() != nil || s.needsTrial(batch) {
		return nil, false
	}
	return s.lookAt(batch, 0), true
}

// lookAt is the common part of both, which doesn't wait. Called with writes and state locked.
func (s *Session) lookAt(batch []byte, more int) []byte {
	s.sent = clock()
	s.queue.sent = s.sent
	if s.blind.Load() || s.status == 0 {
		s.partial = more > 0
		s.early = s.early || batch[0] != 'p'
		return batch
	}
	s.catchUp()
	s.asked = 0
	s.replay.sent(batch, more > 0, s.between())
	if more > 0 {
		s.partial = true
		return s.long(batch)
	}
	return s.fromClient(&s.toServer, batch)
}

// back passes on what the server sends.
func (s *Session) back() error {
	in := wire.NewReader(s.server)
	for {
		batch, more, err := in.Whole()
		if err != nil {
			return err
		}
		if err := s.passLong(in, batch, more); err != nil {
			return err
		}
		if s.blind.Load() {
			return s.unseen(s.client, s.server, in)
		}
	}
}

// passLong passes on messages from the server, or the beginning of a long one and then its rest.
func (s *Session) passLong(in *wire.Reader, batch []byte, more int) error {
	if more > 0 {
		return s.backLong(in, batch, more)
	}
	return s.pass(batch)
}

// pass passes on whole messages from the server.
func (s *Session) pass(batch []byte) error { return s.passOn(s.answered(batch)) }

// passOn does what answered returned.
func (s *Session) passOn(out []byte, again, rest bool) error {
	if again {
		if err := s.sendAgain(); err != nil {
			return err
		}
	}
	if rest {
		s.rest()
	}
	var err error
	if len(out) > 0 {
		_, err = s.client.Write(out)
	}
	s.toClient.release()
	return err
}

// answered returns what to pass on for some messages, and what else to do: send the client's own messages again, or use
// an idle moment.
func (s *Session) answered(batch []byte) (out []byte, again, rest bool) {
	s.state.Lock()
	defer s.state.Unlock()
	return s.answers(batch)
}

// answeredNow is answered without waiting for another goroutine that has the session locked: ok is false then.
func (s *Session) answeredNow(batch []byte) (out []byte, again, rest, ok bool) {
	if !s.state.TryLock() {
		return nil, false, false, false
	}
	defer s.state.Unlock()
	out, again, rest = s.answers(batch)
	return out, again, rest, true
}

// answers is the common part of both. Called with state locked.
func (s *Session) answers(batch []byte) (out []byte, again, rest bool) {
	s.now = clock()
	if s.blind.Load() {
		return batch, false, false
	}
	out = s.fromServer(batch)
	s.queue.copied()
	s.eased()
	if h := s.hold.Load(); h != nil && s.between() {
		h.end()
	}
	return out, s.replay.due, s.idle() && (s.trust.work() || s.draining.Load()) || s.pauses()
}

// catchUp takes notice of another catalog and another audit.
func (s *Session) catchUp() {
	s.follow()
	if s.options.Made != nil {
		_, s.trust.planned = s.options.Made() // before the generation
	}
	if g := s.options.Generation(); g != s.trust.catalog {
		s.trust.catalog = g
		s.trust.planAnew()
	}
}

// backLong passes on a long message from the server.
func (s *Session) backLong(in *wire.Reader, begin []byte, more int) error {
	s.state.Lock()
	e := s.queue.first()
	plain := e == nil || e.kind == clients && len(s.failure) == 0 && s.status != 0
	if e != nil && plain && begin[0] == 'D' {
		s.fetched(e)
		plain = e.hidden == 0
	}
	plain = plain && (begin[0] == 'D' || begin[0] == 'd' || begin[0] == 'V' || begin[0] == 'A')
	if plain && e != nil {
		s.replay.given = true
		e.rows++
	}
	s.state.Unlock()
	if !plain {
		// The hidden columns of this row have to be cut off: its length comes first, but what they take is known only at its
		// end. So the row is held whole, as the server holds it.
		all, err := in.Rest(begin)
		if err != nil {
			return err
		}
		err = s.pass(all)
		s.state.Lock()
		s.values, s.columns = nil, nil // these are parts of it
		s.state.Unlock()
		return err
	}
	_, err := s.client.Write(begin)
	for err == nil && more > 0 {
		var part []byte
		if part, more, err = in.Chunk(); err == nil {
			_, err = s.client.Write(part)
		}
	}
	return err
}

// unseen passes on everything from here on.
func (s *Session) unseen(to, from Conn, in *wire.Reader) error {
	if b := in.Buffered(); len(b) > 0 {
		if _, err := to.Write(b); err != nil {
			return err
		}
	}
	_, err := io.Copy(to, from)
	if err == nil {
		err = io.EOF
	}
	return err
}

// lost handles an answer that wasn't expected, which is a bug in the proxy. The session goes on without rewriting.
func (s *Session) lost(answer, message byte) {
	go s.options.Log("connection " + itoa(s.number) + ": an answer of type " + string(rune(answer)) +
		" to a message of type " + string(rune(message)) + "; it is passed on without looking from here on")
	s.trust.broken, s.confused = true, true
	s.plain, s.encoding = false, false
}
