package join

import (
	"context"
	"errors"
	"fmt"
	"sync"
	"sync/atomic"
	"time"

	"zanteyard/guard"
	"zanteyard/record"
)

// Server is what the joiner asks the server, over its own connection, which is made again if it is lost. Safe for use
// by many goroutines.
type Server interface {
	// Place returns where the next record of the server's log is inserted, and whether tables' names still mean what they
	// meant at the last call.
	Place(context.Context) (Place, error)
	// Base returns the number below which all transactions are over.
	Base(context.Context) (uint32, error)
	// Subtransactions returns those of the commits whose records begin at these places, nil for one that can't be read.
	Subtransactions(context.Context, []uint64) ([][]uint32, error)
}

// Place is a place in the server's log.
type Place struct {
	At uint64
	// Shows is the text of a snapshot that was taken then, or "". Names are right in commits that it shows.
	Shows string
	// Changed has the tables whose name or key has changed since the last place. What is read from the slot from Names on
	// (record.Commit) has them right, if it comes after this place.
	Changed []record.Relation
	Names   uint64
	// Rewritten has those whose definitions have been written since, though their names and keys are the same.
	Rewritten []Rewritten
	// Remade means that operators, casts or functions have been made or dropped by names that conditions use.
	Remade bool
	// MayMean says that some operator or schema may have been made, changed or dropped since the last place, or a role renamed,
	// though all may be as it was: names may have meant something else for a while.
	MayMean bool
	// Reread says that the server's settings were read again since the last place: transactions may begin at another level, and
	// names may be looked up by another path.
	Reread bool
	// Used is how many tables were looked at (record.Commit). Unsure: names may have changed once more since.
	Used   uint64
	Unsure bool
}

// Rewritten is a table whose definition was written, or one of its indexes' or its schema's: names may have been changed,
// and changed back. By is who wrote the parts that have changed: what is committed after all of them has the right names.
// If it is empty, that isn't known.
type Rewritten struct {
	Relation, Root record.Relation
	By             []uint32
}

// Meeter makes the proxy's sessions meet. Other connections than those that are named wait for nothing, and are waited
// for by nobody. If a Meeter is wrong about what is under way, more is folded than necessary, and nothing else.
type Meeter interface {
	// Meet holds what would begin on these connections until what is under way on them has ended, or until a bound. Then it
	// calls moment, with how long that took, and lets them go on. If ctx ends first, it lets them go on without a call.
	// What had ended by then was reported to the sink before the call.
	Meet(ctx context.Context, connections []uint64, moment func(held time.Duration))
	// Busy returns about how many of these connections have something under way, and how many are idle in a transaction.
	// A Meeter that can't know it returns a large number.
	Busy(connections []uint64) (underWay, idle int)
}

// Output takes lines for the auditor, and events, in order. Its calls don't wait.
type Output interface {
	Line([]byte)
	Event(Event)
}

// Joiner runs an audit.
type Joiner struct {
	opt      Options
	tables   Tables
	server   Server
	meeter   Meeter
	output   Output
	inbox    *Inbox
	told     chan fromSlot
	replies  chan func()
	commands chan func()
	done     chan struct{}
	inspects bool
	started  Started
	made     time.Time

	gate       gate
	core       *core
	meeting    meeting
	meetings   uint64    // how many have begun
	last       time.Time // when the last one did
	sought     time.Time // since when one is wanted for which nobody has to wait
	rounded    time.Time // when what the last round is about was noted
	wanted     bool      // a meeting is wanted at once
	stopping   bool
	again      bool // a new audit is wanted
	restarts   atomic.Bool
	failed     error
	taken      []message // out of the inbox, and not yet processed
	counted    uint64    // transactions, before the first of them
	ended      Coverage  // once Run has returned
	earlier    uint64    // transactions of the audits before it, which Restart has ended
	heard      uint64    // of all that, what its parent was told of when the audit was stopped
	hasStopped bool
	leftOut    uint64 // how many were left out since the auditor fell behind, at the last look

	hasNews    bool // something was reported since the last step
	vain       int  // the steps since anything has happened
	unanswered int  // number of rounds whose truncate wasn't answered by a cut
	placing    bool // a question for the log's place is under way
	placedAt   time.Time
	answers    answers
	asking     bool // a question for subtransactions is under way
	warned     sync.Mutex
	warnings   map[string]time.Time // when each was last given
	given      time.Time            // when fragments were last written
	coverage   time.Time
	forgot     time.Time
}

// fromSlot is what the slot reports: a commit, or how far it is.
type fromSlot struct {
	commit *record.Commit
	place  uint64
}

// after reports whether the slot has reported everything before a place with this.
func (f fromSlot) after(place uint64) bool {
	return f.commit == nil && f.place > place || f.commit != nil && f.commit.LSN > place
}

// errEnded is returned to the slot's reader once the audit has ended.
var errEnded = errors.New("the audit has ended")

// New makes a joiner, which begins with Run. It asks for subtransactions if inspects is set.
func New(opt Options, inbox *Inbox, tables Tables, server Server, inspects bool, meeter Meeter, output Output) *Joiner {
	opt = opt.withDefaults()
	return &Joiner{
		opt: opt, answers: answers{first: opt.Answer}, tables: tables, server: server, meeter: meeter, output: output, inbox: inbox,
		told: make(chan fromSlot, 4096), replies: make(chan func(), 16), commands: make(chan func(), 16),
		done: make(chan struct{}), inspects: inspects, made: time.Now(),
	}
}

// Commit takes the slot's next commit. It waits while the joiner is behind, which delays the slot and nobody else.
func (j *Joiner) Commit(it record.Commit) error { return j.give(fromSlot{commit: &it}) }

// Advance records how far the slot is.
func (j *Joiner) Advance(place uint64) error { return j.give(fromSlot{place: place}) }

func (j *Joiner) give(it fromSlot) error {
	select {
	case <-j.done: // if the channel has room too, either would be taken
		return errEnded
	default:
	}
	select {
	case j.told <- it:
		return nil
	case <-j.done:
		return errEnded
	}
}

const (
	step     = 5 * time.Millisecond
	longStep = 5 * step              // while nothing happens
	calm     = 40                    // steps without anything new, after which they are long
	giveOut  = 50 * time.Millisecond // each line costs its receivers, however little is in it
	askSoon  = 20 * time.Millisecond
	askPlace = 100 * time.Millisecond
	each     = time.Second
	patience = time.Minute // with an auditor that doesn't answer, and a server that answers with errors
	mostSubs = 200         // commits in one question
)

// Start sets what the feed reports when the audit begins. Must be called before Run.
func (j *Joiner) Start(it Started) { j.started = it }

// Run audits until the context ends or something goes wrong: then it reports the reason as an event, and returns it.
// The slot must have been made before, since everything that a snapshot taken now doesn't show has to come from it.
func (j *Joiner) Run(ctx context.Context) error {
	err := guard.Run("the joiner", func() error { return j.run(ctx) })
	close(j.done)
	rest := j.inbox.end()
	defer j.inbox.ends() // also after a fault in what follows: else all that arrives would wait
	switch {
	case j.core == nil:
		j.inbox.spares(unclaimed{})
		j.inbox.tellLate(rest)
	case guard.IsFault(err):
		j.inbox.spares(unclaimed{})
		j.salvage(rest)
	default:
		j.core.flush()
		j.core.end(rest)
		j.inbox.spares(j.core.unclaimed())
		j.ended = j.coverageEvent(false)
	}
	if j.core != nil {
		j.ended.Last = true
		j.output.Event(j.ended)
	}
	j.output.Event(Ended{Reason: err.Error()})
	return err
}

// salvage counts after a fault. Of what the audit holds only its sums can be relied on: whatever isn't decided is not
// checked.
func (j *Joiner) salvage(rest []message) {
	totals := &j.core.counts.totals
	if len(j.taken) > 0 && totals.Transactions.ended() != j.counted {
		j.taken = j.taken[1:] // it was counted before the fault
	}
	j.inbox.tellLate(append(j.taken, rest...))
	totals.settle(auditEnded)
	guard.Do("the sums after a fault", func(error) { j.ended = Coverage{At: time.Now(), Totals: totals.Copied()} },
		func() { j.ended = j.coverageEvent(false) })
}

// Coverage returns the state of the audit when Run returned.
func (j *Joiner) Coverage() Coverage { return j.ended }

// Untold returns, once Run has returned, how many transactions were counted after the audit was stopped, and whether it
// was. If nobody stopped it, these are all.
func (j *Joiner) Untold() (n uint64, wasStopped bool) {
	return j.earlier + j.ended.Totals.Transactions.ended() - j.heard, j.hasStopped
}

func (j *Joiner) run(ctx context.Context) error {
	j.started.At, j.started.Limit, j.started.Sessions = time.Now(), j.opt.Limit, j.opt.Sessions
	j.output.Event(j.started)
	if err := j.begin(ctx); err != nil {
		return err
	}
	ticker := time.NewTicker(step)
	defer ticker.Stop()
	for {
		select {
		case <-ctx.Done():
			return ctx.Err()
		case it := <-j.slot():
			guard.At("a commit")
			j.isNews(ticker)
			j.core.now = time.Now() // when it is seen
			j.gate.put(it)
			for n := len(j.told); n > 0; n-- {
				j.gate.put(<-j.told)
			}
			j.gate.release(j.core)
		case <-j.inbox.wake:
			j.empty()
		case f := <-j.replies:
			guard.At("an answer of the server")
			j.isNews(ticker)
			j.core.now = time.Now()
			f()
		case f := <-j.commands:
			guard.At("a command")
			j.isNews(ticker)
			j.core.now = time.Now()
			f()
		case <-ticker.C:
			if err := j.tick(ctx); err != nil {
				return err
			}
			j.rest(ticker)
		}
	}
}

// isNews makes steps short again.
func (j *Joiner) isNews(ticker *time.Ticker) {
	if j.vain > calm {
		ticker.Reset(step)
	}
	j.vain = 0
}

// rest is called after a step, and makes the steps long once nothing has happened in many of them. An audit that has
// nothing to do would else be woken 200 times a second.
func (j *Joiner) rest(ticker *time.Ticker) {
	if j.hasNews || j.meeting.phase != apart || !j.sought.IsZero() || j.wanted {
		j.isNews(ticker)
	}
	j.hasNews = false
	if j.vain++; j.vain == calm+1 {
		ticker.Reset(longStep)
	}
}

// begin starts an audit: what a snapshot shows now is the initial state.
func (j *Joiner) begin(ctx context.Context) error {
	base, err := j.base(ctx)
	if err != nil {
		return fmt.Errorf("begin the audit: %w", err)
	}
	connections, before := j.connections(), j.core
	j.core = newCore(j.opt, j.tables, base, j.output.Line, time.Now())
	j.core.inspects, j.core.database, j.core.slotted = j.inspects, j.started.Database, j.made
	j.core.spare = j.inbox.spare
	j.core.sought, j.core.opened = j.started.Asked, j.started.Opened
	if its, is := j.meeter.(interface{ Apart(time.Time) bool }); is {
		j.core.apart = its.Apart
	}
	if before != nil {
		j.core.inherit(before)
		j.core.spare = j.inbox.keeps(before.unclaimed())
	}
	j.meeting, j.last, j.sought, j.unanswered, j.leftOut = meeting{}, time.Now(), time.Time{}, 0, 0
	j.rounded = j.last
	j.wanted = j.wanted || j.stopping // the last round is still owed, though its meeting was the other audit's
	j.core.open()
	for _, one := range connections {
		j.core.enter(one)
	}
	return nil
}

// connections returns those that a previous audit knew.
func (j *Joiner) connections() []record.Connection {
	if j.core == nil {
		return nil
	}
	var its []record.Connection
	for _, one := range j.core.connections {
		its = append(its, one.its)
	}
	return its
}

// slot returns the channel from the slot, or nil if so much of it waits that the slot has to.
func (j *Joiner) slot() <-chan fromSlot {
	if j.gate.isFull() {
		return nil
	}
	return j.told
}

// base asks for the number below which all transactions are over, until the server answers.
func (j *Joiner) base(ctx context.Context) (base uint32, err error) {
	its := answers{first: j.opt.Answer}
	for {
		its.begin(time.Now())
		asking, cancel := context.WithTimeout(ctx, its.limit())
		base, err = j.server.Base(asking)
		late := isLate(asking, err)
		cancel()
		j.answered(its.take(err, late, time.Now()))
		if !late || ctx.Err() != nil {
			return base, err
		}
	}
}

// empty takes out what was reported. While the server doesn't answer, nothing can be done with it. So it stays in the
// inbox, which is bounded.
func (j *Joiner) empty() {
	waits := j.answers.isSlow(time.Now()) && !j.stopping
	if j.inbox.wait(waits); waits {
		return
	}
	its, lost := j.inbox.take()
	j.hasNews = j.hasNews || len(its) > 0
	j.core.now = time.Now()
	for j.taken = its; len(j.taken) > 0; j.taken = j.taken[1:] { // after a fault, the rest is still there
		one := j.taken[0]
		j.counted = j.core.counts.totals.Transactions.ended()
		switch {
		case one.connection != nil:
			guard.At("a connection")
			j.core.enter(*one.connection)
		case one.transaction != nil:
			guard.At("a transaction")
			j.core.tell(*one.transaction)
		case one.dropped != nil:
			j.core.drop(one.dropped, one.why)
		default:
			j.moment(*one.moment)
		}
	}
	j.taken, j.core.counts.lost = nil, lost
}

func (j *Joiner) tick(ctx context.Context) error {
	guard.At("a step")
	now := time.Now()
	j.empty()
	if j.again {
		j.again = false
		j.restarts.Store(false)
		j.core.flush()
		j.core.endBeyond()
		j.core.counts.totals.close(auditEnded)
		last := j.coverageEvent(true)
		j.earlier += last.Totals.Transactions.ended()
		last.Last = true
		j.output.Event(last)
		j.output.Event(Restarted{At: now})
		if err := j.begin(ctx); err != nil {
			return err
		}
	}
	j.core.step(now)
	j.lookBeside(now)
	j.lookBehind()
	if now.Sub(j.given) >= giveOut {
		j.given = now
		j.core.flush()
	}
	if j.core.wantsMoment(j.busy) {
		j.core.now = time.Now()
		j.core.quiet(j.core.now)
	}
	j.askPlace(ctx, now)
	j.askSubs(ctx)
	j.meet(ctx, now)
	if now.Sub(j.forgot) >= each {
		j.forgot = now
		j.core.forget()
		j.core.reseat()
		if its, is := j.meeter.(interface{ Unaudited([]uint64) }); is {
			its.Unaudited(j.core.unaudited())
		}
	}
	if now.Sub(j.coverage) >= each {
		j.coverage = now
		j.output.Event(j.coverageEvent(false))
	}
	if j.failed != nil {
		return j.failed
	}
	if err := j.answers.refusal(now); err != nil {
		return fmt.Errorf("ask the server for its WAL position: %w", err)
	}
	return nil
}

// busy returns about how many transactions a moment now would fold.
func (j *Joiner) busy() int {
	underWay, idle := j.meeter.Busy(j.core.audited())
	return underWay + idle
}

// askPlace asks where the log stands, for everything reported up to now. The question takes more processor time than
// most transactions, and delays those that want the same processor; so it is rarely asked while nobody waits for the
// answer.
func (j *Joiner) askPlace(ctx context.Context, now time.Time) {
	pause := askPlace
	if j.meeting.phase != apart && !j.meeting.isSettled || len(j.core.held) > 0 {
		pause = askSoon
	}
	if j.placing || now.Sub(j.placedAt) < pause {
		return
	}
	batch, wanted := j.core.wantsPlace()
	if !wanted && !j.gate.waits() {
		return
	}
	j.placing, j.placedAt = true, now
	j.answers.begin(now)
	core := j.core
	j.ask(ctx, func(asking context.Context) func() {
		place, err := j.server.Place(asking)
		late := isLate(asking, err)
		return func() {
			j.placing = false
			j.answered(j.answers.take(err, late, time.Now()))
			if err != nil { // it is asked again, with what is reported by then
				j.core.batched = true
				return
			}
			j.gate.verify(place, j.core)
			if wanted && core == j.core {
				core.placed(batch, place, now)
			}
		}
	})
}

// answered tells people what they should know of the server's answers, if anything.
func (j *Joiner) answered(words string) {
	if words != "" {
		j.output.Event(Warning{At: time.Now(), Text: words})
	}
}

// ask runs a question beside the joiner's loop, and the function that it returns in the loop.
func (j *Joiner) ask(ctx context.Context, question func(context.Context) func()) {
	limit := j.answers.limit()
	guard.Go("a question to the server", j.End, func() {
		asking, cancel := context.WithTimeout(ctx, limit)
		defer cancel()
		answer := question(asking)
		select {
		case j.replies <- answer:
		case <-j.done:
		}
	})
}

func (j *Joiner) askSubs(ctx context.Context) {
	if j.asking || len(j.core.unsub) == 0 {
		return
	}
	writers := j.core.unsub
	if len(writers) > mostSubs {
		writers = writers[:mostSubs:mostSubs]
	}
	j.core.unsub = j.core.unsub[len(writers):]
	places := make([]uint64, len(writers))
	for i, w := range writers {
		places[i] = w.start
	}
	j.asking = true
	core := j.core
	j.ask(ctx, func(asking context.Context) func() {
		subs, err := j.server.Subtransactions(asking, places)
		return func() {
			j.asking = false
			if err != nil {
				core.counts.unread++
			}
			core.answered(writers, subs)
		}
	})
}
