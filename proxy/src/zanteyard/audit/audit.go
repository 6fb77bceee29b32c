// Package audit runs an audit next to a proxy: it creates the slot, joins the slot's commits with what the sessions
// saw, and talks to the parent. Any error ends the audit, and is reported as its reason; the proxy goes on.
package audit

import (
	"context"
	"errors"
	"fmt"
	"io"
	"os"
	"sync"
	"time"

	"zanteyard/feed"
	"zanteyard/guard"
	"zanteyard/join"
	"zanteyard/record"
	"zanteyard/slot"
)

// Config says what to audit and how.
type Config struct {
	Slot   slot.Options
	Join   join.Options
	Meeter join.Meeter
	// Held is how many bytes of the sessions' records may wait for the joiner.
	Held int
	// Kept is how many bytes of its log the server may have to keep for the slot. Beyond that the audit ends, so that it
	// can't fill the server's disk.
	Kept uint64
	// Begins is called when the audit begins, with a function that asks its own connection whether it sees an advisory
	// lock. It may be nil.
	Begins func(sees func(context.Context, int64) (bool, error))
	In     io.Reader // the parent's commands
	Out    io.Writer // the feed
}

// Audit takes the sessions' records from the moment it is made.
type Audit struct {
	config Config
	inbox  *join.Inbox
	writer *feed.Writer

	lock   sync.Mutex
	cancel func()       // ends it while it begins
	joiner *join.Joiner // nil until it has begun
	failed error        // why it ended
	late   join.Totals  // what ended since, as far as its parent was told of it

	reading sync.WaitGroup // whoever reads the parent's commands
}

// New makes an audit. It does nothing before Run, and holds the sessions' records until then.
func New(config Config) *Audit {
	if config.Held <= 0 {
		config.Held = 64 << 20
	}
	if config.Kept == 0 {
		config.Kept = 4 << 30
	}
	if config.Slot.Name == "" {
		config.Slot.Name = fmt.Sprintf("zanteyard_%d_%d", os.Getpid(), time.Now().UnixMicro())
	}
	return &Audit{config: config, inbox: join.NewInbox(config.Held), writer: feed.NewWriter(config.Out)}
}

// Sink takes the sessions' records.
func (a *Audit) Sink() record.Sink { return a.inbox }

// None is an audit that is over: what ends before the first one counts as what ended since this one.
func None() *Audit {
	a := New(Config{Out: io.Discard})
	a.inbox.Close()
	return a
}

// After makes what ended between an audit that is over and this one count in this one.
func (a *Audit) After(before *Audit) {
	late := a.inbox.After(before.inbox)
	a.inbox.Adds(&late)
}

// Succeeds begins where the audit of another parent has ended: it returns what has ended since. What ends from now on
// counts in this one.
func (a *Audit) Succeeds(before *Audit) join.Totals { return a.inbox.After(before.inbox) }

// Earlier tells the parent what ended before its first audit: this while nothing was audited, and so many transactions in
// audits whose parents told nobody.
func (a *Audit) Earlier(unaudited join.Totals, untold uint64) {
	a.writer.Event(join.Earlier{At: time.Now(), Unaudited: unaudited, Untold: untold})
}

// Untold returns, once Run has returned, how many transactions the audit has counted since its parent stopped it, and
// whether the parent did. If not, these are all.
func (a *Audit) Untold() (n uint64, wasStopped bool) {
	a.lock.Lock()
	joiner := a.joiner
	a.lock.Unlock()
	if joiner == nil {
		return 0, false
	}
	return joiner.Untold()
}

// Late tells the parent of an audit that is over what has ended since, while no audit ran. It returns what it hadn't told
// before.
func (a *Audit) Late() (news join.Totals) {
	late := a.inbox.Late()
	news = late.Copied()
	a.lock.Lock()
	joiner := a.joiner
	a.late.Add(&late)
	late = a.late.Copied()
	a.lock.Unlock()
	var its join.Coverage
	if joiner != nil {
		its = joiner.Coverage()
	}
	its.Totals = its.Totals.Copied() // the joiner's own stay as they are: this may be told again
	its.Totals.Add(&late)
	its.At, its.Last = time.Now(), true
	feed.Write(a.config.Out, its)
	return news
}

// Drained tells the parent that no connection is left, and none will come.
func (a *Audit) Drained() { a.writer.Event(join.Drained{At: time.Now()}) }

// beginning limits how long the slot may take to begin: it waits for all open transactions.
const beginning = 2 * time.Minute

// ErrGone is the reason of an audit whose parent doesn't read any more.
var ErrGone = errors.New("the program that it reports to is gone")

// Run audits until ctx ends or the audit does. It tells the parent why, and returns the reason.
func (a *Audit) Run(ctx context.Context) error {
	panicked := true
	err := guard.Run("the audit", func() error {
		err := a.run(ctx)
		panicked = false
		return err
	})
	if panicked {
		a.inbox.Close()
		a.writer.Abandon(join.Ended{Reason: err.Error()})
	}
	return err
}

func (a *Audit) run(ctx context.Context) (err error) {
	ctx, cancel := context.WithCancel(ctx)
	defer cancel()
	a.lock.Lock()
	a.cancel = cancel
	if a.failed != nil { // it came before
		cancel()
	}
	a.lock.Unlock()
	written := make(chan struct{})
	go func() {
		defer close(written)
		if err := guard.Run("the feed", a.writer.Run); guard.IsFault(err) {
			a.End(err)
			a.writer.Abandon(join.Ended{Reason: err.Error()})
		} else if err != nil {
			a.End(ErrGone)
			cancel()
		}
	}()
	defer func() {
		a.writer.Close()
		<-written
		if failed := a.reason(); failed != nil {
			err = failed
		}
	}()
	var its *running
	err = guard.Run("the audit's beginning", func() (err error) {
		its, err = a.begin(ctx)
		return err
	})
	if failed := a.reason(); err != nil && failed != nil {
		err = failed
	}
	if err != nil {
		a.inbox.Close()
		a.writer.Event(join.Ended{Reason: err.Error(), Blocked: errors.Is(err, slot.ErrBlocked)})
		return err
	}
	defer its.close()
	return its.run(ctx)
}

// End ends the audit for this reason. It doesn't wait.
func (a *Audit) End(reason error) {
	a.lock.Lock()
	defer a.lock.Unlock()
	if a.failed == nil {
		a.failed = reason
	}
	switch {
	case a.joiner != nil:
		go a.joiner.End(reason)
	case a.cancel != nil:
		a.cancel()
	}
}

// WantsRestart reports whether the parent asked for another audit while this one ended. It must be called after Run, once
// Config.In has ended; then it waits for what was read of it.
func (a *Audit) WantsRestart() bool {
	a.reading.Wait()
	a.lock.Lock()
	defer a.lock.Unlock()
	return a.joiner != nil && a.joiner.WantsRestart()
}

// reason returns what End was given first, or nil.
func (a *Audit) reason() error {
	a.lock.Lock()
	defer a.lock.Unlock()
	return a.failed
}

// running is an audit that has begun.
type running struct {
	audit   *Audit
	control *slot.Control
	tables  *slot.Tables
	reader  *slot.Reader
	joiner  *join.Joiner
}

func (a *Audit) begin(ctx context.Context) (*running, error) {
	begin, cancel := context.WithTimeout(ctx, beginning)
	defer cancel()
	control, tables, err := slot.NewControl(begin, a.config.Slot)
	if err != nil {
		return nil, err
	}
	if a.config.Begins != nil {
		a.config.Begins(control.Sees)
	}
	its := &running{audit: a, control: control, tables: tables}
	opens := a.tellWaiting(begin, control)
	its.reader, err = slot.Open(begin, a.config.Slot, tables)
	opens()
	if err != nil {
		if errors.Is(err, slot.ErrBlocked) {
			err = fmt.Errorf("%w: %s", err, control.Open(ctx))
		}
		its.close()
		return nil, err
	}
	opened := time.Now()
	if err := control.Follow(begin, its.reader.Mark()); err != nil {
		its.close()
		return nil, err
	}
	why := control.Inspects(begin)
	if why == "" && its.reader.Plugin() != slot.Wal2json {
		why = "only wal2json tells where a commit's record is"
	}
	// The catalog has to be as new as the slot, so that no table created before it is reported as unknown.
	if err := control.Load(begin); err != nil {
		its.close()
		return nil, err
	}
	its.joiner = join.New(a.config.Join, a.inbox, tables, control, why == "", a.config.Meeter, a.writer)
	started, err := control.Started(begin)
	if err != nil {
		its.close()
		return nil, err
	}
	started.Asked, started.Opened = its.reader.Asked(), opened
	started.Slot, started.Plugin, started.Temporary = a.config.Slot.Name, string(its.reader.Plugin()), !a.config.Slot.Permanent
	started.Subtransactions = "pg_walinspect"
	if why != "" {
		started.Subtransactions = "returning"
		started.Warnings = append(started.Warnings, "subtransactions can't be looked up: "+why)
	}
	its.joiner.Start(started)
	return its, nil
}

func (r *running) close() {
	end, cancel := context.WithTimeout(context.Background(), time.Second)
	defer cancel()
	r.control.Close(end)
}

func (r *running) run(ctx context.Context) error {
	ctx, cancel := context.WithCancel(ctx)
	defer cancel()
	r.audit.lock.Lock()
	r.audit.joiner = r.joiner
	failed := r.audit.failed
	r.audit.lock.Unlock()
	if failed != nil { // it came while the audit began
		go r.joiner.End(failed)
	}
	guard.Go("the slot's reader", r.joiner.End, func() {
		if err := r.reader.Read(ctx, r.joiner); err != nil && ctx.Err() == nil {
			r.joiner.End(err)
		}
	})
	r.audit.reading.Add(1)
	guard.Go("the commands' reader", func(err error) {
		r.audit.reading.Done()
		r.joiner.End(err)
	}, func() {
		if err := feed.Read(r.audit.config.In, r.joiner); err != nil && ctx.Err() == nil {
			r.joiner.End(fmt.Errorf("read the parent's commands: %w", err))
		}
		r.audit.reading.Done()
	})
	guard.Go("the slot's watch", r.joiner.End, func() { r.watch(ctx) })
	return r.joiner.Run(ctx)
}

// watch monitors the slot, and counts what it contains about tables that can't be audited.
func (r *running) watch(ctx context.Context) {
	often, seldom := time.NewTicker(time.Second), time.NewTicker(10*time.Second)
	defer often.Stop()
	defer seldom.Stop()
	counted := map[[2]string]uint64{}
	for {
		select {
		case <-ctx.Done():
			return
		case <-often.C:
			guard.At("the tables left out")
			r.tables.LeftOut(func(table, reason string, n uint64) {
				its := [2]string{table, reason}
				if n > counted[its] {
					r.audit.inbox.UnseenMany("changes of "+table, reason, false, n-counted[its])
					counted[its] = n
				}
			})
		case <-seldom.C:
			if err := r.health(ctx); err != nil {
				r.joiner.End(err)
				return
			}
		}
	}
}

// health ends the audit before the slot makes the server keep too much of its log.
func (r *running) health(ctx context.Context) error {
	guard.At("the slot's health")
	asking, cancel := context.WithTimeout(ctx, 10*time.Second)
	defer cancel()
	health, err := r.control.Health(asking, r.audit.config.Slot.Name)
	switch {
	case err != nil:
		return nil // the joiner's own queries fail, too, and report it
	case health.Lost:
		return slot.ErrBehind
	case health.Kept > r.audit.config.Kept:
		return fmt.Errorf("%w: %d bytes are kept for it", slot.ErrBehind, health.Kept)
	case health.Kept > r.audit.config.Kept/2:
		r.joiner.Warn("the slot is far behind: the audit will end if the server has to keep twice as much WAL for it")
	}
	return nil
}
