package join

import (
	"fmt"
	"math/rand"
	"testing"
	"time"

	"zanteyard/record"
)

// world is a store of rows and versions with PostgreSQL's snapshots, at read committed and repeatable read, and what a
// proxy's connections do to it. It commits a transaction only if some serial order still explains everything that was
// committed, with each connection's own order kept, but no other: orders in time aren't kept.
type world struct {
	*bench
	r    *rand.Rand
	next uint32 // number of a transaction
	ever uint64

	versions map[string][]worldVersion
	locks    map[string]*worldTxn
	ids      int // of committed transactions, in the order of their records in the log
	commits  int // how many others see
	unseen   []unseenCommit
	cuts     int
	after    map[int]map[int]bool // for each begin and commit, those that must come later
	readers  map[string]map[int][]int
	live     []*worldConn
	most     int      // connections at a time
	untold   []func() // what sessions have seen and not yet reported to the joiner
	fault    fault
	delayed  map[*session][]func() // if the fault is wrongOrder: their fences of the last moment come after those of the next
	snapshot bool                  // the store keeps snapshot isolation, and no more
	loose    bool                  // it keeps nothing: it commits everything, and returns older versions at times
	slot     []func()              // then: commits that the slot has yet to report
	aborted  int
	held     uint64 // times that what a cursor WITH HOLD had returned after its transaction was offered
	// elsewhere: connections with an even number are those of another machine's proxy (elsewhere_test.go).
	elsewhere bool
	far       uint64 // transactions from there that were offered
}

// fault is what a joiner made wrong on purpose does.
type fault string

const (
	byTheClock = "sessions are handed on by the clock alone"
	spanning   = "transactions that span a moment are offered"
	late       = "what is reported after a moment's fences is offered although it had ended before"
	early      = "a moment is noted before all answers from before it came"
	wrongOrder = "a fence of a moment is written after the fences of the next one"
	trusting   = "another machine's clock is trusted"
	hasty      = "a transaction has ended when its commit is in the log"
	fetched    = "what a cursor WITH HOLD returns is offered where it is fetched"
	disordered = "what cursors WITH HOLD return is offered in another order than that of their transactions"
)

type worldVersion struct{ by, at int } // the writer, and its place in the order in which others see commits

// unseenCommit is in the log, and nobody sees it yet.
type unseenCommit struct {
	its *worldTxn
	id  int
}

type worldConn struct {
	number, place uint64
	last          int // its last committed transaction, 0 for none
	open          *worldTxn
	held          bool
	holding       []record.Transaction // what its cursors WITH HOLD have yet to return, in the order of their transactions
}

type worldTxn struct {
	conn     *worldConn
	began    time.Time
	level    record.Level
	snapshot int // commits that it sees; -1 before the first statement
	number   uint32
	reads    map[string]map[int]bool // versions
	writes   map[string]bool
}

func newWorld(t testing.TB, seed int64, wrong fault) *world {
	w := &world{
		bench: newBench(t, Options{Sessions: 6, First: 6 - 4*int(seed%2), Limit: 900, Late: time.Second, Stale: time.Hour, Idle: 40 * time.Millisecond}),
		r:     rand.New(rand.NewSource(seed)), next: base, fault: wrong,
		versions: map[string][]worldVersion{}, locks: map[string]*worldTxn{}, after: map[int]map[int]bool{},
		readers: map[string]map[int][]int{},
	}
	for i := 0; i < 5; i++ {
		w.versions[string(rune('a'+i))] = []worldVersion{{0, 0}}
	}
	return w
}

func (w *world) tick() { w.later(time.Millisecond) }

func (w *world) key() string { return string(rune('a' + w.r.Intn(len(w.versions)))) }

// step does one thing of a client's.
func (w *world) step() {
	w.tick()
	if w.r.Intn(4) > 0 {
		w.tellAll()
	}
	if len(w.live) < 2 || len(w.live) < w.most && w.r.Intn(6) == 0 {
		w.ever++
		w.live = append(w.live, &worldConn{number: w.ever})
		w.later2(func(number uint64) func() { return func() { w.bench.connect(number) } }(w.ever))
		return
	}
	c := w.live[w.r.Intn(len(w.live))]
	switch {
	case len(c.holding) > 0 && w.r.Intn(3) == 0:
		w.fetch(c)
	case c.held && c.open == nil:
	case c.open == nil && (w.r.Intn(8) == 0 || len(w.live) > w.most):
		w.leave(c)
	case c.open == nil:
		c.open = &worldTxn{conn: c, began: w.now, level: record.RepeatableRead, snapshot: -1, reads: map[string]map[int]bool{},
			writes: map[string]bool{}}
		if w.r.Intn(3) == 0 {
			c.open.level = record.ReadCommitted
		}
	case w.r.Intn(5) == 0:
		w.end(c)
	default:
		w.statement(c.open)
	}
	if w.fault == byTheClock {
		w.quiet()
	}
	if w.r.Intn(40) == 0 {
		w.seeAll()
	}
	if w.r.Intn(5) == 0 {
		w.deliver()
		w.pass()
	}
}

// later2 queues a report to the joiner, in the order of the reports.
func (w *world) later2(f func()) { w.untold = append(w.untold, f) }

func (w *world) tellAll() {
	its := w.untold
	w.untold = nil
	for _, f := range its {
		f()
	}
}

func (w *world) leave(c *worldConn) {
	for i, one := range w.live {
		if one == c {
			w.live = append(w.live[:i], w.live[i+1:]...)
		}
	}
	w.later2(func() { w.core.enter(record.Connection{Number: c.number, Ended: true}) })
}

func (w *world) statement(t *worldTxn) {
	if t.snapshot < 0 || t.level == record.ReadCommitted {
		t.snapshot = w.commits
	}
	key := w.key()
	its := w.versions[key]
	if w.r.Intn(2) == 0 {
		if t.writes[key] {
			return
		}
		i := len(its) - 1
		for its[i].at > t.snapshot {
			i--
		}
		if w.loose && w.r.Intn(6) == 0 {
			i = w.r.Intn(i + 1)
		}
		if t.reads[key] == nil {
			t.reads[key] = map[int]bool{}
		}
		t.reads[key][i] = true
		return
	}
	switch by := w.locks[key]; {
	case by != nil && by != t:
	case t.level == record.RepeatableRead && its[len(its)-1].at > t.snapshot:
	default:
		t.writes[key], w.locks[key] = true, t
	}
}

// reaches reports whether one committed transaction has to precede another.
func (w *world) reaches(from int, to map[int]bool, seen map[int]bool) bool {
	if to[from] {
		return true
	}
	if seen[from] {
		return false
	}
	seen[from] = true
	for next := range w.after[from] {
		if w.reaches(next, to, seen) {
			return true
		}
	}
	return false
}

// begin and commit2 return what stands for a transaction in after: the same, unless the store keeps only snapshots.
func (w *world) begin(id int) int { return 2 * id }
func (w *world) commit2(id int) int {
	if w.snapshot {
		return 2*id + 1
	}
	return 2 * id
}

// around returns the events that have to come before this transaction begins, and those that have to come after that.
func (w *world) around(t *worldTxn) (before, behind map[int]bool) {
	before, behind = map[int]bool{}, map[int]bool{}
	committed := func(id int) {
		if id > 0 {
			before[w.commit2(id)] = true
		}
	}
	committed(t.conn.last)
	for key, versions := range t.reads {
		for i := range versions {
			committed(w.versions[key][i].by)
			if i+1 < len(w.versions[key]) {
				behind[w.commit2(w.versions[key][i+1].by)] = true
			} else if id := w.overwrites(key); id > 0 {
				behind[w.commit2(id)] = true
			}
		}
	}
	for key := range t.writes {
		committed(w.versions[key][len(w.versions[key])-1].by)
	}
	if !w.snapshot {
		for one := range w.overwritten(t) {
			before[one] = true
		}
	}
	return before, behind
}

// overwritten returns the begins of those that have read what the transaction overwrites: its commit comes after them.
func (w *world) overwritten(t *worldTxn) map[int]bool {
	its := map[int]bool{}
	for key := range t.writes {
		for _, reader := range w.readers[key][len(w.versions[key])-1] {
			its[w.begin(reader)] = true
		}
	}
	return its
}

// end commits the transaction, if an order still explains everything.
func (w *world) end(c *worldConn) {
	t := c.open
	c.open = nil
	before, behind := w.around(t)
	seen := map[int]bool{}
	for next := range behind {
		if !w.loose && w.reaches(next, before, seen) {
			w.unlock(t)
			w.aborted++
			return
		}
	}
	it := record.Transaction{Began: t.began, Level: t.level}
	for key, versions := range t.reads {
		for i := range versions {
			one := read(key, 7)
			if i > 0 {
				one.Version = uint32(base + w.versions[key][i].by)
			}
			it.Reads = append(it.Reads, one)
		}
	}
	w.committed(t, &it, before, behind)
	its := unseenCommit{t, w.ids}
	if w.r.Intn(30) > 0 {
		w.see(its)
		holds := record.Transaction{Held: true, Uncounted: true, Began: it.Began, Level: it.Level}
		if n := len(it.Reads); n > 0 && len(t.writes) == 0 && w.r.Intn(2) == 0 {
			n = w.r.Intn(n)
			it.Reads, holds.Reads = it.Reads[:n:n], it.Reads[n:]
		}
		w.told(c, it)
		if holds.Ended = w.now; len(holds.Reads) > 0 {
			c.holding = append(c.holding, holds)
		}
		return
	}
	it.Outcome = record.Unclear
	w.told(c, it)
	w.leave(c)
	w.unseen = append(w.unseen, its)
	w.shown()
}

// fetch returns some of what a cursor WITH HOLD has read, whose transaction has ended.
func (w *world) fetch(c *worldConn) {
	at := 0
	if w.fault == disordered {
		at = w.r.Intn(len(c.holding))
	}
	it := &c.holding[at]
	some := *it
	n := 1 + w.r.Intn(len(it.Reads))
	some.Reads, it.Reads = it.Reads[:n:n], it.Reads[n:]
	if len(it.Reads) == 0 {
		c.holding = append(c.holding[:at], c.holding[at+1:]...)
	}
	if w.fault == fetched {
		some.Held, some.Began = false, w.now
		w.tick()
		some.Ended = w.now
	}
	w.report(c, some)
}

func (w *world) unlock(t *worldTxn) {
	for key := range t.writes {
		delete(w.locks, key)
	}
}

// overwrites returns who overwrites a row, and isn't seen yet; 0 for nobody.
func (w *world) overwrites(key string) int {
	for _, one := range w.unseen {
		if one.its.writes[key] {
			return one.id
		}
	}
	return 0
}

// see lets others see a commit.
func (w *world) see(it unseenCommit) {
	w.commits++
	for key := range it.its.writes {
		w.versions[key] = append(w.versions[key], worldVersion{it.id, w.commits})
	}
	w.unlock(it.its)
}

// seeAll lets others see all commits.
func (w *world) seeAll() {
	for _, one := range w.unseen {
		w.see(one)
	}
	w.unseen = nil
	w.shown()
}

// shown makes the server's snapshots show what others see.
func (w *world) shown() {
	w.shows = "3:2000000000:"
	for i, one := range w.unseen {
		if w.fault == hasty {
			return
		}
		if i > 0 {
			w.shows += ","
		}
		w.shows += fmt.Sprint(base + one.id)
	}
}

// committed puts the transaction's commit into the log. Its number is derived from its place there.
func (w *world) committed(t *worldTxn, it *record.Transaction, before, behind map[int]bool) {
	w.ids++
	id := w.ids
	begin, commit := w.begin(id), w.commit2(id)
	overwritten := w.overwritten(t)
	for one := range before {
		w.after[one][begin] = true
	}
	w.after[begin] = behind
	if w.snapshot {
		behind[commit] = true
		w.after[commit] = map[int]bool{}
		for one := range overwritten {
			w.after[one][commit] = true
		}
	}
	t.conn.last = id
	for key, versions := range t.reads {
		for i := range versions {
			if w.readers[key] == nil {
				w.readers[key] = map[int][]int{}
			}
			w.readers[key][i] = append(w.readers[key][i], id)
		}
	}
	if len(t.writes) == 0 {
		return
	}
	it.Number = uint64(base + id)
	var keys []string
	for key := range t.writes {
		keys = append(keys, key)
	}
	number := uint32(it.Number)
	w.slot = append(w.slot, func() { w.bench.commit(number, keys...) })
	if !w.loose {
		w.deliver()
	}
}

// deliver makes the slot report what is in the log.
func (w *world) deliver() {
	for _, f := range w.slot {
		f()
	}
	w.slot = nil
}

func (w *world) told(c *worldConn, it record.Transaction) {
	w.tick()
	it.Ended = w.now
	w.report(c, it)
}

// report has a connection's session report a transaction.
func (w *world) report(c *worldConn, it record.Transaction) {
	it.Connection, it.Place = c.number, c.place
	c.place++
	if w.elsewhere && c.number%2 == 0 {
		w.tellFar(it)
		return
	}
	tell := func() { w.tell(it) }
	if conn := w.core.connections[c.number]; conn != nil && w.delayed[conn.session] != nil {
		w.delayed[conn.session] = append(w.delayed[conn.session], tell)
		return
	}
	w.later2(tell)
}

// tell reports a transaction to the joiner, which may be made wrong on purpose.
func (w *world) tell(it record.Transaction) {
	conn := w.core.connections[it.Connection]
	if it.Held {
		before := w.named()
		defer func() { w.held += w.named() - before }()
	}
	switch {
	case w.fault == byTheClock, w.fault == spanning:
		it.Began = it.Ended
	case w.fault == late && conn != nil && conn.session != nil && it.Ended.Before(conn.session.fence):
		s := conn.session
		moment := s.fence
		s.fence = time.Time{}
		w.core.tell(it)
		s.fence = moment
		return
	}
	w.core.tell(it)
}

// live1 lets the proxy live, and its sessions meet some times.
func (w *world) live1(meetings int) {
	for ; meetings > 0; meetings-- {
		w.most = 2 + w.r.Intn(8)
		for n := 0; n < 150; n++ {
			w.step()
			switch w.r.Intn(120) {
			case 0, 1:
				w.quiet()
			case 2:
				w.core.reseat()
			}
		}
		w.meet()
	}
	w.seeAll()
	w.tellAll()
	w.bench.settle()
	w.bench.settle()
	w.core.flush()
}
