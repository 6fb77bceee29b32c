package join

import (
	"fmt"
	"math/rand"
	"sort"
	"strings"
	"testing"
	"time"

	"zanteyard/condition"
	"zanteyard/record"
)

// store is a store of rows with two values, with PostgreSQL's snapshots and locks at read committed and repeatable
// read, whose clients ask by conditions. It keeps nothing more than PostgreSQL does, so many of its histories have no
// order. What its clients do is reported to a joiner late, in any order that can happen, and with parts left out.
type store struct {
	*bench
	r     *rand.Rand
	wrong string // what the joiner is made to believe, "" for the truth

	keys    []*storeKey
	parents []*storeKey // to which rows refer by y; nil if nothing is checked (store_parents_test.go)
	values  map[*condition.Row][2]int
	next    uint32 // number of a transaction
	conns   []*storeConn
	done    []*storeTxn // those that are committed, in the order of the log
	visible int         // how many commits others see
	hidden  []*storeTxn // in the log, and not yet seen by others
	ever    uint64

	log       []record.Commit // not yet reported by the slot
	delivered int
	untold    []record.Transaction // ended, and not yet reported
	replies   []func()
	asking    bool
	full      bool // the log has old values
	whole     bool // nothing is left out
	keeps     bool // what no order explains any more is aborted
	repeats   bool // all run at repeatable read
	aborted   int
	deferred  bool // what rows refer to is checked when transactions end
}

// storeKey is a key with all versions that its rows ever had, in the order of commits.
type storeKey struct {
	name     string
	versions []storeVersion
	lock     *storeTxn
	isParent bool
	shares   map[*storeTxn]bool // who has locked the parent
}

type storeVersion struct {
	by      *storeTxn // nil: there at first
	row     int       // which of the key's rows, from 0
	exists  bool
	values  [2]int
	visible int // the count of visible commits from which on it is seen
}

type storeConn struct {
	number, place uint64
	open          *storeTxn
	waits         bool      // its commit isn't visible yet
	sent          time.Time // when it sent a statement that hasn't run yet
	visible       int       // how many commits others saw then
}

type storeTxn struct {
	conn     *storeConn
	number   uint32
	level    record.Level
	began    time.Time
	ended    time.Time
	snapshot int // -1 before the first statement
	shows    string
	own      map[*storeKey]*storeVersion
	reads    []storeRead
	asks     []storeAsk
	voids    []storeAsk // those that were asked beside a row that wasn't there: they have read nothing
	wrote    bool
	at       int // its place in done
}

type storeRead struct {
	key     *storeKey
	version int // index
}

// storeAsk is what a statement saw of each key: the index of the version, -1 for none, and which of the key's rows the
// transaction itself had written, -1 for none: of that one it has read nothing. It may have inserted one whose
// predecessor it still sees.
type storeAsk struct {
	of     *fakeCondition
	writes bool // it changed what it found
	saw    []int
	own    []int
	found  []record.Key
	from   time.Time
	wrote  bool
	beside *storeRead // if it found nothing, it was asked beside a row that the transaction had read
}

// fakeCondition is x = c, y >= d, or both. A value below 0 is NULL, and one of 100 isn't known.
type fakeCondition struct {
	kind    string
	c, d    int
	values  map[*condition.Row][2]int
	unknown condition.Truth
	checked bool // it is asked beside the parents to which y refers
}

func (f *fakeCondition) Table() record.Relation { return 1 }
func (f *fakeCondition) Checked() bool          { return f.checked }
func (f *fakeCondition) String() string         { return f.Key() }
func (f *fakeCondition) Shape() string          { return f.kind }
func (f *fakeCondition) Size() int              { return 100 }

func (f *fakeCondition) Key() string {
	if f.checked {
		return fmt.Sprint("checked ", f.kind, f.c, f.d)
	}
	return fmt.Sprint(f.kind, f.c, f.d)
}

func (f *fakeCondition) Holds(row *condition.Row) condition.Truth {
	its, is := f.values[row]
	if !is {
		panic("an unknown row")
	}
	return f.of(its)
}

func (f *fakeCondition) of(its [2]int) condition.Truth {
	x, y := f.truth(its[0], its[0] == f.c), f.truth(its[1], its[1] >= f.d)
	if f.checked && its[1] < 0 {
		return condition.No
	}
	if f.checked && its[1] == 100 {
		if f.kind == "x" && x == condition.Yes {
			return f.unknown
		}
	}
	switch {
	case f.kind == "x":
		return x
	case f.kind == "y":
		return y
	case x == condition.No || y == condition.No:
		return condition.No
	case x == condition.Unknown || y == condition.Unknown:
		return f.unknown
	case x == condition.Null || y == condition.Null:
		return condition.Null
	}
	return condition.Yes
}

func (f *fakeCondition) truth(value int, is bool) condition.Truth {
	switch {
	case value == 100:
		return f.unknown
	case value < 0:
		return condition.Null
	case is:
		return condition.Yes
	}
	return condition.No
}

// holds is what is true: of a row that the store has.
func (f *fakeCondition) holds(v *storeVersion) bool {
	return v.exists && f.of(v.values) == condition.Yes
}

func newStore(t testing.TB, r *rand.Rand, wrong string, opt Options) *store {
	opt.Late, opt.Stale, opt.Sessions, opt.Idle = 60*time.Millisecond, 100*time.Millisecond, 6, time.Hour
	if opt.Rows == 0 {
		opt.Rows = 2 + r.Intn(6)
	}
	s := &store{bench: newBench(t, opt), r: r, wrong: wrong, values: map[*condition.Row][2]int{}, next: base, full: r.Intn(3) == 0,
		whole: r.Intn(2) == 0}
	if s.whole {
		s.core.opt.Late, s.core.opt.Rows, s.core.rows.most = time.Second, 1000, 1000
	}
	for i := 2 + r.Intn(3); i > 0; i-- {
		key := &storeKey{name: string(rune('a' + i))}
		first := storeVersion{exists: r.Intn(3) > 0, values: s.some()}
		if first.exists {
			key.versions = append(key.versions, first)
		}
		s.keys = append(s.keys, key)
	}
	if r.Intn(3) == 0 {
		s.addParents()
	}
	for i := 3 + r.Intn(2); i > 0; i-- {
		s.connectOne()
	}
	return s
}

// leaves reports whether one thing in n is left out.
func (s *store) leaves(n int) bool { return !s.whole && s.r.Intn(n) == 0 }

func (s *store) connectOne() {
	s.ever++
	s.conns = append(s.conns, &storeConn{number: s.ever})
	s.bench.connect(s.ever)
}

func (s *store) some() [2]int {
	its := [2]int{s.r.Intn(3), s.r.Intn(4)}
	if s.r.Intn(8) == 0 {
		its[s.r.Intn(2)] = -1
	}
	return its
}

func (s *store) condition() *fakeCondition {
	f := &fakeCondition{kind: []string{"x", "x", "y", "xy"}[s.r.Intn(4)], values: s.values}
	if f.kind != "y" {
		f.c = s.r.Intn(3)
	}
	if f.kind != "x" {
		f.d = s.r.Intn(4)
	}
	if s.wrong == unknownHolds {
		f.unknown = condition.Yes
	}
	return f
}

// seen returns the index of the version of a key that a snapshot shows, -1 for none.
func (k *storeKey) seen(snapshot int) int {
	for i := len(k.versions) - 1; i >= 0; i-- {
		if k.versions[i].visible <= snapshot {
			return i
		}
	}
	return -1
}

func (k *storeKey) at(i int) *storeVersion {
	if i < 0 {
		return &storeVersion{}
	}
	return &k.versions[i]
}

// text is the text of a snapshot that is taken now.
func (s *store) text() string {
	var running []string
	for _, c := range s.conns {
		if c.open != nil && c.open.number != 0 {
			running = append(running, fmt.Sprint(c.open.number))
		}
	}
	for _, t := range s.hidden {
		running = append(running, fmt.Sprint(t.number))
	}
	sort.Strings(running)
	return fmt.Sprintf("3:%d:%s", s.next+1, strings.Join(running, ","))
}

func (s *store) step() {
	s.later(time.Millisecond)
	c := s.conns[s.r.Intn(len(s.conns))]
	switch {
	case c.waits:
		if s.r.Intn(3) == 0 {
			s.see(s.hidden[0])
		}
	case c.open == nil:
		c.open = &storeTxn{conn: c, began: s.now, level: record.RepeatableRead, snapshot: -1, own: map[*storeKey]*storeVersion{}}
		if !s.repeats && s.r.Intn(2) == 0 {
			c.open.level = record.ReadCommitted
		}
	case s.r.Intn(8) == 0 && len(c.open.asks) > 0:
		s.end(c)
	case c.sent.IsZero():
		c.sent, c.visible = s.now, s.visible
	default:
		s.statement(c.open, c.sent)
		c.sent = time.Time{}
	}
	s.joins()
}

func (s *store) statement(t *storeTxn, from time.Time) {
	if t.snapshot < 0 || t.level == record.ReadCommitted {
		t.snapshot, t.shows = s.visible, s.text()
	}
	s.later(time.Microsecond)
	key := s.keys[s.r.Intn(len(s.keys))]
	if s.parents != nil && s.withParents(t, from) {
		return
	}
	switch s.r.Intn(6) {
	case 0, 1:
		s.ask(t, from)
		return
	case 2:
		s.change(t, from)
		return
	}
	if key.lock != nil && key.lock != t {
		return // it would wait
	}
	last := key.at(len(key.versions) - 1)
	shown := key.at(key.seen(t.snapshot))
	if own := t.own[key]; own != nil {
		last, shown = own, own
	}
	is := &storeVersion{by: t, row: last.row, exists: true, values: s.some()}
	switch s.r.Intn(3) {
	case 0: // an insertion
		if last.exists {
			return
		}
		is.row = s.rowsOf(key, t)
	case 1:
		is.exists = false
		fallthrough
	default:
		if !shown.exists || !last.exists {
			return
		}
		if t.level != record.ReadCommitted && last != shown {
			s.unlock(t)
			t.conn.open = nil
			return
		}
		if is.exists && s.r.Intn(2) == 0 {
			is.values[0] = last.values[0]
		}
	}
	if !s.mayRefer(t, last, is) {
		return
	}
	if t.number == 0 {
		s.next++
		t.number = s.next
	}
	t.wrote = true
	if own := t.own[key]; own != nil && is.row != own.row && own.exists {
		return
	}
	key.lock, t.own[key] = t, is
}

// rowsOf returns the number of the next row with a key. A row that a transaction deletes and inserts again is one.
func (s *store) rowsOf(key *storeKey, t *storeTxn) int {
	if own := t.own[key]; own != nil {
		return own.row
	}
	if len(key.versions) == 0 {
		return 0
	}
	return key.versions[len(key.versions)-1].row + 1
}

// ask asks by a condition.
func (s *store) ask(t *storeTxn, from time.Time) {
	it := storeAsk{of: s.condition(), from: from, wrote: t.wrote}
	if len(t.reads) > 0 && s.r.Intn(3) == 0 {
		it.beside = &t.reads[s.r.Intn(len(t.reads))]
		key := it.beside.key
		is := key.at(key.seen(t.snapshot)).exists
		if own := t.own[key]; own != nil {
			is = own.exists
		}
		if !is {
			t.voids = append(t.voids, it)
			return
		}
	}
	for _, key := range s.keys {
		i, own := key.seen(t.snapshot), t.own[key]
		it.saw, it.own = append(it.saw, i), append(it.own, -1)
		if own != nil {
			it.own[len(it.own)-1] = own.row
			if it.of.holds(own) {
				it.found = append(it.found, record.Key(key.name))
			}
			if i >= 0 && key.versions[i].row == own.row {
				continue
			}
		}
		if it.of.holds(key.at(i)) {
			it.found = append(it.found, record.Key(key.name))
			t.reads = append(t.reads, storeRead{key, i})
		}
	}
	t.asks = append(t.asks, it)
}

func (s *store) unlock(t *storeTxn) {
	for key := range t.own {
		key.lock = nil
	}
	for _, parent := range s.parents {
		delete(parent.shares, t)
	}
}

// end commits.
func (s *store) end(c *storeConn) {
	t := c.open
	if c.open = nil; !s.keepsReferences(t) {
		s.unlock(t)
		return
	}
	t.at = len(s.done)
	s.done = append(s.done, t)
	if s.keeps && !s.hasOrder() {
		s.done = s.done[:t.at]
		s.aborted++
		s.unlock(t)
		return
	}
	if len(t.own) == 0 {
		t.ended = s.now
		s.untold = append(s.untold, s.report(t))
		return
	}
	s.log = append(s.log, s.commitOf(t))
	s.hidden = append(s.hidden, t)
	c.waits = true
	if s.r.Intn(4) > 0 {
		s.see(t)
	}
}

// hasOrder reports whether an order explains everything that is committed, with what isn't visible yet.
func (s *store) hasOrder() bool {
	was := make([][]storeVersion, len(s.all()))
	for i, key := range s.all() {
		was[i] = key.versions
		for _, t := range append([]*storeTxn{s.done[len(s.done)-1]}, s.hidden...) {
			if v := t.own[key]; v != nil {
				key.versions = append(key.versions[:len(key.versions):len(key.versions)], *v)
			}
		}
	}
	is := hasOrder(s.arcs(true))
	for i, key := range s.all() {
		key.versions = was[i]
	}
	return is
}

// see lets others see a commit, and its client get the answer.
func (s *store) see(t *storeTxn) {
	s.visible++
	for key, v := range t.own {
		v.visible = s.visible
		key.versions = append(key.versions, *v)
	}
	for i, one := range s.hidden {
		if one == t {
			s.hidden = append(s.hidden[:i], s.hidden[i+1:]...)
		}
	}
	s.unlock(t)
	s.later(time.Microsecond)
	t.ended, t.conn.waits = s.now, false
	s.untold = append(s.untold, s.report(t))
}

// row returns what the slot's reader makes of a row's values.
func (s *store) row(values [2]int) *condition.Row {
	if s.leaves(10) || s.wrong == unknownHolds && s.r.Intn(3) == 0 {
		values[s.r.Intn(2)] = 100
	}
	row := condition.NewRow(nil)
	s.values[row] = values
	return row
}
