package join

import (
	"sort"
	"sync"
	"time"

	"zanteyard/guard"
	"zanteyard/record"
)

// Inbox takes what a proxy's sessions report, and holds it until the joiner takes it out. It is bounded: whatever
// arrives when it is full is dropped, which folds it. Connections and moments aren't dropped, since they are few. Safe
// for use by many goroutines.
type Inbox struct {
	wake chan struct{} // it is half full, or a connection waits for a session
	now  func() time.Time

	lock   sync.Mutex
	its    []message
	bytes  int
	most   int
	stuck  bool // the server doesn't answer: nothing is taken out until it does
	closed bool
	late   Totals // of what ended since it was closed
	next   *Inbox // the one of the next audit, to which that goes
	told   bool   // somebody was told its totals
	spare  *spare // of the audit before, until it is closed
	// Between the two what arrives waits.
	ending  bool
	waiting []*record.Transaction
	lost    uint64
	gone    map[string]uint64 // by reason
	totals  Totals            // of transactions that never reach the joiner
	dropped int               // how many of those are among its
	unseen  map[unseenKey]*Unseen
	outside *Unseen // shapes beyond the limit
}

// message is one of these.
type message struct {
	connection  *record.Connection
	transaction *record.Transaction
	moment      *moment
	dropped     *record.Transaction // without anything that takes room: there was none for more
	why         string              // and why not
}

// mostDropped is how many transactions for which there is no room may wait to be counted.
const mostDropped = 1 << 16

// moment is a meeting's quiet moment.
type moment struct {
	number uint64 // of the meeting
	at     time.Time
	held   time.Duration // how long clients were held for it
}

type unseenKey struct{ shape, reason string }

// Unseen counts statements of one shape in which something was left out for one reason.
type Unseen struct {
	Shape, Reason string
	Reads         bool
	Count         uint64
	First         time.Time
}

// mostShapes limits the shapes that are counted separately.
const mostShapes = 500

// NewInbox makes an inbox that holds about this many bytes.
func NewInbox(bytes int) *Inbox {
	return &Inbox{wake: make(chan struct{}, 1), now: time.Now, most: bytes, unseen: map[unseenKey]*Unseen{}}
}

// Connection implements record.Sink.
func (b *Inbox) Connection(it record.Connection) {
	b.put(message{connection: &it}, 0)
}

// Transaction implements record.Sink.
func (b *Inbox) Transaction(it record.Transaction) {
	if it.Elsewhere {
		b.lock.Lock()
		defer b.lock.Unlock()
		if b.closed {
			b.countLate(&it)
			return
		}
		b.lose(otherServer, 1)
		b.totals.apart(&it, otherServer)
		b.totals.wrote(&it, it.Did.Written, otherServer)
		return
	}
	b.put(message{transaction: &it}, sizeOf(&it))
}

// Moment makes now the moment of a meeting: it comes after everything that was reported by now, and before what is
// reported later.
func (b *Inbox) Moment(number uint64, held time.Duration) {
	b.put(message{moment: &moment{number: number, held: held}}, 0)
}

func (b *Inbox) put(it message, bytes int) {
	begins := it.connection != nil && !it.connection.Ended // what it does before it has a session isn't checked
	if !b.add(it, bytes) && !begins {
		return // the joiner empties it at its next step, and would do nothing with it before
	}
	select {
	case b.wake <- struct{}{}:
	default:
	}
}

// add adds a message, and reports whether there is much to be taken out now.
func (b *Inbox) add(it message, bytes int) bool {
	b.lock.Lock()
	defer b.lock.Unlock()
	guard.At("a report")
	if it.moment != nil {
		it.moment.at = b.now() // what was put in before had ended by then
	}
	switch {
	case b.closed && it.transaction != nil:
		b.countLate(it.transaction)
	case b.closed:
	case bytes > 0 && b.bytes+bytes > b.most:
		b.drop(it.transaction)
	default:
		b.its = append(b.its, it)
		b.bytes += bytes
	}
	return b.bytes > b.most/2
}

// drop counts a transaction for which there is no room.
func (b *Inbox) drop(it *record.Transaction) {
	why := tooFast
	if b.stuck {
		why = unanswered
	}
	b.totals.apart(it, why)
	if it.Outcome == record.Aborted {
		return
	}
	if b.stuck {
		b.lose(why, 1)
	} else {
		b.lost++
	}
	if it.Number == 0 && !it.MayHaveWritten || b.dropped >= mostDropped {
		return
	}
	b.dropped++
	b.its = append(b.its, message{why: why, dropped: &record.Transaction{Connection: it.Connection, Began: it.Began, Ended: it.Ended,
		After: it.After, Known: it.Known, Number: it.Number, MayHaveWritten: it.MayHaveWritten, Defines: it.Defines,
		Did: record.Did{Written: it.Did.Written}}})
}

// sizeOf returns about how many bytes a transaction takes.
func sizeOf(it *record.Transaction) int {
	n := 256 + 48*(len(it.Reads)+len(it.Absent)) + 4*len(it.Versions) + textsOf(it.Statements) + len(it.Application)
	for _, one := range it.Reads {
		n += len(one.Key)
	}
	for i := range it.Asks {
		if n += 128; it.Asks[i].Condition != nil {
			n += it.Asks[i].Condition.Size()
		}
		for _, key := range it.Asks[i].Found {
			n += 16 + len(key)
		}
	}
	return n
}

// Unseen implements record.Sink.
func (b *Inbox) Unseen(shape, reason string, reads bool) { b.UnseenMany(shape, reason, reads, 1) }

// UnseenMany counts many at once.
func (b *Inbox) UnseenMany(shape, reason string, reads bool, n uint64) {
	b.lock.Lock()
	defer b.lock.Unlock()
	guard.At("a count")
	key := unseenKey{shape, reason}
	it := b.unseen[key]
	switch {
	case it != nil:
	case len(b.unseen) < mostShapes:
		it = &Unseen{Shape: shape, Reason: reason, Reads: reads, First: b.now()}
		b.unseen[key] = it
	case b.outside == nil:
		b.outside = &Unseen{Shape: "others", Reason: "more shapes than are counted separately", Reads: reads, First: b.now()}
		it = b.outside
	default:
		it = b.outside
	}
	it.Count += n
}

// otherServer is the reason for transactions of connections that didn't show that they are to the audited server.
const otherServer = "on a connection to another server than the audited one, or to a standby"

// Lose counts transactions that are never offered, by reason. After the audit's end they count in the next one, or among
// what ended since (Late).
func (b *Inbox) Lose(reason string, n uint64) {
	b.lock.Lock()
	defer b.lock.Unlock()
	if !b.closed {
		b.lose(reason, n)
		b.totals.lose(reason, n)
		return
	}
	b.sinceClosed(func(to *Totals) { to.lose(reason, n) })
}

func (b *Inbox) lose(reason string, n uint64) {
	if b.gone == nil {
		b.gone = map[string]uint64{}
	}
	b.gone[reason] += n
}

// wait says whether what is told now waits for the server's answer.
func (b *Inbox) wait(is bool) {
	b.lock.Lock()
	defer b.lock.Unlock()
	b.stuck = is
}

// take empties the inbox.
func (b *Inbox) take() (its []message, lost uint64) {
	b.lock.Lock()
	defer b.lock.Unlock()
	its, b.its, b.bytes, b.dropped = b.its, make([]message, 0, len(b.its)), 0, 0 // the next batch is likely to be about as large
	return its, b.lost
}

// Close ends the audit: of what is told from now on transactions are counted, and nothing else (Late). So are those that
// nobody took out.
func (b *Inbox) Close() { b.tellLate(b.close()) }

func (b *Inbox) tellLate(its []message) {
	b.lock.Lock()
	defer b.lock.Unlock()
	for _, one := range its {
		if one.transaction != nil {
			b.countLate(one.transaction)
		}
	}
}

// countLate counts a transaction that ended while no audit ran. Called with lock held.
func (b *Inbox) countLate(it *record.Transaction) {
	if b.ending {
		b.waiting = append(b.waiting, it)
		return
	}
	rows := b.spare.without(it)
	b.sinceClosed(func(to *Totals) {
		to.apart(it, noAudit)
		to.wrote(it, rows, noAudit)
	})
}

// spare are commits that the slot had reported by an audit's end, and of which no session had by then: their rows are
// counted. Safe for use by many goroutines.
type spare struct {
	lock  sync.Mutex
	until time.Time
	unclaimed
}

// unclaimed are such commits by number, and how many of their rows transactions without a number don't account for.
type unclaimed struct {
	numbers map[uint32]uint64 // with their rows, if a transaction without a number may have written them
	rows    uint64
}

// without returns how many rows a transaction wrote by its statements' own words, without those that are counted. One whose
// number isn't known may have made any of the commits, if it had begun by then.
func (s *spare) without(it *record.Transaction) uint64 {
	rows := it.Did.Written
	if s == nil || it.Outcome == record.Aborted {
		return rows
	}
	s.lock.Lock()
	defer s.lock.Unlock()
	if it.Number != 0 {
		if owed, is := s.claim(uint32(it.Number)); is {
			return owed
		}
		return rows
	}
	if began, _ := span(it); !began.Before(s.until) {
		return rows
	}
	taken := min(rows, s.rows)
	s.rows -= taken
	return rows - taken
}

// claimed records that somebody has reported a commit of this number, and returns how many rows are owed for it (claim).
func (s *spare) claimed(number uint32) (owed uint64) {
	if s == nil {
		return 0
	}
	s.lock.Lock()
	defer s.lock.Unlock()
	owed, _ = s.claim(number)
	return owed
}

// claim reports whether there is such a commit. If one without a number was taken for it, that one's rows aren't counted
// yet: as many are owed. Called with lock held.
func (s *spare) claim(number uint32) (owed uint64, is bool) {
	counted, is := s.numbers[number]
	delete(s.numbers, number)
	taken := min(counted, s.rows)
	s.rows -= taken
	return counted - taken, is
}

// left adds what nobody has told yet.
func (s *spare) left(its *unclaimed) {
	if s == nil {
		return
	}
	s.lock.Lock()
	defer s.lock.Unlock()
	its.rows += s.rows
	for number, rows := range s.numbers {
		its.put(number, rows)
	}
}

func (u *unclaimed) put(number uint32, rows uint64) {
	if u.numbers == nil {
		u.numbers = map[uint32]uint64{}
	}
	if len(u.numbers) < mostUnclaimed {
		u.numbers[number] = rows
	}
}

// keeps adds what an audit's end has left.
func (b *Inbox) keeps(its unclaimed) *spare {
	b.lock.Lock()
	defer b.lock.Unlock()
	return b.keep(its)
}

// keep is keeps. Called with lock held.
func (b *Inbox) keep(its unclaimed) *spare {
	b.spare.left(&its)
	b.spare = &spare{until: b.now(), unclaimed: its}
	return b.spare
}

// spares records what the last audit's end has left.
func (b *Inbox) spares(its unclaimed) {
	b.lock.Lock()
	defer b.lock.Unlock()
	b.keep(its)
	waiting := b.waiting
	b.ending, b.waiting = false, nil
	for _, it := range waiting {
		b.countLate(it)
	}
}

// end closes it, and returns what is in it; spares has to be called.
func (b *Inbox) end() []message {
	b.lock.Lock()
	defer b.lock.Unlock()
	b.ending = true
	return b.shut()
}

// ends counts what waits, if nobody has called spares after all.
func (b *Inbox) ends() {
	b.lock.Lock()
	waits := b.ending
	b.lock.Unlock()
	if waits {
		b.spares(unclaimed{})
	}
}

// sinceClosed counts something that was told since it was closed: in the next audit, if there is one. Called with lock
// held.
func (b *Inbox) sinceClosed(count func(*Totals)) {
	next := b.next
	if next == nil {
		count(&b.late)
		return
	}
	next.lock.Lock()
	defer next.lock.Unlock()
	if next.closed {
		next.sinceClosed(count)
		return
	}
	count(&next.totals)
}

// Late takes out what was counted since it was closed, and isn't in a next audit; and, if nobody was told of it, what was
// counted before, as of an audit that never began.
func (b *Inbox) Late() Totals {
	b.lock.Lock()
	defer b.lock.Unlock()
	return b.takeLate()
}

// takeLate is Late. Called with lock held.
func (b *Inbox) takeLate() Totals {
	late := b.late
	if b.late = (Totals{}); !b.told {
		late.add(&b.totals)
		b.totals, b.told = Totals{}, true
	}
	return late
}

// After makes an inbox that was closed count for this one, of the next audit, from now on, and takes out what was counted
// since it was closed (Late).
func (b *Inbox) After(closed *Inbox) Totals {
	closed.lock.Lock()
	defer closed.lock.Unlock()
	closed.next, b.spare = b, closed.spare
	return closed.takeLate()
}

// Adds counts what had ended before.
func (b *Inbox) Adds(late *Totals) {
	b.lock.Lock()
	defer b.lock.Unlock()
	b.totals.add(late)
}

// close closes it, and returns what is in it.
func (b *Inbox) close() []message {
	b.lock.Lock()
	defer b.lock.Unlock()
	return b.shut()
}

// shut is close. Called with lock held.
func (b *Inbox) shut() []message {
	its := b.its
	b.its, b.bytes, b.dropped, b.closed = nil, 0, 0, true
	return its
}

// counted returns what was counted for this audit: the shapes of what was left out, most frequent first, the losses by
// reason, how many transactions were dropped, and the totals of those that never reach the joiner. With `isLast` all counts
// start again, for the next audit.
func (b *Inbox) counted(isLast bool) (its []Unseen, gone map[string]uint64, lost uint64, totals Totals) {
	b.lock.Lock()
	its = make([]Unseen, 0, len(b.unseen)+1)
	for _, one := range b.unseen {
		its = append(its, *one)
	}
	if b.outside != nil {
		its = append(its, *b.outside)
	}
	gone, lost, totals, b.told = copyOf(b.gone), b.lost, b.totals.Copied(), true
	if isLast {
		b.unseen, b.outside, b.gone, b.lost, b.totals = map[unseenKey]*Unseen{}, nil, nil, 0, Totals{}
	}
	b.lock.Unlock()
	sort.Slice(its, func(i, j int) bool {
		if its[i].Count != its[j].Count {
			return its[i].Count > its[j].Count
		}
		return its[i].Shape+its[i].Reason < its[j].Shape+its[j].Reason
	})
	return its, gone, lost, totals
}
