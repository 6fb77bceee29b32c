package join

import (
	"time"

	"zanteyard/record"
)

// Event is something that the feed reports. Package feed knows how each is written.
type Event interface{ event() }

// Started reports that the audit begins.
type Started struct {
	At               time.Time
	Limit, Sessions  int
	Database, Server string
	Slot, Plugin     string
	Temporary        bool
	Subtransactions  string
	Warnings         []string
	Asked, Opened    time.Time // when the slot was asked for, and when it had begun: what had ended by the first isn't in it
}

// Meeting reports a quiet moment, for which clients were held that long, and how many fences were written for it.
type Meeting struct {
	At     time.Time
	Fences int
	Took   time.Duration
}

// Checking reports that a round without a meeting follows, about everything that was reported by that time.
type Checking struct{ At time.Time }

// Warning reports something that people should know.
type Warning struct {
	At   time.Time
	Text string
}

// Behind reports that the auditor has fallen behind for good: another audit should begin.
type Behind struct {
	At     time.Time
	Reason string
}

// Ended reports that the audit has ended; traffic goes on. Blocked: it couldn't begin, because an earlier transaction
// is still open; once that has ended, the next audit can begin.
type Ended struct {
	Reason  string
	Blocked bool
}

// Restarted reports that a new audit begins with the next line.
type Restarted struct{ At time.Time }

// Stopped reports that the last round was written.
type Stopped struct{ At time.Time }

// Drained reports that the proxy has no connection left, accepts none, and waits for the parent alone.
type Drained struct{ At time.Time }

// Earlier reports what ended before the parent's first audit, of which no parent has told its outcome: while nothing was
// audited, and, how many transactions, in audits whose parents are gone.
type Earlier struct {
	At        time.Time
	Unaudited Totals
	Untold    uint64
}

// Coverage reports how much of what happened was offered, from the beginning of the audit.
type Coverage struct {
	At                                        time.Time
	Committed, Offered, Fences                uint64
	Aborted                                   uint64
	Bare                                      uint64            // commits without a row that no client made
	Partly                                    map[string]uint64 // of those offered: why they aren't checked in full
	Folded                                    map[string]uint64
	Reads, ReadsOffered, ReadsOwn             uint64
	ReadsBefore                               uint64 // of the reads that are offered: of versions from before the audit
	ReadsFolded                               uint64 // and of versions that aren't offered
	ReadsLeft                                 map[string]uint64
	Writes, WritesOffered                     uint64
	WritesLeft                                map[string]uint64
	Asks, AsksFollowed, Passed                uint64            // conditions that were asked by, and rows that they passed over
	AsksLeft                                  map[string]uint64 // conditions that aren't followed
	PassedLeft                                map[string]uint64 // rows that followed ones may have passed over
	AsksDropped                               uint64            // conditions that were forgotten to make room
	Unseen                                    []Unseen
	Connections, Audited, Waiting             int
	ConnectionsEver                           uint64
	ConnectionsRefused                        map[string]uint64 // by the proxy, and why
	LagBytes                                  uint64
	Lag                                       time.Duration
	Pending, Remaining, Rows                  int
	Rounds, StatementsDropped, Lost, SubsLost uint64
	Remotes                                   *Remotes // nil if no other proxies are expected
	Totals                                    Totals
	// Last means that nothing more is told of this audit: it is written in any case.
	Last bool
}

// Remotes reports the state of the proxies that feed the audit from other machines.
type Remotes struct {
	Proxies []Proxy
	Refused uint64 // messages that weren't signed with the audit's key
	Down    string // why Redis can't be reached, or "" if it can
}

// Proxy is one of them.
type Proxy struct {
	Name         string
	Feeds        bool // it is heard, and belongs to this audit
	Connections  int
	Transactions uint64        // number that has arrived
	Heard        time.Duration // how long ago something arrived from it
}

// Transactions answers a question about transactions.
type Transactions struct {
	At    time.Time
	ID    int64
	Given []Description
}

// Description is what is known about a transaction. If it is forgotten, only the first two fields are set.
type Description struct {
	Session, Number uint64
	Known           bool
	Fence           bool // nobody ran it
	Its             record.Transaction
	From            record.Connection
	Reads           []KeyRead
	Writes          []uint64
	Rows            []Row
	Dropped         int
}

// KeyRead is a read as it was offered.
type KeyRead struct {
	Key             uint64
	Initial         bool
	Session, Number uint64
	By              int // which of Its.Statements made it, counted from 1; 0 if unknown
}

// Row says in words which row a key stands for.
type Row struct {
	Key        uint64
	Table, Row string
	Columns    []string // the names of the key's columns, none if the table is gone
	// Condition: the key is of a register, and says whether this holds of the row. Row is "" if no row has it yet.
	Condition string
}

func (Started) event()      {}
func (Meeting) event()      {}
func (Warning) event()      {}
func (Behind) event()       {}
func (Checking) event()     {}
func (Ended) event()        {}
func (Restarted) event()    {}
func (Stopped) event()      {}
func (Drained) event()      {}
func (Earlier) event()      {}
func (Coverage) event()     {}
func (Transactions) event() {}

// coverageEvent returns the state of the audit. The last one before another audit also resets the counts of the inbox.
func (j *Joiner) coverageEvent(isLast bool) Coverage {
	c := j.core
	n := &c.counts
	unseen, gone, lost, totals := j.inbox.counted(isLast)
	n.lost = lost
	totals.add(&n.totals)
	totals.Bypassed += n.bypassed()
	it := Coverage{
		Totals: totals,
		At:     time.Now(), Committed: n.committed, Offered: n.offered, Fences: n.fences, Aborted: n.aborted, Bare: n.bare,
		Partly: copyOf(n.partly), Folded: copyOf(n.folded), Reads: n.reads, ReadsOffered: n.readsOffered, ReadsOwn: n.own, ReadsBefore: n.before,
		ReadsFolded: n.readsFolded,
		ReadsLeft:   copyOf(n.leftReads),
		Writes:      n.writes, WritesOffered: n.writesOffered, WritesLeft: copyOf(n.leftWrites),
		Asks: n.asks, AsksFollowed: n.asksFollowed, Passed: n.passed, AsksLeft: copyOf(n.leftAsks),
		PassedLeft:  copyOf(n.leftPassed),
		AsksDropped: c.questions.dropped,
		Unseen:      unseen, Connections: len(c.connections), ConnectionsEver: n.ever, ConnectionsRefused: copyOf(n.refused),
		Lag: c.lag(), Rows: len(c.rows.by), Rounds: n.rounds, StatementsDropped: n.dropped, Lost: n.lost, SubsLost: n.unread,
		Remaining: c.remain,
	}
	if n.lost > 0 {
		it.Folded[tooFast] = n.lost
	}
	for reason, n := range gone {
		it.Folded[reason] = n
	}
	if remotes, is := j.meeter.(interface{ Remotes() Remotes }); is {
		its := remotes.Remotes()
		it.Remotes = &its
	}
	it.Waiting = len(c.queue)
	for _, s := range c.sessions {
		it.Pending += len(s.waiting)
		if s.tenant != nil {
			it.Audited++
		}
	}
	if len(c.asked) > 0 {
		it.LagBytes = c.asked[len(c.asked)-1].place - c.progress
	}
	return it
}

func copyOf(its map[string]uint64) map[string]uint64 {
	to := make(map[string]uint64, len(its))
	for k, v := range its {
		to[k] = v
	}
	return to
}

// describe returns what is known about transactions.
func (j *Joiner) describe(ids [][2]uint64) []Description {
	its := make([]Description, len(ids))
	for i, id := range ids {
		its[i] = Description{Session: id[0], Number: id[1]}
		if id[0] >= uint64(len(j.core.sessions)) {
			continue
		}
		s := j.core.sessions[id[0]]
		if id[1] < s.mark || id[1]-s.mark >= uint64(len(s.kept)) {
			continue
		}
		j.core.describe(s.kept[id[1]-s.mark], &its[i])
	}
	return its
}

func (c *core) describe(one *told, to *Description) {
	to.Known, to.Fence, to.Its, to.From, to.Dropped = true, one.fence, one.its, one.from, one.dropped
	seen := map[uint64]bool{0: true}
	words := func(r *row) {
		if seen[r.number] {
			return
		}
		seen[r.number] = true
		to.Rows = append(to.Rows, c.words(r))
	}
	for _, it := range one.reads {
		read := KeyRead{Key: it.row.number, Initial: it.from == initial, By: madeBy(one.its.Statements, int(it.at))}
		if !read.Initial {
			read.Session, read.Number = uint64(it.from.session()), it.from.number()
		}
		to.Reads = append(to.Reads, read)
		words(it.row)
	}
	for _, it := range one.writes {
		to.Writes = append(to.Writes, it.number)
		words(it)
	}
}

// words says which row of which table a key stands for.
func (c *core) words(r *row) Row {
	it := Row{Key: r.number}
	switch {
	case r.as == nil:
		it.Table, it.Row, it.Columns = c.tables.Words(r.id.relation, r.id.key)
		return it
	case r.as.on != nil:
		it.Table, it.Row, it.Columns = c.tables.Words(r.as.on.id.relation, r.as.on.id.key)
	default:
		it.Table, _, it.Columns = c.tables.Words(r.as.of.relation, "")
	}
	if it.Condition = r.as.of.its.String(); c.opt.Shapes {
		it.Condition = r.as.of.its.Shape()
	}
	return it
}

// madeBy returns the statement, counted from 1, that made this read (source.at), or 0 if none is known to have made it.
func madeBy(statements []record.Statement, at int) int {
	for i, one := range statements {
		if one.From < at && at <= one.To || at < 0 && one.Absent == -at || at >= int(askAt) && one.Ask == at-int(askAt)+1 {
			return i + 1
		}
	}
	return 0
}
