// Package record has what the parts of the proxy report to each other about transactions: the sessions, which see what
// clients read; the replication slot, which sees what was committed; and the joiner, which makes the auditor's lines
// from both.
package record

import "time"

// Level is the isolation level that a transaction ran at.
type Level uint8

// The levels of PostgreSQL (read uncommitted runs as read committed). UnknownLevel is one that the proxy didn't learn.
const (
	UnknownLevel Level = iota
	ReadCommitted
	RepeatableRead
	Serializable
)

// Outcome is how a transaction ended, as far as the connection shows.
type Outcome uint8

// If a connection is lost between COMMIT and its answer, the outcome is Unclear: the slot decides.
const (
	Committed Outcome = iota
	Aborted
	Unclear
)

// Relation names a table or a partition by its object identifier in the database's catalog.
type Relation uint32

// NoRelation stands for a table that isn't known.
const NoRelation Relation = 0

// Key is a row's primary key as one canonical text: each column's value in the form that keys.Canonical returns for its
// type, with NUL bytes between columns. Two keys are of the same row exactly if their texts are equal.
type Key string

// Read is one version of a row that was returned to a client.
type Read struct {
	Relation Relation // the row's tableoid: of the leaf partition, if the table is partitioned
	Key      Key
	Version  uint32   // the row's xmin: 32 bits of the number of the transaction or subtransaction that wrote it
	Identity Identity // of the key, as it was taken for
}

// Identity says what the values of a table's key mean: two are equal only if the key's index, its columns, their types
// and the labels of enumerations are the same, and none of them has changed in between.
type Identity uint64

// Absence is a whole primary key that a statement asked for and didn't find, in the transaction's snapshot.
type Absence struct {
	Relation Relation // the table that the statement names
	Key      Key
	Identity Identity
	// Wrote means that the transaction may have written before it, and Undone that ROLLBACK TO may have undone that since:
	// then the log doesn't show what the statement saw.
	Wrote, Undone bool
}

// Condition is what a statement asked a table for, with its constants. Package condition makes it.
type Condition interface {
	Table() Relation // the table that the statement names
	Key() string     // equal for the same table and the same condition, and for no others
	String() string  // in the application's words
	Shape() string   // the same without constants
	Size() int       // about how many bytes it takes
}

// Row has the values of a row's columns: a *condition.Row, or nil if they aren't known.
type Row interface{}

// Ask is a condition by which a statement asked for rows of a table. It got each row of which the condition holds in
// its snapshot, and passed the others over.
type Ask struct {
	Condition Condition
	Identity  Identity  // of the table's key
	Columns   Identity  // of its columns
	Found     []Key     // the rows that it got, unless it wrote them
	From      time.Time // at read committed: its snapshot is no older than this
	Wrote     bool      // the transaction may have written by then
	Writes    bool      // it is an UPDATE or DELETE: it wrote each row that it got
	Why       string    // why it isn't followed: then the rest is empty. "" if it is
	Given     []Read    // rows of other tables that earlier statements got, and that it found: if these were still there
	Relies    []Columns // on what other tables' columns are called
}

// Columns are those of a table.
type Columns struct {
	Relation Relation
	Identity Identity
}

// Statement is one statement of a transaction, for readers of an explanation.
type Statement struct {
	Text       string
	Parameters []string // as text, if the policy allows them, otherwise nil
	More       int      // how many further parameters it had: only the first ones are kept
	At         time.Time
	Unseen     []Unseen // what the proxy couldn't see of it
	// From and To delimit those of the transaction's Reads that it made, except reads that an earlier statement made too.
	From, To int
	Absent   int // which of the transaction's Absent it asked for, counted from 1; 0 for none
	Ask      int // and which of its Asks
}

// Unseen counts reads or writes that were left out: by shape of statement, with a reason in a few words.
type Unseen struct {
	Shape  string
	Reason string
	Writes bool // writes are left out, not reads
}

// Transaction is what the proxy saw of one transaction of one connection, reported once it has ended.
type Transaction struct {
	Connection uint64 // counted from 1 in the life of a proxy, never reused
	Place      uint64 // of the transaction in its connection, counted from 0 without gaps
	Began      time.Time
	Ended      time.Time
	Level      Level
	Outcome    Outcome
	// Number is the 64-bit number of the transaction, or 0 if it has none or it wasn't learned.
	Number uint64
	// MayHaveWritten means that it may have written although Number is 0: its writes appear in the slot as somebody's, and
	// are folded.
	MayHaveWritten bool
	// Unnumbered is why the number isn't known of one that may have written.
	Unnumbered string
	// Versions are the xmins of rows that the transaction wrote, as RETURNING reported them: its own number and those of
	// its subtransactions. Those that a rollback to a savepoint undid needn't be left out.
	Versions []uint32
	// Snapshot is the text of pg_current_snapshot() at its end, or "" if it wasn't asked for. At repeatable read and
	// serializable it is the snapshot of all its statements.
	Snapshot string
	Reads    []Read // in the order of the answers, each once
	Absent   []Absence
	Asks     []Ask
	// Beyond is how many reads were dropped because there were more than the limit.
	Beyond int
	// Touched means that a statement of it may have read or written a table, and Partly that something of it wasn't seen.
	Touched, Partly bool
	// Defines means that it has a definition, whose commit may have no row.
	Defines bool
	// OnlyRead means that its client rolled it back although none of its statements had failed, that it had written nothing,
	// and that it ran at a level below serializable: what it read is as good as if it had been committed.
	OnlyRead bool
	// Held means that a cursor WITH HOLD has returned these reads, and nothing else was done: they were made in the snapshot of
	// an earlier transaction of the connection, which wrote nothing, and Began, Ended and Level are that one's. What the
	// connection has done since isn't in front of them. Of a connection such transactions come in the order of those.
	// Uncounted means that it is a part of a transaction that is counted by itself.
	Held, Uncounted bool
	// After and Known bound when a transaction of another machine's proxy ran, by the joiner's clock: it began after the
	// first (the zero time if that isn't known), and had ended by the second. Known is zero for the joiner's own proxy,
	// whose clock is the joiner's.
	After, Known time.Time
	// Unsent is how many reads another machine's proxy left out because the connection isn't audited: nothing of the
	// transaction is offered.
	Unsent     int
	Did        Did
	Statements []Statement
	Dropped    int // how many further statements it had: their texts would have taken too much room
	// Application is the connection's application_name, as the server had reported it last when the transaction ended. It
	// may differ from the connection's first one. "" if the server reported none.
	Application string
	// Elsewhere means that the connection didn't show that it is to the audited server: nothing else is told.
	Elsewhere bool
	// Unaudited means that no audit ran when it ended, or that the connection had not shown yet that it is to the server of
	// the audit that ran: nothing else is told but its number, if it is known.
	Unaudited bool
}

// Connection is reported when a connection begins, and again, with Ended set, when it ends. Its last transaction was
// reported before.
type Connection struct {
	Number          uint64
	ApplicationName string
	Address         string // of the client
	User, Database  string
	Proxy           string // its name, if it is on another machine
	Ended           bool
	Refused         string // why the proxy didn't serve it, of one that never began
}

// Write is a row that a committed transaction wrote, by its key.
type Write struct {
	Relation Relation
	Key      Key
	Deleted  bool // the row is absent afterwards
	Inserted bool // it was absent when the transaction first wrote it
	Moved    bool // another row's key was changed into this one
	New, Old Row  // the row afterwards and before, as far as the log has them
	Bytes    int  // about how many bytes New takes
}

// Commit is a committed transaction, as the replication slot reports it, in commit order.
type Commit struct {
	Number  uint32 // 32 bits, as the slot reports it
	LSN     uint64 // of the commit record's end
	Start   uint64 // of the commit record's beginning, 0 if the slot doesn't report it
	At      time.Time
	Subs    []uint32   // its subtransactions, if they could be learned
	Writes  []Write    // each row once; the first change decides Inserted, the last one Deleted
	Emptied []Relation // tables that it truncated
	Names   uint64     // how often tables' names had changed their meaning when it was read
	Bare    bool       // the slot reported no row in it, not even of a table without a key
	Used    uint64     // how many tables had been reported when it was read
	Dropped uint64     // how many rows beyond those in Writes it wrote: more than are kept of one transaction
	Keyless uint64     // how many changes of rows whose key isn't known, as in a table without one, or that isn't audited
	// Gaps are the audited tables in which it changed rows that aren't in Writes; NoRelation stands for any table.
	Gaps []Relation
}

// Sink takes what the sessions of a proxy report. Its calls wait no longer than it takes to append to a buffer: if a
// buffer is full, the sink drops transactions and counts them, which leaves them out of the audit as if somebody other
// than the proxy had made them; an application is never delayed. Safe for use by many goroutines.
type Sink interface {
	Connection(Connection)
	Transaction(Transaction)
	// Unseen counts what was left out, including that of transactions that are never reported.
	Unseen(shape, reason string, reads bool)
}
