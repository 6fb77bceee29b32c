// Package join makes the auditor's transactions from what the sessions of a proxy saw and what a replication slot
// reports.
//
// Reads come from the sessions, with the version of each row that was returned; writes and the order of each row's
// versions come from the slot. The argument why the package makes up no violation is in docs/FOLDING.md; each place
// that the argument needs is marked. In short: whatever isn't known is left out, and leaving out is always right if the
// reader of a version that is left out is offered as a reader of the last offered version before it ("folding",
// versions.go).
package join

import (
	"time"

	"zanteyard/record"
)

// Options are the limits of an audit. Zero values stand for the defaults.
type Options struct {
	Sessions int           // of the auditor, at most: 1 to 256
	First    int           // how many of them an audit begins with; the others join when connections need them
	Limit    int           // how many transactions may remain at a time: at most 1,048,576, with Snapshot half of that
	Bytes    int           // about how many bytes these may take
	Between  time.Duration // the time between two rounds, and the least one between two meetings unless sessions or room are short
	Within   time.Duration // the longest time between two meetings, if anything was offered
	Behind   time.Duration // a round that isn't answered for so long means that the auditor has fallen behind
	Late     time.Duration // how long a commit waits for the session that made it, before it counts as somebody else's
	Stale    time.Duration // versions that were overwritten longer ago than this are forgotten, even without a cut
	Idle     time.Duration // a connection that has been idle for this long gives its session to one that waits
	Answer   time.Duration // how long the server's answer is waited for before it is asked again, at first
	Sample   float64       // the part of the connections that is audited: 0 to 1
	Rows     int           // number of rows whose last versions are kept
	Texts    int           // bytes of statements that are kept
	Budget   int           // nodes of the search in a round
	Reads    int           // of a transaction, at most 256: how many the auditor is given
	Snapshot bool          // the audit checks for snapshot isolation (docs/FOLDING.md)
	Shapes   bool          // conditions are told without their constants
	// Conditions is how many bytes of conditions, and as many of rows' values, are kept.
	Conditions int
	// Rollbacks makes transactions that only read count as committed, though their clients rolled them back
	// (record.Transaction.OnlyRead).
	Rollbacks bool
}

// The bounds of version 3 of the auditor's lines (docs/FORMATS.md, "Longer histories").
const (
	mostSessions  = 256
	greatestLimit = 1 << 20
)

func (o Options) withDefaults() Options {
	number := func(at *int, least, otherwise, most int) {
		if *at < least {
			*at = otherwise
		}
		if *at > most {
			*at = most
		}
	}
	duration := func(at *time.Duration, otherwise time.Duration) {
		if *at <= 0 {
			*at = otherwise
		}
	}
	most := greatestLimit
	if o.Snapshot {
		most /= 2 // each takes the room of two
	}
	number(&o.Limit, 4, 131_072, most)
	number(&o.Sessions, 1, mostSessions, mostSessions)
	number(&o.Sessions, 1, mostSessions, o.Limit/4) // so that fences take half of the room at most
	number(&o.First, 1, 8, o.Sessions)
	number(&o.Bytes, 1, 128<<20, 1<<40)
	number(&o.Rows, 1, 250_000, 1<<30)
	number(&o.Texts, 1, 32<<20, 1<<40)
	number(&o.Budget, 1, 65536, 1<<32)
	number(&o.Reads, 1, mostOfEach, mostOfEach)
	number(&o.Conditions, 1, 32<<20, 1<<40)
	duration(&o.Between, time.Second)
	duration(&o.Within, 5*time.Second)
	duration(&o.Behind, 5*time.Second)
	duration(&o.Late, time.Second)
	duration(&o.Stale, 20*time.Second)
	duration(&o.Idle, 5*time.Second)
	duration(&o.Answer, 5*time.Second)
	if o.Sample <= 0 || o.Sample > 1 {
		o.Sample = 1
	}
	return o
}

// fenceRoom is how many of the limit's places are reserved for fences: a meeting has up to two for each session. A
// transaction that took the last place would prevent the cut that makes room.
func (o Options) fenceRoom() int { return 2 * o.Sessions }

// mostInLine is how many transactions the auditor takes at a time.
func (o Options) mostInLine() int {
	if o.Snapshot {
		return 128
	}
	return 256
}

// Columns is what Tables has to know, too, for reads by conditions to be followed. Safe for use by many goroutines.
type Columns interface {
	// SameColumns reports whether all columns of this table still have this identity, as far as the last Place has shown.
	SameColumns(record.Relation, record.Identity) bool
}

// Tables knows which table a partition belongs to, and how to describe a row to people. Safe for use by many
// goroutines.
type Tables interface {
	// Root returns the table whose primary key identifies the rows of this table: the topmost partitioned table that has
	// one, or the table itself.
	Root(record.Relation) record.Relation
	// Use makes the next Place look at this table.
	Use(record.Relation)
	// Same reports whether a key of this table, or of the one that Root returns, has this identity still, as far as the
	// last Place has shown.
	Same(record.Relation, record.Identity) bool
	// Words returns the table's name and the row's key in words, and the names of the key's columns.
	Words(record.Relation, record.Key) (table, row string, columns []string)
}
