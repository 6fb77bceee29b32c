package session

import (
	"time"

	"zanteyard/plan"
	"zanteyard/record"
)

// purpose is the purpose of one of the proxy's own messages. The answers to those are never passed on.
type purpose uint8

const (
	clients purpose = iota // the client's own message
	silent                 // a step for which only a failure matters
	askRow                 // the row with number, snapshot and level before COMMIT
	askEnd                 // the Sync after it
	signatureRow
	privilegeRow
	trialColumns
	costRow
	trialEnd
	blockPart     // the Sync of a trial in a block, before its savepoint is rolled back
	reparse       // the original text of an unnamed statement, whose failure goes to the client
	twin          // a statement's rewritten twin, just before the client's Bind
	portalColumns // the columns of a portal that has, or may have, hidden ones, just before the client's Execute
	prepareEnd    // the Sync after the twin of a statement of SQL's PREPARE
)

// expectation is what the server owes for one message that was sent to it. Messages are answered in order.
type expectation struct {
	kind purpose
	// message is the message's type: P B D E C S Q F; H is a malformed Flush; c is the end of a copy, which is owed
	// nothing.
	message byte
	mute    bool // the answer isn't passed on, though the message is the client's
	binary  bool // hidden columns come as binary
	cleared bool // the unnamed statement is gone, even if this one fails
	changed bool // the statement was rewritten
	hidden  int  // number of hidden columns in the answer
	part    int  // which of several statements is being answered
	pieces  []piece
	rows    int  // rows of the statement that is being answered
	wrote   bool // its transaction may have written before it, or by it
	earlier bool // or before its first row
	loose   int  // of these, how many have no version
	beyond  int  // and how many were made of more rows than are listed
	// copied are the reads of a statement that lists all of them with its first row: they count when it has returned all rows.
	copied   []record.Read
	halted   bool       // its Execute had a row limit, and there may be more
	made     uint64     // of how many rows all were made, if the plan counts them
	missed   int        // and of how many the reads can't be reported
	why      string     // why those can't
	from     int        // number of reads before its first row
	levels   uint64     // what trust.levels counted when it was sent
	doubts   uint64     // and trust.doubts
	era      uint64     // and trust.era (before)
	sent     time.Time  // when the client's message was sent, or the one before it
	hides    *plan.Plan // the plan that added the hidden columns
	on       *statement
	at       *portal
	use      *use
	replaced bool // the cursor may be another one than that which is known
	isOver   bool // the server has shown that it is run over the tables of its plan
	guessed  bool // it was recognized by its columns
	// mayBeCursor: it describes a portal that may be a cursor which DECLARE made. declares: it makes one, of a rewritten query.
	// closes is the cursor that a Close ends.
	mayBeCursor, declares bool
	closes                string
	asking                *asking // what it asks for by a condition, nil if that isn't followed
	of                    *cursor // whose rows it returns, if it is known by name
	// What names stood for before this message, if it changes that: restored if the server doesn't get to it.
	undo     undo
	name     string
	previous *statement
	before   *portal
}

type undo uint8

const (
	nothing undo = iota
	undoStatement
	undoPortal
	undoTwin    // the twin wasn't made
	undoAltered // the unnamed statement is still the rewritten one
)

// queue is a list of expectations, oldest first, in memory that is reused.
type queue struct {
	ended  uint64 // counts the client's statements, and series of messages, that were answered
	parts  uint64 // and those that were sent whole
	list   []expectation
	head   int
	pieces int // of the statements in it
	// changes counts what may be undone of names, and binds the Binds of the client's portals that aren't answered. Most have no
	// name, which have counts of their own.
	changes, binds               map[change]int
	statements, portals, unnamed int       // changes of the unnamed statement and portal, and Binds of that portal
	declares                     int       // how many of its statements declare a cursor with a rewritten query
	sent                         time.Time // when the client's messages that are added now were sent
	era                          uint64
	// levels and doubts are what trust counts now.
	levels, doubts *uint64
}

func (q *queue) empty() bool { return q.head == len(q.list) }
func (q *queue) size() int   { return len(q.list) - q.head }

func (q *queue) push(e expectation) {
	e.sent, e.levels, e.doubts = q.sent, *q.levels, *q.doubts
	if len(e.pieces) == 0 { // each has its own
		e.era = q.era
	}
	q.list = append(q.list, e)
	q.pieces += len(e.pieces)
	q.count(&e, 1)
	if e.ends() {
		q.parts++
	}
}

// last returns the youngest expectation. There must be one.
func (q *queue) last() *expectation { return &q.list[len(q.list)-1] }

// next returns when the first of the client's unanswered messages was sent, or zero if all are answered.
func (q *queue) next() time.Time {
	for i := q.head; i < len(q.list); i++ {
		if q.list[i].kind == clients {
			return q.list[i].sent
		}
	}
	return time.Time{}
}

// first returns the oldest expectation, or nil if nothing is owed.
func (q *queue) first() *expectation {
	if q.head == len(q.list) {
		return nil
	}
	return &q.list[q.head]
}

// second returns the one after the oldest, or nil if there is none.
func (q *queue) second() *expectation {
	if q.size() < 2 {
		return nil
	}
	return &q.list[q.head+1]
}

// ends reports whether its answer is the last one of a statement, or of a series of messages, of the client's.
func (e *expectation) ends() bool {
	return e.kind == clients && (e.message == 'S' || e.message == 'Q' || e.message == 'F')
}

// isOwn reports whether the series of messages that is answered now ends in a message of the proxy's own.
func (q *queue) isOwn() bool {
	for i := q.head; i < len(q.list); i++ {
		if e := &q.list[i]; e.message == 'S' || e.message == 'Q' || e.message == 'F' {
			return e.kind != clients
		}
	}
	return false
}

// running counts the statement, or series of messages, of the client's that isn't answered; 0 if there is none, or several.
func (q *queue) running() uint64 {
	n := 0
	for i := q.head; i < len(q.list); i++ {
		if q.list[i].ends() {
			n++
		}
	}
	if n != 1 {
		return 0
	}
	return q.ended + 1
}

// change is what the undo of an expectation is about: the name of a statement or of a portal.
type change struct {
	undo undo
	name string
}

func (q *queue) count(e *expectation, by int) {
	if e.declares {
		q.declares += by
	}
	if e.undo != undoStatement && e.undo != undoPortal {
		return
	}
	if e.name == "" {
		if e.undo == undoStatement {
			q.statements += by
		} else if q.portals += by; e.message == 'B' {
			q.unnamed += by
		}
		return
	}
	if q.changes == nil {
		q.changes, q.binds = map[change]int{}, map[change]int{}
	}
	of := change{e.undo, e.name}
	add(q.changes, of, by)
	if e.message == 'B' {
		add(q.binds, of, by)
	}
}

func add(to map[change]int, of change, by int) {
	if to[of] += by; to[of] == 0 {
		delete(to, of)
	}
}

// binding reports whether a Bind of the client's portal of this name isn't answered.
func (q *queue) binding(name string) bool {
	if name == "" {
		return q.unnamed > 0
	}
	return q.binds[change{undoPortal, name}] > 0
}

// changing reports whether an expectation changes what the name stands for.
func (q *queue) changing(of change) bool {
	switch {
	case of.name != "":
		return q.changes[of] > 0
	case of.undo == undoStatement:
		return q.statements > 0
	}
	return q.portals > 0
}

// nextChange returns the oldest expectation that changes what the name stands for, or nil.
func (q *queue) nextChange(of change) *expectation {
	if !q.changing(of) {
		return nil
	}
	for i := q.head; i < len(q.list); i++ {
		if e := &q.list[i]; e.undo == of.undo && e.name == of.name {
			return e
		}
	}
	return nil
}

func (q *queue) pop() {
	e := &q.list[q.head]
	if e.ends() {
		q.ended++
	}
	q.count(e, -1)
	q.pieces -= len(e.pieces)
	q.list[q.head] = expectation{} // lets go of what it points to
	q.head++
	switch {
	case q.head == len(q.list):
		q.head, q.list = 0, q.list[:0]
	case q.head > 256 && q.head > len(q.list)/2:
		n := copy(q.list, q.list[q.head:])
		for i := n; i < len(q.list); i++ {
			q.list[i] = expectation{}
		}
		q.head, q.list = 0, q.list[:n]
	}
}

// skipped drops what the server skips after an error: everything up to the next Sync. It calls f for each, oldest first, when
// it has dropped it, to undo what it changed. The message that failed is among them unless it is a Sync.
func (q *queue) skipped(f func(e *expectation)) {
	for e := q.first(); e != nil && e.message != 'S'; e = q.first() {
		gone := *e
		q.pop()
		f(&gone)
	}
}

// copies drops the Syncs that the server ignores once a COPY FROM STDIN has begun: those before the end of the copy, or
// before any other message, which ends it with an error.
func (q *queue) copies() {
	from := q.head + 1
	to := from
	for to < len(q.list) && q.list[to].message == 'S' {
		to++
	}
	q.list = append(q.list[:from], q.list[to:]...)
}

// copied drops the ends of copies that are over: they are owed nothing.
func (q *queue) copied() {
	for q.head < len(q.list) && q.list[q.head].message == 'c' {
		q.pop()
	}
}
