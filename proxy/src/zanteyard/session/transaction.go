package session

import (
	"regexp"
	"strconv"
	"time"

	"zanteyard/plan"
	"zanteyard/record"
)

const (
	fewReads       = 16 // up to this many are compared one by one
	fewStatements  = 8  // for up to this many room is made at once
	mostStatements = 256
	mostSelects    = 10000   // that are looked at one by one, whether what they read was checked
	mostKept       = 1 << 20 // bytes of a transaction's statements and their parameters
	mostVersions   = 4096    // the transaction's own number and those of its subtransactions
)

// Why a read is left out.
const (
	borrowed  = "read in another transaction's snapshot"
	afterPart = "read after a statement that may have committed, before the server said so"
	whatRuns  = "what EXECUTE runs"
)

// transaction is what is known of the transaction that is running.
type transaction struct {
	record.Transaction
	seen    map[record.Read]int32 // at which place in Reads each is, once there are more than a few
	kept    int                   // bytes of its statements
	keys    int                   // and of the keys of its reads
	wrote   bool                  // by a statement that didn't report the number
	failed  bool
	leaving bool // COMMIT or PREPARE TRANSACTION was sent
	asked   bool // the answer to the ask arrived, and nothing has run since
	// borrows means that it reads from a snapshot that another transaction exported, which may be older than what was
	// answered before this one began. None of its reads are reported: they would be held to its session's order, which
	// isn't kept.
	borrows bool
	reading record.Select // what the statement has read whose rows came last
	paused  *portal       // of the last statement in Statements, if some of its rows are still to come
	started bool          // a statement of it has run
	sets    level         // what later transactions begin at, if it is committed
	resets  plan.Parts
	doubts  uint64 // what trust counted when the last of these resets was sent
	queried bool   // it has a snapshot
	calls   bool   // a statement of it has called what isn't the server's own
	block   bool   // it is a block for certain: no statement in it but COMMIT or ROLLBACK ends it
	// parted means that a statement has run which may have committed what precedes it, in a pipeline, where the server
	// says whether it has only at the end. What follows is left out until then.
	parted bool
	erred  bool // one of its statements failed
	// asides are what cursors WITH HOLD have returned in it, that other transactions declared; of is such a cursor.
	asides []*transaction
	of     *cursor
	// unlooked means that a statement of it wasn't looked at, and unasked why its number wasn't asked for before COMMIT.
	unlooked bool
	unasked  string
	// usual is how many statements and reads the transaction before it had: there is room for as many from the first one on.
	usual struct{ statements, reads int }
}

// Why the number of a transaction isn't known that may have written.
const (
	numberAlone    = "its writes couldn't be told apart"
	numberTogether = "its writes couldn't be told apart: its COMMIT was sent together with other statements"
	numberUnlooked = "its writes couldn't be told apart: it has a statement that wasn't looked at"
	numberUnasked  = "its writes couldn't be told apart: what names refer to wasn't known at its COMMIT"
)

// unnumbered returns why the transaction's number isn't known.
func (t *transaction) unnumbered() string {
	switch {
	case t.unlooked:
		return numberUnlooked
	case t.unasked != "":
		return t.unasked
	case t.block:
		return numberTogether
	}
	return numberAlone
}

// unreported returns why a read can't be reported, or "".
func (t *transaction) unreported() string {
	switch {
	case t.borrows:
		return borrowed
	case t.parted:
		return afterPart
	}
	return ""
}

// empty reports whether nothing in the transaction concerns an audit: no statement of it touched a table.
func (t *transaction) empty() bool {
	return len(t.Reads) == 0 && t.Number == 0 && !t.MayHaveWritten && !t.wrote && len(t.Absent) == 0 && t.Beyond == 0 &&
		!t.Touched && !t.Partly && len(t.Asks) == 0
}

// read adds the versions of a row that was returned, each once. The row is counted with the first of them, if counts is
// set.
func (t *transaction) read(reads []record.Read, limit int, counts bool) {
	for i, r := range reads {
		n := uint32(0)
		if counts && i == 0 {
			n = 1
		}
		switch at := t.find(r); {
		case at >= 0:
			t.Did.Repeated(at, len(t.Reads), n)
			if at < int(t.reading.From) {
				t.reading.Earlier(at)
			}
		case len(t.Reads) >= limit || t.keys+len(r.Key) > mostKeys:
			t.Beyond++
			t.Did.Beyond += uint64(n)
			t.reading.Unkept++
		default:
			if t.Reads == nil {
				t.Reads = make([]record.Read, 0, t.usual.reads)
			}
			t.Reads = append(t.Reads, r)
			t.keys += len(r.Key)
			t.Did.Added(len(t.Reads), n)
			if t.seen != nil && len(t.Reads) > fewReads {
				t.seen[r] = int32(len(t.Reads) - 1)
			}
		}
	}
}

// returned counts further rows that were returned with a read.
func (t *transaction) returned(with record.Read, n uint32) {
	if at := t.find(with); at >= 0 {
		t.Did.Repeated(at, len(t.Reads), n)
	} else {
		t.Did.Beyond += uint64(n)
	}
}

// find returns the place of a read, or -1.
func (t *transaction) find(r record.Read) int {
	if len(t.Reads) < fewReads {
		for i := range t.Reads {
			if t.Reads[i] == r {
				return i
			}
		}
		return -1
	}
	if len(t.seen) == 0 {
		if t.seen == nil {
			t.seen = map[record.Read]int32{}
		}
		for i, old := range t.Reads {
			t.seen[old] = int32(i)
		}
	}
	if at, ok := t.seen[r]; ok {
		return int(at)
	}
	return -1
}

// version adds the xmin of a row that the transaction wrote.
func (t *transaction) version(xmin uint32) {
	for i := len(t.Versions) - 1; i >= 0; i-- { // the last one is the likeliest
		if t.Versions[i] == xmin {
			return
		}
	}
	if len(t.Versions) < mostVersions {
		t.Versions = append(t.Versions, xmin)
	}
}

// begin records when the transaction began, by the first message that was sent for it.
func (s *Session) begin() {
	if s.tx.Began.IsZero() {
		s.tx.Began = s.sent
	}
}

// finish reports the transaction that has ended, and begins another.
func (s *Session) finish(outcome record.Outcome) {
	t, counted := &s.tx, false
	if s.outlive(t, outcome); !t.empty() {
		counted = true
		t.Connection, t.Place = s.number, s.place
		s.place++
		t.Ended, t.Outcome = s.now, outcome
		if !t.started && t.Level == record.UnknownLevel {
			t.Level = s.begins()
		}
		if t.MayHaveWritten = t.Number == 0 && (t.MayHaveWritten || t.wrote); t.MayHaveWritten {
			t.Unnumbered = t.unnumbered()
		}
		if outcome == record.Unclear {
			t.dropAsks()
		}
		t.Application = s.application
		s.report(&t.Transaction)
	}
	s.finishHeld(t, counted)
	s.set(outcome)
	s.trust.resetBy(t, outcome)
	if s.defines {
		s.defines = false
		s.options.Defined()
	}
	seen, usual := t.seen, t.usual
	for r := range seen {
		delete(seen, r)
	}
	if counted {
		usual.statements, usual.reads = least(len(t.Statements), fewStatements), least(len(t.Reads), fewReads)
	}
	s.tx = transaction{seen: seen, usual: usual}
	s.tx.Began = s.queue.next() // what was sent before this one's end may have begun by itself
}

func least(a, b int) int {
	if a < b {
		return a
	}
	return b
}

// report reports a transaction, or that there was one that isn't offered.
func (s *Session) report(it *record.Transaction) {
	offered, audits := s.offered(it), s.options.Auditing()
	if offered && audits {
		s.options.Sink.Transaction(*it)
		return
	}
	told := record.Transaction{Connection: it.Connection, Place: it.Place, Began: it.Began, Ended: it.Ended, Level: it.Level,
		Outcome: it.Outcome, Held: it.Held, Uncounted: it.Uncounted, Did: it.Did.Alone(len(it.Reads))}
	if s.trust.elsewhere && audits { // as an audit ends, its mark goes first
		told.Elsewhere = true
	} else {
		told.Unaudited, told.Defines = true, it.Defines
		told.MayHaveWritten = it.MayHaveWritten || it.Number != 0
		if offered {
			told.Number, told.MayHaveWritten = it.Number, it.MayHaveWritten
		}
		told.Unnumbered = it.Unnumbered
	}
	s.options.Sink.Transaction(told)
}

// ended is called when a ReadyForQuery says that no transaction is open.
func (s *Session) ended() {
	outcome := record.Committed
	if s.tx.failed {
		outcome = s.tx.undone()
	}
	s.finish(outcome)
	s.names.ended(&s.queue)
}

// onlyRead reports whether a transaction that is rolled back might as well have been committed.
func (t *transaction) onlyRead() bool {
	return t.Number == 0 && !t.MayHaveWritten && !t.wrote && !t.erred && !t.parted && !t.borrows &&
		(t.Level == record.ReadCommitted || t.Level == record.RepeatableRead)
}

// undone returns the outcome of a transaction that the server has undone, unless it had committed a part before: then
// the slot decides.
func (t *transaction) undone() record.Outcome {
	if t.parted && t.Number != 0 {
		return record.Unclear
	}
	return record.Aborted
}

// ran handles a statement that has ended successfully, with its tag.
func (s *Session) ran(e *expectation, tag []byte) {
	if isOther(e.on, tag) {
		s.distrust()
	}
	p := e.current()
	if (p == nil || p.MayCommit) && e.message == 'E' && !s.tx.block {
		defer func() { s.tx.parted = true }()
	}
	if endsUnseen(p, tag) {
		s.tx.parted = true
	}
	s.tx.queried = s.tx.queried || takesSnapshot(tag)
	s.tx.calls = s.tx.calls || p == nil || p.Calls
	s.starts()
	if p == nil && (!s.options.Auditing() || e.on != nil && e.on.text != "") && s.endsUnlooked(e, tag) {
		return
	}
	if p == nil || p.Kind != plan.Several {
		s.tx.did(p, e.doubts)
	}
	if p == nil || p.Unknown || p.Kind == plan.RollbackTo {
		s.tx.undoAsks()
	}
	switch {
	case p == nil:
		s.tx.unlooked = true
		verb, _ := counted(tag)
		s.tx.MayHaveWritten = s.tx.MayHaveWritten || s.options.Auditing() || !isApart(verb, e)
		s.notLooked(e, tag)
	case p.Kind == plan.Several: // more statements were answered than were found in the text
	default:
		s.did(p, e, tag)
	}
	if len(e.pieces) > 0 {
		e.piece(e.part + 1)
	}
}

// endsUnlooked ends a transaction by what the server says, where statements aren't looked at. It reports whether this one
// has.
func (s *Session) endsUnlooked(e *expectation, tag []byte) bool {
	switch {
	case string(tag) == "COMMIT":
		s.finish(record.Committed)
	case string(tag) == "ROLLBACK" && e.on != nil && e.on.text != "" && !undoesPart.MatchString(e.on.text):
		s.finish(s.tx.undone())
	default:
		return false
	}
	s.names.ended(&s.queue)
	return true
}

// undoesPart matches what may undo a transaction only as far as to a savepoint: then, as where the text isn't known, the
// server's next ReadyForQuery says whether it is over.
var undoesPart = regexp.MustCompile(`(?is)rollback.*\bto\b`)

// notLooked counts a statement that wasn't looked at.
func (s *Session) notLooked(e *expectation, tag []byte) {
	reason := "sent before the audit had read the catalog"
	switch {
	case e.on != nil && e.on.unseen != "":
		reason = e.on.unseen
	case !s.plain:
		reason = "an encoding that isn't read, or standard_conforming_strings is off"
	}
	s.sums(nil, e, tag, reason)
	if s.options.Auditing() {
		s.notSeen("(a statement)", reason, true)
	} else if verb, _ := counted(tag); !isApart(verb, e) {
		s.tx.Partly = true
	}
}

func (s *Session) did(p *plan.Plan, e *expectation, tag []byte) {
	t := &s.tx
	if e.wrote = t.mayHaveWritten(); e.rows == 0 {
		e.earlier = e.wrote
	}
	s.levels(p, e)
	t.borrows = t.borrows || p.TakesSnapshot
	switch p.Kind {
	case plan.Commit, plan.Rollback:
		s.note(e)
		its := t.Level
		if string(tag) == "COMMIT" {
			s.finish(record.Committed)
		} else {
			t.OnlyRead = p.Kind == plan.Rollback && t.onlyRead()
			s.finish(t.undone())
		}
		if p.Chain {
			s.tx.Level, s.tx.block, s.tx.started = its, true, true
		}
		s.names.ended(&s.queue)
		return
	case plan.PrepareTransaction:
		s.note(e)
		if string(tag) == "ROLLBACK" {
			s.finish(t.undone())
		} else {
			s.finish(record.Unclear) // COMMIT PREPARED may come from anywhere: the slot reports it
		}
		s.names.ended(&s.queue)
		return
	case plan.Declare:
		if s.drops(p.Name); e.changed {
			s.names.cursors[p.Name] = cursorOf(p, e)
		}
	case plan.CloseCursor:
		s.drops(p.Name)
	case plan.DiscardAll:
		if string(tag) == "DISCARD ALL" { // DEALLOCATE ALL leaves them
			s.drops("")
		}
	case plan.Begin:
		t.block = true
	case plan.Write:
		t.wrote = t.wrote || mayHaveChanged(e)
	case plan.Definition, plan.TemporaryDefinition:
		t.Defines = true
	case plan.Prepare:
		s.madeBySQL(p, e.on)
		s.note(e)
		return
	case plan.Execute:
		s.executed(p, e, tag)
		return
	}
	t.MayHaveWritten = t.MayHaveWritten || p.MayWriteUnseen
	t.Touched = t.Touched || rows(p).Touches()
	noted := s.note(e)
	if c := s.names.cursors[p.Name]; p.Kind == plan.Declare && c != nil && noted != nil {
		c.said = *noted
	}
	s.leftOut(p, e, noted, tag)
}

// mayHaveChanged reports whether a statement that writes may have written a row: if its rows report the transaction's
// number, it has written none if there is none, unless it was run over something else, such as a view with a trigger.
func mayHaveChanged(e *expectation) bool { return e.hidden == 0 || e.rows > 0 || !e.knowsTables() }

// notSeen counts something that wasn't seen, of the transaction that is running.
func (s *Session) notSeen(shape, reason string, reads bool) {
	s.tx.Partly = true
	s.options.Sink.Unseen(shape, reason, reads)
}

// executed handles SQL's EXECUTE.
func (s *Session) executed(p *plan.Plan, e *expectation, tag []byte) {
	of := s.names.prepared[p.Name]
	if st := s.names.statements[p.Name]; st != nil {
		of = st
	}
	noted := s.note(e)
	if of == nil || of.plan == nil {
		s.tx.MayHaveWritten = true
		s.sums(nil, e, tag, whatRuns)
		s.notSeen(p.Shape, whatRuns, true)
		return
	}
	inner := rows(of.plan)
	s.tx.wrote = s.tx.wrote || inner.Kind == plan.Write && mayHaveChanged(e)
	s.tx.Touched = s.tx.Touched || inner.Touches()
	s.tx.Defines = s.tx.Defines || inner.Kind == plan.Definition || inner.Kind == plan.TemporaryDefinition
	s.tx.MayHaveWritten = s.tx.MayHaveWritten || inner.MayWriteUnseen
	s.tx.calls = s.tx.calls || inner.Calls
	if !e.changed {
		e.use = of.use
	}
	s.leftOut(of.plan, e, noted, tag)
}

// leftOut counts what couldn't be seen of a statement.
func (s *Session) leftOut(p *plan.Plan, e *expectation, noted *record.Statement, tag []byte) {
	for _, u := range rows(p).Unseen {
		s.notSeen(u.Shape, u.Reason, true)
	}
	reason := ""
	if !e.changed && e.use != nil {
		reason = s.trust.why(e.use)
		if !s.understands(p) {
			reason = namesBeyond
		}
		if isWrite := p.Kind == plan.Write; isWrite && len(p.Sources) == 0 {
			s.options.Sink.Unseen(p.Shape, reason, false) // if the transaction's number is known, all of it is
		} else {
			s.notSeen(p.Shape, reason, !isWrite)
		}
	}
	if e.use != nil {
		s.trust.ran(e.use, e.changed)
	}
	_, n := counted(tag)
	s.askedBy(rows(p), e, noted, n > 0)
	s.sums(p, e, tag, reason)
	if noted != nil && rows(p).Copied && e.rows > 0 { // its reads were added just now
		noted.To = len(s.tx.Reads)
	}
	if e.hidden > 0 && p.Asked && e.rows == 0 && (e.at == nil || !e.at.counted) {
		s.absent(p, e, noted)
	}
}

// number parses the text of pg_current_xact_id_if_assigned().
func number(v []byte) uint64 {
	n, _ := strconv.ParseUint(string(v), 10, 64)
	return n
}

// takeAsk handles the row that was asked for before COMMIT.
func (s *Session) takeAsk(values [][]byte) {
	if len(values) != 3 || s.tx.parted { // what came before may have been another transaction
		return
	}
	t := &s.tx
	if values[0] != nil {
		t.Number = number(values[0])
	} else {
		t.wrote, t.MayHaveWritten = false, false // it has no number, so it has written nothing
	}
	t.Level = levelNamed(string(values[2]))
	if len(t.Absent) > 0 || t.asksSnapshot() {
		t.Snapshot = string(values[1])
	}
	t.asked = true
}

func levelNamed(name string) record.Level {
	switch name {
	case "serializable":
		return record.Serializable
	case "repeatable read":
		return record.RepeatableRead
	case "read committed", "read uncommitted":
		return record.ReadCommitted
	}
	return record.UnknownLevel
}

// clock is read once for all messages that arrive together.
func clock() time.Time { return time.Now() }
