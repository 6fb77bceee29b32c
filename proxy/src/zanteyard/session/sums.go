package session

import (
	"bytes"
	"regexp"

	"zanteyard/plan"
	"zanteyard/record"
)

// Why a statement isn't checked though nothing of it is hidden.
const (
	foundNoRow = record.FoundNoRow
	noVersion  = "a row without a version, as of an outer join"
	anyCursor  = "a cursor that isn't known"
	// tooManyRows is why an aggregate isn't seen whose list doesn't have all of its rows.
	twoRows     = "two rows with one key, of which a transaction sees a deleted one and its own"
	tooManyRows = "an aggregate of too many rows, of very long keys, or that took too long"
	aFunction   = "what a function reads"
	// atSerializable is why a statement isn't seen whose hidden columns would read, and so lock, more than it does.
	atSerializable = "rows that would have to be asked for once more, at serializable"
)

// whyBeyond is why the rows aren't known that a row of a result was made of.
func (s *Session) whyBeyond(p *plan.Plan) string {
	level := s.tx.Level
	if level == record.UnknownLevel {
		level = s.begins()
	}
	if p.ReadsMore() && level == record.Serializable {
		return atSerializable
	}
	if p.LooksUp() {
		return twoRows
	}
	return tooManyRows
}

// sums puts a statement that has ended, and the rows that it returned, in one place (record.Did). reason says why it was
// sent as it is, "" if it was rewritten or needn't be; p is nil if it isn't known.
func (s *Session) sums(p *plan.Plan, e *expectation, tag []byte, reason string) {
	verb, n := counted(tag)
	if p == nil || p.Unknown {
		s.sumUnknown(verb, n, e, p, reason)
		return
	}
	inner := rows(p)
	switch {
	case p.Kind == plan.Fetch:
		s.sumFetched(p, e, verb)
	case p.Kind == plan.Declare && !inner.Touches():
		s.names.unseen(p.Name, "")
	case !inner.Touches():
	case p.Kind == plan.Declare:
		before := s.tx.Did.Again
		s.sumSelect(inner, e, reason, 0)
		if c := s.names.cursors[p.Name]; c != nil {
			c.again = s.tx.Did.Again > before
		}
		s.names.unseen(p.Name, s.whyUnseen(inner, e, reason))
	case inner.Kind == plan.Copy && verb == "COPY" && len(inner.Unseen) > 0:
		s.sumSelect(inner, e, inner.Unseen[0].Reason, n)
	case inner.Kind == plan.Definition:
		s.tx.Did.Others++
	case verb == "SELECT":
		s.sumSelect(inner, e, reason, uint64(e.rows))
	case writes(verb), inner.Kind == plan.Write:
		s.sumWrite(inner, e, reason, n, verb)
	default:
		s.tx.Did.Others++
	}
}

// sumUnknown counts a statement of which only the server's answer is known.
func (s *Session) sumUnknown(verb string, n uint64, e *expectation, p *plan.Plan, reason string) {
	if p != nil && len(p.Unseen) > 0 {
		reason = p.Unseen[0].Reason
	}
	d := &s.tx.Did
	switch {
	case p == nil && isApart(verb, e):
	case verb == "DECLARE CURSOR":
		d.Leave(reason, false, 1, 0, 0)
		s.names.unread = map[string]string{} // it may have any name
	case verb == "SELECT" || verb == "FETCH":
		d.Leave(reason, false, isOne(verb == "SELECT"), 0, uint64(e.rows))
		d.Empty += isOne(verb == "SELECT" && e.rows == 0)
	case writes(verb):
		d.Leave(reason, false, 0, 1, 0)
		d.Written += n
	default:
		d.Others++
	}
}

// isApart reports whether a statement that wasn't looked at can't have been on a table.
func isApart(verb string, e *expectation) bool {
	switch verb {
	case "BEGIN", "START TRANSACTION", "COMMIT", "ROLLBACK", "SAVEPOINT", "RELEASE", "SET", "RESET", "SHOW", "PREPARE",
		"DEALLOCATE", "DEALLOCATE ALL", "DISCARD", "DISCARD ALL", "LISTEN", "UNLISTEN", "NOTIFY", "SET CONSTRAINTS", "LOCK TABLE",
		"CLOSE CURSOR", "CLOSE CURSOR ALL", "MOVE", "CHECKPOINT", "PREPARE TRANSACTION", "COMMIT PREPARED", "ROLLBACK PREPARED", "":
		return true
	case "SELECT":
		return e.on != nil && e.on.text != "" && !mayTouch.MatchString(e.on.text)
	}
	return false
}

// mayTouch matches what a statement on a table has, or one that calls a function.
var mayTouch = regexp.MustCompile(`(?i)from|table|\(|update|insert|delete|merge|copy|call|execute`)

// sumFetched counts rows of a cursor: its SELECT was counted with DECLARE.
func (s *Session) sumFetched(p *plan.Plan, e *expectation, verb string) {
	if verb != "FETCH" {
		return
	}
	s.fetched(e) // if it returned nothing
	reason, known := s.names.unread[p.Name]
	d := &s.takes(e).Did
	switch {
	case e.rows == 0 && (e.hides != nil || !known):
	case e.hides != nil && len(e.hides.Unseen) == 0:
		if e.beyond > 0 {
			d.Leave(s.whyBeyond(e.hides), true, 0, 0, uint64(e.beyond))
		}
		if e.loose > 0 {
			d.Leave(whyLoose(e.hides), true, 0, 0, uint64(e.loose))
		}
		if e.missed > 0 {
			d.Leave(e.why, true, 0, 0, uint64(e.missed))
		}
	case e.hides != nil:
		d.Leave(e.hides.Unseen[0].Reason, true, 0, 0, uint64(e.rows))
	case !known:
		s.fetchedUnseen(anyCursor, e)
	case reason != "":
		s.fetchedUnseen(reason, e)
	}
}

// whyLoose is why a row has no version.
func whyLoose(p *plan.Plan) string {
	if p.Lists() {
		return foundNoRow
	}
	return noVersion
}

// fetchedUnseen counts rows of a cursor that isn't seen. One WITH HOLD returns them in a transaction that may have no
// other statement.
func (s *Session) fetchedUnseen(reason string, e *expectation) {
	s.tx.Did.Leave(reason, false, 0, 0, uint64(e.rows))
	s.tx.Touched, s.tx.Partly = true, true
}

// whyUnseen is why no row of a SELECT on tables is seen, or "".
func (s *Session) whyUnseen(p *plan.Plan, e *expectation, reason string) string {
	switch why := s.tx.unreported(); {
	case reason != "":
		return reason
	case !e.changed && len(p.Unseen) > 0:
		return p.Unseen[0].Reason
	case !e.changed:
		return aFunction
	case why != "":
		return why
	}
	return ""
}

func (s *Session) sumSelect(p *plan.Plan, e *expectation, reason string, n uint64) {
	d := &s.tx.Did
	isFirst := e.at == nil || !e.at.counted
	reason = s.whyUnseen(p, e, reason)
	isCursor := e.on != nil && e.on.kind() == plan.Declare
	if isFirst {
		d.Conditions += isOne(!p.ByKey)
		d.Empty += isOne(n == 0 && !isCursor)
	}
	one := isOne(isFirst)
	switch {
	case reason != "":
		d.Leave(reason, false, one, 0, n)
	case p.Copied && n > 0:
		s.sumCopied(p, e, isFirst, n)
	case n == 0 && !isCursor && isFirst && p.Asked && e.hidden > 0: // absent counts it
	case n == 0 && !isCursor && isFirst && e.asking != nil && e.asking.place > 0:
		at := int32(len(s.tx.Reads))
		d.Selects = append(d.Selects, record.Select{From: at, To: at, Ask: e.asking.place})
	case n == 0 && !isCursor:
		if isFirst {
			d.Leave(foundNoRow, false, 1, 0, 0)
		}
	case len(p.Unseen) > 0:
		d.Leave(p.Unseen[0].Reason, true, one, 0, n)
	case e.missed > 0:
		d.Leave(e.why, e.rows > e.missed, one, 0, uint64(e.missed))
	case e.beyond > 0:
		d.Leave(s.whyBeyond(p), e.rows > e.beyond, one, 0, uint64(e.beyond+e.loose))
	case e.loose > 0:
		d.Leave(whyLoose(p), !p.Lists() || e.rows > e.loose, one, 0, uint64(e.loose))
	case !isFirst:
	case isCursor:
		d.Again++
	case len(d.Selects) >= mostSelects:
		d.Leave(record.NotKept, false, 1, 0, 0)
	default:
		its := s.tx.reading
		its.To = int32(len(s.tx.Reads))
		d.Selects = append(d.Selects, its)
	}
}

// notAll is why a statement isn't seen that lists all it has read with its first row, if the client doesn't take all rows at
// once: it isn't known which of these it has taken.
const notAll = "a portal that returns a part of its rows at a time"

// sumCopied counts a SELECT that lists all it has read with its first row.
func (s *Session) sumCopied(p *plan.Plan, e *expectation, isFirst bool, n uint64) {
	d := &s.tx.Did
	reason, inPart := "", false
	switch {
	case !isFirst || e.halted:
		reason, e.copied = notAll, e.copied[:0]
		s.tx.Touched, s.tx.Partly = true, true
	case e.missed > 0:
		reason = e.why
	case len(p.Unseen) > 0:
		reason, inPart = p.Unseen[0].Reason, len(e.copied) > 0
	case e.beyond > 0:
		reason = s.whyBeyond(p)
	case len(e.copied) == 0:
		reason = foundNoRow
	case len(d.Selects) >= mostSelects:
		reason = record.NotKept
	}
	if reason != "" {
		s.tx.read(e.copied, s.options.ReadLimit, false)
		d.Leave(reason, inPart, isOne(isFirst), 0, n)
		return
	}
	s.tx.read(e.copied, s.options.ReadLimit, true)
	s.tx.returned(e.copied[0], uint32(n-1))
	its := s.tx.reading
	its.To = int32(len(s.tx.Reads))
	d.Selects = append(d.Selects, its)
}

func (s *Session) sumWrite(p *plan.Plan, e *expectation, reason string, n uint64, verb string) {
	d := &s.tx.Did
	d.Written += n
	left, inPart := "", false
	for _, u := range p.Unseen {
		if left == "" || u.Writes && inPart {
			left, inPart = u.Reason, !u.Writes
		}
	}
	switch {
	case n == 0 && verb == "INSERT" && left != "": // it found a row in its place, or nothing to insert
		inPart = false
	case n == 0 && p.Kind == plan.Write && !p.MayWriteUnseen:
		left, inPart = foundNoRow, false
	case left == "" && len(p.Sources) > 0 && reason != "":
		left, inPart = reason, true
	}
	if left != "" {
		d.Leave(left, inPart, 0, 1, 0)
		return
	}
	d.Writes++
}

// suspended counts what a portal has returned by now, of which more may come.
func (s *Session) suspended(e *expectation) {
	p := e.current()
	if e.at == nil || p == nil || p.Unknown || p.Kind != plan.Select || !p.Touches() {
		return
	}
	reason := ""
	if !e.changed && e.use != nil {
		reason = s.trust.why(e.use)
	}
	s.tx.Touched = true // it may be closed now, and then nothing else tells of it
	s.tx.Partly = s.tx.Partly || s.whyUnseen(p, e, reason) != ""
	e.halted = true
	s.sumSelect(p, e, reason, uint64(e.rows))
	e.halted = false
	e.at.counted = true
}

// counted parses a command's tag: what was done, and with how many rows.
func counted(tag []byte) (verb string, n uint64) {
	at := bytes.LastIndexByte(tag, ' ')
	if at < 1 || at+1 == len(tag) {
		return verbOf(tag), 0
	}
	for _, c := range tag[at+1:] {
		if c < '0' || c > '9' || n > (1<<63)/10 {
			return verbOf(tag), 0
		}
		n = n*10 + uint64(c-'0')
	}
	return verbOf(tag[:bytes.IndexByte(tag, ' ')]), n
}

// verbOf is the text of a tag, without making one of those that are usual.
func verbOf(tag []byte) string {
	switch string(tag) {
	case "SELECT":
		return "SELECT"
	case "INSERT":
		return "INSERT"
	case "UPDATE":
		return "UPDATE"
	case "DELETE":
		return "DELETE"
	case "FETCH":
		return "FETCH"
	case "BEGIN":
		return "BEGIN"
	case "COMMIT":
		return "COMMIT"
	case "ROLLBACK":
		return "ROLLBACK"
	}
	return string(tag)
}

func writes(verb string) bool {
	switch verb {
	case "INSERT", "UPDATE", "DELETE", "MERGE", "COPY", "TRUNCATE TABLE":
		return true
	}
	return false
}

func isOne(is bool) uint64 {
	if is {
		return 1
	}
	return 0
}
