package session

import (
	"strings"
	"time"

	"zanteyard/condition"
	"zanteyard/plan"
	"zanteyard/record"
	"zanteyard/wire"
)

// Why what a statement asks for by a condition isn't followed, other than what the statement itself says.
const (
	notRewritten = "its rows aren't seen"
	aCursor      = "a cursor, or SQL's PREPARE"
	cutOff       = "LIMIT"
	skipsRows    = "OFFSET"
	tooManyFound = "more rows of one SELECT than are kept"
	tooManyAsks  = "more conditions of one transaction than are kept"
	unclearRow   = "a row whose key isn't known"
	undoneWrite  = "asked after a write that ROLLBACK TO may have undone"
	joinOfNone   = "a join of no rows"
	ofNothing    = "an aggregate of no rows, which doesn't show its table"
	unclearEnd   = "a transaction whose end isn't known"
	namesUnsure  = "names of which it isn't certain what they refer to"
	justChanged  = "an operator, a schema or a role has just been made, changed or dropped"
)

const (
	mostFound      = 4096 // rows of one SELECT
	mostConditions = 64   // conditions of one transaction
	mostBeside     = 1024 // bytes of a row, beside which another table is asked
)

// asking is what a statement asks its tables for by conditions, and the rows that it got.
type asking struct {
	plan.Question
	most  uint64    // rows that it returns
	from  time.Time // its snapshot is no older
	rows  uint64
	found []record.Key
	shows bool   // an aggregate of no rows shows its table all the same
	why   string // why it isn't followed
	// writes: it wrote the rows that it got, which the log tells.
	writes bool
	// later makes the question, nil if it is made: of a SELECT with LIMIT, which depends on the last row that it returned, and
	// of an UPDATE or DELETE by a whole key. Nearly all of these change their row, and have asked for nothing then.
	later  func(last record.Key, cut bool) plan.Question
	done   bool
	place  int32 // among the transaction's, counted from 1, once it is done
	joined *joined
}

// joined is what a statement over several tables needs until its result is known.
type joined struct {
	plan   *plan.Plan
	text   string
	tokens plan.Tokens
	with   condition.Arguments
	found  []plan.Found // of each source
	known  []map[record.Key]bool
}

// asksBy returns what a statement that is sent rewritten asks for, nil if no condition is followed.
func (s *Session) asksBy(st *statement, with condition.Arguments) *asking {
	p := st.plan
	if !p.Follows() {
		return nil
	}
	with.Converts, with.Temporary = s.converts(), s.trust.hasTemporary()
	with.Escapes = st.behind || s.somethingRuns()
	it := &asking{from: s.sent, writes: p.Kind == plan.Write}
	most, err := p.Most(st.text, st.tokens, with)
	switch it.most = most; {
	case err != nil:
		it.why = err.Error()
	case !s.isUpToDate():
		it.why = justChanged
	case p.Skips(st.text, st.tokens, with):
		it.why = skipsRows
	case p.NamesWithin() && !s.certainNames():
		it.why = namesUnsure
	case p.Joins():
		with = kept(with)
		it.joined = &joined{plan: p, text: st.text, tokens: st.tokens, with: with, found: make([]plan.Found, len(p.Sources)),
			known: make([]map[record.Key]bool, len(p.Sources))}
	case it.writes && p.ByKey, p.MayCut():
		with = kept(with)
		text, tokens := st.text, st.tokens
		it.later = func(last record.Key, cut bool) plan.Question {
			with.Cut, with.Last = cut, last
			return p.Asks(text, tokens, with)
		}
	default:
		it.makes(p.Asks(st.text, st.tokens, with))
	}
	return it
}

func (a *asking) makes(its plan.Question) { a.Question, a.why = its, its.Why }

// kept are the same arguments, without memory of the message that they come from.
func kept(with condition.Arguments) condition.Arguments {
	n := 0
	for _, one := range with.Parameters {
		n += len(one)
	}
	bytes, all := make([]byte, 0, n), make([][]byte, len(with.Parameters))
	for i, one := range with.Parameters {
		if one != nil { // nil is NULL, and an empty text isn't
			from := len(bytes)
			bytes = append(bytes, one...)
			all[i] = bytes[from:len(bytes):len(bytes)]
		}
	}
	with.Parameters, with.Formats = all, append([]int16(nil), with.Formats...)
	with.Types = append([]uint32(nil), with.Types...)
	return with
}

// gotJoined takes what a row of several tables was made of.
func (s *Session) gotJoined(a *asking, values [][]byte, isBinary, failed, isWhole bool) {
	a.rows++
	j, kept := a.joined, 0
	switch {
	case a.why != "", a.writes:
		return
	case failed:
		a.why = unclearRow
		return
	}
	otherEncoding := !j.plan.Converts() && s.options.Plans != nil && s.converts()
	ok := isWhole && j.plan.Each(values, isBinary, func(source int, its []record.Read, more []*string, missing bool) {
		found := &j.found[source]
		if found.Missing, found.Last = found.Missing || missing, ""; len(its) == 1 {
			found.Last = its[0].Key
		}
		if j.known[source] == nil {
			j.known[source] = map[record.Key]bool{}
		}
		for _, one := range its {
			failed = failed || otherEncoding && !isASCII(string(one.Key))
			if !j.known[source][one.Key] {
				j.known[source][one.Key] = true
				found.Keys = append(found.Keys, one.Key)
				if more != nil {
					found.Beside = append(found.Beside, condition.Beside(one.Key, more))
					its := string(found.Beside[len(found.Beside)-1])
					failed = failed || len(its) > mostBeside || otherEncoding && !isASCII(its)
				}
			}
		}
		kept += len(found.Keys)
	})
	switch {
	case !isWhole, kept > mostFound:
		a.why = tooManyFound
	case !ok, failed:
		a.why = unclearRow
	}
	if a.why != "" {
		j.found, j.known = nil, nil
	}
}

// asksUnchanged returns what a statement asks for that is sent as it is: an UPDATE or DELETE, or one whose subqueries show
// that they found nothing. What its names refer to isn't tried, so it has to be certain.
func (s *Session) asksUnchanged(st *statement, with condition.Arguments) *asking {
	if st.plan == nil || !isUnchanged(st.plan) || !st.plan.Follows() || !s.looking() || !s.understands(st.plan) || s.replay.plain {
		return nil
	}
	if !s.certainNames() {
		return nil
	}
	return s.asksBy(st, with)
}

// isUnchanged reports whether what a statement asks for is known without hidden columns.
func isUnchanged(p *plan.Plan) bool {
	return p.Kind == plan.Write || p.Kind == plan.Select && p.Hidden() == 0
}

// certainNames reports whether it is certain what names refer to that no result shows.
func (s *Session) certainNames() bool {
	t := &s.trust
	if t.doubt || !t.asks || !t.here || t.block.isPrivate || t.pooled || t.hasTemporary() {
		t.wanted = true
		return false
	}
	return true
}

// arguments are what a Bind has in the places of parameters.
func (s *Session) arguments(b *wire.Bind, st *statement) condition.Arguments {
	types := st.types
	if st.parameters != nil { // the server has told them
		types = st.parameters
	}
	return condition.Arguments{Parameters: b.Parameters, Formats: s.formats(b), Types: declared(types)}
}

// somethingRuns reports whether a statement that was sent before may still change a setting that the server hasn't told yet.
func (s *Session) somethingRuns() bool {
	for i := s.queue.head; i < len(s.queue.list); i++ {
		if e := &s.queue.list[i]; e.kind == clients && strings.IndexByte("EQF", e.message) >= 0 {
			return true
		}
	}
	return false
}

// got takes a row that the SELECT returned, with what it was made of: one row, or all that an aggregate has, of which some
// aren't listed if they are too many. failed says that some key can't be told.
func (a *asking) got(reads []record.Read, failed, isWhole bool) {
	a.rows++
	switch {
	case a.why != "", a.writes:
	case !isWhole, len(a.found)+len(reads) > mostFound:
		a.why, a.found = tooManyFound, nil
	case failed:
		a.why = unclearRow
	default:
		for _, one := range reads {
			a.found = append(a.found, one.Key)
		}
	}
}

// foundAny reports whether it got any row.
func (a *asking) foundAny() bool {
	if a.joined == nil {
		return len(a.found) > 0
	}
	for i := range a.joined.found {
		if len(a.joined.found[i].Keys) > 0 {
			return true
		}
	}
	return false
}

// askedBy records what a statement that has ended has asked for, and has returned or written some rows.
func (s *Session) askedBy(p *plan.Plan, e *expectation, noted *record.Statement, hasRows bool) {
	t, a, changed := &s.tx, e.asking, hasRows && p.Kind == plan.Write
	if !p.Touches() || p.NotFollowed == "" && !p.Follows() || a != nil && a.done || len(t.Asks) > mostConditions {
		return // of the server's own catalog nothing is asked that counts
	}
	if p.ByKey && !p.Joins() && (changed || a != nil && a.why == "" && a.rows > 0 && !p.Lists()) { // no other row can satisfy it
		return
	}
	cut := a != nil && a.rows >= a.most && !a.writes
	if cut && a.why == "" && (a.most == 0 || p.AsksNothingCut()) {
		return
	}
	if a != nil && a.later != nil && a.why == "" {
		last := record.Key("")
		if n := len(a.found); n > 0 {
			last = a.found[n-1]
		}
		a.makes(a.later(last, cut))
	}
	if a != nil {
		a.later = nil
	}
	why := p.NotFollowed
	switch {
	case why != "":
	case len(t.Asks) == mostConditions:
		why = tooManyAsks
	case e.current() != p:
		why = aCursor
	case a == nil && isUnchanged(p):
		why = namesUnsure
	case a == nil:
		why = notRewritten
	case a.why != "":
		why = a.why
	case cut && p.Lists():
		why = cutOff
	case p.Lists() && !a.shows && !a.foundAny(): // otherwise rows that it lists show that it is made of its plan's tables
		why = ofNothing
	}
	switch {
	case why != "":
	case e.replaced:
		why = maybeAnother
	case !e.knowsTables():
		why = otherRelation
		s.isOverOthers(e)
	default:
		why = t.unreported()
	}
	if why != "" {
		t.Asks = append(t.Asks, record.Ask{Why: why})
		return
	}
	a.done = true
	p.HasAsked()
	wrote := e.wrote || changed
	if a.joined == nil {
		t.ask(a, a.Question, a.found, wrote)
	} else {
		j := a.joined
		j.with.Cut = cut
		questions := j.plan.AsksJoined(j.text, j.tokens, j.with, j.found, t.hasRead, hasRows)
		if len(questions) == 0 && a.rows == 0 && !hasRows { // each table by its whole key, of which some row isn't there
			t.Asks = append(t.Asks, record.Ask{Why: joinOfNone})
		}
		for _, one := range questions {
			var found []record.Key
			if one.Why == "" && one.Source >= 0 {
				found = j.found[one.Source].Keys
			}
			t.ask(a, one, found, e.earlier || wrote && !one.Absent)
		}
		a.joined = nil
	}
	if noted != nil && a.place > 0 {
		noted.Ask = int(a.place)
	}
}

// ask keeps what a table was asked for, and the rows that were got of it.
func (t *transaction) ask(a *asking, of plan.Question, found []record.Key, wrote bool) {
	switch {
	case len(t.Asks) > mostConditions:
		return
	case len(t.Asks) == mostConditions:
		of.Why = tooManyAsks
	}
	if of.Why != "" {
		t.Asks = append(t.Asks, record.Ask{Why: of.Why})
		return
	}
	t.Asks = append(t.Asks, record.Ask{Condition: of.By, Identity: of.Identity, Columns: of.Columns, Found: found, From: a.from,
		Wrote: wrote, Writes: a.writes, Given: of.Given, Relies: of.Relies})
	if a.place == 0 {
		a.place = int32(len(t.Asks))
	}
	if of.Partly != "" && len(t.Asks) <= mostConditions {
		t.Asks = append(t.Asks, record.Ask{Why: of.Partly})
	}
}

// hasRead finds a row among those that were read.
func (t *transaction) hasRead(relation record.Relation, identity record.Identity, key record.Key) (record.Read, bool) {
	for i := len(t.Reads) - 1; i >= 0; i-- { // the last version
		if one := &t.Reads[i]; one.Relation == relation && one.Key == key && one.Identity == identity {
			return *one, true
		}
	}
	return record.Read{}, false
}

// mayHaveWritten reports whether a transaction may have written anything by now.
func (t *transaction) mayHaveWritten() bool {
	return t.Number != 0 || t.wrote || t.MayHaveWritten || len(t.Versions) > 0
}

// undoAsks leaves out what was asked after a write that may be undone: then the log doesn't show what was seen.
func (t *transaction) undoAsks() {
	for i := range t.Absent {
		t.Absent[i].Undone = t.Absent[i].Undone || t.Absent[i].Wrote
	}
	for i := range t.Asks {
		if t.Asks[i].Wrote {
			t.Asks[i] = record.Ask{Why: undoneWrite}
		}
	}
}

// dropAsks leaves out all that was asked by conditions, since the transaction may end later than it is reported: what it
// changed of operators itself wouldn't show by then.
func (t *transaction) dropAsks() {
	for i := range t.Asks {
		if t.Asks[i].Why == "" {
			t.Asks[i] = record.Ask{Why: unclearEnd}
		}
	}
}

// asksSnapshot reports whether it is useful to know the transaction's snapshot, for what it passed over.
func (t *transaction) asksSnapshot() bool {
	if t.Level == record.ReadCommitted {
		return false
	}
	for i := range t.Asks {
		if t.Asks[i].Condition != nil {
			return true
		}
	}
	return false
}
