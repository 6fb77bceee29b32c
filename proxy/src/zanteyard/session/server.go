package session

import (
	"bytes"
	"strconv"

	"zanteyard/plan"
	"zanteyard/record"
	"zanteyard/wire"
)

// fromServer takes whole messages from the server and returns what to pass on to the client. Called with state locked.
func (s *Session) fromServer(batch []byte) []byte {
	o := &s.toClient
	o.begin(batch)
	for at := 0; at < len(batch); {
		end := at + wire.Length(batch[at:])
		s.answer(o, batch[at:end], at, end)
		at = end
	}
	return o.all()
}

// answer handles one message.
func (s *Session) answer(o *output, m []byte, start, end int) {
	s.queue.copied()
	e := s.queue.first()
	if e == nil || s.status == 0 {
		s.unasked(o, m, start, end)
		return
	}
	pass := e.kind == clients && !e.mute && len(s.failure) == 0
	switch m[0] {
	case 'A', 'S':
		s.unasked(o, m, start, end)
		return
	case 'N':
		if pass && e.altered() {
			s.replay.given = true
			o.buf = wire.AppendMoved(o.own(), m, e.moved())
		} else if pass || wire.Field(m, 'C') != nil && bytes.HasPrefix(wire.Field(m, 'C'), []byte("57")) {
			o.pass(start, end)
		}
		return
	case '1', '2', '3', 'n':
		if e.message != completes(m[0]) {
			s.lost(m[0], e.message)
			break
		}
		if e.kind == twin && m[0] == '1' && e.on.twin == e.name {
			e.on.twinMade = true
		} else if e.kind == clients && m[0] == '1' && e.on != nil {
			e.on.made = true
		}
		if e.closes != "" {
			s.drops(e.closes)
		}
		s.queue.pop()
	case 't':
		if e.message == 'D' && e.on != nil && (e.on.name != "" || e.kind == clients) {
			e.on.parameters = append([]byte(nil), m[wire.Header:]...)
		}
	case 'T':
		s.description(o, e, m, start, end, pass)
		return
	case 'D':
		s.row(o, e, m, start, end, pass)
		return
	case 'C', 's', 'I':
		s.replay.given = s.replay.given || pass
		if pass && m[0] == 'C' && s.undoneUnasked(e, m) {
			o.buf = append(o.own(), s.failure...)
			pass = false
		}
		s.complete(e, m)
	case 'E':
		s.failed(o, e, m, start, end, pass)
		return
	case 'V': // what a function call returned
		if e.message == 'F' {
			s.ran(e, nil)
		}
	case 'Z':
		if e = s.synced(); e != nil && len(m) > wire.Header {
			s.ready(o, e, m, start, end)
			return
		}
	case 'G':
		s.copying = true
		s.queue.copies()
	case 'W':
		s.blind.Store(true)
	}
	if pass && (m[0] == 'C' || m[0] == 's' || m[0] == 'I' || s.replay.pass()) {
		o.pass(start, end)
	}
}

// synced returns the expectation that a ReadyForQuery answers. Expectations before it weren't answered.
func (s *Session) synced() *expectation {
	e := s.queue.first()
	for ; e != nil && e.message != 'S' && e.message != 'Q' && e.message != 'F'; e = s.queue.first() {
		gone := *e
		s.queue.pop()
		s.names.back(&s.queue, &gone)
	}
	return e
}

// unasked handles messages that come unasked: parameters, notifications, notices between transactions.
func (s *Session) unasked(o *output, m []byte, start, end int) {
	switch m[0] {
	case 'S':
		s.parameter(m)
	case 'K':
		if s.status == 0 && len(m) >= wire.Header+4 {
			s.backend = wire.Int32(m[wire.Header:])
			s.key = append(s.key[:0], m[wire.Header:]...)
		}
	case 'Z': // the first one: startup is over
		if len(m) > wire.Header {
			if s.status == 0 {
				s.greet()
			}
			s.status = m[wire.Header]
		}
	}
	o.pass(start, end)
}

// mostOfName is how many bytes of an application_name are kept. PostgreSQL keeps 63.
const mostOfName = 256

// parameter handles a ParameterStatus.
func (s *Session) parameter(m []byte) {
	name, rest, _ := wire.Text(m[wire.Header:])
	value, _, ok := wire.Text(rest)
	if !ok {
		return
	}
	switch string(name) {
	case "client_encoding":
		s.setEncoding(string(value))
	case "standard_conforming_strings":
		s.standard = string(value) == "on"
	case "application_name":
		if len(value) > mostOfName {
			value = value[:mostOfName]
		}
		s.application = string(value)
		return
	case "TimeZone", "DateStyle", "IntervalStyle":
		return
	default:
		if s.status != 0 {
			s.trust.changed(setSomething)
		}
	}
	s.plain = s.encoding && s.standard
}

// description handles a RowDescription.
func (s *Session) description(o *output, e *expectation, m []byte, start, end int, pass bool) {
	alone := e.message == 'D'
	s.fetched(e)
	columns, ends, ok := []wire.Column(nil), []int(nil), false
	unseen := e.hidden == 0 && e.kind == clients && (e.mayBeCursor || s.mayFetch(e.on, e.current()))
	if unseen || e.hidden > 0 || e.kind == portalColumns {
		columns, ends, ok = wire.Columns(m, s.columns[:0], s.ends[:0])
		s.columns, s.ends = columns, ends
		if unseen = unseen || ok && s.isAnother(e, columns); ok && unseen {
			s.recognizes(e, columns)
		}
	}
	switch {
	case e.kind == trialColumns:
		e.use.described(m, s)
	case e.kind == portalColumns:
		switch next := s.queue.second(); {
		case !ok:
		case e.at != nil && e.at.hides == nil:
			s.foretells(e.at, columns)
		case next != nil && next.message == 'E' && next.hides != nil:
			next.shows(columns)
		case next != nil && next.message == 'E':
			s.recognizes(next, columns)
		}
	case e.hidden > 0:
		if ok {
			e.shows(columns)
		}
		keep := len(columns) - e.hidden
		switch {
		case !ok || keep < 0:
			o.pass(start, end)
		case e.hides.AddsReturning:
			if alone && pass && s.replay.pass() { // instead of NoData
				o.buf = wire.End(wire.Begin(o.own(), 'n'), len(o.buf))
			}
		default:
			e.binary = columns[keep].Format == 1
			last := wire.Header + 2
			if keep > 0 {
				last = ends[keep-1]
			}
			if pass && s.replay.pass() {
				o.buf = wire.AppendDescription(o.own(), m, keep, last)
			}
		}
	case pass && s.replay.pass():
		o.pass(start, end)
	}
	if alone {
		s.queue.pop()
	}
}

// fetched determines whether rows are those of a rewritten cursor: only now is it certain which cursor a name stands
// for.
func (s *Session) fetched(e *expectation) {
	fetch := e.current()
	if e.hides != nil || fetch == nil || fetch.Kind != plan.Fetch || s.names.unsure {
		return
	}
	if p := s.names.cursor(fetch.Name); p != nil {
		e.of, e.hides, e.hidden, e.replaced = p, p.plan, hiddenColumns(p.plan), p.era != e.era
		e.isOver = e.isOver || e.at != nil && e.at.told != nil && e.at.told.of == p && e.at.told.isOver
	}
}

// row handles a DataRow: the proxy's own, or one whose hidden columns are cut off.
func (s *Session) row(o *output, e *expectation, m []byte, start, end int, pass bool) {
	if e.kind != clients {
		s.ownRow(e, m)
		return
	}
	e.rows++
	if e.rows == 1 {
		e.from, e.earlier = len(s.tx.Reads), s.tx.mayHaveWritten()
		s.tx.reading = record.Select{From: int32(e.from)}
		s.fetched(e)
		e.presumes(m)
	}
	if e.hidden == 0 {
		if pass {
			o.pass(start, end)
			s.replay.given = true
		}
		return
	}
	visible, columns, values, ok := wire.Row(m, e.hidden, s.values[:0])
	s.values = values
	if !ok {
		if e.asking != nil {
			e.asking.got(nil, true, true)
		}
		o.pass(start, end)
		return
	}
	p := e.hides
	if (p.Looks || p.Counts) && e.rows > plan.MostAggregated {
		p.Rest(s.now)
	}
	s.hidden(e, values)
	if !p.AddsReturning && pass {
		o.pass(start, start+wire.CutRow(m, columns, visible))
		s.replay.given = true
	}
}

// ownRow handles a row that the proxy asked for.
func (s *Session) ownRow(e *expectation, m []byte) {
	n := wire.Int16(m[wire.Header:])
	if n < 0 {
		return
	}
	_, _, values, ok := wire.Row(m, n, s.values[:0])
	s.values = values
	if !ok || n == 0 {
		return
	}
	switch e.kind {
	case askRow:
		s.takeAsk(values)
	case signatureRow:
		if s.trial != nil && n == 5 {
			if string(values[3]) != strconv.Itoa(s.backend) {
				// What was prepared here may be missing when the next statement runs.
				s.trust.pooled, s.trust.broken, s.trial.failed = true, true, true
			}
			s.trial.path = string(values[2])
			s.trial.signature = append(make([]byte, 0, len(values[0])), values[0]...)
			s.trial.level = levelNamed(string(values[1]))
			s.trial.here = len(values[4]) == 1 && values[4][0] == 't'
		}
	case privilegeRow:
		e.use.allowed = len(values[0]) == 1 && (values[0][0] == 't' || values[0][0] == 1)
	case costRow:
		if cost, ok := plan.Cost(values[0]); ok {
			e.use.costs = append(e.use.costs, cost)
			e.use.forms = append(e.use.forms, rows(e.use.plan).Form(values[0], len(e.use.forms) == 0))
		}
	}
}

// complete handles the successful end of a statement.
func (s *Session) complete(e *expectation, m []byte) {
	if e.kind == clients {
		s.copying = false
		switch m[0] {
		case 'C':
			tag, _, _ := wire.Text(m[wire.Header:])
			s.ran(e, tag)
		case 's': // its Execute had a row limit
			s.suspended(e)
			if s.note(e) != nil {
				s.tx.paused = e.at
			}
		}
		if e.at != nil { // it may be executed again, and then returns what is left, if anything is
			e.at.counted = true
		}
		e.rows, e.loose, e.beyond, e.missed, e.made, e.copied = 0, 0, 0, 0, 0, e.copied[:0]
		if e.guessed { // what comes next may be another statement of the text
			e.hides, e.hidden, e.guessed = nil, 0, false
		}
	}
	if e.message == 'E' {
		s.queue.pop()
	}
}

// failed handles an error.
func (s *Session) failed(o *output, e *expectation, m []byte, start, end int, pass bool) {
	s.copying = false
	if wire.Fatal(m) {
		o.pass(start, end)
		return
	}
	s.tx.failed = true
	s.trust.begun, s.trust.declared = false, nil
	switch e.kind {
	case clients, reparse, twin, portalColumns:
		s.tx.erred = true
		pass = len(s.failure) == 0 && !s.again(e, m)
		if p := e.current(); pass && p != nil && p.Touches() {
			s.tx.Touched = true
		} else if pass && p == nil && e.on != nil { // sent while nothing was audited, or unseen
			s.tx.Partly = s.tx.Partly || mayTouch.MatchString(e.on.text)
		}
		s.replay.skip = 0
	case askRow, silent:
		if !s.ownFailed(m) && s.trial != nil {
			s.tx.failed = false
			s.tryError(e, m)
		}
	default:
		if s.trial != nil {
			s.tx.failed = false
			s.tryError(e, m)
		}
	}
	if pass {
		text := s.renamed(e, m)
		switch {
		case len(s.owed) > 0:
			o.buf = append(o.own(), s.owed...)
			s.owed = s.owed[:0]
		case e.altered():
			o.buf = wire.AppendMoved(o.own(), text, e.moved())
		case len(text) != len(m):
			o.buf = append(o.own(), text...)
		default:
			o.pass(start, end)
		}
	}
	if e.message == 'Q' || e.message == 'F' {
		return // ReadyForQuery comes without a Sync
	}
	cleared := e.cleared
	s.queue.skipped(func(e *expectation) { s.names.back(&s.queue, e) })
	if s.skipping = s.queue.empty(); s.skipping {
		s.open = true // also after a Query that was skipped: only the client's Sync ends this
	}
	if cleared {
		s.names.wasStatement(&s.queue, "", nil)
	}
}

// owner returns the next Sync that is expected.
func (s *Session) owner() *expectation {
	for i := s.queue.head; i < len(s.queue.list); i++ {
		if s.queue.list[i].message == 'S' {
			return &s.queue.list[i]
		}
	}
	return nil
}

// ownFailed handles an error in the proxy's own messages before a client's: the question before COMMIT, or the twin of
// a statement of SQL's PREPARE. It reports whether the error was in one of these.
func (s *Session) ownFailed(m []byte) bool {
	sync := s.owner()
	if sync == nil || sync.kind != askEnd && sync.kind != prepareEnd {
		return false
	}
	if sync.kind == prepareEnd {
		sync.on.twin = ""
	}
	if s.status == 'T' {
		s.askFailed(m)
	} else {
		s.tx.failed = false // EXECUTE will find no twin, and is sent again unchanged
	}
	return true
}

// ready handles a ReadyForQuery.
func (s *Session) ready(o *output, e *expectation, m []byte, start, end int) {
	kind := e.kind
	if kind != blockPart {
		s.status = m[wire.Header]
	}
	s.copying = false
	s.queue.pop()
	switch kind {
	case clients:
		s.failure = s.failure[:0]
		if s.status != 'E' {
			s.owed = s.owed[:0]
		}
		s.replay.skip = 0
		if r := &s.replay; r.running && s.status == 'I' {
			s.tx = transaction{seen: s.tx.seen}
			r.due = true
			return
		} else if r.running {
			r.running = false
			s.waiting.Broadcast()
			o.buf = append(o.own(), r.failure...)
		}
		if s.status == 'I' {
			s.ended()
		} else if s.status == 'T' {
			s.tx.failed = false // it was rolled back to a savepoint
			s.tx.block = true
		}
		if !s.queue.empty() { // what is answered must not be sent again with what isn't
			s.replay.valid = false
		}
		o.pass(start, end)
	case askEnd, prepareEnd:
		if len(s.failure) > 0 {
			// The error is reported now; all answers up to the client's own Sync or Query are left out.
			o.buf = append(o.own(), s.failure...)
		}
	case trialEnd:
		if w := s.trial; w != nil && w.inBlock && s.status == 'E' {
			s.blockFailed(w.failure)
		}
		s.tryEnd()
	}
}

// completes returns the type of the message that an answer completes.
func completes(kind byte) byte {
	switch kind {
	case '1':
		return 'P'
	case '2':
		return 'B'
	case '3':
		return 'C'
	}
	return 'D'
}
