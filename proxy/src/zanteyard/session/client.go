package session

import (
	"zanteyard/condition"
	"zanteyard/plan"
	"zanteyard/record"
	"zanteyard/wire"
)

// fromClient takes whole messages from the client and returns what to send to the server. Called with writes and state
// locked.
func (s *Session) fromClient(o *output, batch []byte) []byte {
	o.begin(batch)
	for at := 0; at < len(batch); {
		end := at + wire.Length(batch[at:])
		m := batch[at:end]
		if s.skipping && m[0] != 'S' {
			o.pass(at, end)
			at = end
			continue
		}
		switch m[0] {
		case 'Q':
			s.query(o, m, at, end)
		case 'P':
			s.parse(o, m, at, end)
		case 'B':
			s.bind(o, m, at, end)
		case 'D':
			s.describe(o, m, at, end)
		case 'E':
			s.execute(o, m, at, end)
		case 'C':
			s.close(o, m, at, end)
		case 'S':
			o.pass(at, end)
			s.trust.syncs(s.status)
			s.queue.push(expectation{message: 'S'})
			s.open, s.skipping = false, false
		case 'F':
			o.pass(at, end)
			s.trust.changed(unparsed)
			s.trust.runsForeign()
			s.begin()
			s.queue.push(expectation{message: 'F', on: called})
		case 'c', 'f':
			o.pass(at, end)
			if !s.queue.empty() && s.queue.last().message != 'c' {
				s.queue.push(expectation{message: 'c'})
			}
		case 'H':
			o.pass(at, end)
			if len(m) > wire.Header { // malformed: it is owed an error, and what follows is left out
				s.open = true
				s.queue.push(expectation{message: 'H'})
			}
		default: // passwords, data of a COPY, Terminate
			o.pass(at, end)
		}
		at = end
	}
	return o.all()
}

// never is a value that trust.plans never has.
const never = ^uint64(0)

// What stands for a statement that wasn't looked at.
var (
	opaque  = &statement{unseen: "a statement that isn't known: it was prepared before a DISCARD ALL that failed, or not at all"}
	called  = &statement{unseen: "a function that is called by a message of its own"}
	tooLong = &statement{unseen: "too long to be looked at"}
)

// look makes a statement from a text.
func (s *Session) look(name string, text []byte) *statement {
	if !s.plain || s.options.Plans == nil {
		return &statement{name: name, others: s.trust.others, fetchesNot: !mentions(string(text), "fetch")}
	}
	ahead := s.ahead
	s.ahead = nil
	if ahead != nil && ahead.name == name && ahead.looked == s.trust.plans && ahead.text == string(text) {
		return ahead
	}
	st := &statement{name: name, text: string(text), looked: never, behind: s.somethingRuns(), others: s.trust.others}
	if !s.options.Auditing() && !s.names.fetchable() {
		return st // it may be run after an audit has begun
	}
	st.looked = s.trust.plans
	st.plan, st.tokens = s.options.Plans.PlanIn(s.where(), st.text)
	if st.plan != nil {
		st.use = s.trust.of(st.plan)
	}
	return st
}

// looking reports whether statements are looked at.
func (s *Session) looking() bool {
	return s.plain && s.options.Auditing() && s.mark() != 0 && !s.trust.taken
}

// fresh looks up a statement's plan again if the catalog or the search path has changed since.
func (s *Session) fresh(st *statement) {
	if st.text == "" || !s.looking() && !s.names.fetchable() { // a rewritten cursor outlives its audit
		return
	}
	st.looked = s.trust.plans
	p, tokens := s.options.Plans.PlanIn(s.where(), st.text)
	if p == st.plan {
		return
	}
	if !st.altered { // what is on the server stays as it is
		st.plan, st.tokens = p, tokens
		st.use = nil
		if p != nil {
			st.use = s.trust.of(p)
		}
	}
}

// usable reports whether a statement may be rewritten now.
func (s *Session) usable(st *statement) bool {
	return st.use != nil && s.looking() && rewritable(st) && !s.replay.plain && s.understands(st.plan) &&
		(st.plan.Kind != plan.Declare || len(s.names.cursors) < mostCursors) && s.trust.usable(st.use, st)
}

// rewritable excludes statements of SQL's PREPARE, which have a twin (executes).
func rewritable(st *statement) bool { return st.plan.Kind != plan.Prepare }

func (s *Session) query(o *output, m []byte, start, end int) {
	s.begin()
	text, _, ok := wire.Text(m[wire.Header:])
	if !ok {
		text = nil
	}
	st := s.look("", text)
	e := expectation{message: 'Q', on: st, use: st.use}
	s.runsUnseen(st)
	if st.plan != nil {
		s.ask(o, st.plan)
	}
	if st.kind() == plan.Several {
		s.several(o, st, &e, start, end)
	} else if st.kind() == plan.Execute {
		if s.before(st.plan); !s.executes(o, st, &e) {
			o.pass(start, end)
		}
	} else if s.before(st.plan); s.usable(st) {
		rewritten, _ := st.plan.Rewrite(st.text, st.tokens)
		st.altered, e.changed = true, true
		to := o.own()
		begin := len(to)
		o.buf = wire.End(wire.AppendText(wire.Begin(to, 'Q'), rewritten), begin)
		if st.plan.Kind != plan.Declare {
			e.hides, e.hidden = st.plan, st.use.hidden
		} else {
			s.names.hides, e.declares = true, true
		}
		if st.plan.Asked && s.wantsAbsent() {
			st.asked.key, st.asked.known = st.plan.AskedKey(st.text, st.tokens, nil, nil, nil)
			st.asked.known, st.asked.stale = st.asked.known && s.askable(st.asked.key), !s.isUpToDate()
		}
		e.asking = s.asksBy(st, condition.Arguments{})
	} else {
		o.pass(start, end)
		e.asking = s.asksUnchanged(st, condition.Arguments{})
	}
	if st.use != nil {
		st.use.runs = true
	}
	e.undo, e.previous = undoStatement, s.names.statements[""]
	s.names.setStatement("", nil) // a Query drops the unnamed statement
	s.trust.syncs(s.status)
	s.open = false
	s.queue.push(e)
}

// wantsAbsent reports whether it is useful to know which row wasn't found: only if the snapshot is that of the whole
// transaction.
func (s *Session) wantsAbsent() bool {
	level := s.tx.Level
	if !s.tx.started && level == record.UnknownLevel {
		level = s.begins()
	}
	return level != record.ReadCommitted && s.status == 'T'
}

func (s *Session) parse(o *output, m []byte, start, end int) {
	s.begin()
	name, rest, ok := wire.Text(m[wire.Header:])
	s.uses(string(name))
	text, types, ok2 := wire.Text(rest)
	if !ok || !ok2 {
		o.pass(start, end)
		s.queue.push(expectation{message: 'P'})
		return
	}
	st := s.look(string(nameTaken(name)), text)
	st.types = append([]byte(nil), types...)
	st.part = s.queue.parts
	if st.plan != nil && (st.plan.Kind == plan.Commit || st.plan.Kind == plan.PrepareTransaction) {
		s.ask(o, st.plan)
	}
	e := expectation{message: 'P', on: st, name: st.name}
	e.undo, e.previous = undoStatement, s.names.statements[st.name]
	if st.name == "" {
		e.cleared = true
		if s.usable(st) {
			rewritten, _ := st.plan.Rewrite(st.text, st.tokens)
			st.altered, e.changed = true, true
			o.buf = appendParse(o.own(), "", rewritten, types)
		} else {
			o.pass(start, end)
		}
	} else {
		s.replay.valid = false // an error doesn't undo it
		if st.use != nil && rewritable(st) && s.understands(st.plan) {
			s.trust.usable(st.use, st) // to be tried, since it is likely to be run again
		}
		o.pass(start, end)
	}
	s.names.setStatement(st.name, st)
	s.open = true
	s.queue.push(e)
}

func appendParse(to []byte, name, text string, types []byte) []byte {
	start := len(to)
	to = wire.AppendText(wire.AppendText(wire.Begin(to, 'P'), name), text)
	return wire.End(append(to, types...), start)
}

func (s *Session) bind(o *output, m []byte, start, end int) {
	s.begin()
	b := &s.bound
	ok := b.Parse(m)
	if !ok {
		o.pass(start, end)
		s.open = true
		s.queue.push(expectation{message: 'B'})
		return
	}
	s.uses(string(b.Statement))
	s.uses(string(b.Portal))
	st := s.names.statements[string(nameTaken(b.Statement))]
	p := &portal{on: st}
	if len(b.Portal) > 0 {
		p.name = portalName(b.Portal)
	}
	beyond := s.names.isBeyond(p.name)
	if st == nil {
		o.pass(start, end)
		s.bindTo(p, beyond)
		s.describeFetch(o, p, b.Portal, beyond)
		return
	}
	if k := st.kind(); k == plan.Commit || k == plan.PrepareTransaction {
		s.ask(o, st.plan)
	}
	if s.trust.plans != st.looked {
		s.fresh(st)
	}
	may := s.usable(st)
	// SQL's FETCH and MOVE know a portal that has a name, and to them one with RETURNING is another.
	may = may && !beyond && (p.name == "" || !st.plan.AddsReturning)
	if st.use != nil {
		st.use.runs = true
	}
	if st.name == "" && !st.altered {
		may = false // it was prepared unchanged: the plan has become usable since
	}
	if st.name != "" && !st.made && st.part != s.queue.parts {
		may = false // the part that prepares it may fail, and its name then stands for another one, or nothing
	}
	if s.status == 'E' && s.queue.empty() {
		may = may && st.name == "" // it fails: by the client's own Bind, not by what a twin needs before it
	}
	if n := len(b.Results) / 2; may && n > 1 && n != st.use.own {
		may = st.plan.AddsReturning // otherwise the server refuses it, and its error says how many columns there are
	}
	switch {
	case st.altered && !may:
		// It was prepared rewritten, and something has changed since: the client's own text is prepared in its place.
		s.original(o, st)
		o.pass(start, end)
	case st.altered || may:
		s.bindHidden(o, b, st, p)
	case st.kind() == plan.Fetch && s.names.cursor(st.plan.Name) != nil:
		p.binary = b.Binary() // its rows have hidden columns
		o.buf = b.Append(o.own(), st.name, hiddenColumns(s.names.cursor(st.plan.Name).plan))
	default:
		o.pass(start, end)
		p.asking = s.asksUnchanged(st, s.arguments(b, st))
	}
	if s.options.Policy.Parameters && !s.options.Policy.Redacts && st.plan != nil && !beyond {
		p.parameters, p.more = texts(b, st.types)
	}
	s.bindTo(p, beyond)
	s.describeFetch(o, p, b.Portal, beyond)
}

// describeFetch appends a Describe of a portal that may be a FETCH, directly behind its Bind.
func (s *Session) describeFetch(o *output, p *portal, name []byte, beyond bool) {
	if beyond || p.hides != nil || !s.mayBeFetch(p.on) {
		return
	}
	o.buf = appendDescribePortal(o.own(), name)
	s.queue.push(expectation{kind: portalColumns, message: 'D', at: p})
}

// bindTo records a portal that was bound; beyond the bound for portals it isn't known.
func (s *Session) bindTo(p *portal, beyond bool) {
	s.open = true
	s.binds(p)
	if beyond {
		s.names.forgot = s.names.forgot || p.on == nil || p.on.plan == nil || p.on.plan.Kind == plan.Fetch
		s.queue.push(expectation{message: 'B', on: p.on})
		return
	}
	s.queue.push(expectation{message: 'B', undo: undoPortal, name: p.name, before: s.names.portals[p.name], on: p.on,
		changed: p.changed})
	s.names.setPortal(p.name, p)
}

// bindHidden binds to the statement that has hidden columns: the unnamed one, or the twin of a named one.
func (s *Session) bindHidden(o *output, b *wire.Bind, st *statement, p *portal) {
	name := st.name
	if name != "" {
		name = s.twin(o, st)
	}
	p.binary, p.changed = b.Binary(), true
	if st.plan.Kind != plan.Declare {
		p.hides, p.hidden, p.own = st.plan, st.use.hidden, st.use.own
	}
	if st.plan.Kind == plan.Declare || p.name != "" { // SQL's FETCH knows the portal by its name
		s.names.hides = true
	}
	if st.plan.AddsReturning {
		b.Results, p.binary = nil, false // the client's formats are for no columns
	}
	o.buf = b.Append(o.own(), name, p.hidden)
	if st.plan.Asked && s.wantsAbsent() {
		p.asked.key, p.asked.known = st.plan.AskedKey(st.text, st.tokens, b.Parameters, s.formats(b), declared(st.types))
		p.asked.known, p.asked.stale = p.asked.known && s.askable(p.asked.key), !s.isUpToDate()
	}
	if st.plan.Follows() {
		p.asking = s.asksBy(st, s.arguments(b, st))
	}
}

// formats returns the formats of a Bind's parameters.
func (s *Session) formats(b *wire.Bind) []int16 {
	to := s.int16s[:0]
	for i := 0; i+1 < len(b.Formats); i += 2 {
		to = append(to, int16(b.Formats[i+1]))
	}
	s.int16s = to
	return to
}

// declared returns the types of parameters from the end of a Parse.
func declared(types []byte) []uint32 {
	var all []uint32
	for i := 2; i+4 <= len(types); i += 4 {
		all = append(all, uint32(wire.Int32(types[i:])))
	}
	return all
}

// twin returns the name of a named statement's rewritten twin, which is made at its first use.
func (s *Session) twin(o *output, st *statement) string {
	if st.twin != "" && st.twinOf == st.plan && st.twinIn == s.trust.era && (st.twinMade || st.twinPart == s.queue.parts) {
		return st.twin
	}
	to := o.own()
	if st.twin != "" {
		to = appendClose(to, st.twin)
		s.queue.push(expectation{kind: silent, message: 'C'})
	}
	// If definitions have changed, the server may refuse to run what the client prepared: then this Describe returns that
	// error, as the client's Bind would. The twin is new, and would run.
	to = appendDescribe(to, st.name)
	s.queue.push(expectation{kind: twin, message: 'D', on: st})
	s.names.twins++
	st.twin, st.twinOf, st.twinIn = twinName(s.names.twins), st.plan, s.trust.era
	st.twinMade, st.twinPart = false, s.queue.parts
	text, _ := st.plan.Rewrite(st.text, st.tokens)
	types := st.types
	if st.parameters != nil {
		types = st.parameters
	}
	o.buf = appendParse(to, st.twin, text, types)
	s.queue.push(expectation{kind: twin, message: 'P', on: st, changed: true, undo: undoTwin, name: st.twin})
	return st.twin
}

func appendClose(to []byte, name string) []byte {
	start := len(to)
	return wire.End(wire.AppendText(append(wire.Begin(to, 'C'), 'S'), name), start)
}

func appendDescribe(to []byte, name string) []byte {
	start := len(to)
	return wire.End(wire.AppendText(append(wire.Begin(to, 'D'), 'S'), name), start)
}

// original prepares the client's own text again as the unnamed statement.
func (s *Session) original(o *output, st *statement) {
	o.buf = appendParse(o.own(), "", st.text, st.types)
	s.queue.push(expectation{kind: reparse, message: 'P', on: st, undo: undoAltered})
	st.altered = false
}

func (s *Session) describe(o *output, m []byte, start, end int) {
	s.begin() // the server begins a transaction, and may take its snapshot
	o.pass(start, end)
	s.open = true
	e := expectation{message: 'D'}
	if len(m) > wire.Header {
		name, _, _ := wire.Text(m[wire.Header+1:])
		if m[wire.Header] == 'S' {
			st := s.names.statements[string(nameTaken(name))]
			e.on = st
			if st != nil && st.altered && st.kind() != plan.Declare {
				e.hides, e.hidden = st.plan, st.use.hidden
			}
		} else {
			p := s.names.portals[portalName(name)]
			if e.mayBeCursor = s.mayBeCursor(name, p); p != nil {
				e.at, e.on, e.hides, e.hidden = p, p.on, p.hides, p.hidden
				p.described = true
			}
		}
	}
	s.queue.push(e)
}

func (s *Session) execute(o *output, m []byte, start, end int) {
	s.begin()
	s.open = true
	name, _, _ := wire.Text(m[wire.Header:])
	p := s.names.portals[portalName(name)]
	e := expectation{message: 'E', on: opaque}
	if p != nil {
		e.at, e.on, e.hides, e.hidden, e.binary, e.changed = p, p.on, p.hides, p.hidden, p.binary, p.changed
		e.asking = p.asking
		if p.on != nil {
			e.declares = p.changed && p.on.kind() == plan.Declare
			e.use = p.on.use
			e.replaced = s.runsPortal(p)
		}
	}
	if p == nil || e.on == nil {
		e.on = opaque
		s.trust.changed(unparsed)
		s.trust.runsForeign()
	}
	s.runsUnseen(e.on)
	isCursor := s.mayBeCursor(name, p) && s.mayRunCursor(name) &&
		(p == nil || !s.mayBeFetch(p.on) && p.on.kind() != plan.Execute) // to describe these two may fail
	if isCursor || p == nil && s.mayFetch(e.on, nil) || p != nil && s.lacksDescription(p) {
		o.buf = appendDescribePortal(o.own(), name)
		s.queue.push(expectation{kind: portalColumns, message: 'D', at: p})
	}
	if e.hides != nil && e.hides.AddsReturning && len(m) >= wire.Header+5 {
		// The client's statement returned no rows, so its limit meant nothing; now that it returns rows, the limit would mean
		// PortalSuspended.
		to := append(o.own(), m[:len(m)-4]...)
		o.buf = append(to, 0, 0, 0, 0)
	} else {
		o.pass(start, end)
	}
	s.queue.push(e)
}

func (s *Session) close(o *output, m []byte, start, end int) {
	o.pass(start, end)
	s.open = true
	e := expectation{message: 'C'}
	if len(m) <= wire.Header {
		s.queue.push(e)
		return
	}
	name, _, _ := wire.Text(m[wire.Header+1:])
	s.uses(string(name))
	var gone *statement
	if m[wire.Header] == 'S' {
		s.replay.valid = false
		if gone = s.names.statements[string(nameTaken(name))]; gone != nil {
			e.undo, e.name, e.previous = undoStatement, gone.name, gone
			s.names.setStatement(gone.name, nil)
		}
	} else {
		e.closes = portalName(name)
		if p := s.names.portals[e.closes]; p != nil {
			e.undo, e.name, e.before = undoPortal, p.name, p
			s.names.setPortal(p.name, nil)
		}
	}
	s.queue.push(e)
	if gone != nil && gone.twin != "" {
		o.buf = appendClose(o.own(), gone.twin)
		s.queue.push(expectation{kind: silent, message: 'C'})
		gone.twin = ""
	}
}
