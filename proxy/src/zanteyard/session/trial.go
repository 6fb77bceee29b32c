package session

import (
	"bytes"
	"time"

	"zanteyard/own"
	"zanteyard/plan"
	"zanteyard/record"
	"zanteyard/wire"
)

// trial is one series of messages that was sent at an idle moment.
type trial struct {
	began              time.Time
	generation, doubts uint64
	others             uint64 // what trust counted
	made               uint64 // what the audit had seen of changes of what names mean
	back               plan.Parts
	uses               []*use
	signature          []byte
	path               string
	level              record.Level
	levels             uint64
	mark               int64
	here               bool
	asked              bool // the ask ran
	failed             bool
	// In a block: how many had ended when it was sent, whether it was in doubt then what names refer to, and whether the
	// block's signature was another one than that from before it.
	inBlock        bool
	ends           uint64
	doubted, local bool
	done           chan struct{} // closed when the trial has ended
	failure        []byte        // the first error
}

// try appends a trial's messages, and records what is expected for them.
func (s *Session) try(out []byte) []byte {
	t := &s.trust
	w := &trial{began: clock(), generation: t.generation, doubts: t.doubts, others: t.others, back: t.back, levels: t.levels,
		mark: t.mark, done: make(chan struct{})}
	if s.options.Made != nil {
		w.made, _ = s.options.Made()
	}
	t.resettle, t.compared = false, w.began
	s.trial = w
	if s.status == 'T' {
		w.inBlock, w.ends, w.doubted, w.local = true, t.block.ends, t.doubt, t.block.local
		out = append(out, savepoint...)
		s.queue.once(expectation{kind: silent})
	}
	for _, name := range t.orphans {
		out = appendClose(out, name)
		s.queue.step('C', nil)
	}
	t.orphans = t.orphans[:0]
	if len(t.queue) > 0 && (!w.inBlock || len(s.next) > 0) {
		out = append(out, s.impatient...)
		s.queue.once(expectation{kind: silent})
	}
	out = append(out, signatureOf(w.mark)...)
	s.queue.once(expectation{kind: signatureRow})
	if !t.asks {
		// An ask that fails in a transaction would abort it, so it has to run here first.
		out = append(append(out, closeAsk...), askPrepare...)
		s.queue.step('C', nil)
		s.queue.step('P', nil)
		out = append(out, askRun...)
		s.queue.again(expectation{kind: silent})
		w.asked = true
	}
	for at := 0; at < len(t.queue) && len(w.uses) < trialsAtOnce; {
		u := t.queue[at]
		if w.inBlock && !s.isNext(u) {
			at++
			continue
		}
		t.queue = append(t.queue[:at], t.queue[at+1:]...)
		if u.generation != t.generation || u.state != waiting {
			continue
		}
		u.state, u.columns, u.allowed, u.costs, u.own = trying, false, false, nil, 0
		u.forms = nil
		w.uses = append(w.uses, u)
		out = s.tryOne(out, u)
	}
	if w.inBlock {
		s.queue.push(expectation{kind: blockPart, message: 'S'})
		out = append(append(append(out, syncMessage...), rollbackTo...), release...)
		s.queue.once(expectation{kind: silent})
		s.queue.once(expectation{kind: silent})
	}
	s.queue.push(expectation{kind: trialEnd, message: 'S'})
	return append(out, syncMessage...)
}

// isNext reports whether the client's next statement needs a plan. In a block no other one is tried: the next statement
// takes the same locks itself.
func (s *Session) isNext(u *use) bool {
	for _, one := range s.next {
		if one == u {
			return true
		}
	}
	return false
}

// tryOne appends the trial of one plan: first a query of its privileges, so that a missing one rarely causes an error
// in the server's log, then a Parse and Describe of a rewritten text.
func (s *Session) tryOne(out []byte, u *use) []byte {
	want := u.plan.Trial()
	if want.Privileges != "" {
		out = append(out, once(privilegeName, own.Planned(want.Privileges))...)
		s.queue.once(expectation{kind: privilegeRow, use: u})
	} else {
		u.allowed = true
	}
	texts, types := want.Statements, []byte{0, 0}
	plain := want.Plain
	if st := u.sample; st != nil && st.text != "" && st.plan.Shared() == u.plan && rows(u.plan) == u.plan {
		text, inserted := u.plan.Rewrite(st.text, st.tokens)
		texts = []string{text}
		if plain = st.text; want.Plain == "" || inserted == nil {
			plain = ""
		}
		if st.types != nil {
			types = st.types
		}
	}
	cost := ""
	if plain != "" && u.compares {
		cost = plan.Explained(trialName, plain, wire.Int16(types))
	}
	if u.compares || want.Plain == "" {
		u.sample = nil
	}
	for _, text := range texts {
		out = s.prepareTrial(out, u, text, types)
		out = append(out, describeTrial...)
		s.queue.push(expectation{kind: trialColumns, message: 'D', use: u})
		out = s.askCost(out, u, cost)
	}
	if cost != "" {
		out = s.prepareTrial(out, u, plain, types)
		out = s.askCost(out, u, cost)
	}
	s.queue.step('C', u)
	return append(out, closeTrial...)
}

// prepareTrial prepares a text, in place of the one before.
func (s *Session) prepareTrial(out []byte, u *use, text string, types []byte) []byte {
	s.queue.step('C', u)
	s.queue.step('P', u)
	return appendParse(append(out, closeTrial...), trialName, text, types)
}

// askCost asks what the prepared text costs. The server plans it for that, as it does whenever the client runs it: that may
// call what others have made.
func (s *Session) askCost(out []byte, u *use, cost string) []byte {
	if cost == "" {
		return out
	}
	if u.plan.Foreign {
		s.trust.runsForeign()
	}
	s.queue.once(expectation{kind: costRow, use: u})
	return append(out, once(costName, own.Planned(cost))...)
}

// described checks what a trial's statement returns: the last columns must be those that the plan adds.
func (u *use) described(m []byte, s *Session) {
	columns, ends, ok := wire.Columns(m, s.columns[:0], s.ends[:0])
	s.columns, s.ends = columns, ends
	p := rows(u.plan)
	n := len(columns) - u.hidden
	u.columns, u.own = ok && n >= 0 && (n == 0 || !p.AddsReturning), n
	if !u.columns {
		return
	}
	for i, kind := range p.HiddenTypes() {
		u.columns = u.columns && columns[n+i].Type == kind
	}
}

// tryError interprets an error in a trial. The messages up to its Sync are skipped.
func (s *Session) tryError(e *expectation, m []byte) {
	w := s.trial
	if w == nil {
		return
	}
	w.failed = true
	if w.failure == nil {
		w.failure = append(w.failure, m...)
	}
	if e.use == nil {
		if !passing(m) {
			s.trust.broken = true
		}
		return
	}
	if passing(m) && e.use.delays < mostDelays {
		e.use.delays++
		return // it waits for another idle moment
	}
	if e.use.columns && e.use.compares {
		e.use.compares, e.use.compared = false, true // all but the comparison has succeeded
		return
	}
	e.use.state, e.use.sample = failed, nil
	e.use.reason = "the audit's columns can't be read on its connection: " + string(wire.Field(m, 'C'))
}

// passing reports whether an error came from what others are doing at the moment: a lock, a cancel, a limit of time or
// memory.
func passing(m []byte) bool {
	class := wire.Field(m, 'C')
	return bytes.HasPrefix(class, []byte("55")) || bytes.HasPrefix(class, []byte("57")) ||
		bytes.HasPrefix(class, []byte("53")) || bytes.HasPrefix(class, []byte("40"))
}

// tryEnd is called when all of a trial's messages are answered.
func (s *Session) tryEnd() {
	defer s.greeted()
	t, w := &s.trust, s.trial
	s.trial = nil
	if w == nil {
		return
	}
	defer close(w.done)
	t.spent(w)
	if w.failed && w.signature == nil { // the next one would fail, too
		s.slow = clock().Add(greetingPause)
	}
	if w.generation != t.generation {
		w.leave() // something changed meanwhile; everything is tried again when it is used
		return
	}
	path := t.path
	if w.signature != nil {
		t.shows(w.mark, w.here)
		if s.options.Plans.Own(w.path) {
			w.path = ""
		}
	}
	isSame := w.doubts == t.doubts
	switch {
	case w.signature == nil || !isSame:
	case !w.inBlock || w.ends == t.block.ends:
		s.compares(w)
	case w.local || w.doubted || !bytes.Equal(w.signature, t.signature): // the block has ended
		t.doubtful(endedBlock)
		isSame = false
	}
	if w.asked && !w.failed && isSame {
		t.asks = true
	}
	switch {
	case w.signature == nil || bytes.Equal(w.signature, t.signature) && path == t.path:
		s.tried(w)
	default: // something else was tried than what is used now
		w.leave()
	}
}

// leave forgets what a trial was to show.
func (w *trial) leave() {
	for _, u := range w.uses {
		u.state = untried
	}
}

// compares takes over the signature that a trial has returned, if it is the connection's now.
func (s *Session) compares(w *trial) {
	t, b := &s.trust, &s.trust.block
	isPrivate := w.inBlock && (b.murky || s.tx.calls)
	isSame := bytes.Equal(w.signature, t.signature)
	switch {
	case t.signature == nil && w.path == t.path && !isPrivate:
		t.knows(w.signature)
	case !isSame || w.path != t.path || isPrivate != b.isPrivate || isPrivate && w.doubted:
		t.moves(w.signature, w.path, isPrivate)
		t.asks = false
	}
	t.signature, t.doubt, t.settled, t.made = w.signature, false, w.others, w.made
	b.isPrivate, b.local = isPrivate, w.inBlock && (w.local || w.doubted || !isSame)
	if w.inBlock {
		return
	}
	b.murky, b.redefined = false, false
	if w.levels == t.levels {
		s.level, t.unsure = level{w.level, t.levels, true}, false
	}
	t.learn(w, s.begins())
}

// tried takes over what was found about plans.
func (s *Session) tried(w *trial) {
	t := &s.trust
	for _, u := range w.uses {
		switch {
		case u.state != trying:
		case w.failed:
			u.state = waiting
			t.queue = append(t.queue, u)
		case u.allowed && u.columns && !u.compares && !u.compared && u.runs && rows(u.plan).Compared():
			// Only now is it certain that to explain it isn't an error. To plan it may call what the table's owner has made: that
			// must be no more than what the client's own run calls.
			u.state, u.compares = waiting, true
			t.queue = append(t.queue, u)
		case u.allowed && u.columns:
			u.unpriced = !u.compares && !u.compared && rows(u.plan).Compared()
			uncompared := !u.unpriced && rows(u.plan).ComparedByForm() && (len(u.costs) != 2 || len(u.forms) != 2)
			u.state, u.compares, u.compared, u.sample = tried, false, false, nil
			switch {
			case uncompared:
				u.state, u.reason = failed, plan.Uncompared
			case u.dear():
				u.state, u.reason, u.own = failed, rows(u.plan).WhyDear(), tooDear
			case len(u.forms) == 2 && (u.forms[0] != u.forms[1] || u.forms[0] == ""):
				u.state, u.reason, u.own = failed, rows(u.plan).WhyReordered(), reordered
			}
		case !u.allowed:
			u.state, u.sample, u.reason = failed, nil, "the connection's user may not read the audit's columns"
		default:
			u.state, u.sample, u.reason = failed, nil, "names refer to something else on its connection"
		}
		u.generation = t.generation
		if (u.state == tried && !u.unpriced || u.own < 0) && !t.doubt && !t.block.isPrivate {
			t.shared.add(t.signature, t.catalog, u)
		}
	}
}
