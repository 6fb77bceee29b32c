package session

import (
	"bytes"
	"time"

	"zanteyard/plan"
	"zanteyard/wire"
)

// A statement that wasn't tried on its connection, or in the state that it is in, waits for its trial, which takes as long
// as one answer of the server. What others have tried in the same state needn't be tried again (Shared).
//
// In a block something may change what names refer to, and what is tried must be tried there: SET LOCAL, set_config,
// DO. So trials are made in blocks, too. They must not be able to do the block any harm: all of a trial is undone by a
// savepoint of its own, and nothing is asked before the block has its snapshot, unless the next statement takes it.

// block is what is known of the block that is open, as of what was sent last.
type block struct {
	ends uint64 // counts what was sent that ends a block, or undoes a part of it
	// local means that the connection's signature is that of the block: after the block it may be another one.
	local bool
	// isPrivate means that what is tried now is of no use to other connections or blocks: definitions that this block has
	// changed may be what it depends on.
	isPrivate bool
	murky     bool // something that isn't looked into, such as DO, may have changed definitions
	redefined bool // definitions were changed: nothing is tried until the block's end
}

const (
	mostAsks = 3 // trials before one statement in a block, or while its client is silent
)

// undoes is called before something that ends a block or undoes a part of it.
func (t *trust) undoes() {
	t.block.ends++
	if t.block.local || t.block.isPrivate {
		t.block.local = false
		t.changed(endedBlock)
	}
}

// free reports whether a trial may be made or is under way, outside of a block or in one, and the client has nothing under
// way.
func (s *Session) free() bool {
	isBlock := s.status == 'T' && s.tx.block && !s.tx.parted && !s.trust.block.redefined && len(s.owed) == 0
	return (isBlock || s.status == 'I') && !s.open && !s.skipping && !s.blind.Load() && !s.owes() &&
		(s.queue.empty() || s.trial != nil && s.trial.inBlock == isBlock)
}

// pauses reports whether there is something to ask in a block while its client is silent. No plan is tried then: that
// locks tables, which the block may never use.
func (s *Session) pauses() bool {
	t := &s.trust
	return s.status == 'T' && s.cancels.Load() == 0 && s.tx.queried && s.queue.empty() && s.asked < mostAsks && s.free() &&
		!t.broken && !t.taken && !t.elsewhere && (t.doubt || t.block.local || !s.tx.calls) &&
		t.wanted && (t.doubt || !t.asks || !t.here)
}

// needsTrial reports whether a batch of messages begins with a statement that is seen only if a trial is made first, or
// with the beginning of a block if it isn't known what names refer to. It queues the statement's plan for the trial. Called
// with state locked.
func (s *Session) needsTrial(batch []byte) bool {
	t := &s.trust
	s.ahead, s.next = nil, s.next[:0]
	if !s.free() || s.cancels.Load() > 0 || s.options.Bound <= 0 || !s.slow.IsZero() && clock().Before(s.slow) {
		return false
	}
	s.catchUp()
	if t.broken || t.elsewhere || !s.looking() {
		return false
	}
	inDoubt := t.doubt || !t.asks || !t.here
	if !inDoubt && s.status == 'T' && s.tx.calls && !t.block.local {
		return false
	}
	s.runs = runs(batch)
	for st := (*statement)(nil); len(batch) > 0; {
		st, batch = s.firstOf(batch, st)
		if s.status != 'I' || st.kind() != plan.Begin {
			return st != nil && s.needs(st, inDoubt)
		}
		if inDoubt {
			return true
		}
	}
	return false
}

// needs is needsTrial for one statement.
func (s *Session) needs(st *statement, inDoubt bool) bool {
	switch st.kind() {
	case plan.Several:
		return s.partsNeed(st, inDoubt)
	case plan.Commit, plan.PrepareTransaction:
		return inDoubt && s.tx.queried && s.tx.Number == 0 && (s.tx.wrote || s.tx.MayHaveWritten)
	case plan.Execute:
		st = s.names.prepared[st.plan.Name]
		if st == nil || st.use == nil || !s.understands(st.plan) || s.trust.usable(st.use, st) {
			return false
		}
	default:
		if st.use == nil || !rewritable(st) || !s.understands(st.plan) || s.usable(st) {
			return false
		}
	}
	st.use.runs = st.use.runs || s.runs
	s.next = append(s.next, st.use)
	return inDoubt && st.use.state != putOff || st.use.waits()
}

// waits reports whether the plan is seen after the next trial, as far as is known.
func (u *use) waits() bool { return (u.state == waiting || u.state == trying) && u.delays == 0 }

// partsNeed is needs for several statements. In a block without a snapshot only the first of them counts: it takes the
// snapshot, and another one may set the level first.
func (s *Session) partsNeed(st *statement, inDoubt bool) bool {
	need := false
	for i, part := range st.tokens.Parts() {
		if i > 0 && s.status == 'T' && !s.tx.queried {
			break
		}
		if p := part.Plan; p == nil || p.ChangesNames || p.Unknown || p.Kind == plan.Definition {
			break // what follows isn't rewritten in any case
		}
		one := &statement{text: st.text[part.From:part.To], plan: part.Plan, tokens: part.Tokens, looked: s.trust.plans,
			use: s.trust.of(part.Plan)}
		if one.use != nil && rewritable(one) && s.understands(one.plan) && !s.usable(one) {
			one.use.runs = true
			s.next = append(s.next, one.use)
			need = need || inDoubt && one.use.state != putOff || one.use.waits()
		}
	}
	return need
}

// firstOf returns the first statement of a batch of messages, and what follows it: the one that is parsed, bound or queried
// first, apart from the binding of the one before; nil if it isn't known.
func (s *Session) firstOf(batch []byte, before *statement) (st *statement, rest []byte) {
	for len(batch) > 0 {
		m := batch[:wire.Length(batch)]
		batch = batch[len(m):]
		switch m[0] {
		case 'Q', 'P':
			name, rest, ok := []byte(nil), m[wire.Header:], true
			if m[0] == 'P' {
				name, rest, ok = wire.Text(rest)
			}
			text, types, ok2 := wire.Text(rest)
			if !ok || !ok2 {
				return nil, nil
			}
			st := s.look(string(nameTaken(name)), text)
			if s.ahead = st; m[0] == 'P' {
				st.types = append([]byte(nil), types...)
			}
			return st, batch
		case 'B':
			_, name, _, _ := wire.Names(m)
			if before != nil && string(nameTaken(name)) == before.name {
				continue
			}
			st := s.names.statements[string(nameTaken(name))]
			if st == nil || st.kind() != plan.Begin && st.name == "" && !st.altered {
				return nil, nil
			}
			if s.trust.plans != st.looked {
				s.fresh(st)
			}
			return st, batch
		case 'C', 'D', 'E', 'S':
		default:
			return nil, nil
		}
	}
	return nil, nil
}

// runs reports whether messages run something, and don't only prepare it.
func runs(batch []byte) bool {
	for ; len(batch) > 0; batch = batch[wire.Length(batch):] {
		if batch[0] == 'Q' || batch[0] == 'B' {
			return true
		}
	}
	return false
}

// tryFirst makes a trial before the client's next statement, or waits for the one that is under way, but no longer than
// until that time. Called with writes and state locked, it unlocks both meanwhile.
func (s *Session) tryFirst(until time.Time) {
	var out []byte
	if s.trial == nil {
		out = s.try(nil)
	}
	w := s.trial
	s.state.Unlock()
	if len(out) > 0 {
		s.server.Write(out) // an error shows at the next read
	}
	s.writes.Unlock()
	timer := time.NewTimer(time.Until(until))
	defer timer.Stop()
	isLate := false
	select {
	case <-w.done:
	case <-timer.C:
		isLate = true
	}
	s.writes.Lock()
	s.state.Lock()
	if isLate {
		s.slow = clock().Add(greetingPause)
	}
}

// blockFailed handles an error in what surrounds a trial, such as one caused by a cancel request at that moment. The
// error has aborted the client's block, so the client gets it as the answer to its next statement.
func (s *Session) blockFailed(m []byte) {
	s.tx.failed, s.tx.erred = true, true
	s.owed = append(s.owed[:0], m...)
}

// undoneUnasked reports whether a COMMIT was answered with ROLLBACK because of such an error. Many drivers would take
// that for success, so the client gets the error in place of all answers up to ReadyForQuery.
func (s *Session) undoneUnasked(e *expectation, m []byte) bool {
	tag, _, _ := wire.Text(m[wire.Header:])
	if p := e.current(); len(s.owed) == 0 || string(tag) != "ROLLBACK" ||
		p != nil && (p.Kind == plan.Rollback || p.Kind == plan.RollbackTo) {
		return false
	}
	s.failure, s.owed = append(s.failure[:0], s.owed...), s.owed[:0]
	return true
}

// endsUnseen reports whether a statement that isn't understood has ended the transaction, or begun one: what follows it
// may be another transaction than what precedes it.
func endsUnseen(p *plan.Plan, tag []byte) bool {
	if p != nil && !p.Unknown {
		return false
	}
	switch string(tag) {
	case "COMMIT", "ROLLBACK", "BEGIN", "START TRANSACTION", "PREPARE TRANSACTION":
		return true
	}
	return false
}

// takesSnapshot reports whether a statement with this tag has taken a snapshot.
func takesSnapshot(tag []byte) bool {
	verb, _, _ := bytes.Cut(tag, []byte(" "))
	switch string(verb) {
	case "SELECT", "INSERT", "UPDATE", "DELETE", "MERGE", "DO":
		return true
	}
	return false
}
