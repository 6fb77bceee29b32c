package session

import (
	"bytes"

	"zanteyard/plan"
	"zanteyard/wire"
)

// replay handles a rewritten statement that fails although it was tried: somebody revoked a right or changed a
// definition meanwhile, and the proxy didn't hear of it in time. Outside a transaction block the error has undone
// everything sent since the last one, so the client's own messages are sent again unchanged, and the client gets the
// answers to those. In a block the error has aborted the transaction, and the client gets the error.
type replay struct {
	raw     []byte // the client's messages since the connection was idle
	valid   bool   // raw has all of them, and none has an effect that outlasts an error
	passed  int    // messages passed on in answer, other than rows and completions
	given   bool   // a row or completion was passed on
	failure []byte // the error, until it is known whether the messages can be sent again
	running bool   // the client's next messages wait
	due     bool   // they are to be sent now
	plain   bool   // they are being sent unchanged
	skip    int    // number of answers that were passed on the first time
}

// sent records what the client sends. first means that nothing was under way before.
func (r *replay) sent(batch []byte, long, first bool) {
	if first {
		r.raw, r.valid, r.passed, r.given = r.raw[:0], true, 0, false
	}
	if r.valid = r.valid && !long && len(r.raw)+len(batch) <= mostAgain; r.valid {
		r.raw = append(r.raw, batch...)
	}
}

// pass reports whether to pass on an answer that is neither a row nor a completion.
func (r *replay) pass() bool {
	if r.skip > 0 {
		r.skip--
		return false
	}
	r.passed++
	return true
}

// again reports whether an error may come from the rewriting and can be undone. If so, it is held until ReadyForQuery
// says that no block is open.
func (s *Session) again(e *expectation, m []byte) bool {
	if !e.altered() || !rewriting(m) {
		return false
	}
	if u := e.use; u != nil { // also in a block: it would fail in the next one as well
		u.state, u.generation = failed, s.trust.generation
		u.reason = "it failed once with the hidden columns"
		s.options.Shared.drop(s.trust.signature, u.plan)
	}
	r := &s.replay
	if !r.valid || r.given || s.partial || s.open || s.status != 'I' || !isUndone(e.current(), m) {
		return false
	}
	for i := s.queue.head; i < len(s.queue.list)-1; i++ {
		if k := s.queue.list[i].message; k == 'S' || k == 'Q' || k == 'F' || k == 'c' {
			return false // something follows it
		}
	}
	if last := s.queue.list[len(s.queue.list)-1].message; e.message != 'Q' && last != 'S' {
		return false // the Sync hasn't been sent, and mustn't wait for its own answer
	}
	r.running = true
	r.failure = wire.AppendMoved(r.failure[:0], m, e.moved())
	return true
}

// rewriting reports whether an error can come from hidden columns: names, rights, types, limits, a twin that is
// missing. One that comes from inside a function, a trigger or a policy has a context: it is the statement's own, which may
// have done what no rollback undoes, such as taking a number of a sequence.
func rewriting(m []byte) bool {
	if len(wire.Field(m, 'W')) > 0 {
		return false
	}
	code := wire.Field(m, 'C')
	for _, class := range []string{"42", "0A", "54", "26", "XX"} {
		if bytes.HasPrefix(code, []byte(class)) {
			return true
		}
	}
	return false
}

// isUndone reports whether an error has surely undone all that its statement did. A rollback doesn't give the numbers of a
// sequence back, nor a session's lock: so either the statement can't do more than read, or the error came before it ran.
func isUndone(p *plan.Plan, m []byte) bool {
	if p != nil && p.Kind == plan.Select && !p.Volatile && !p.Calls && !p.MayWriteUnseen && len(p.Unseen) == 0 {
		return true
	}
	return beforeItRuns[string(wire.Field(m, 'R'))]
}

// beforeItRuns are the server's routines that refuse a statement by its names, types and rights, when it is analysed or
// prepared to run.
var beforeItRuns = map[string]bool{
	"FetchPreparedStatement":  true, // a twin that is missing
	"exec_bind_message":       true,
	"RevalidateCachedQuery":   true, // its result has other columns by now
	"aclcheck_error":          true,
	"errorMissingColumn":      true,
	"errorMissingRTE":         true,
	"parserOpenTable":         true,
	"scanRTEForColumn":        true, // a name with several meanings
	"scanNSItemForColumn":     true,
	"colNameToVar":            true,
	"scanNameSpaceForRefname": true,
	"ParseFuncOrColumn":       true,
	"op_error":                true,
}

// sendAgain sends the client's own messages. While the replay is running, nobody else writes to the server.
func (s *Session) sendAgain() error {
	s.state.Lock()
	r := &s.replay
	r.due, r.plain, r.valid = false, true, false
	out := s.fromClient(&output{}, r.raw) // not toServer: the holder of writes may still be using that
	r.plain, r.skip = false, r.passed
	s.state.Unlock()
	_, err := s.server.Write(out)
	s.state.Lock()
	r.running = false
	s.waiting.Broadcast()
	s.state.Unlock()
	return err
}
