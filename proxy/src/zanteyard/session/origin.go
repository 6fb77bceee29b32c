package session

import "zanteyard/wire"

// What a statement's names mean is tried before it is sent rewritten, and may change until it runs. So nothing that it
// reads is reported before the server has shown, in the description of this very run, that it is over the tables of its
// plan (plan.IsOver). A portal keeps what was bound to it, so a Describe of it before its Execute shows that. If the client
// sends none, the proxy does, in the same write.

// otherRelation is why reads of a statement are left out that was run over something else than was expected.
const otherRelation = "another relation has the name of a table"

// lacksDescription reports whether a portal has to be described before it is executed.
func (s *Session) lacksDescription(p *portal) bool {
	if p.hides == nil || p.described || !p.hides.Described() {
		return false
	}
	p.described = true
	return true
}

// shows takes the description of a result with hidden columns.
func (e *expectation) shows(columns []wire.Column) {
	p := e.hides
	is := len(columns) >= e.hidden && p.IsOver(columns[len(columns)-e.hidden:])
	if e.isOver = is; e.at != nil {
		e.at.isOver, e.at.shown = is, true
	}
}

// knowsTables reports whether the server has shown over which tables a statement with hidden columns runs.
func (e *expectation) knowsTables() bool {
	return e.isOver || e.at != nil && e.at.isOver || e.hides == nil || !e.hides.Described()
}

// isOverOthers is called when a statement was run over something else than was expected: it isn't rewritten any more before
// something is known to have changed.
func (s *Session) isOverOthers(e *expectation) {
	if e.at != nil && !e.at.shown { // the server hasn't said so
		return
	}
	if u := e.use; u != nil && u.state != failed {
		u.state, u.generation, u.reason = failed, s.trust.generation, otherRelation
		s.options.Shared.drop(s.trust.signature, u.plan)
	}
}
