package session

import (
	"strings"

	"zanteyard/plan"
)

// before handles a statement that is about to be sent: whatever it may change isn't relied on from here on, whether or
// not it succeeds.
func (s *Session) before(p *plan.Plan) {
	was := s.trust.era
	s.changes(p)
	if s.queue.era = s.trust.era; p != nil && p.Kind == plan.Fetch {
		s.queue.era = was // a cursor can't be replaced while its rows are fetched
	}
}

func (s *Session) changes(p *plan.Plan) {
	t := &s.trust
	if p == nil {
		t.block.murky = true
		t.changed(unparsed)
		t.runsForeign()
		return
	}
	s.uses(p.Name)
	if s.isForeign(p) {
		t.runsForeign()
	}
	b := &t.block
	b.murky = b.murky || p.Unknown || p.ChangesNames && !p.Settings
	switch p.Kind {
	case plan.Several:
		for _, part := range p.Parts {
			s.before(part)
		}
		return
	case plan.Commit, plan.Rollback, plan.PrepareTransaction:
		t.undoes()
		b.murky, b.redefined = false, false
		t.foreign, t.begun, t.declared = false, p.Chain, nil
	case plan.RollbackTo:
		t.undoes()
	case plan.Definition:
		t.forget()
		s.defines, b.redefined = true, true
	case plan.DiscardAll:
		s.names.discarded()
		t.discarded()
	case plan.Deallocate:
		s.deallocated(p.Name)
	case plan.Declare:
		if !p.Foreign {
			t.declares(p.Name)
		}
	case plan.Begin:
		t.wanted, t.begun = true, true
	}
	if p.Resets != 0 {
		s.reset(p.Resets)
		return
	}
	if p.MayLevel || p.SetsDefault {
		t.back &^= plan.Level
	}
	if p.MayLevel {
		t.unsureLevel()
	}
	switch {
	case p.Unknown:
		t.changed(unparsed)
	case p.ChangesNames && p.Kind == plan.Definition:
		t.changed(newDefinitions)
	case p.ChangesNames || p.Kind == plan.Set:
		t.changed(setSomething)
	}
}

// isForeign reports whether a statement may run what others have made.
func (s *Session) isForeign(p *plan.Plan) bool {
	switch p.Kind {
	case plan.Fetch:
		of := s.names.cursors[p.Name] // another one may be in the place of one from an older era
		return !s.trust.declared[p.Name] && (of == nil || of.plan.Foreign || of.era != s.trust.era)
	case plan.Execute:
		of := s.names.prepared[p.Name]
		return of == nil || of.plan == nil || of.plan.Foreign || of.others != s.trust.others
	case plan.Commit, plan.PrepareTransaction:
		return s.trust.foreign // by triggers that are deferred
	case plan.Several:
		return false // each part is asked for
	}
	return p.Foreign
}

// runsForeign is called before something that may run any statement: it could put another statement in the place of one
// of the proxy's own, and another cursor in the place of one that is known. So the former are prepared again before they
// are used, and what the latter return isn't reported.
func (t *trust) runsForeign() {
	t.era++
	t.others++
	t.foreign, t.declared = true, nil
}

// binds is called for each portal that is bound. The server plans its statement by then, and that may call what others
// have made. A statement of the client's own that was prepared before such a one ran may be another one by now.
func (s *Session) binds(p *portal) {
	if st := p.on; st != nil {
		p.mayBeOther = st.name != "" && !p.changed && st.others != s.trust.others && !st.isUtility()
		if k := st.kind(); p.mayBeOther || (k == plan.Select || k == plan.Write) && st.plan.Foreign {
			s.trust.runsForeign()
		}
	}
	p.others = s.trust.others
}

// isUtility reports whether a statement is one that SQL's PREPARE can't make, and whose tag says so: then another one can't
// have its name without having another tag, too.
func (st *statement) isUtility() bool {
	switch st.kind() {
	case plan.Begin, plan.Commit, plan.Rollback, plan.PrepareTransaction, plan.Savepoint, plan.RollbackTo, plan.Release,
		plan.Declare, plan.Fetch, plan.CloseCursor, plan.Prepare, plan.Deallocate, plan.DiscardAll, plan.Copy, plan.Empty:
		return true
	case plan.Other:
		return st.plan != nil && !st.plan.Unknown // SHOW, for instance
	}
	return false
}

// isOther reports whether a tag shows that another statement has the name of one that controls transactions. Whoever has
// put it there may have replaced anything.
func isOther(st *statement, tag []byte) bool {
	if st == nil || st.name == "" || !st.isUtility() {
		return false
	}
	switch verb, _ := counted(tag); verb {
	case "SELECT", "INSERT", "UPDATE", "DELETE", "MERGE":
		return true
	}
	return false
}

// runsPortal is called before a portal is run, and reports whether its name may stand for another one by now. What it runs
// itself can't replace it.
func (s *Session) runsPortal(p *portal) bool {
	p.replaced = p.replaced || p.others != s.trust.others
	if p.mayBeOther || p.replaced {
		s.trust.runsForeign()
	}
	s.before(p.on.plan)
	p.others = s.trust.others
	return p.replaced
}

// mostDeclared limits the cursors that are known before they are declared.
const mostDeclared = 256

// declares is called before a cursor is declared that doesn't run what others have made.
func (t *trust) declares(name string) {
	if t.declared == nil || len(t.declared) >= mostDeclared {
		t.declared = map[string]bool{}
	}
	t.declared[name] = true
}

// syncs is called before a Sync. If it ends a transaction, deferred triggers run.
func (t *trust) syncs(status byte) {
	if !t.foreign || t.begun {
		return
	}
	t.era++
	t.others++
	t.foreign = status == 'T'
}

// uses notices a name that the client uses. By one of the proxy's own it could replace what the proxy asks, and so have
// anything reported: nothing more of the connection is.
func (s *Session) uses(name string) {
	if len(name) > len(reserved) && strings.HasPrefix(name, reserved) && (name[len(reserved)] == '.' || name[len(reserved)] == '_') {
		s.distrust()
	}
}

// distrust has nothing more of the connection reported.
func (s *Session) distrust() {
	s.trust.taken = true
	s.trust.doubtful(setSomething)
}

// deallocated forgets a statement that SQL's DEALLOCATE names. Its twin is closed at an idle moment.
func (s *Session) deallocated(name string) {
	st := s.names.statements[name]
	if st == nil {
		st = s.names.prepared[name]
	}
	if st == nil || name == "" {
		return
	}
	s.names.setStatement(name, nil)
	s.names.set(s.names.prepared, name, nil)
	if st.twin != "" {
		s.trust.orphans = append(s.trust.orphans, st.twin)
		st.twin = ""
	}
}
