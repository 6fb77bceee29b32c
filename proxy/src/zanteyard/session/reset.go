package session

import (
	"encoding/json"
	"strings"

	"zanteyard/plan"
	"zanteyard/record"
)

// A pool resets its connection before its next user gets it. What a reset sets doesn't depend on what was set before: if
// a connection is as such a reset has left it once, then another one changes nothing, whether or not it succeeds. So
// what was tried stays tried, even for statements that are sent together with the reset.

// shown is what a signature says of a connection's parts.
type shown struct {
	settings, user string
	role           string
	temporary      string
}

func (t *trust) parts() (its shown, ok bool) {
	var all []string
	if err := json.Unmarshal(t.signature, &all); err != nil || len(all) != 6 {
		return its, false
	}
	return shown{strings.Join(all[:2], "\x00"), strings.Join(all[2:5], "\x00"), all[4], all[5]}, true
}

// initial is what the parts of a connection are after a reset, with the definitions of one catalog: settings of the
// server that begin to count make another one.
type initial struct {
	known   plan.Parts
	catalog uint64
	shown   shown
	level   record.Level
}

// learn takes over what a trial has shown of those parts that were as a reset leaves them when it was sent.
func (t *trust) learn(w *trial, level record.Level) {
	its, ok := t.parts()
	if !ok {
		return
	}
	back := t.back & w.back
	if t.fresh && its.role == "none" { // DISCARD ALL leaves no role, whichever one a connection begins with
		back |= plan.User
	}
	if i := &t.initial; i.catalog != t.catalog {
		*i = initial{catalog: t.catalog}
	}
	i := &t.initial
	if back&plan.Settings != 0 {
		i.shown.settings = its.settings
	}
	if back&plan.User != 0 {
		i.shown.user = its.user
	}
	if level == record.UnknownLevel {
		back &^= plan.Level
	} else if back&plan.Level != 0 {
		i.level = level
	}
	i.known |= back
}

// as returns which parts are certainly as a reset leaves them.
func (t *trust) as(level record.Level) plan.Parts {
	its, ok := t.parts()
	if t.doubt || !ok {
		return 0
	}
	var as plan.Parts
	if i := &t.initial; i.catalog == t.catalog {
		if its.settings == i.shown.settings {
			as |= plan.Settings
		}
		if its.user == i.shown.user {
			as |= plan.User
		}
		if level == i.level {
			as |= plan.Level
		}
		as &= i.known
	}
	if its.temporary == "" {
		as |= plan.Temporary
	}
	return as
}

// reset handles a statement that is about to be sent and only resets these parts. If not all of them are certainly as
// it leaves them, they are looked at again as soon as the connection is idle.
func (s *Session) reset(parts plan.Parts) {
	t := &s.trust
	as := plan.Parts(0)
	if s.nothingRuns() {
		as = t.as(s.begins())
	}
	if parts&plan.Level&^as != 0 {
		t.unsureLevel()
		t.wanted = true
	}
	if parts&^plan.Level&^as != 0 {
		t.changed(setSomething)
		t.wanted = true
	}
}

// nothingRuns reports whether no statement that was sent before can change anything any more.
func (s *Session) nothingRuns() bool {
	if s.status != 'I' || s.partial || s.copying || s.replay.running {
		return false
	}
	for i := s.queue.head; i < len(s.queue.list); i++ {
		if e := &s.queue.list[i]; e.kind == clients && strings.IndexByte("PBDCH", e.message) < 0 {
			return false
		}
	}
	return true
}

// resets notices what a statement that has run has reset.
func (t *transaction) did(p *plan.Plan, doubts uint64) {
	switch {
	case p == nil || p.Kind == plan.RollbackTo:
		t.resets = 0
	case p.Resets != 0:
		t.resets |= p.Resets
		t.doubts = doubts
	case p.ChangesNames || p.Unknown || p.Kind == plan.Set || p.Kind == plan.Definition:
		t.resets = 0
	case p.MayLevel || p.SetsDefault:
		t.resets &^= plan.Level
	}
}

// resetBy takes over what a transaction has reset that has ended.
func (t *trust) resetBy(it *transaction, outcome record.Outcome) {
	if outcome == record.Committed && it.resets != 0 && it.doubts == t.doubts {
		t.back |= it.resets
	}
}

// changed is called before something that may have changed what names refer to, or what the user may do, in a way that
// isn't known.
func (t *trust) changed(why cause) {
	t.back, t.fresh = 0, false
	t.doubtful(why)
}

// discarded is called before all prepared statements are dropped, the proxy's own, too. If they aren't, no harm is done.
func (t *trust) discarded() {
	t.orphans = t.orphans[:0]
}
