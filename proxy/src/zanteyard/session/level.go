package session

import (
	"regexp"
	"strings"

	"zanteyard/plan"
	"zanteyard/record"
)

// level is the isolation level that a connection's transactions begin at, unless they say otherwise.
type level struct {
	its   record.Level
	at    uint64 // what trust.levels counted when it was asked for, or set: it is unknown once that counts more
	known bool
}

// begins returns the level that a transaction begins at now, UnknownLevel if it isn't known.
func (s *Session) begins() record.Level {
	if !s.level.known || s.level.at != s.trust.levels {
		return record.UnknownLevel
	}
	return s.level.its
}

// starts is called for each statement that has run: the first one of a transaction finds its level.
func (s *Session) starts() {
	t := &s.tx
	if !t.started {
		t.started = true
		if t.Level == record.UnknownLevel {
			t.Level = s.begins()
		}
	}
}

// levels handles what a statement that has run sets.
func (s *Session) levels(p *plan.Plan, e *expectation) {
	t := &s.tx
	switch {
	case t.parted:
		if p.SetsDefault {
			t.sets = level{record.UnknownLevel, e.levels, true}
		}
	case p.Level != record.UnknownLevel:
		t.Level = p.Level
	case p.SetsLevel:
		t.Level = namedIn(e.text())
	case p.SetsDefault:
		t.sets = level{p.DefaultLevel, e.levels, true}
		if p.DefaultLevel == record.UnknownLevel {
			t.sets.its = namedIn(e.text())
		}
	case p.Kind == plan.RollbackTo:
		t.sets.its = record.UnknownLevel // it may be undone
	}
}

// set takes over what the transaction has set, unless it was undone.
func (s *Session) set(outcome record.Outcome) {
	its := s.tx.sets
	switch {
	case !its.known || outcome == record.Aborted && !s.tx.parted:
		return
	case s.tx.parted && outcome != record.Committed: // a part of it was undone
		its.its = record.UnknownLevel
	}
	s.level = its
	s.trust.unsure = s.trust.unsure || its.its == record.UnknownLevel
}

// text is that of the statement that is being answered.
func (e *expectation) text() string {
	switch {
	case e.part < len(e.pieces):
		return e.pieces[e.part].text
	case e.on == nil:
		return ""
	}
	return e.on.text
}

var setsByName = regexp.MustCompile(`(?is)^\s*set\s+(?:session\s+|local\s+)?(?:default_)?transaction_isolation\s*(?:=|\s\bto\b)` +
	`\s*(?:'([a-z ]+)'|([a-z]+))\s*;?\s*$`)

// namedIn returns the level to which a statement's text sets one of the settings; UnknownLevel if it isn't certain.
func namedIn(text string) record.Level {
	found := setsByName.FindStringSubmatch(text)
	if found == nil {
		return record.UnknownLevel
	}
	return levelNamed(strings.ToLower(found[1] + found[2]))
}
