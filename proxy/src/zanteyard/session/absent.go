package session

import (
	"strings"

	"zanteyard/plan"
	"zanteyard/record"
)

// asked is what a SELECT by one whole key asked for.
type asked struct {
	key   record.Key
	known bool
	stale bool // what its names mean may just have changed
}

// absent records a whole key that was asked for and not found, if it is known in which snapshot.
func (s *Session) absent(p *plan.Plan, e *expectation, noted *record.Statement) {
	its := e.on.asked
	if e.at != nil {
		its = e.at.asked
	}
	reason := s.tx.unreported()
	switch {
	case !its.known:
		reason = "a row that wasn't there, at read committed or for an unknown key"
	case s.status != 'T':
		reason = "a row that wasn't there, asked for by a transaction of one statement"
	case its.stale:
		reason = "a row that wasn't there: " + justChanged
	case reason == "" && e.replaced:
		reason = maybeAnother
	case reason == "" && !e.knowsTables():
		reason = otherRelation
		s.isOverOthers(e)
	}
	if reason != "" {
		s.options.Sink.Unseen(p.Shape, reason, true)
		s.tx.Did.Leave(foundNoRow, false, 1, 0, 0)
		return
	}
	if len(s.tx.Absent) >= s.options.ReadLimit || s.tx.keys+len(its.key) > mostKeys {
		s.tx.Beyond++
		s.tx.Did.Leave(foundNoRow, false, 1, 0, 0)
		return
	}
	s.tx.keys += len(its.key)
	key := record.Key(strings.Clone(string(its.key))) // it may be a part of the statement's text
	s.tx.Absent = append(s.tx.Absent, record.Absence{Relation: p.Sources[0].Relation, Key: key,
		Identity: p.Sources[0].Identity, Wrote: s.tx.mayHaveWritten()})
	s.tx.Did.Selects = append(s.tx.Did.Selects, record.Select{Absent: int32(len(s.tx.Absent))})
	if noted != nil {
		noted.Absent = len(s.tx.Absent)
	}
}
