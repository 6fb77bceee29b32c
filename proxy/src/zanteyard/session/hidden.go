package session

import (
	"errors"

	"zanteyard/plan"
	"zanteyard/record"
)

// maybeAnother is why reads of a cursor or a portal are left out that others may have put in the place of the client's.
const maybeAnother = "a cursor or portal that may be another one by now: what others have made has run since it was made"

// hidden takes the hidden columns of a row.
func (s *Session) hidden(e *expectation, values [][]byte) {
	p, isBinary := e.hides, e.binary
	if n, ok := p.Number(values, isBinary); ok && !s.tx.parted {
		s.tx.Number = n
	} else if ok {
		s.tx.MayHaveWritten = true
	}
	if n, ok := p.Version(values, isBinary); ok && !s.tx.parted && e.knowsTables() {
		s.tx.version(n)
	}
	if p.Copied && values[0] == nil {
		return // the first row has it all
	}
	reads, err := p.AppendReads(s.reads[:0], values, isBinary)
	s.reads = reads
	reads = s.comparable(p, reads)
	counts := p.Kind == plan.Select && len(p.Unseen) == 0
	isWhole := s.lists(e, values)
	if e.asking != nil && !isWhole && e.asking.why == "" && p.ReadsMore() {
		e.asking.why = s.whyBeyond(p)
	}
	switch {
	case e.asking == nil:
	case e.asking.joined != nil:
		s.gotJoined(e.asking, values, isBinary, err != nil, isWhole)
	default:
		n, lists := p.Aggregated(values, isBinary)
		if !lists {
			n = 1
		}
		e.asking.got(reads, err != nil || isWhole && uint64(len(reads)) != n, isWhole)
		e.asking.shows = lists && n == 0 && p.ShowsTables(values, isBinary)
	}
	reason, to := s.tx.unreported(), s.takes(e)
	switch isOther := errors.Is(err, plan.ErrOtherRelation); {
	case isOther || len(reads) > 0 && !e.knowsTables():
		reason, err = otherRelation, nil
		if s.isOverOthers(e); isOther {
			reads = append(reads[:0], record.Read{}) // none is reported
		}
	case e.replaced || s.trust.taken:
		reason = maybeAnother
	case reason == "":
		reason = s.unheld(e)
	}
	if reason != "" && len(reads) > 0 {
		s.options.Sink.Unseen(p.Shape, reason, true)
		to.Partly = true
		e.missed, e.why = e.missed+int(isOne(counts)), reason
	} else {
		if p.Copied {
			e.copied = append(e.copied[:0], reads...)
		} else {
			to.read(reads, s.limit(to), counts && isWhole)
		}
		switch {
		case !counts:
		case reason != "":
			e.missed, e.why = e.missed+1, reason
		case !isWhole:
			e.beyond++
		case len(reads) == 0:
			e.loose++
		}
	}
	if err != nil {
		s.notSeen(p.Shape, "hidden columns that can't be read", true)
	}
}

// lists reports whether a row's lists, if it has any, have all rows that it was made of.
func (s *Session) lists(e *expectation, values [][]byte) bool {
	p := e.hides
	if n, ok := p.Aggregated(values, e.binary); ok {
		if e.made += n; e.made > plan.MostAggregated {
			p.Rest(s.now)
		}
	}
	if p.Complete(values, e.binary) {
		return true
	}
	s.notSeen(p.Shape, s.whyBeyond(p), true)
	return false
}
