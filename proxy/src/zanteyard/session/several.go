package session

import (
	"strings"

	"zanteyard/condition"
	"zanteyard/plan"
	"zanteyard/wire"
)

// piece is one of several statements in one Query.
type piece struct {
	text     string // with the comments around it
	plan     *plan.Plan
	use      *use
	changed  bool
	inserted []plan.Inserted // in the rewritten text of all
	asking   *asking
	era      uint64
}

// pieces rewrites those of several statements that may be rewritten. Whatever one of them may change isn't relied on
// for those after it.
func (s *Session) pieces(st *statement) (string, []piece) {
	var to []byte
	var all []piece
	last, begins := 0, 0
	parts := st.tokens.Parts()
	for i, part := range parts {
		p := part.Plan
		one := &statement{text: st.text[part.From:part.To], plan: p, tokens: part.Tokens, looked: s.trust.plans,
			use: s.trust.of(p)}
		behind := len(st.text)
		if i+1 < len(parts) {
			behind = parts[i+1].From
		}
		it := piece{text: strings.Trim(st.text[begins:behind], "; \t\r\n"), plan: p, use: one.use}
		to = append(to, st.text[last:part.From]...)
		if s.usable(one) {
			rewritten, inserted := p.Rewrite(one.text, part.Tokens)
			for i := range inserted {
				inserted[i].At += len(to)
			}
			it.changed, it.inserted = true, inserted
			it.asking = s.asksBy(one, condition.Arguments{})
			to = append(to, rewritten...)
		} else {
			to = append(to, one.text...)
			it.asking = s.asksUnchanged(one, condition.Arguments{})
		}
		s.before(p)
		it.era = s.queue.era
		last, begins = part.To, behind
		all = append(all, it)
	}
	return string(append(to, st.text[last:]...)), all
}

// several handles a Query of several statements.
func (s *Session) several(o *output, st *statement, e *expectation, start, end int) {
	text, pieces := s.pieces(st)
	e.pieces = pieces
	if text == st.text {
		o.pass(start, end)
	} else {
		st.altered, st.rewritten = true, text
		to := o.own()
		begin := len(to)
		o.buf = wire.End(wire.AppendText(wire.Begin(to, 'Q'), text), begin)
	}
	e.piece(0)
}

// piece goes on with one of the statements.
func (e *expectation) piece(i int) {
	e.part = i
	e.hides, e.hidden, e.changed, e.use, e.rows, e.loose, e.made, e.asking = nil, 0, false, nil, 0, 0, 0, nil
	e.beyond, e.missed, e.copied = 0, 0, e.copied[:0]
	e.isOver, e.of = false, nil
	if i >= len(e.pieces) {
		return
	}
	it := &e.pieces[i]
	e.use, e.changed, e.asking, e.era, e.replaced = it.use, it.changed, it.asking, it.era, false
	if it.changed && it.plan.Kind != plan.Declare {
		e.hides, e.hidden = it.plan, it.use.hidden
	}
}

// current returns the plan of the statement that is being answered, or nil if it isn't known.
func (e *expectation) current() *plan.Plan {
	switch {
	case e.part < len(e.pieces):
		return e.pieces[e.part].plan
	case e.on == nil:
		return nil
	}
	return e.on.plan
}

// altered reports whether the text that an error is about was rewritten.
func (e *expectation) altered() bool {
	return e.changed || len(e.pieces) > 0 && e.on.altered
}

// moved returns a function from the position of an error in a rewritten text to the one in the client's own.
func (e *expectation) moved() func(position int) int {
	st := e.on
	if len(e.pieces) > 0 {
		var inserted []plan.Inserted
		for _, it := range e.pieces {
			inserted = append(inserted, it.inserted...)
		}
		return func(position int) int { return plan.MoveBack(st.rewritten, inserted, position) }
	}
	if at, more := st.renamedAt, st.renamed; st.plan.Kind == plan.Execute {
		return func(position int) int {
			if position > at+1 {
				position -= more
			}
			if position <= at {
				return at + 1
			}
			return position
		}
	}
	text, inserted := st.plan.Rewrite(st.text, st.tokens)
	return func(position int) int { return plan.MoveBack(text, inserted, position) }
}
