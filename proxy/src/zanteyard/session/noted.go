package session

import (
	"strings"

	"zanteyard/plan"
	"zanteyard/record"
)

// note keeps a statement's text for readers of an explanation, with the reads that it made: those added since its first
// row. It returns what is kept, or nil.
func (s *Session) note(e *expectation) *record.Statement {
	policy, t := s.options.Policy, &s.tx
	from, to, last := len(t.Reads), len(t.Reads), len(t.Statements)-1
	if e.rows > 0 {
		from = e.from
	}
	paused := t.paused
	t.paused = nil
	if paused != nil && paused == e.at && t.Statements[last].To == from {
		t.Statements[last].To = to // more of its rows, with no others between
		return &t.Statements[last]
	}
	if !policy.Statements || e.on == nil || e.on.text == "" {
		return nil
	}
	if len(t.Statements) >= mostStatements || t.kept >= mostKept {
		t.Dropped++
		return nil
	}
	st := record.Statement{Text: e.on.text, At: e.sent, From: from, To: to}
	if e.part < len(e.pieces) {
		st.Text = e.pieces[e.part].text
	}
	if policy.Redacts {
		st.Text = plan.Redacted(st.Text)
	}
	if len(st.Text) > mostText {
		st.Text = st.Text[:mostText]
	}
	if len(st.Text) < len(e.on.text) {
		st.Text = strings.Clone(st.Text) // a part would keep the whole text
	}
	if p := e.current(); p != nil {
		st.Unseen = p.Unseen
	}
	if e.at != nil && policy.Parameters && !policy.Redacts {
		st.Parameters, st.More = e.at.parameters, e.at.more
	}
	t.kept += sizeOf(&st)
	if t.Statements == nil {
		t.Statements = make([]record.Statement, 0, t.usual.statements)
	}
	t.Statements = append(t.Statements, st)
	return &t.Statements[len(t.Statements)-1]
}

// sizeOf returns about how many bytes a statement takes.
func sizeOf(it *record.Statement) int {
	n := 128 + len(it.Text)
	for _, one := range it.Parameters {
		n += 16 + len(one)
	}
	return n
}
