package session

import (
	"strings"

	"zanteyard/plan"
	"zanteyard/wire"
)

// The rows of a cursor whose query was rewritten have hidden columns, however they are fetched. Mostly the FETCH is looked
// at, and names the cursor. One that isn't (its text is too long, in an encoding that isn't read, or of a statement or
// portal that isn't known any more) is recognized by the columns that it returns. Since its rows may come without a
// description, a portal that may be a FETCH is described directly behind its Bind. Later the cursor may be gone, and a
// server that describes a FETCH from a cursor that is gone crashes.

// foretold is what the Describe behind the Bind of a FETCH's portal has shown of its rows.
type foretold struct {
	of      *cursor // nil if it was recognized by its columns
	hides   *plan.Plan
	hidden  int
	columns int
	binary  bool
	isOver  bool
}

// mayBeFetch reports whether a portal of this statement has to be described.
func (s *Session) mayBeFetch(st *statement) bool {
	switch {
	case !s.names.hides:
		return false
	case st == nil:
		return s.names.forgot
	case st.plan == nil:
		return !st.fetchesNot
	}
	return st.kind() == plan.Fetch
}

// mayBeCursor reports whether a portal that the client names may be a cursor which DECLARE made, of a rewritten query: to the
// server the two are one. p is what the client itself has bound by this name, or nil; SQL may have closed that since.
func (s *Session) mayBeCursor(name []byte, p *portal) bool {
	return s.names.hides && len(name) > 0 && (p == nil || p.hides == nil)
}

// mayRunCursor reports whether an Execute of a portal may return rows of a cursor: one of this name is known, or may be on its
// way. To describe the portal first is no use otherwise, and the server's error would be that of a Describe.
func (s *Session) mayRunCursor(name []byte) bool {
	return s.queue.declares > 0 || s.status != 'E' && s.names.cursors[portalName(name)] != nil
}

// foretells takes the description of a portal that may be a FETCH, or a cursor.
func (s *Session) foretells(p *portal, columns []wire.Column) {
	p.told = nil
	x := expectation{on: p.on}
	if s.fetched(&x); x.hides == nil || s.isAnother(&x, columns) {
		if s.recognizes(&x, columns); x.hides == nil {
			return
		}
	}
	x.shows(columns)
	p.told = &foretold{x.of, x.hides, x.hidden, len(columns), columns[len(columns)-1].Format == 1, x.isOver}
}

// presumes takes a row for one of what was described behind the Bind, if nothing better is known and it has as many columns.
func (e *expectation) presumes(m []byte) {
	if e.hides != nil || e.at == nil || e.at.told == nil || len(m) < wire.Header+2 || wire.Int16(m[wire.Header:]) != e.at.told.columns {
		return
	}
	told := e.at.told
	e.hides, e.hidden, e.binary = told.hides, told.hidden, told.binary
	e.guessed, e.replaced = true, true
}

// mayFetch reports whether what is run may be a FETCH of which it isn't known from which cursor: p is its plan, nil if it
// wasn't looked at.
func (s *Session) mayFetch(st *statement, p *plan.Plan) bool {
	switch {
	case !s.names.hides:
		return false
	case p != nil:
		return p.Kind == plan.Fetch && s.names.unsure
	case st == nil || st == opaque:
		return s.names.forgot
	}
	return !st.fetchesNot
}

// runsUnseen is called for a statement that wasn't looked at: it may close a cursor, and declare another one of that name.
func (s *Session) runsUnseen(st *statement) {
	if s.names.hides && (st == nil || st.plan == nil) {
		s.names.unsure = true
	}
}

// appendDescribePortal appends a Describe of a portal, which goes before its Execute.
func appendDescribePortal(to []byte, name []byte) []byte {
	start := len(to)
	to = append(wire.Begin(to, 'D'), 'P')
	return wire.End(append(append(to, name...), 0), start)
}

// isAnother reports whether a cursor's name stands for another one, as the server's description shows, and forgets it then: a
// savepoint was rolled back to from before the DECLARE, or a function has closed it.
func (s *Session) isAnother(e *expectation, columns []wire.Column) bool {
	if e.of == nil {
		return false
	}
	is := len(columns) < e.hidden
	for i := len(columns) - e.hidden; i < len(columns) && !is; i++ {
		is = !plan.IsHidden(columns[i].Name)
	}
	if is {
		if name := e.current().Name; s.names.cursors[name] == e.of {
			s.drops(name)
		}
		e.of, e.hides, e.hidden, e.replaced = nil, nil, 0, false
	}
	return is
}

// recognizes looks for the cursor whose rows have these columns, and makes the answer be cut like them.
func (s *Session) recognizes(e *expectation, columns []wire.Column) {
	var found *cursor
	is := func(c *cursor) {
		if c.has(columns) && (found == nil || hiddenColumns(c.plan) > hiddenColumns(found.plan)) {
			found = c
		}
	}
	for _, c := range s.names.cursors {
		is(c)
	}
	for name, p := range s.names.portals {
		if name != "" && p.hidden > 0 {
			is(p.cursor())
		}
	}
	if found == nil {
		return
	}
	e.hides, e.hidden = found.plan, hiddenColumns(found.plan)
	e.binary = columns[len(columns)-1].Format == 1
	e.guessed, e.replaced = true, true
}

// ownColumns returns how many columns of the client's own a cursor's rows have.
func ownColumns(declare *expectation) int {
	if declare.use == nil {
		return 0
	}
	return declare.use.own
}

// has reports whether a description is that of the cursor's rows.
func (c *cursor) has(columns []wire.Column) bool {
	if len(columns) != c.own+hiddenColumns(c.plan) {
		return false
	}
	for i, kind := range c.plan.HiddenTypes() { // a client's own columns may have these types, too
		if its := columns[c.own+i]; its.Type != kind || !plan.IsHidden(its.Name) {
			return false
		}
	}
	return true
}

// mostName is what the server takes of the name of a statement or portal (NAMEDATALEN).
const mostName = 63

// nameTaken is the part of a name that the server takes.
func nameTaken(name []byte) []byte {
	if len(name) > mostName {
		name = name[:mostName]
	}
	return name
}

// portalName is the name by which the server knows a portal.
func portalName(name []byte) string { return strings.Clone(string(nameTaken(name))) }
