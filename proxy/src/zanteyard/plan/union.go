package plan

import (
	"strings"

	"zanteyard/keys"
)

// Each row of a UNION ALL is a row of one of its parts. So each part gets the hidden columns of all parts: those of its own
// tables, and NULL for the others. No description shows over which relations a UNION is run, so they have the types of the
// tables' rows, too.

// aUnion is why rows aren't seen that a UNION and the like are made of.
const aUnion = "UNION, INTERSECT or EXCEPT"

// mostUnited is how many hidden columns all parts may have together: as each has those of all, many parts would have very many.
const mostUnited = 128

// united is a part of a UNION ALL.
type united struct {
	body   node
	sole   bool
	found  []*item
	at     int // the token next to which its hidden columns are inserted
	behind bool
}

// unites adds the hidden columns of a UNION ALL.
func (m *maker) unites(p *Plan, body node, end int) {
	bodies, ok := unionAll(body)
	if !ok {
		p.leaveOut(aUnion)
		return
	}
	var parts []*united
	before, size, width, looks := len(p.Unseen), 0, 0, p.Looks
	for i, one := range bodies {
		part, f := m.part(p, one, end)
		if part == nil {
			p.Unseen, p.Sources, p.relations, p.Looks = p.Unseen[:before], nil, nil, looks
			p.leaveOut(aUnion)
			return
		}
		if size += f.items; i == 0 {
			width = f.width(one.list("targetList"))
		}
		for _, it := range part.found {
			p.Sources = append(p.Sources, it.source())
			p.relations = append(p.relations, it.relation())
		}
		m.orders(p, one, f.width(one.list("targetList")))
		parts = append(parts, part)
	}
	switch columns := len(parts) * p.Hidden(); {
	case columns == 0:
		return
	case columns > mostUnited, size > mostJoined: // nor would plans be compared
		p.Sources, p.relations, p.Looks, p.Unseen = nil, nil, false, p.Unseen[:before]
		p.leaveOut(aUnion)
		return
	}
	for _, part := range parts {
		p.insertions = append(p.insertions, part.insertion(parts))
	}
	m.parts, p.Widens, p.Ordered = len(parts), true, p.Looks
	m.unionOrders(p, body, width)
}

// unionAll returns the parts of a UNION ALL, of nothing else.
func unionAll(body node) (all []node, ok bool) {
	if body.has("withClause") { // whose names may stand in the place of tables
		return nil, false
	}
	if op := body.text("op"); op == "" || op == "SETOP_NONE" {
		return []node{body}, len(body.list("targetList")) > 0 && !body.has("intoClause")
	} else if op != "SETOP_UNION" || !body.flag("all") {
		return nil, false
	}
	for _, side := range []string{"larg", "rarg"} {
		its, ok := unionAll(body.node(side))
		if !ok {
			return nil, false
		}
		all = append(all, its...)
	}
	return all, true
}

// part reads a part, or returns nil if its hidden columns have no place.
func (m *maker) part(p *Plan, body node, end int) (*united, *fromClause) {
	f := &fromClause{maker: m, plan: p, ordered: true, unlisted: !m.catalog.ListsAll()}
	part := &united{body: body}
	_, first := only(body.list("targetList")[0])
	at := m.tokenAt(first.number("location"))
	if at < 0 || body.has("distinctClause") { // more columns would be made distinct, in another order
		return nil, nil
	}
	if !body.has("fromClause") {
		part.at, part.behind = m.lastTarget(at, end), true
		return part, f
	}
	if part.at = m.fromAfter(at, end, m.depths[at]); part.at < 0 {
		return nil, nil
	}
	if lists, reason := m.merges(body); lists || reason != "" { // its rows aren't those of tables
		if m.readsTables(body) {
			p.leaveOut(aUnion)
		}
		return part, f
	}
	f.read(body, "fromClause")
	f.open(body, false)
	part.found, part.sole = f.groups(), f.items == 1
	for _, it := range part.found {
		it.typed, it.nullable = true, true
	}
	return part, f
}

// lastTarget returns the last token of a list of columns, of a query without FROM.
func (m *maker) lastTarget(start, end int) int {
	depth := m.depths[start]
	for i := start + 1; i < end; i++ {
		if m.depths[i] < depth {
			return i - 1
		}
		if m.depths[i] != depth || m.tokens[i].kind != wordToken || m.word(i-1) == "." || m.is(i-1, "as") {
			continue
		}
		switch strings.ToLower(m.word(i)) {
		case "where", "group", "having", "window", "union", "order", "limit", "offset", "fetch", "for":
			return i - 1
		}
	}
	return end - 1
}

// insertion returns the hidden columns of a part.
func (u *united) insertion(all []*united) insertion {
	h := &hiding{sole: u.sole}
	for _, part := range all {
		for _, it := range part.found {
			if part == u {
				h.reads(it)
			} else {
				h.nothing(it)
			}
		}
	}
	return insertion{text: ", " + h.text() + " ", token: u.at, behind: u.behind} // what follows may have no space in front
}

// nothing adds columns in the place of those of a table of another part.
func (h *hiding) nothing(it *item) {
	h.value("NULL::pg_catalog.xid")
	h.value("NULL::pg_catalog.oid")
	for _, column := range it.table.Key {
		if keys.ExpressionType(column.Type, it.converts) == keys.Bytea {
			h.value("NULL::pg_catalog.bytea")
		} else {
			h.value("NULL::pg_catalog.text")
		}
	}
	h.value("NULL::pg_catalog.oid")
}

// unionOrders records the constants of ORDER BY that mean a column of a UNION by its position.
func (m *maker) unionOrders(p *Plan, body node, width int) {
	if !body.has("larg") {
		return
	}
	m.orders(p, body, width)
	m.unionOrders(p, body.node("larg"), width)
	m.unionOrders(p, body.node("rarg"), width)
}
