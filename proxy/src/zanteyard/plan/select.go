package plan

import (
	"zanteyard/catalog"
	"zanteyard/condition"
)

// selects adds the hidden columns of each table whose rows a SELECT returns, one for each row of its result. If these can't
// show all that it has read, since it merges rows, it is asked for them once more.
func (m *maker) selects(p *Plan, body node, start, end int) {
	before := *p
	before.Unseen = p.Unseen[:len(p.Unseen):len(p.Unseen)]
	m.selectsRows(p, body, start, end)
	if lists, _ := m.merges(body); !lists && !body.has("larg") || len(p.Unseen) == len(before.Unseen) {
		return
	}
	if _, all := unionAll(body); all && body.has("larg") && !body.has("sortClause") {
		return // it returns rows before it has read all: then it isn't asked again
	}
	its := before
	if m.repeats(&its, body, start, end) && (!p.adds() || len(its.Unseen) < len(p.Unseen)) {
		*p = its
	}
}

// selectsRows is selects without asking again.
func (m *maker) selectsRows(p *Plan, body node, start, end int) {
	if makesTable(body) {
		p.Kind, p.MayWriteUnseen, p.ChangesNames = Definition, true, true
		p.leaveOut("a table created from a query")
		return
	}
	if body.has("valuesLists") {
		return
	}
	if body.has("larg") {
		m.unites(p, body, end)
		return
	}
	lists, reason := m.merges(body)
	if reason != "" {
		p.leaveOut(reason)
		return
	}
	if !body.has("fromClause") {
		return
	}
	word := m.fromWord(start, end)
	f := &fromClause{maker: m, plan: p, with: withNames(body), lists: lists}
	f.outermost = !body.has("groupClause") && !body.has("distinctClause") && !hasWindow(body)
	unseen := p.Unseen
	f.read(body, "fromClause")
	by, distinct := []shared(nil), lists && body.has("distinctClause")
	if distinct {
		if by, distinct = m.distincts(p, body, f); !distinct {
			p.Unseen = unseen
			p.leaveOut("DISTINCT")
			return
		}
	} else if lists && body.has("groupClause") && !m.catalog.ListsAll() {
		lists = m.groupsForCertain(p, body, f)
		f.lists = lists
	}
	f.ordered = !distinct && !m.certain(p, body, f)
	if f.unlisted = f.ordered && !m.catalog.ListsAll(); lists && f.unlisted {
		p.Unseen = unseen
		p.leaveOut(anAggregate)
		return
	}
	f.unsorted = lists && body.has("groupClause") && !m.sortsGroups(body, f)
	f.open(body, !lists || !body.has("distinctClause"))
	f.closeWith()
	found := f.groups()
	if len(found) == 0 && !f.opens() {
		return
	}
	if word < 0 {
		p.leaveOut("unknown form of statement")
		return
	}
	wide := widens(body, f) || f.opens()
	if wide && f.size > mostJoined {
		p.leaveOut(aLargeJoin)
		return
	}
	p.Counts = lists && f.opens()
	for _, source := range found {
		p.Counts = p.Counts || source.listed
	}
	if !lists {
		m.carries(p, body, found)
	}
	h := f.hiding()
	h.window(by)
	h.one = lists && !distinct && len(f.group) == 0 && m.catalog.WithConditions()
	if p.Counts {
		h.value(countOfRows + h.over)
	}
	f.result(h, body, found, word)
	p.Widens = wide
	p.Ordered = (p.Counts || p.Looks) && f.ordered
	m.orders(p, body, f.width(body.list("targetList")))
	m.asks(p, body, found, f)
}

// hiding begins hidden columns of a FROM clause. A name without a table's is one of its only table, unless it may mean what is
// around a LATERAL subquery.
func (f *fromClause) hiding() *hiding { return &hiding{sole: f.items == 1 && !f.reached} }

// result adds the hidden columns to what a query returns, before its FROM.
func (f *fromClause) result(h *hiding, body node, found []*item, word int) {
	p := f.plan
	for _, d := range f.derived {
		if d.inner == nil {
			continue
		}
		if d.carried {
			d.inner.isNullable(d.at.nullable)
			d.inner.prefix = f.prefix + d.alias.text("aliasname") + condition.Within
			d.inner.result(d.inner.hiding(), d.query, d.inner.found, d.inner.word)
		} else {
			found = append(found[:len(found):len(found)], d.passes(f.lists)...)
		}
	}
	if len(found) == 0 {
		return
	}
	for _, source := range found {
		switch {
		case source.looked:
			h.looksUp(source)
		case source.listed:
			h.lists(source)
		default:
			h.reads(source)
		}
		its := source.source()
		its.Name = f.prefix + its.Name
		p.Sources = append(p.Sources, its)
		p.relations = append(p.relations, source.relation())
	}
	f.inserts(body, h.text(), word)
}

// inserts adds columns to a query's own.
func (f *fromClause) inserts(body node, columns string, word int) {
	if body.has("targetList") {
		columns = ", " + columns
	}
	f.plan.insertions = append(f.plan.insertions, insertion{text: columns + " ", token: word})
}

// makesTable reports whether a SELECT makes a table of its result. Of a UNION the first part says that.
func makesTable(body node) bool {
	return body.has("intoClause") || body.has("larg") && makesTable(body.node("larg"))
}

// anAggregate is why the rows aren't listed that an aggregate was made of, if the result may depend on how they are read.
const anAggregate = "an aggregate"

// merges reports whether each of a SELECT's rows is made of any number of rows that it read, which can be listed, or why
// nothing can be told of them.
func (m *maker) merges(body node) (lists bool, reason string) {
	switch {
	case body.text("op") != "" && body.text("op") != "SETOP_NONE":
		return false, aUnion
	case body.has("distinctClause") && !distinctOn(body):
		return true, ""
	case body.has("groupClause"): // a table whose whole key is grouped by has one row in each group
		return !body.has("distinctClause") && !kindFound(body["groupClause"], "GroupingSet"), ""
	}
	parts := []any{body["targetList"], body["sortClause"], body["windowClause"], body["distinctClause"]}
	switch {
	case !body.has("havingClause") && !m.aggregates(parts):
		return false, ""
	case body.has("distinctClause"):
		return false, "DISTINCT"
	case !body.has("havingClause") && !m.surelyAggregates(parts):
		return false, "a function that may be an aggregate"
	case m.onlyEnds(body, parts):
		return false, "MIN or MAX, for which an index may need one row alone"
	}
	return true, ""
}

// surelyAggregates reports whether a query has an aggregate whatever its names refer to: then a hidden aggregate more
// doesn't make one row of many.
func (m *maker) surelyAggregates(value any) bool {
	return m.anyCall(value, func(body node) bool {
		return m.writtenAsAggregate(body) || m.function(body).Always
	})
}

// certain reports whether a statement's answer, and what else it does, are the same whatever plan the server chooses:
// hidden columns may make it choose another one. A cursor has another plan than the one that is compared.
func (m *maker) certain(p *Plan, body node, f *fromClause) bool {
	if p.Kind != Select || p.Calls || m.cursor || m.catalog.Foreign || m.callsAsColumn(body) {
		return false
	}
	if m.ordered(body, f) && (f.lists || !m.sortsRows(body, f)) || !m.harmless(body, f) {
		return false
	}
	steady := true
	visit(body, func(kind string, its node) bool {
		if kind == "FuncCall" {
			steady = steady && !its.has("over") && (m.orderless(its, f) || m.steady(its))
		}
		return steady
	})
	return steady
}

// steady reports whether a call is surely of a function of the server's own that only computes a value.
func (m *maker) steady(call node) bool {
	name, schema := names(call.list("funcname")), ""
	switch len(name) {
	case 1:
	case 2:
		schema = name[0]
	default:
		return false
	}
	return m.catalog.Steady(schema, name[len(name)-1])
}

// onlyEnds reports whether all aggregates of a query of one table are MIN or MAX of what an index may have in order: then
// the server may read the first or last row alone.
func (m *maker) onlyEnds(body node, parts []any) bool {
	from := body.list("fromClause")
	if len(from) != 1 {
		return false
	}
	kind, r := only(from[0])
	if kind != "RangeVar" && kind != "RangeSubselect" && kind != "RangeTableSample" {
		return false
	}
	t, known := m.catalog.Find(r.text("schemaname"), r.text("relname"))
	parts = append(parts, body["havingClause"])
	ordered := true
	others := m.anyCall(parts, func(call node) bool {
		name := names(call.list("funcname"))
		if f := m.function(call); !f.Aggregate && !m.writtenAsAggregate(call) {
			return false
		}
		if last := name[len(name)-1]; last != "min" && last != "max" || call.has("agg_filter") || call.has("agg_order") {
			return true
		}
		if args := call.list("args"); known && len(args) == 1 {
			ordered = ordered && mayOrder(t, args[0])
		}
		return false
	})
	return !others && ordered && m.aggregates(parts)
}

// mayOrder reports whether an index may have a table's rows in the order of an expression.
func mayOrder(t *catalog.Table, expression any) bool {
	_, body := only(expression)
	fields := names(body.list("fields"))
	wanted := int16(0) // stands for all expressions
	if len(fields) > 0 {
		if column, ok := t.Column(fields[len(fields)-1]); ok {
			wanted = column.Number
		}
	}
	for _, index := range t.Indexes {
		for _, number := range index {
			if number == wanted {
				return true
			}
		}
	}
	return false
}

// distinctOn distinguishes DISTINCT ON, which returns one of the rows that were read, from DISTINCT.
func distinctOn(body node) bool {
	for _, item := range body.list("distinctClause") {
		if kind, _ := only(item); kind != "" {
			return true
		}
	}
	return false
}

// aggregates looks for aggregates of the query itself. If an aggregate in a subquery belongs to the outer query, the
// server refuses the rewritten statement when it is tried.
func (m *maker) aggregates(value any) bool {
	return m.anyCall(value, func(body node) bool {
		return m.writtenAsAggregate(body) || m.function(body).Aggregate
	})
}

// anyCall looks for a call without OVER in a query itself.
func (m *maker) anyCall(value any, is func(call node) bool) bool {
	found := false
	visit(value, func(kind string, body node) bool {
		if kind == "FuncCall" && !body.has("over") && len(body.list("funcname")) > 0 {
			found = found || is(body)
		}
		return kind != "SubLink" && !found
	})
	return found
}

// writtenAsAggregate reports whether a call is written as only an aggregate's may be.
func (m *maker) writtenAsAggregate(call node) bool {
	return call.flag("agg_star") || call.flag("agg_distinct") || call.flag("agg_within_group") ||
		call.has("agg_filter") || call.has("agg_order")
}

func (m *maker) function(call node) catalog.Function {
	name := names(call.list("funcname"))
	schema := ""
	if len(name) > 1 {
		schema = name[0]
	}
	return m.catalog.Function(schema, name[len(name)-1])
}

// fromWord finds the word FROM of a query that begins at a token, possibly in parentheses, but not that of IS DISTINCT
// FROM, nor a column's name.
func (m *maker) fromWord(start, end int) int {
	first := start
	for first < end && m.word(first) == "(" {
		first++
	}
	if first == end {
		return nowhere
	}
	return m.fromAfter(first+1, end, m.depths[first])
}

// fromAfter finds the word FROM of a query from a token on, outside of its parentheses.
func (m *maker) fromAfter(start, end, depth int) int {
	for i := start; i < end && m.depths[i] >= depth; i++ {
		if m.depths[i] != depth || !m.is(i, "from") {
			continue
		}
		before := m.word(i - 1)
		distinct := m.is(i-1, "distinct") && (m.is(i-2, "is") || m.is(i-2, "not"))
		if before != "." && !m.is(i-1, "as") && !distinct {
			return i
		}
	}
	return nowhere
}

// orders records the constants of ORDER BY, GROUP BY and DISTINCT ON that mean a column by its position.
func (m *maker) orders(p *Plan, body node, columns int) {
	var entries []any
	for _, item := range body.list("sortClause") {
		_, sort := only(item)
		entries = append(entries, sort["node"])
	}
	entries = append(append(entries, body.list("groupClause")...), body.list("distinctClause")...)
	for _, entry := range entries {
		kind, constant := only(entry)
		if kind != "A_Const" {
			continue
		}
		if at := m.tokenAt(constant.number("location")); at >= 0 {
			p.positions = append(p.positions, position{token: at, columns: columns})
		}
	}
}

func withNames(body node) map[string]bool {
	with := map[string]bool{}
	for _, item := range body.node("withClause").list("ctes") {
		_, cte := only(item)
		with[cte.text("ctename")] = true
	}
	return with
}

// asks records the whole key of the one row that a SELECT asks for, if it asks for nothing else: if no row comes back,
// there is none.
func (m *maker) asks(p *Plan, body node, found []*item, f *fromClause) {
	if len(found) != 1 || f.items != 1 || len(f.derived) > 0 || found[0].only || found[0].sampled || found[0].table.RowSecurity {
		return
	}
	if found[0].table.Root != found[0].table.OID { // the row may be in another partition
		return
	}
	if len(p.Unseen) > 0 || p.Counts || p.MayWriteUnseen || body.has("groupClause") || body.has("limitOffset") ||
		m.setReturning(body["targetList"]) {
		return
	}
	for _, lock := range body.list("lockingClause") {
		if _, clause := only(lock); clause.text("waitPolicy") == "LockWaitSkip" {
			return
		}
	}
	key, exact := wholeKey(body["whereClause"], found[0], true)
	if key == nil || !exact || len(key) > maxAsked {
		return
	}
	var asked []askedPart
	for i, value := range key {
		part, ok := m.askedPart(found[0].table.Key[i], value)
		if !ok || !m.isOwnEquality(found[0].table.Key[i]) {
			return
		}
		asked = append(asked, part)
	}
	if body.has("limitCount") {
		limit, ok := m.limitPart(body["limitCount"])
		if !ok {
			return
		}
		asked = append(asked, limit)
	}
	p.Asked, p.asked = true, asked
}

// byKey reports whether a SELECT reads one table, by its whole key.
func (m *maker) byKey(body node) bool {
	from := body.list("fromClause")
	if len(from) != 1 {
		return false
	}
	kind, r := only(from[0])
	if kind != "RangeVar" {
		return false
	}
	t, ok := m.catalog.Find(r.text("schemaname"), r.text("relname"))
	if !ok || len(t.Key) == 0 {
		return false
	}
	values, _ := wholeKey(body["whereClause"], m.newItem(r, t, place{}, false), true)
	return values != nil
}

func (m *maker) setReturning(value any) bool { return condition.ReturnsSets(value, m.catalog) }
