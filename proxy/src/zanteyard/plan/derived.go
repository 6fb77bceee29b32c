package plan

import (
	"strconv"

	"zanteyard/condition"
)

// A subquery in FROM returns rows of tables, as the statement itself does. Its hidden columns go in two places: it gets them
// under names of their own, and the statement around it selects these. Where that ends in a star for the subquery's columns,
// the star has them already. A part of WITH is the same, with one place more for each statement that it is in.

// derived is a subquery in FROM, or a part of WITH that FROM names.
type derived struct {
	query   node
	alias   node
	at      place
	place   int       // among the items of FROM, from 1
	common  *withPart // nil for a subquery
	lateral bool      // its names may mean what is around it
	// inner is its own FROM clause, nil if its rows aren't seen. found are its tables.
	inner *fromClause
	// carried means that a star, which is the last column of the query around it, has its columns at the end.
	carried bool
}

// aSubqueryInFrom is why rows aren't seen that a subquery in FROM reads.
const aSubqueryInFrom = "a subquery in FROM"

// open decides which of the subqueries in FROM are seen.
func (f *fromClause) open(body node, rows bool) {
	for _, d := range f.derived {
		is := rows && f.depth < mostDeep && len(f.group) == 0 && !f.maker.prepared && f.plain(d) && f.reaches(d, body)
		switch {
		case d.common != nil && is && !(d.carried && d.common.refs > 1):
			d.common.opened++
			f.enter(d)
		case d.common != nil: // counted as WITH
		case !is:
			f.plan.leaveOut(aSubqueryInFrom)
		default:
			f.enter(d)
		}
	}
	f.bounds()
}

// opens reports whether any of them is.
func (f *fromClause) opens() bool {
	for _, d := range f.derived {
		if d.inner != nil {
			return true
		}
	}
	return false
}

// mostItems is how many items FROM may have, with those of subqueries that are seen: what a part of WITH has counts each time
// that FROM names it, there and in the parts that name it. A text may have as many as two to the power of its parts.
const mostItems = 64

// mostDeep is how deep subqueries in FROM may be in one another to be seen: what is in them is read once for each.
const mostDeep = 8

// bounds counts all items. If there are too many, no subquery is seen.
func (f *fromClause) bounds() {
	f.size = f.items
	for _, d := range f.derived {
		if d.inner != nil {
			f.size += d.inner.size
		}
	}
	if f.size <= mostItems {
		return
	}
	f.size, f.maker.crowded = f.items, true
	for _, d := range f.derived {
		if d.inner != nil && d.common == nil {
			f.plan.leaveOut(aSubqueryInFrom)
		}
		d.inner = nil
	}
}

// plain reports whether each row that a subquery returns is made of one row of each of its tables.
func (f *fromClause) plain(d *derived) bool {
	for name := range d.query {
		switch name {
		case "targetList", "fromClause", "whereClause", "sortClause", "limitCount", "limitOffset", "limitOption", "lockingClause",
			"windowClause", "distinctClause", "op":
		default:
			return false
		}
	}
	lists, reason := f.maker.merges(d.query)
	return !lists && reason == "" && len(d.query.list("targetList")) > 0 && d.query.has("fromClause")
}

// reaches reports whether the statement around a subquery names its columns one by one: more of them change nothing then. A
// star for them, or a name for a whole row of them, would have the hidden ones, too, unless the star comes last.
func (f *fromClause) reaches(d *derived, body node) bool {
	name := d.alias.text("aliasname")
	if name == "" || d.alias.has("colnames") || d.at.natural {
		return false
	}
	outputs, known := f.maker.outputsOf(d)
	if !known {
		return false
	}
	stars, whole := mentions(body, name, outputs)
	if whole {
		return false
	}
	used := false
	for _, ref := range f.refs {
		fields := ref.fields
		if len(fields) == 0 {
			continue
		}
		last := fields[len(fields)-1]
		of := len(fields) > 1 && fields[len(fields)-2] == name
		switch {
		case len(fields) > 1 && !of:
			continue
		case len(fields) == 1 && last == "*":
			stars++
		case !of && !outputs[last]:
			continue
		}
		used = used || ref.join != d.at.optional && !ref.folds
	}
	if stars > 0 {
		if stars > 1 || !f.endsWith(d, body) {
			return false
		}
		d.carried = true
	}
	return used || d.at.optional == 0 // else the server may skip it
}

// mentions counts the stars with this name in front anywhere in a query, and reports whether there may be a whole row of that
// name, or a function of one. Another query within may have that name for something else: it isn't asked which is meant.
func mentions(body node, name string, outputs map[string]bool) (stars int, whole bool) {
	visit(map[string]any(body), func(kind string, its node) bool {
		if kind != "ColumnRef" {
			return true
		}
		fields := names(its.list("fields"))
		switch n := len(fields); {
		case n == 1:
			whole = whole || fields[0] == name
		case n > 1 && fields[n-2] == name && fields[n-1] == "*":
			stars++
		case n > 1 && fields[n-2] == name:
			whole = whole || !outputs[fields[n-1]]
		}
		return true
	})
	return stars, whole
}

// endsWith reports whether the last column of a query is a star whose last columns are those of a subquery.
func (f *fromClause) endsWith(d *derived, body node) bool {
	targets := body.list("targetList")
	if len(targets) == 0 {
		return false
	}
	_, last := only(targets[len(targets)-1])
	fields := names(last.as("val", "ColumnRef").list("fields"))
	switch len(fields) {
	case 1:
		return fields[0] == "*" && d.place == f.items
	case 2:
		return fields[0] == d.alias.text("aliasname") && fields[1] == "*"
	}
	return false
}

// outputsOf is outputs for an item of FROM.
func (m *maker) outputsOf(d *derived) (all map[string]bool, known bool) {
	if d.common != nil {
		return d.common.outputs, d.common.known
	}
	return m.outputs(d.query)
}

// outputs returns the names of a query's columns; known is false if they may have others.
func (m *maker) outputs(query node) (all map[string]bool, known bool) {
	all = map[string]bool{}
	if query.has("valuesLists") {
		return nil, false
	}
	for query.has("larg") { // a UNION has the names of its first part
		query = query.node("larg")
	}
	for _, target := range query.list("targetList") {
		_, its := only(target)
		fields := names(its.as("val", "ColumnRef").list("fields"))
		if len(fields) > 0 && fields[len(fields)-1] == "*" {
			if !m.starred(all, query, fields[:len(fields)-1]) {
				return nil, false
			}
			continue
		}
		// A name that isn't certain isn't one by which the statement may know it.
		if name, sure := outputName(target); sure {
			all[name] = true
		}
	}
	return all, true
}

// starred adds the names of the columns that a star stands for, if these are columns of tables.
func (m *maker) starred(to map[string]bool, query node, of []string) bool {
	known := true
	visit(query["fromClause"], func(kind string, body node) bool {
		switch kind {
		case "RangeVar":
			name := body.node("alias").text("aliasname")
			if name == "" {
				name = body.text("relname")
			}
			if len(of) > 0 && of[len(of)-1] != name {
				break
			}
			if m.with[body.text("relname")] && m.commons == nil && !body.has("schemaname") {
				known = false // a part of WITH that isn't looked at
				break
			}
			if c := m.commons[body.text("relname")]; c != nil && !body.has("schemaname") {
				known = known && c.known && !body.node("alias").has("colnames")
				for name := range c.outputs {
					to[name] = true
				}
				break
			}
			t, ok := m.catalog.Find(body.text("schemaname"), body.text("relname"))
			if !ok || body.node("alias").has("colnames") {
				known = false
				break
			}
			for _, column := range t.Columns {
				to[column.Name] = true
			}
		case "RangeSubselect":
			alias := body.node("alias")
			if len(of) > 0 && of[len(of)-1] != alias.text("aliasname") {
				return false
			}
			its, ok := m.outputs(body.node("subquery").node("SelectStmt"))
			known = known && ok && !alias.has("colnames")
			for name := range its {
				to[name] = true
			}
			return false
		case "JoinExpr":
			known = known && !body.node("alias").has("colnames")
		case "RangeFunction", "RangeTableFunc":
			known = false
		}
		return kind != "SubLink" && known
	})
	return known
}

// enter reads a subquery's own FROM clause.
func (f *fromClause) enter(d *derived) {
	m := f.maker
	with, several := f.with, false
	if c := d.common; c != nil {
		if c.inner != nil {
			d.inner = c.inner
			return
		}
		with, several = c.before, c.refs > 1
	}
	inner := &fromClause{maker: m, plan: f.plan, with: with, unlisted: !m.catalog.ListsAll(), word: nowhere}
	if f.lists {
		inner.unlisted = f.unlisted
	}
	inner.reached, inner.depth = f.reached || d.lateral, f.depth+1
	inner.readPart(d.query, func(target string) bool { return several || f.uses(d, target) })
	_, first := only(d.query.list("targetList")[0])
	if at := m.tokenAt(first.number("location")); at >= 0 {
		inner.word = m.fromAfter(at, len(m.tokens), m.depths[at])
	}
	if inner.word < 0 {
		f.plan.leaveOut("unknown form of statement")
		return
	}
	if d.common == nil && f.locksAll { // it doesn't lock what WITH reads, nor what other tables' names leave out
		inner.locks, inner.locksAll = true, true
	}
	inner.open(d.query, true)
	inner.found = inner.groups()
	if len(inner.found) == 0 && !inner.opens() {
		return
	}
	m.orders(f.plan, d.query, inner.width(d.query.list("targetList")))
	d.inner = inner
	if d.common != nil {
		d.common.inner = inner
	}
}

// isNullable tells what a subquery reads that an outer join may leave NULL.
func (f *fromClause) isNullable(is bool) {
	for _, it := range f.found {
		it.nullable = it.nullable || is
	}
	for _, d := range f.derived {
		if d.inner != nil {
			d.inner.isNullable(is)
		}
	}
}

// uses reports whether a query mentions a column of a subquery.
func (f *fromClause) uses(d *derived, column string) bool {
	for _, ref := range f.refs {
		last := len(ref.fields) - 1
		if last >= 0 && !ref.folds && (ref.fields[last] == column || ref.fields[last] == "*") &&
			(last == 0 || ref.fields[last-1] == d.alias.text("aliasname")) {
			return true
		}
	}
	return false
}

// readPart is read for a subquery, of whose columns the statement around it may not use all: what it doesn't use isn't read.
func (f *fromClause) readPart(query node, uses func(column string) bool) {
	rest := node{}
	for name, value := range query {
		rest[name] = value
	}
	if !query.has("sortClause") && !query.has("distinctClause") { // these may name a column by its position
		var used []any
		for _, target := range query.list("targetList") {
			if name, sure := outputName(target); !sure || uses(name) {
				used = append(used, target)
			}
		}
		rest["targetList"] = used
	}
	f.read(rest, "fromClause")
}

// passes adds a subquery's hidden columns to its own, and returns its tables as the query around it knows them. If it lists
// their rows, it needs their type.
func (d *derived) passes(listed bool) (outside []*item) {
	if c := d.common; c != nil && c.passed != nil {
		for _, it := range c.passed {
			outside = append(outside, it.outside(d, it.passed, it.named))
		}
		return outside
	}
	f, h, columns := d.inner, d.inner.hiding(), ""
	its := f.found
	for _, below := range f.derived {
		if below.inner != nil && !below.carried {
			its = append(its[:len(its):len(its)], below.passes(listed)...)
		} else if below.inner != nil { // the star has them, under the same names
			for _, it := range below.passes(listed) {
				outside = append(outside, it.outside(d, it.passed, it.named))
			}
		}
	}
	for _, it := range its {
		passed := map[string]string{}
		own := []string{"xmin", "tableoid"}
		for _, column := range it.table.Key {
			own = append(own, quote(column.Name))
		}
		if it.listed = listed; listed {
			own = append(own, rowOf)
		}
		for _, column := range own {
			f.maker.passed++
			passed[column] = quote(alias + " " + strconv.Itoa(f.maker.passed))
			if columns != "" {
				columns += ", "
			}
			columns += h.of(it, column) + " AS " + passed[column]
		}
		outside = append(outside, it.outside(d, passed, it.named || it.passed == nil && !h.sole))
	}
	if columns != "" {
		f.inserts(d.query, columns, f.word)
	}
	if d.common != nil {
		d.common.passed = outside
	}
	return outside
}

// outside returns a subquery's table as the query around it knows it.
func (it *item) outside(d *derived, passed map[string]string, named bool) *item {
	its := *it
	its.name, its.passed, its.named = d.alias.text("aliasname"), passed, named
	if d.common == nil || d.common.passed == nil { // otherwise it is known from an earlier name of the same part of WITH
		its.below = it.path
	}
	its.path = its.name + condition.Within + its.below
	its.nullable = it.nullable || d.at.nullable
	return &its
}
