package plan

import (
	"zanteyard/catalog"
	"zanteyard/record"
)

// fromClause is what follows FROM or USING in a statement.
type fromClause struct {
	maker *maker
	plan  *Plan
	with  map[string]bool
	found []*item
	items int // of all kinds
	joins int
	refs  []reference
	where any
	locks bool
	// locksAll means that it locks rows of all tables, those of subqueries too.
	locksAll bool
	taken    string // the name of the table that is written to
	lists    bool   // each row of the result is made of any number of rows
	// ordered means that hidden lists and looks into tables may change what is answered, and unlisted that they aren't used.
	ordered, unlisted bool
	// unsorted means that ORDER BY doesn't decide in which order the groups are.
	unsorted bool
	group    []any // of GROUP BY
	derived  []*derived
	folds    bool // what is collected now may turn out not to be needed
	word     int  // of a subquery: its FROM
	size     int  // how many items there are, with those of subqueries that are seen
	depth    int  // in how many subqueries it is
	// outermost: it is the statement's own.
	outermost bool
	reached   bool   // names may mean what is around a subquery
	prefix    string // the names of the subqueries that it is in, if a star has their columns
}

// item is a table of a FROM clause.
type item struct {
	table    *catalog.Table
	name     string // by which the statement knows it
	path     string // the same behind the names of the subqueries in FROM that it is in, as condition.Side has it
	below    string // the same without the first of them
	written  string // the table's name as in the statement, quoted
	nullable bool
	only     bool
	sampled  bool
	optional int // the join that the server may leave out if nothing else uses the table, or 0 if it may not
	natural  bool
	converts bool // the connection's texts are in another encoding than the server's
	listed   bool // the rows that an aggregate was made of are listed
	looked   bool // its rows are looked up by these columns
	by       []catalog.Column
	more     []*catalog.Column // besides its key, on whose values it depends what is asked of other tables
	typed    bool              // no description shows over which relation the statement is run
	// If a subquery in FROM passes its columns on: their names in its result, by their own. named means that it names its table.
	passed map[string]string
	named  bool
}

// read reads a statement's FROM clause and what the rest of the statement mentions.
func (f *fromClause) read(body node, field string) {
	for _, entry := range body.list(field) {
		f.walk(entry, place{})
	}
	for name, value := range body {
		if name != field && name != "withClause" { // their queries don't know the FROM clause
			f.collect(value, 0)
		}
	}
	f.locks, f.where, f.group = body.has("lockingClause"), body["whereClause"], body.list("groupClause")
	for _, clause := range body.list("lockingClause") {
		_, its := only(clause)
		f.locksAll = f.locksAll || !its.has("lockedRels")
	}
}

// place is what the joins around an item mean for it.
type place struct {
	nullable, natural bool
	optional          int
}

func (f *fromClause) walk(entry any, at place) {
	kind, body := only(entry)
	switch kind {
	case "JoinExpr":
		f.join(body, at)
	case "RangeVar":
		f.items++
		f.table(body, at, false)
	case "RangeTableSample":
		f.items++
		f.table(body.as("relation", "RangeVar"), at, true)
		f.collect(body["args"], 0)
	case "RangeSubselect":
		f.items++
		if query := body.node("subquery").node("SelectStmt"); !query.has("valuesLists") { // VALUES reads no table
			f.derived = append(f.derived, &derived{query: query, alias: body.node("alias"), at: at, place: f.items,
				lateral: body.flag("lateral")})
		}
		f.collect(entry, 0)
	default: // a function, whose reads are counted like those of all functions
		f.items++
		f.collect(entry, 0)
	}
}

func (f *fromClause) join(body node, at place) {
	f.joins++
	id := f.joins
	if body.has("alias") { // it hides the names of its tables
		f.items++
		f.plan.leaveOut("a join with a name of its own")
		f.collect(body, 0)
		return
	}
	left, right := at, at
	left.natural = at.natural || body.flag("isNatural")
	right.natural = left.natural
	left.optional, right.optional = 0, 0
	switch body.text("jointype") {
	case "JOIN_LEFT":
		right.nullable, right.optional = true, id
	case "JOIN_RIGHT":
		left.nullable, left.optional = true, id
	case "JOIN_FULL":
		left.nullable, right.nullable = true, true
	}
	f.walk(body["larg"], left)
	f.walk(body["rarg"], right)
	for _, column := range names(body.list("usingClause")) {
		f.refs = append(f.refs, reference{fields: []string{column}, join: id})
	}
	f.collect(body["quals"], id)
}

func (f *fromClause) table(r node, at place, sampled bool) {
	schema, name := r.text("schemaname"), r.text("relname")
	if schema == "" && f.with[name] {
		if c := f.maker.commons[name]; c != nil {
			f.derived = append(f.derived, c.derived(r, at, f.items))
		}
		return // otherwise it is counted as WITH
	}
	reason := ""
	t, ok := f.maker.catalog.Find(schema, name)
	switch {
	case r.has("catalogname"):
		reason = "a table name with a database name"
	case !ok && isServers(schema, name):
		return // the server's own tables have no versions that are audited
	case ok && t.Kind == 'S':
		return // nor do sequences
	case !ok:
		reason = "unknown table"
	case t.Hidden != "":
		reason = t.Hidden
	case r.node("alias").has("colnames"):
		reason = "a table alias that renames columns"
	}
	if reason != "" {
		f.plan.leaveOut(reason)
		return
	}
	f.found = append(f.found, f.maker.newItem(r, t, at, sampled))
}

func (m *maker) newItem(r node, t *catalog.Table, at place, sampled bool) *item {
	it := &item{
		table: t, name: r.text("relname"), written: quote(r.text("relname")), nullable: at.nullable,
		only: !r.flag("inh"), sampled: sampled, optional: at.optional, natural: at.natural,
		converts: m.catalog.Converts, typed: m.prepared,
	}
	if schema := r.text("schemaname"); schema != "" {
		it.written = quote(schema) + "." + it.written
	}
	if name := r.node("alias").text("aliasname"); name != "" {
		it.name = name
	}
	it.path = it.name
	return it
}

// ByIndex is why a table isn't seen of which an index has all that a statement asks for.
const ByIndex = "an index may answer without the table"

const aSkippedJoin = "a join that the server may skip"

// groups returns the tables that can be seen, and counts the others.
func (f *fromClause) groups() (seen []*item) {
	named := map[string]int{}
	for _, it := range f.found {
		named[it.name]++
	}
	for _, it := range f.found {
		looks := f.indexOnly(it)
		switch {
		case named[it.name] > 1, it.name == f.taken:
			f.plan.leaveOut("two tables with the same name")
		case len(f.group) > 0 && !f.lists && !f.grouped(it):
			f.plan.leaveOut("GROUP BY")
		case f.unsorted && !f.grouped(it):
			f.plan.leaveOut("GROUP BY without an ORDER BY of its columns")
		case f.removable(it):
			f.plan.leaveOut(aSkippedJoin)
		case looks && f.unlisted && f.looksUp(it, f.asked(it)):
			f.plan.Looks, f.plan.looksUp, it.looked = true, true, true
			seen = append(seen, it)
		case looks && (f.taken != "" || f.unlisted):
			f.plan.leaveOut(ByIndex)
		default:
			f.plan.Looks = f.plan.Looks || looks
			it.listed = f.lists && (len(f.group) == 0 || !f.grouped(it))
			seen = append(seen, it)
		}
	}
	return seen
}

// grouped reports whether GROUP BY names a table's whole key: then each group has one row of it, and SQL allows its
// other columns to be selected.
func (f *fromClause) grouped(it *item) bool {
	named := map[string]bool{}
	for _, entry := range f.group {
		kind, body := only(entry)
		fields := names(body.list("fields"))
		if kind == "ColumnRef" && (len(fields) == 1 && f.items == 1 || len(fields) > 1 && fields[len(fields)-2] == it.name) {
			named[fields[len(fields)-1]] = true
		}
	}
	for _, column := range it.table.Key {
		if !named[column.Name] {
			return false
		}
	}
	return true
}

func (it *item) source() Source {
	types := make([]uint32, len(it.table.Key))
	for i, column := range it.table.Key {
		types[i] = column.Type
	}
	source := Source{
		Relation: record.Relation(it.table.OID), Identity: it.table.Identity, Converts: it.converts, Types: types,
		Nullable: it.nullable, Listed: it.listed || it.looked, Looked: it.looked, Name: it.path,
	}
	for _, column := range it.more {
		source.More = append(source.More, column.Type)
	}
	if it.listed || it.typed || it.looked {
		source.RowType = it.table.RowType
	}
	return source
}

func (it *item) relation() relation {
	columns := keyNumbers(it.table)
	for _, column := range it.more {
		columns = append(columns, column.Number)
	}
	return relation{name: it.written, oid: it.table.OID, columns: columns, whole: it.listed || it.typed || it.looked}
}
