package condition

import "zanteyard/catalog"

// What a SELECT over several tables asks of one of them depends on the others' rows. For a row of the result, the others'
// rows in it are constants: whatever row of the table would satisfy the conditions beside them is in the result beside
// them, too. If outer joins add all other tables, what is asked of the table doesn't depend on them at all.
//
// So a table's condition is its own part, and that it stands beside one of the rows of another table that are in the
// result. If there are several such tables, one row of each is enough if nothing but this table joins them: then each of
// their rows is beside each.

// Side is what a SELECT asks of one of its tables, or why that isn't followed.
type Side struct {
	Name string // by which the statement knows the table: in a subquery, behind the subquery's name and Within
	Form *Form  // nil if it isn't followed
	Why  error
	// Whole means that beside each row of the others it asks for one row, by its whole key: no other one can satisfy it. An
	// outer join may find none.
	Whole    bool
	Nullable bool // an outer join adds it
	// Alone is what it asks of the table whatever the others have, if that is one row by its whole key, which Form.Key returns.
	Alone *Form
	// More are columns of it besides its key, of any value, on which what is asked of other tables depends.
	More []*catalog.Column
	// Decides means that no condition is left between the others, nor one that depends on no table.
	Decides bool
	// Checked is what a join that found no row asks of the table, if each of its rows is beside one of every other table, by
	// foreign keys; nil if that isn't so.
	Checked *Form
	// Absent means that it is the table of a subquery that found none, if the statement has a result: of NOT EXISTS, NOT IN.
	Absent bool
}

// Outer is a column of another table's key, on whose value in a row of the result a form depends.
type Outer struct {
	Name   string // by which the statement knows the other table
	Table  *catalog.Table
	Column *catalog.Column
	Place  int // among the columns of the table's key, or behind them among the Side's More
}

const (
	otherJoin = Refusal("a join that isn't followed")
	// NotItsKey is for a column whose values aren't known of the rows that are in the result.
	NotItsKey    = Refusal("a column of another table that isn't in its key")
	maybeMissing = Refusal("a condition on a table that an outer join may leave out")
	unsettled    = Refusal("a function or subquery over other tables")
	ambiguous    = Refusal("a column that several tables have")
	severalRows  = Refusal("a condition over three tables")
	outerType    = Refusal("a key of a type that isn't compared with other tables'")
	locksRows    = Refusal("FOR UPDATE of several tables")
	noneBeside   = Refusal("a join of no rows, beside which others could stand")
	manyBeside   = Refusal("a join beside more rows than are compared")
)

// scope is a table of a FROM clause.
type scope struct {
	entry    any
	table    *catalog.Table
	name     string
	nullable bool
	quals    []any             // of the outer join that may leave it out
	more     []*catalog.Column // besides its key, on which what is asked of other tables depends
}

// joins is a FROM clause with the conditions that every row of the result satisfies.
type joins struct {
	catalog *catalog.Catalog
	scopes  []*scope
	where   []any
	merged  map[string]bool // columns of USING
	order   tree            // what ORDER BY and the result's columns are in
	// flattened says that the statement has subqueries in FROM.
	flattened bool
	inner     *scope // the table of the subquery that is read, which comes before the others; nil outside of one
	// relies are tables in subqueries with columns whose names would else mean those of a table around them.
	relies map[uint32]*catalog.Table
}

// Joined reads what a SELECT over several tables asks of each of them, in the order of FROM, and what a statement shows of
// the subqueries in its conditions. The error is a Refusal for all of them.
func Joined(statement map[string]any, text string, c *catalog.Catalog) ([]Side, error) {
	kind, body := open(statement)
	flat, limited, err := entries(kind, body, c)
	if err != nil {
		return nil, err
	}
	j := &joins{catalog: c, merged: map[string]bool{}, order: flat, flattened: limited != nil, relies: map[uint32]*catalog.Table{}}
	for _, entry := range flat.list("fromClause") {
		if err := j.walk(entry); err != nil {
			return nil, err
		}
	}
	if (len(j.scopes) > 1 || limited != nil) && body.has("lockingClause") { // what is locked is tried again, beside the same rows
		return nil, locksRows
	}
	j.where = append(j.where, conjuncts(flat["whereClause"])...)
	absent := j.absent(statement, text)
	if kind == "InsertStmt" { // what it selects isn't told
		return j.relied(withoutOuter(absent)), nil
	}
	if len(j.scopes) < 2 && limited == nil && !hasSubquery(flat["whereClause"]) {
		return nil, notOneTable
	}
	sides := make([]Side, len(j.scopes), len(j.scopes)+len(absent))
	for i, one := range j.scopes {
		sides[i].Name = one.name
		before := j.mores()
		if sides[i].Form, sides[i].Why = j.side(one, statement, text); sides[i].Why == nil && limited[one.name] {
			sides[i].Why = aLimitWithin
		}
		if sides[i].Why != nil {
			sides[i].Form = nil
			j.without(before)
		}
		sides[i].Whole, sides[i].Nullable = j.byWholeKey(one), one.nullable
		if sides[i].Decides = j.decides(one); !limited[one.name] {
			sides[i].Alone = j.alone(one, statement, text)
		}
		if kind == "SelectStmt" && len(limited) == 0 {
			sides[i].Checked = j.checked(one, statement, text)
		}
	}
	for i, one := range j.scopes {
		sides[i].More = one.more
	}
	if kind != "SelectStmt" { // which rows it writes isn't told
		absent = withoutOuter(absent)
	}
	return j.relied(append(sides, absent...)), nil
}

// relied adds to all forms the tables on which the statement relies.
func (j *joins) relied(sides []Side) []Side {
	var all []*catalog.Table
	for _, table := range j.relies {
		all = append(all, table)
	}
	for _, one := range sides {
		if one.Form != nil {
			one.Form.Relies = all
		}
		if one.Checked != nil {
			one.Checked.Relies = append(one.Checked.Relies, all...)
		}
	}
	return sides
}

// walk reads an entry of a FROM clause.
func (j *joins) walk(entry any) error {
	kind, body := open(entry)
	switch kind {
	case "RangeVar":
		return j.table(entry, body)
	case "JoinExpr":
	default:
		return otherJoin
	}
	if body.has("alias") || body.flag("isNatural") || body.has("join_using_alias") {
		return otherJoin
	}
	before := len(j.scopes)
	if err := j.walk(body["larg"]); err != nil {
		return err
	}
	right := len(j.scopes)
	kind, _ = open(body["rarg"])
	outer := body.text("jointype") == "JOIN_LEFT"
	if outer && kind != "RangeVar" || !outer && body.text("jointype") != "JOIN_INNER" {
		return otherJoin
	}
	if err := j.walk(body["rarg"]); err != nil {
		return err
	}
	quals := conjuncts(body["quals"])
	for _, name := range body.names("usingClause") {
		left := j.having(name, j.scopes[before:right])
		other := j.having(name, j.scopes[right:])
		if left == nil || other == nil {
			return otherJoin
		}
		j.merged[name] = true
		quals = append(quals, equated(left.name, other.name, name))
	}
	if outer {
		j.scopes[right].nullable, j.scopes[right].quals = true, quals
	} else {
		j.where = append(j.where, quals...)
	}
	return nil
}

func (j *joins) table(entry any, body tree) error {
	table, ok := j.catalog.Find(body.text("schemaname"), body.text("relname"))
	switch {
	case !ok, body.has("catalogname"), table.Kind != 'r' && table.Kind != 'p':
		return unknownTable
	case table.RowSecurity: // a policy may hold of a row beside one row, and not beside another
		return rowSecurity
	case body.tree("alias").has("colnames"):
		return renamedColumns
	}
	its := &scope{entry: entry, table: table, name: body.text("relname")}
	if alias := body.tree("alias").text("aliasname"); alias != "" {
		its.name = alias
	}
	for _, other := range j.scopes {
		if other.name == its.name {
			return Refusal("two tables with the same name")
		}
	}
	j.scopes = append(j.scopes, its)
	return nil
}

// having returns the first table with a column.
func (j *joins) having(column string, among []*scope) *scope {
	for _, one := range among {
		if _, ok := one.table.Column(column); ok {
			return one
		}
	}
	return nil
}

// equated is one.column = other.column, which USING stands for.
func equated(one, other, column string) any {
	name := func(parts ...string) []any {
		var all []any
		for _, part := range parts {
			all = append(all, map[string]any{"String": map[string]any{"sval": part}})
		}
		return all
	}
	of := func(table string) any {
		return map[string]any{"ColumnRef": map[string]any{"fields": name(table, column)}}
	}
	return map[string]any{"A_Expr": map[string]any{
		"kind": "AEXPR_OP", "name": name("="), "lexpr": of(one), "rexpr": of(other),
	}}
}

// conjuncts are the parts of a condition that AND joins.
func conjuncts(value any) []any {
	kind, body := open(value)
	if kind == "BoolExpr" && body.text("boolop") == "AND_EXPR" {
		var all []any
		for _, arg := range body.list("args") {
			all = append(all, conjuncts(arg)...)
		}
		return all
	}
	if kind == "" {
		return nil
	}
	return []any{value}
}

// side makes the form of one table.
func (j *joins) side(of *scope, statement map[string]any, text string) (*Form, error) {
	f := newForm(statement, text, j.catalog)
	if err := f.from(of.entry, j.catalog); err != nil {
		return nil, err
	}
	core := 0
	for _, one := range j.scopes {
		if !one.nullable {
			core++
		}
	}
	f.Given = of.nullable || core > 1
	asked := append([]any(nil), of.quals...)
	for _, one := range j.where {
		its, nullable, err := j.mentions(one, of)
		switch {
		case err != nil:
			return nil, err
		case nullable || its && of.nullable && !j.rejects(one, of):
			return nil, maybeMissing
		case its:
			asked = append(asked, one)
		case !j.settled(one): // it may differ from row to row
			return nil, j.unsettled()
		default: // if it doesn't hold, the result is empty
			f.Given = true
		}
	}
	made := &parted{form: f, others: map[string][]expression{}}
	r := &reader{form: f, catalog: j.catalog, joins: j}
	kind, body := open(statement)
	var unread []any
	var why error
	for _, one := range asked {
		places, mores := f.places(), j.mores()
		if err := made.add(func() (expression, error) { return r.truth(one) }); err != nil {
			f.restore(places)
			j.without(mores)
			unread, why, r.inner = append(unread, one), err, 0
		}
	}
	if why != nil && (kind != "SelectStmt" || !j.likewise(unread, of, made, body.has("lockingClause"))) {
		return nil, why
	}
	made.end()
	groups := j.joinedWithout(of)
	for i := range f.beside {
		for k := range f.beside[:i] {
			if groups[f.beside[i].name] == groups[f.beside[k].name] {
				return nil, severalRows // a row of each that are beside each other
			}
		}
	}
	if kind != "SelectStmt" && !f.isFirst(of.entry, j.catalog) {
		return nil, mayBeHidden
	}
	f.Drops = f.drops(kind, body, j.catalog)
	if !of.nullable {
		f.sorted = sorts(j.order, of.table, func(value any) *catalog.Column {
			_, body := open(value)
			names := body.names("fields")
			if len(names) == 1 && j.merged[names[0]] { // the result's column of that name may be another table's
				return nil
			}
			its, column, err := j.resolve(names)
			if err != nil || its != of {
				return nil
			}
			return column
		})
	}
	return f, nil
}

// parted are the conditions of a form, by the other tables beside whose rows they are asked.
type parted struct {
	form   *Form
	own    []expression
	others map[string][]expression
}

// add reads one.
func (p *parted) add(read func() (expression, error)) error {
	from := len(p.form.Outer)
	its, err := read()
	if err != nil {
		return err
	}
	name := ""
	for _, outer := range p.form.Outer[from:] {
		if name != "" && name != outer.Name {
			return severalRows
		}
		name = outer.Name
	}
	if name == "" {
		p.own = append(p.own, its)
		return nil
	}
	p.of(name, its)
	return nil
}

// of adds one that depends on a row of a table.
func (p *parted) of(name string, its expression) {
	if p.others[name] == nil {
		p.form.beside = append(p.form.beside, beside{name: name})
	}
	p.others[name] = append(p.others[name], its)
}

func (p *parted) end() {
	p.form.root = allOf(p.own)
	for i := range p.form.beside {
		p.form.beside[i].root = allOf(p.others[p.form.beside[i].name])
	}
}

// allOf joins expressions by AND.
func allOf(args []expression) expression {
	switch len(args) {
	case 0:
		return all{}
	case 1:
		return args[0]
	}
	return junction{args, true}
}

// joinedWithout says which other tables are joined by conditions that don't mention a table: those with the same number.
func (j *joins) joinedWithout(of *scope) map[string]int {
	group := map[string]int{}
	for i, one := range j.scopes {
		group[one.name] = i
	}
	join := func(value any) {
		named, _ := j.named(value)
		names, hasIt := []string(nil), false
		for _, one := range named {
			names, hasIt = append(names, one.name), hasIt || one == of
		}
		if hasIt || len(names) == 0 {
			return
		}
		for _, name := range names[1:] {
			from, to := group[name], group[names[0]]
			for other, its := range group {
				if its == from {
					group[other] = to
				}
			}
		}
	}
	for _, one := range j.where {
		join(one)
	}
	for _, its := range j.scopes {
		for _, one := range its.quals {
			join(one)
		}
	}
	return group
}

// byWholeKey reports whether a table is asked for a row by its whole key, beside each row of the others.
func (j *joins) byWholeKey(of *scope) bool {
	named := map[int16]bool{}
	for _, one := range append(append([]any(nil), of.quals...), j.where...) {
		if kind, body := open(one); kind == "A_Expr" && body.text("kind") == "AEXPR_OP" && isEquals(body) {
			for _, sides := range [][2]string{{"lexpr", "rexpr"}, {"rexpr", "lexpr"}} {
				kind, its := open(body[sides[0]])
				if kind != "ColumnRef" {
					continue
				}
				found, column, err := j.resolve(its.names("fields"))
				if err == nil && found == of && j.isFixed(body[sides[1]], of) {
					named[column.Number] = true
				}
			}
		}
	}
	for i := range of.table.Key {
		if !named[of.table.Key[i].Number] {
			return false
		}
	}
	return len(of.table.Key) > 0
}

func isEquals(body tree) bool {
	its, err := symbolOf(body)
	return err == nil && its.name == "="
}

// isFixed reports whether an expression is a constant, a parameter or another table's column.
func (j *joins) isFixed(value any, of *scope) bool {
	switch kind, body := open(value); kind {
	case "A_Const", "ParamRef":
		return true
	case "TypeCast":
		return j.isFixed(body["arg"], of)
	case "ColumnRef":
		found, _, err := j.resolve(body.names("fields"))
		return err == nil && found != of
	}
	return false
}
