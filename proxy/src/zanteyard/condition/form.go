package condition

import (
	"zanteyard/catalog"
)

// Form is what a statement asks of one of its tables, without its constants and parameters. It never changes, and is
// safe for use by many goroutines.
type Form struct {
	Table *catalog.Table
	// Name is the one by which the statement knows the table.
	Name string
	// Constants are the places of the constants and parameters in the text that the parse tree was made from, in bytes:
	// where the token begins, which is a minus for a negative number.
	Constants []int
	// Labels are those of them that are followed only if the statement is sent with their columns' types (Arguments.Labelled).
	Labels []Label

	// Given says that the condition is asked beside the other tables' rows of each row of the result, and Outer names the
	// columns of these on which it depends.
	Given bool
	Outer []Outer

	// Relies are other tables: what the statement asks for depends on what their columns are called.
	Relies []*catalog.Table

	// Partly says why a part of the condition, behind an OR, isn't followed; nil if all is.
	Partly error

	// Checked says that the form is about those rows alone that were inserted while the server checked their foreign keys
	// (checked.go).
	Checked bool

	// Drops says why the statement's result may lack a row that satisfies the condition, or "" if it can't: then whatever
	// isn't in the result was passed over. What a result's rows are made of, if it has aggregates, groups, HAVING or DISTINCT,
	// is for the caller to know.
	Drops string

	encoding string    // the server's
	text     string    // that the parse tree was made from
	literals []literal // in it
	// elsewhere counts the places in which the statement has a parameter outside of what the form reads.
	elsewhere map[int]int
	root      expression
	beside    []beside
	sorted    []sorting // what ORDER BY has of the table's key, in front of all else
	limit     *operand  // of a subquery, nil if it has none
}

// Why a statement isn't followed, or one of its tables.
const (
	unknownTable   = Refusal("unknown table")
	notOneTable    = Refusal("several tables, or none")
	renamedColumns = Refusal("a table alias that renames columns")
	onlyTable      = Refusal("ONLY")
	aPartition     = Refusal("a partition by its own name")
	sampled        = Refusal("TABLESAMPLE")
	skipLocked     = Refusal("SKIP LOCKED")
	rowSecurity    = Refusal("row security")
	currentOf      = Refusal("WHERE CURRENT OF")
	withQueries    = Refusal("WITH")
	notAStatement  = Refusal("neither SELECT, UPDATE nor DELETE")
	pathOrder      = Refusal("the search path names pg_catalog after other schemas")
	mayBeHidden    = Refusal("a table's name that may come to mean one in another schema of the search path")
)

// Make reads what a statement asks of its table: a SELECT over one table, an UPDATE or a DELETE. The statement is a
// parse tree as encoding/json reads what pg_query writes: {"SelectStmt": {..}}, and text is what it was made from. The
// error is a Refusal.
func Make(statement map[string]any, text string, c *catalog.Catalog) (*Form, error) {
	kind, body := open(statement)
	var from any
	switch kind {
	case "SelectStmt":
		list := body.list("fromClause")
		if len(list) != 1 {
			return nil, notOneTable
		}
		from = list[0]
	case "UpdateStmt", "DeleteStmt":
		if body.has("fromClause") || body.has("usingClause") {
			return nil, notOneTable
		}
		from = map[string]any{"RangeVar": map[string]any(body.tree("relation"))}
	default:
		return nil, notAStatement
	}
	if err := plainLook(body); err != nil {
		return nil, err
	}
	f := newForm(statement, text, c)
	if err := f.from(from, c); err != nil {
		return nil, err
	}
	if kind != "SelectStmt" && !f.isFirst(from, c) {
		return nil, mayBeHidden
	}
	f.Drops = f.drops(kind, body, c)
	r := &reader{form: f, catalog: c}
	f.sorted = sorts(body, f.Table, func(value any) *catalog.Column {
		column, err := r.column(value)
		if err != nil {
			return nil
		}
		return column
	})
	var err error
	if f.root, err = r.where(body["whereClause"]); err != nil {
		return nil, err
	}
	return f, nil
}

// plainLook refuses what is no plain look at tables.
func plainLook(body tree) error {
	if body.has("withClause") { // a name of it may hide a table's
		return withQueries
	}
	return skipsNothing(body)
}

// skipsNothing refuses SKIP LOCKED.
func skipsNothing(body tree) error {
	for _, lock := range body.list("lockingClause") {
		if _, clause := open(lock); clause.text("waitPolicy") == "LockWaitSkip" {
			return skipLocked
		}
	}
	return nil
}

// newForm makes a form without a table, and counts the places of its parameters.
func newForm(statement map[string]any, text string, c *catalog.Catalog) *Form {
	f := &Form{encoding: c.Encoding, text: text, elsewhere: map[int]int{}}
	visit(statement, func(kind string, body tree) {
		if kind == "ParamRef" {
			f.elsewhere[body.number("number")]++
		}
	})
	return f
}

// from finds the table.
func (f *Form) from(entry any, c *catalog.Catalog) error {
	kind, body := open(entry)
	switch kind {
	case "RangeVar":
	case "RangeTableSample":
		return sampled
	default:
		return notOneTable
	}
	table, ok := c.Find(body.text("schemaname"), body.text("relname"))
	switch {
	case !ok, body.has("catalogname"):
		return unknownTable
	case table.Hidden != "":
		return Refusal(table.Hidden)
	case table.RowSecurity:
		return rowSecurity
	case !body.flag("inh"):
		return onlyTable
	case table.Root != table.OID:
		return aPartition
	case body.tree("alias").has("colnames"):
		return renamedColumns
	case !c.Own():
		return pathOrder
	}
	f.Table, f.Name = table, body.text("relname")
	if alias := body.tree("alias").text("aliasname"); alias != "" {
		f.Name = alias
	}
	return nil
}

// isFirst reports whether a name can't come to mean another table for a moment, which no result would show.
func (f *Form) isFirst(entry any, c *catalog.Catalog) bool {
	_, body := open(entry)
	return body.has("schemaname") || c.First(f.Table.Schema)
}

// drops returns why a row that satisfies the condition may be missing in the result.
func (f *Form) drops(kind string, body tree, c *catalog.Catalog) string {
	if kind != "SelectStmt" {
		switch {
		case f.Table.Triggers:
			return "a trigger may keep a row from being written"
		case f.Table.Rules:
			return "a rule"
		}
		return ""
	}
	switch {
	case body.has("limitCount"), body.has("limitOffset"):
		return "LIMIT or OFFSET"
	case distinctOn(body):
		return "DISTINCT ON"
	}
	return f.setReturning(body, c)
}

// setReturning says that a query calls a function that may return no row.
func (f *Form) setReturning(query tree, c *catalog.Catalog) string {
	if ReturnsSets(map[string]any(query), c) {
		return "a function that returns any number of rows"
	}
	return ""
}

// ReturnsSets reports whether an expression may return any number of rows: by a function, by an operator that somebody has
// made of one, or by a name. The server takes t.f for f(t) if t has no column f.
func ReturnsSets(value any, c *catalog.Catalog) bool {
	found := false
	visit(value, func(kind string, body tree) {
		switch kind {
		case "FuncCall":
			if schema, name := qualified(body.names("funcname")); name != "" {
				found = found || c.Function(schema, name).Set
			}
		case "A_Expr":
			_, name := qualified(body.names("name"))
			found = found || c.SetOperator(name)
		default:
			name := calledByName(kind, body)
			found = found || name != "" && c.Called(name).Set
		}
	})
	return found
}

// AggregatesByName reports whether a name may call an aggregate, as t.count does if t has no column count.
func AggregatesByName(value any, c *catalog.Catalog) bool {
	found := false
	visit(value, func(kind string, body tree) {
		name := calledByName(kind, body)
		found = found || name != "" && c.Called(name).Aggregate
	})
	return found
}

// calledByName returns the name of a function that t.name or (t).name calls if it names no column.
func calledByName(kind string, body tree) string {
	switch kind {
	case "ColumnRef":
		if names := body.names("fields"); len(names) > 1 {
			return names[len(names)-1]
		}
	case "A_Indirection":
		if names := body.names("indirection"); len(names) > 0 {
			return names[len(names)-1]
		}
	}
	return ""
}

func qualified(names []string) (schema, name string) {
	switch len(names) {
	case 0:
		return "", ""
	case 1:
		return "", names[0]
	}
	return names[0], names[len(names)-1]
}

// distinctOn distinguishes DISTINCT ON, which returns one of several rows, from DISTINCT.
func distinctOn(body tree) bool {
	for _, item := range body.list("distinctClause") {
		if kind, _ := open(item); kind != "" {
			return true
		}
	}
	return false
}
