package plan

import (
	"zanteyard/catalog"
	"zanteyard/keys"
)

// A statement that fails may have returned rows before, and how many depends on the server's plan: one plan returns rows as
// it reads them, another one once it has read all. So lists that may make the server choose another plan are only added to
// a query of several rows if it can't fail for one row and not for another.

// calm decides that of the expressions of a query.
type calm struct {
	m *maker
	f *fromClause
	// aggregates may be in the expression.
	aggregates bool
}

// returnsAll reports whether a query has only these clauses, reads only tables, without running anything that others have
// made, and either returns all of its rows or none.
func (m *maker) returnsAll(p *Plan, body node, f *fromClause, clauses ...string) bool {
	if p.Kind != Select || p.Calls || m.cursor || m.catalog.Foreign || m.catalog.CastsElsewhere() || m.callsAsColumn(body) ||
		f.items == 0 || f.items != len(f.found) {
		return false
	}
	for name := range body {
		switch name {
		case "op", "limitOption": // of any query
		default:
			if !contains(clauses, name) {
				return false
			}
		}
	}
	for _, it := range f.found {
		if it.sampled || it.table.RowSecurity || it.table.Planned || it.table.Kind != 'r' && it.table.Kind != 'p' {
			return false
		}
	}
	c := calm{m: m, f: f}
	for _, entry := range body.list("fromClause") {
		if !c.joins(entry) {
			return false
		}
	}
	return c.is(body["whereClause"])
}

// joins reports whether a part of FROM is a table, or tables that are joined by calm conditions.
func (c calm) joins(entry any) bool {
	kind, body := only(entry)
	switch kind {
	case "RangeVar":
		return true
	case "JoinExpr":
		return !body.flag("isNatural") && !body.has("usingClause") && c.is(body["quals"]) && c.joins(body["larg"]) &&
			c.joins(body["rarg"])
	}
	return false
}

// is reports whether an expression does nothing but compute a value, and fails for all rows or for none.
func (c calm) is(value any) bool {
	if value == nil {
		return true
	}
	kind, body := only(value)
	switch kind {
	case "A_Const", "ParamRef":
		return true
	case "TypeCast":
		constant, _ := only(body["arg"])
		return (constant == "A_Const" || constant == "ParamRef") && castsToOwn(body.node("typeName"))
	case "ColumnRef":
		column, ok := c.m.columnOf(value, c.f)
		return ok && comparable(column)
	case "BoolExpr":
		return c.all(body.list("args"))
	case "NullTest", "BooleanTest":
		return c.is(body["arg"])
	case "List":
		return c.all(body.list("items"))
	case "A_ArrayExpr":
		return c.all(body.list("elements"))
	case "A_Expr":
		return compares(body) && c.is(body["lexpr"]) && c.is(body["rexpr"])
	case "FuncCall":
		return c.aggregates && c.aggregate(body)
	}
	return false
}

func (c calm) all(values []any) bool {
	for _, value := range values {
		if !c.is(value) {
			return false
		}
	}
	return true
}

// aggregate reports whether a call is of an aggregate of which the same holds, whose result is the same in any order.
func (c calm) aggregate(call node) bool {
	if !c.m.orderless(call, c.f) {
		return false
	}
	for _, arg := range call.list("args") {
		if column, _ := c.m.columnOf(arg, c.f); !comparable(column) {
			return false
		}
	}
	return calm{m: c.m, f: c.f}.is(call["agg_filter"])
}

// compares reports whether an expression compares values, by an operator that every type has which is comparable.
func compares(expression node) bool {
	name := names(expression.list("name"))
	if len(name) == 0 || len(name) == 2 && name[0] != "pg_catalog" || len(name) > 2 {
		return false
	}
	switch expression.text("kind") {
	case "AEXPR_BETWEEN", "AEXPR_NOT_BETWEEN", "AEXPR_BETWEEN_SYM", "AEXPR_NOT_BETWEEN_SYM":
		return true
	case "AEXPR_OP", "AEXPR_OP_ANY", "AEXPR_OP_ALL", "AEXPR_IN", "AEXPR_DISTINCT", "AEXPR_NOT_DISTINCT":
		switch name[len(name)-1] {
		case "=", "<>", "<", "<=", ">", ">=":
			return expression.has("lexpr")
		}
	}
	return false
}

// comparable reports whether a column's values can be compared with those of any type that the server compares them with,
// without an error. A numeric may have no value as a floating-point number.
func comparable(column catalog.Column) bool {
	switch column.Base {
	case keys.Int2, keys.Int4, keys.Int8, keys.Bool, keys.UUID, keys.Date, keys.Timestamp, keys.Timestamptz, keys.Oid,
		keys.Bytea, keys.Text, keys.Varchar, keys.Name, keys.Bpchar:
		return true
	}
	return column.Type == keys.Enum
}

// castsToOwn reports whether a type is one of the server's own to which a constant may be cast.
func castsToOwn(name node) bool {
	parts := names(name.list("names"))
	isBool := len(parts) == 2 && parts[0] == "pg_catalog" && parts[1] == "bool" && !name.has("arrayBounds")
	return isBool || castType(name) != 0
}

// groupsForCertain reports whether a query with GROUP BY, whose aggregates are listed, returns the same rows in the same order
// whatever plan the server chooses.
func (m *maker) groupsForCertain(p *Plan, body node, f *fromClause) bool {
	if !m.sortsGroups(body, f) || m.ordered(body, f) ||
		!m.returnsAll(p, body, f, "targetList", "fromClause", "whereClause", "groupClause", "havingClause", "sortClause") {
		return false
	}
	c := calm{m: m, f: f, aggregates: true}
	for _, item := range body.list("targetList") {
		if _, target := only(item); !c.is(target["val"]) {
			return false
		}
	}
	for _, item := range body.list("sortClause") {
		_, sort := only(item)
		by, known := sortsWhat(sort["node"], body.list("targetList"))
		if sort.has("useOp") || !known || !c.is(by) {
			return false
		}
	}
	return c.is(body["havingClause"])
}
