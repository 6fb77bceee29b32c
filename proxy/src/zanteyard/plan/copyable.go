package plan

// copyable decides which conditions may be evaluated for other rows than the statement's own plan evaluates them for.
type copyable struct {
	m *maker
	// tables are those of the query and of the queries around it.
	tables []*item
}

// from adds the tables of FROM, and reports whether it has nothing but plain tables, joined by such conditions.
func (c *copyable) from(value any, conditions []any) bool {
	list, _ := value.([]any)
	for _, entry := range list {
		if !c.joined(entry, &conditions) {
			return false
		}
	}
	for _, one := range conditions {
		if !c.is(one) {
			return false
		}
	}
	return true
}

func (c *copyable) joined(entry any, conditions *[]any) bool {
	switch kind, body := only(entry); kind {
	case "RangeVar":
		t := c.m.plainTable(body)
		if t == nil || t.Planned || t.Hidden != "" && !t.Alone() || body.node("alias").has("colnames") ||
			c.m.with[body.text("relname")] && !body.has("schemaname") {
			return false
		}
		c.tables = append(c.tables, c.m.newItem(body, t, place{}, false))
		return true
	case "JoinExpr":
		*conditions = append(*conditions, body["quals"])
		return !body.flag("isNatural") && !body.has("usingClause") && !body.has("alias") &&
			c.joined(body["larg"], conditions) && c.joined(body["rarg"], conditions)
	}
	return false
}

// is reports whether an expression does nothing but compute a value, and fails for all rows or for none.
func (c *copyable) is(value any) bool {
	kind, body := only(value)
	switch kind {
	case "", "A_Const", "ParamRef":
		return true
	case "TypeCast":
		constant, _ := only(body["arg"])
		return (constant == "A_Const" || constant == "ParamRef") && castsToOwn(body.node("typeName"))
	case "ColumnRef":
		return c.column(names(body.list("fields")))
	case "BoolExpr":
		return c.all(body.list("args"))
	case "NullTest", "BooleanTest":
		return c.is(body["arg"])
	case "List":
		return c.all(body.list("items"))
	case "A_ArrayExpr":
		return c.all(body.list("elements"))
	case "A_Expr":
		return compares(body) && c.is(body["lexpr"]) && c.is(body["rexpr"])
	case "SubLink":
		return c.subquery(body)
	}
	return false
}

func (c *copyable) all(values []any) bool {
	for _, value := range values {
		if !c.is(value) {
			return false
		}
	}
	return true
}

// column reports whether a name means a column that can be compared, whichever of the tables it is of.
func (c *copyable) column(fields []string) bool {
	if len(fields) == 0 || len(fields) > 2 {
		return false
	}
	found := false
	for _, it := range c.tables {
		if len(fields) == 2 && fields[0] != it.name {
			continue
		}
		column, ok := it.table.Column(fields[len(fields)-1])
		if ok && !comparable(column) || !ok && len(fields) == 2 {
			return false
		}
		found = found || ok
	}
	return found
}

// subquery is about EXISTS and IN: a subquery whose value is used may be an error by having several rows.
func (c *copyable) subquery(body node) bool {
	kind := body.text("subLinkType")
	query := body.as("subselect", "SelectStmt")
	if kind != "EXISTS_SUBLINK" && (kind != "ANY_SUBLINK" || body.has("operName")) || query == nil || !c.is(body["testexpr"]) {
		return false
	}
	for name := range query {
		switch name {
		case "targetList", "fromClause", "whereClause", "distinctClause", "op", "limitOption":
		default:
			return false
		}
	}
	its := &copyable{m: c.m, tables: c.tables[:len(c.tables):len(c.tables)]}
	if distinctOn(query) || !its.from(query["fromClause"], nil) || !its.is(query["whereClause"]) {
		return false
	}
	for _, target := range targets(query) {
		if kind, star := only(target); kind == "ColumnRef" && isStar(star) && body.text("subLinkType") == "EXISTS_SUBLINK" {
			continue
		}
		if !its.is(target) {
			return false
		}
	}
	return true
}

// isStar reports whether a reference is to all columns.
func isStar(column node) bool {
	fields := names(column.list("fields"))
	return len(fields) > 0 && fields[len(fields)-1] == "*"
}
