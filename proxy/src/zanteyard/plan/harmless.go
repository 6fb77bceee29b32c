package plan

// Which rows the server evaluates an expression on, and in which order the parts of a condition, is up to its plan: behind
// an index a condition never meets the rows that the index left out. So if an expression may be an error on some row, a
// statement with another plan may fail though its own would have answered.

// harmless reports whether no row can make a query fail, whatever plan the server chooses. What is computed of a group that
// is made of all rows can be an error only by what these hold, in any plan.
func (m *maker) harmless(body node, f *fromClause) bool {
	if body.has("withClause") || !m.safe(body["whereClause"]) || !m.safeFrom(body["fromClause"]) {
		return false
	}
	return f.lists || m.safe(targets(body)) && m.safe(body["havingClause"])
}

// targets are the expressions of a query's result.
func targets(body node) (all []any) {
	for _, item := range body.list("targetList") {
		_, target := only(item)
		all = append(all, target["val"])
	}
	return all
}

// safeFrom is about a FROM clause or a part of one.
func (m *maker) safeFrom(value any) bool {
	if list, ok := value.([]any); ok {
		for _, one := range list {
			if !m.safeFrom(one) {
				return false
			}
		}
		return true
	}
	switch kind, body := only(value); kind {
	case "", "RangeVar":
		return true
	case "RangeSubselect":
		return m.safeDerived(body.node("subquery").node("SelectStmt"))
	case "JoinExpr":
		return m.safeFrom(body["larg"]) && m.safeFrom(body["rarg"]) && m.safe(body["quals"])
	}
	return false
}

// safeDerived is about a subquery in FROM. With a LIMIT, which rows it returns is up to the plan.
func (m *maker) safeDerived(query node) bool {
	for name := range query {
		switch name {
		case "targetList", "fromClause", "whereClause", "op", "limitOption":
		default:
			return false
		}
	}
	return !query.has("larg") && m.safe(targets(query)) && m.safeFrom(query["fromClause"]) && m.safe(query["whereClause"])
}

// safe reports whether an expression of rows, or each of a list, is certainly no error. A constant, a parameter and the time
// are the same for all rows.
func (m *maker) safe(value any) bool {
	if list, ok := value.([]any); ok {
		for _, one := range list {
			if !m.safe(one) {
				return false
			}
		}
		return true
	}
	switch kind, body := only(value); kind {
	case "", "ColumnRef", "A_Const", "ParamRef", "SQLValueFunction":
		return true
	case "TypeCast":
		inner, _ := only(body["arg"])
		return inner == "A_Const" || inner == "ParamRef" || inner == "A_ArrayExpr" && m.safe(body["arg"])
	case "List":
		return m.safe(body["items"])
	case "A_ArrayExpr":
		return m.safe(body["elements"])
	case "RowExpr", "BoolExpr", "CoalesceExpr", "MinMaxExpr":
		return m.safe(body["args"])
	case "NullTest", "BooleanTest", "CollateClause":
		return m.safe(body["arg"])
	case "CaseExpr":
		return m.safe(body["arg"]) && m.safe(body["args"]) && m.safe(body["defresult"])
	case "CaseWhen":
		return m.safe(body["expr"]) && m.safe(body["result"])
	case "A_Expr":
		return m.safeOperator(body) && m.safe(body["lexpr"]) && m.safe(body["rexpr"])
	case "FuncCall":
		return isClock(body)
	case "SubLink":
		return m.safeSubquery(body)
	}
	return false
}

// safeOperator reports whether an operator compares, or computes a time from the current one.
func (m *maker) safeOperator(body node) bool {
	name := names(body.list("name"))
	switch body.text("kind") {
	case "AEXPR_OP", "AEXPR_OP_ANY", "AEXPR_OP_ALL":
		if len(name) != 1 {
			return false
		}
		switch name[0] {
		case "=", "<>", "!=", "<", "<=", ">", ">=":
			return true
		case "+", "-":
			return ofTime(body["lexpr"]) && ofTime(body["rexpr"])
		}
		return false
	case "AEXPR_IN", "AEXPR_DISTINCT", "AEXPR_NOT_DISTINCT", "AEXPR_NULLIF", "AEXPR_BETWEEN", "AEXPR_NOT_BETWEEN",
		"AEXPR_BETWEEN_SYM", "AEXPR_NOT_BETWEEN_SYM":
		return true
	}
	return false
}

// ofTime reports whether an expression is the current time, or a constant or parameter that is added to it.
func ofTime(value any) bool {
	switch kind, body := only(value); kind {
	case "A_Const", "ParamRef", "SQLValueFunction":
		return true
	case "TypeCast":
		return ofTime(body["arg"])
	case "FuncCall":
		return isClock(body)
	}
	return false
}

func isClock(call node) bool {
	name := names(call.list("funcname"))
	if len(name) == 0 || len(call.list("args")) > 0 || len(name) == 2 && name[0] != "pg_catalog" || len(name) > 2 {
		return false
	}
	switch name[len(name)-1] {
	case "now", "transaction_timestamp", "statement_timestamp":
		return true
	}
	return false
}

// safeSubquery is about EXISTS and IN: a subquery whose value is used may be an error by having several rows.
func (m *maker) safeSubquery(body node) bool {
	kind := body.text("subLinkType")
	query := body.as("subselect", "SelectStmt")
	if kind != "EXISTS_SUBLINK" && (kind != "ANY_SUBLINK" || body.has("operName")) || query == nil || !m.safe(body["testexpr"]) {
		return false
	}
	for _, field := range []string{"withClause", "groupClause", "havingClause", "windowClause", "valuesLists", "larg", "rarg"} {
		if query.has(field) {
			return false
		}
	}
	return m.safe(query["whereClause"]) && m.safeFrom(query["fromClause"]) && m.safe(targets(query))
}
