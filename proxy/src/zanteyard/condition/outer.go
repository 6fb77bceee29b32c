package condition

// Of a table that an outer join adds, the result also has rows in which its columns are NULL: then no row of it satisfied the
// join's condition. If WHERE leaves these out, the table's own condition is that of the join and of WHERE. If it doesn't, as
// in an anti join (`WHERE b.id IS NULL`), that condition says nothing of what these rows rest on.

// rejects reports whether a part of WHERE is certainly not true where all columns of the table are NULL.
func (j *joins) rejects(value any, of *scope) bool {
	switch kind, body := open(value); kind {
	case "BoolExpr":
		args := body.list("args")
		switch body.text("boolop") {
		case "AND_EXPR":
			for _, one := range args {
				if j.rejects(one, of) {
					return true
				}
			}
			return false
		case "OR_EXPR":
			for _, one := range args {
				if !j.rejects(one, of) {
					return false
				}
			}
			return true
		}
		return len(args) == 1 && j.isNull(args[0], of)
	case "NullTest":
		return body.text("nulltesttype") == "IS_NOT_NULL" && j.isNull(body["arg"], of)
	case "BooleanTest":
		switch body.text("booltesttype") {
		case "IS_TRUE", "IS_FALSE", "IS_NOT_UNKNOWN":
			return j.isNull(body["arg"], of)
		}
		return false
	case "SubLink":
		return body.text("subLinkType") == "ANY_SUBLINK" && j.isNull(body["testexpr"], of)
	}
	return j.isNull(value, of)
}

// isNull reports whether an expression is certainly NULL, or no row of a set of values equals it, where all columns of the
// table are NULL: a column, or the server's own comparison of one, which is strict.
func (j *joins) isNull(value any, of *scope) bool {
	switch kind, body := open(value); kind {
	case "ColumnRef":
		its, _, err := j.resolve(body.names("fields"))
		return err == nil && its == of
	case "TypeCast":
		return j.isNull(body["arg"], of)
	case "A_Expr":
		names := body.names("name")
		switch body.text("kind") {
		case "AEXPR_OP":
			if len(names) == 0 || !strict[names[len(names)-1]] {
				return false
			}
			return body.has("lexpr") && j.isNull(body["lexpr"], of) || j.isNull(body["rexpr"], of)
		case "AEXPR_IN", "AEXPR_LIKE", "AEXPR_BETWEEN", "AEXPR_BETWEEN_SYM", "AEXPR_OP_ANY":
			return j.isNull(body["lexpr"], of)
		}
	}
	return false
}

// strict are operators that return NULL for a NULL, whichever types they are for.
var strict = map[string]bool{"=": true, "<>": true, "<": true, "<=": true, ">": true, ">=": true, "~~": true, "&&": true, "@>": true, "<@": true}
