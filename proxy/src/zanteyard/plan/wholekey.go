package plan

import "zanteyard/catalog"

// wholeKey returns the values that a condition compares a whole key with, in the key's order, or nil if it doesn't;
// exact means that the condition is nothing else. Such a condition is true of one row at most.
func wholeKey(where any, of *item, sole bool) (values []any, exact bool) {
	values = make([]any, len(of.table.Key))
	parts := conjuncts(where)
	for _, part := range parts {
		column, value := equality(part, of, sole)
		for i, key := range of.table.Key {
			if column == key.Name && values[i] == nil {
				values[i] = value
			}
		}
	}
	for _, value := range values {
		if value == nil {
			return nil, false
		}
	}
	return values, len(parts) == len(values)
}

func conjuncts(where any) []any {
	kind, body := only(where)
	if kind == "BoolExpr" && body.text("boolop") == "AND_EXPR" {
		var all []any
		for _, part := range body.list("args") {
			all = append(all, conjuncts(part)...)
		}
		return all
	}
	if kind == "" {
		return nil
	}
	return []any{where}
}

// equality reads column = value, on either side, if the value doesn't depend on the row.
func equality(part any, of *item, sole bool) (string, any) {
	kind, body := only(part)
	if kind != "A_Expr" || body.text("kind") != "AEXPR_OP" {
		return "", nil
	}
	if name := names(body.list("name")); len(name) != 1 || name[0] != "=" {
		return "", nil
	}
	for _, sides := range [][2]string{{"lexpr", "rexpr"}, {"rexpr", "lexpr"}} {
		column := body.as(sides[0], "ColumnRef")
		if column == nil || !bound(body[sides[1]]) {
			continue
		}
		fields := names(column.list("fields"))
		if len(fields) == 1 && sole || len(fields) > 1 && fields[len(fields)-2] == of.name {
			return fields[len(fields)-1], body[sides[1]]
		}
	}
	return "", nil
}

// bound reports whether an expression has the same value for all rows.
func bound(value any) bool {
	free := false
	visit(value, func(kind string, _ node) bool {
		switch kind {
		case "ColumnRef", "SubLink", "FuncCall":
			free = true
		}
		return !free
	})
	return !free
}

func keyNumbers(t *catalog.Table) []int16 {
	numbers := make([]int16, len(t.Key))
	for i, column := range t.Key {
		numbers[i] = column.Number
	}
	return numbers
}
