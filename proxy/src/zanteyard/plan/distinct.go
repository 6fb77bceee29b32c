package plan

import "zanteyard/catalog"

// DISTINCT makes one row of all that are equal. They are listed by a window of all rows with the same columns: what it
// gives is the same for each of them, so just as many rows stay distinct as before. The order of the rows is certain if
// ORDER BY has all columns, and each of their values has one form.
//
// Each row has a copy of the list until all but one are dropped, so nothing is listed if there are many rows altogether.

// shared is a column that all rows have in common which a row of the result was made of.
type shared struct {
	of     *item
	column catalog.Column
}

// distincts returns the columns of a SELECT DISTINCT, or false if its rows, or their order, may depend on how the server
// reads them.
func (m *maker) distincts(p *Plan, body node, f *fromClause) (by []shared, certain bool) {
	if !m.returnsAll(p, body, f, "targetList", "fromClause", "whereClause", "sortClause", "distinctClause") {
		return nil, false
	}
	for _, item := range body.list("targetList") {
		_, target := only(item)
		it, column, ok := m.itemOf(target["val"], f)
		if !ok || !hasOneForm(column) {
			return nil, false
		}
		by = append(by, shared{it, column})
	}
	sorted := make([]bool, len(by))
	for _, item := range body.list("sortClause") {
		_, sort := only(item)
		at, ok := m.sortsBy(sort["node"], body.list("targetList"), by, f)
		if sort.has("useOp") || !ok {
			return nil, false
		}
		for i := range by {
			sorted[i] = sorted[i] || by[i].is(by[at])
		}
	}
	for _, is := range sorted {
		if !is {
			return nil, false
		}
	}
	return by, len(by) > 0
}

func (s shared) is(other shared) bool {
	return s.of == other.of && s.column.Number == other.column.Number
}

// sortsBy returns which of a SELECT's columns an entry of ORDER BY means. Which one a position means isn't known if there
// are several: it is a constant, by which texts of one plan differ.
func (m *maker) sortsBy(entry any, targets []any, by []shared, f *fromClause) (at int, ok bool) {
	if kind, _ := only(entry); kind == "A_Const" {
		return 0, len(by) == 1
	}
	meant, known := sortsWhat(entry, targets)
	it, column, is := m.itemOf(meant, f)
	for i := range by {
		if known && is && by[i].is(shared{it, column}) {
			return i, true
		}
	}
	return 0, false
}

// sortsWhat returns the expression that an entry of ORDER BY means: a name without a table's is first of all that of a column
// of the result.
func sortsWhat(entry any, targets []any) (meant any, known bool) {
	kind, body := only(entry)
	fields := names(body.list("fields"))
	if kind != "ColumnRef" || len(fields) != 1 {
		return entry, true
	}
	meant, found := entry, false
	for _, target := range targets {
		name, sure := outputName(target)
		if sure && name != fields[0] {
			continue
		}
		_, its := only(target)
		if !sure || found && !alike(meant, its["val"]) {
			return nil, false
		}
		meant, found = its["val"], true
	}
	return meant, true
}

// outputName returns the name of a column of a SELECT's result; sure is false if it isn't known.
func outputName(target any) (name string, sure bool) {
	_, body := only(target)
	if name := body.text("name"); name != "" {
		return name, true
	}
	kind, its := only(body["val"])
	var words []string
	switch kind {
	case "ColumnRef":
		words = names(its.list("fields"))
	case "FuncCall":
		words = names(its.list("funcname"))
	case "A_Expr", "A_Const", "ParamRef", "BoolExpr", "NullTest":
		return "?column?", true
	}
	if len(words) == 0 || words[len(words)-1] == "*" {
		return "", false
	}
	return words[len(words)-1], true
}

// window makes what is listed be listed of rows that share columns.
func (h *hiding) window(by []shared) {
	if len(by) == 0 {
		return
	}
	text := ""
	for i, one := range by {
		if i > 0 {
			text += ", "
		}
		text += h.of(one.of, quote(one.column.Name))
	}
	h.by, h.over, h.all = by, " OVER (PARTITION BY "+text+")", " OVER ()"
}

// shares returns the names of a table's columns by which the window is made.
func (h *hiding) shares(it *item) (all []string) {
	for _, one := range h.by {
		if one.of == it {
			all = append(all, quote(one.column.Name))
		}
	}
	return all
}
