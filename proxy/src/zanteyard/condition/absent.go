package condition

import (
	"zanteyard/catalog"
	"zanteyard/keys"
)

// A subquery shows what it found only if it found nothing. Each row of a statement's result satisfies its conditions, so if
// there is one, the subquery of NOT EXISTS had no row beside it, and that of NOT IN none with its value. What such a
// subquery asks of its table is asked as by a SELECT that returned no row.

const (
	ofSeveral  = Refusal("a subquery over several tables, or in another form")
	limitsNone = Refusal("a subquery with LIMIT 0, or a LIMIT that isn't a number")
	sameName   = Refusal("a subquery over a table with the name of one around it")
	rowsUnseen = Refusal("a subquery that depends on rows that aren't told")
)

// entries returns what a statement's rows are made of, and what they satisfy, as a SELECT over tables alone. limited isn't nil
// if it has subqueries in FROM.
func entries(kind string, body tree, c *catalog.Catalog) (flat tree, limited map[string]bool, err error) {
	switch kind {
	case "SelectStmt":
		if err := skipsNothing(body); err != nil {
			return nil, nil, err
		}
		return flatten(body, c)
	case "UpdateStmt", "DeleteStmt":
		if body.has("fromClause") || body.has("usingClause") {
			return nil, nil, notOneTable
		}
		entry := map[string]any{"RangeVar": map[string]any(body.tree("relation"))}
		return tree{"fromClause": []any{entry}, "whereClause": body["whereClause"]}, nil, plainLook(body)
	case "InsertStmt":
		_, query := open(body["selectStmt"])
		if err := plainLook(query); err != nil {
			return nil, nil, err
		}
		return tree{"whereClause": query["whereClause"]}, nil, plainLook(body)
	}
	return nil, nil, notAStatement
}

// hasSubquery reports whether an expression has a subquery.
func hasSubquery(value any) bool {
	found := false
	visit(value, func(kind string, _ tree) { found = found || kind == "SubLink" })
	return found
}

// absent reads the subqueries of which the statement's result shows that they found nothing.
func (j *joins) absent(statement map[string]any, text string) (all []Side) {
	for _, one := range j.where {
		query, tested, is := foundNone(one)
		if !is {
			continue
		}
		side, before := Side{Absent: true}, j.mores()
		if side.Form, side.Why = j.inQuery(query, tested, statement, text); side.Why != nil {
			side.Form = nil
			j.without(before)
		} else {
			side.Name = side.Form.Name
		}
		all = append(all, side)
	}
	return all
}

// foundNone returns the subquery of a condition that holds only if it finds nothing, and what is compared with its values:
// NOT EXISTS (SELECT ..), x NOT IN (SELECT ..), x <> ALL (SELECT ..).
func foundNone(value any) (query tree, tested any, is bool) {
	kind, body := open(value)
	negated := kind == "BoolExpr" && body.text("boolop") == "NOT_EXPR" && len(body.list("args")) == 1
	if negated {
		kind, body = open(body.list("args")[0])
	}
	if kind != "SubLink" {
		return nil, nil, false
	}
	operator := body.names("operName")
	isPlain := func(name string) bool { return len(operator) == 1 && operator[0] == name }
	switch body.text("subLinkType") {
	case "EXISTS_SUBLINK":
		is = negated
	case "ANY_SUBLINK":
		is, tested = negated && (len(operator) == 0 || isPlain("=")), body["testexpr"]
	case "ALL_SUBLINK":
		is, tested = !negated && isPlain("<>"), body["testexpr"]
	}
	_, query = open(body["subselect"])
	return query, tested, is
}

// inQuery makes the form of a subquery's table.
func (j *joins) inQuery(query tree, tested any, statement map[string]any, text string) (*Form, error) {
	from := query.list("fromClause")
	if len(from) != 1 || kindWithin(query["groupClause"], "GroupingSet") {
		return nil, ofSeveral
	}
	for _, field := range []string{"withClause", "larg", "lockingClause", "havingClause", "limitOffset", "valuesLists", "intoClause"} {
		if query.has(field) {
			return nil, ofSeveral
		}
	}
	f := newForm(statement, text, j.catalog)
	if err := f.from(from[0], j.catalog); err != nil {
		return nil, err
	}
	if !f.isFirst(from[0], j.catalog) {
		return nil, mayBeHidden
	}
	if f.Drops = f.setReturning(query, j.catalog); f.Drops != "" {
		return nil, Refusal(f.Drops)
	}
	for _, one := range j.scopes {
		if one.name == f.Name {
			return nil, sameName
		}
	}
	its := *j
	its.inner, f.Given = &scope{entry: from[0], table: f.Table, name: f.Name}, true
	made := &parted{form: f, others: map[string][]expression{}}
	inside, outside := &reader{form: f, catalog: j.catalog, joins: &its}, &reader{form: f, catalog: j.catalog, joins: j}
	for _, one := range conjuncts(query["whereClause"]) {
		if err := made.add(func() (expression, error) { return inside.truth(one) }); err != nil {
			return nil, err
		}
	}
	if query.has("limitCount") {
		limit, err := inside.operand(query["limitCount"])
		if tested != nil || err != nil || limit.outer > 0 {
			return nil, limitsNone
		}
		f.limit = &limit
	}
	if tested != nil {
		if err := made.add(func() (expression, error) { return inside.valued(query, outside, tested) }); err != nil {
			return nil, err
		}
	}
	if made.end(); len(f.beside) > 1 {
		return nil, severalRows
	}
	return f, nil
}

// valued is that a subquery's only column has a value from around it.
func (r *reader) valued(query tree, around *reader, tested any) (expression, error) {
	targets := query.list("targetList")
	if len(targets) != 1 {
		return nil, ofSeveral
	}
	_, target := open(targets[0])
	column, err := r.column(target["val"])
	if err != nil {
		return nil, err
	}
	value, err := around.operand(tested)
	if err != nil {
		return nil, err
	}
	return compared{column, equal, value}, r.suits(column, symbol{name: "=", swapped: true})
}

func kindWithin(value any, wanted string) bool {
	found := false
	visit(value, func(kind string, _ tree) { found = found || kind == wanted })
	return found
}

// withoutOuter refuses those that depend on the rows of other tables, if these aren't told.
func withoutOuter(all []Side) []Side {
	for i := range all {
		if all[i].Form != nil && len(all[i].Form.Outer) > 0 {
			all[i].Form, all[i].Why = nil, rowsUnseen
		}
	}
	return all
}

// inside reports whether a name in a subquery means a column of the subquery's own table, which comes before those around
// it.
func (j *joins) inside(names []string) (bool, error) {
	last := names[len(names)-1]
	if _, has := j.inner.table.Column(last); !has && (len(names) == 1 && !systemNames[last] || !named(names, j.inner.name, j.inner.table)) {
		return false, nil
	} else if !has {
		return false, unknownColumn
	}
	return named(names, j.inner.name, j.inner.table), nil
}

// limits refuses a subquery that returns no row whatever there is.
func (b *binder) limits(of operand) error {
	its, err := b.one(of)
	if err != nil || its.null {
		return err
	}
	if its.typ != 0 && !isInteger(its.typ) {
		return limitsNone
	}
	if most, err := b.datum(its, &column{by: integers}, keys.Int8); err != nil || most.n < 1 {
		return limitsNone
	}
	return nil
}
