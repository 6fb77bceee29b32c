package condition

import "zanteyard/catalog"

// A join that finds no row says nothing of a table if another one may lack the row beside which its rows could stand. A
// foreign key says that it doesn't: whatever row was inserted while the server checks the key has the row to which it refers.
// If all other tables are joined so, and nothing else is asked of them, each such row of the table is in the result that
// satisfies the table's own part of the condition, and has no NULL in its keys. Rows from before may lack what they refer to.

// checked makes the form of what a join asks of such rows of one of its tables: nil if the others aren't joined by foreign keys
// alone.
func (j *joins) checked(of *scope, statement map[string]any, text string) *Form {
	f := newForm(statement, text, j.catalog)
	if of.nullable || f.from(of.entry, j.catalog) != nil || len(j.scopes) < 2 {
		return nil
	}
	links := map[[2]*scope][][2]int16{}
	r := &reader{form: f, catalog: j.catalog, joins: j}
	var args []expression
	for _, one := range j.where {
		its, err := j.named(one)
		switch {
		case err != nil || len(its) == 0:
			return nil
		case onlyOne(its, of):
			made, err := r.truth(one)
			if err != nil || len(f.Outer) > 0 {
				return nil
			}
			args = append(args, made)
		case !j.link(one, r, links):
			return nil
		}
	}
	nulls, ok := j.follows(of, links, f)
	if !ok {
		return nil
	}
	f.root = allOf(append(args, nulls...))
	kind, body := open(statement)
	f.Checked, f.Drops = true, f.drops(kind, body, j.catalog)
	return f
}

func onlyOne(all []*scope, of *scope) bool {
	for _, one := range all {
		if one != of {
			return false
		}
	}
	return true
}

// link adds a condition to those that join two tables, if it is one by which a foreign key does.
func (j *joins) link(value any, r *reader, to map[[2]*scope][][2]int16) bool {
	kind, body := open(value)
	if kind != "A_Expr" || body.text("kind") != "AEXPR_OP" {
		return false
	}
	name, err := symbolOf(body)
	if err != nil || name.name != "=" {
		return false
	}
	var tables [2]*scope
	var columns [2]*catalog.Column
	for i, side := range []string{"lexpr", "rexpr"} {
		kind, its := open(body[side])
		if kind != "ColumnRef" {
			return false
		}
		if tables[i], columns[i], err = j.resolve(its.names("fields")); err != nil || tables[i].nullable {
			return false
		}
		if columns[i].Collation == catalog.NotDeterministic || r.elsewhere(columns[i], name) != nil {
			return false
		}
	}
	switch by := familyOfColumn(columns[0]); by {
	case integers, texts, uuids:
		if familyOfColumn(columns[1]) != by {
			return false
		}
	default:
		return false
	}
	to[tables] = append(to[tables], [2]int16{columns[0].Number, columns[1].Number})
	tables[0], tables[1] = tables[1], tables[0]
	to[tables] = append(to[tables], [2]int16{columns[1].Number, columns[0].Number})
	return tables[0] != tables[1]
}

// follows reports whether each row of a table leads to one of every other table by foreign keys, and nothing else joins them.
// It returns that the row's own keys aren't NULL.
func (j *joins) follows(of *scope, links map[[2]*scope][][2]int16, f *Form) (nonNull []expression, ok bool) {
	reached, core := []*scope{of}, 0
	is := map[*scope]bool{of: true}
	for at := 0; at < len(reached); at++ {
		from := reached[at]
		for _, to := range j.scopes {
			its := links[[2]*scope{from, to}]
			if len(its) == 0 {
				continue
			}
			by, found := referenceBy(from.table, to.table, its)
			if is[to] || !found || from != of && !by.Required {
				return nil, false
			}
			delete(links, [2]*scope{to, from})
			reached, is[to] = append(reached, to), true
			if f.Relies = append(f.Relies, to.table); by.Required {
				continue
			}
			for _, number := range by.Columns {
				nonNull = append(nonNull, nulls{columnOf(from.table, number), true})
			}
		}
	}
	for _, one := range j.scopes {
		if !one.nullable {
			core++
		}
	}
	return nonNull, len(reached) == core && core > 1
}

// referenceBy finds the foreign key of a table to another one that these pairs of columns are.
func referenceBy(from, to *catalog.Table, pairs [][2]int16) (catalog.Reference, bool) {
	for _, one := range from.References {
		if one.To != to.OID || to.Hidden != "" || len(pairs) != len(one.Columns) {
			continue
		}
		is := true
		for i := range one.Columns {
			has := false
			for _, pair := range pairs {
				has = has || pair == [2]int16{one.Columns[i], one.Keys[i]}
			}
			is = is && has
		}
		if is {
			return one, true
		}
	}
	return catalog.Reference{}, false
}

func columnOf(table *catalog.Table, number int16) *catalog.Column {
	for i := range table.Columns {
		if table.Columns[i].Number == number {
			return &table.Columns[i]
		}
	}
	return nil
}
