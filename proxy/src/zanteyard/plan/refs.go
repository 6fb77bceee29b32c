package plan

import "zanteyard/catalog"

// What a statement mentions of its tables decides whether the server may leave out a table, or read an index instead.
// Hidden columns would then make the statement slower, so the table isn't seen.

// reference is a column that a statement mentions, and the join whose condition mentions it, or 0 if it is elsewhere.
type reference struct {
	fields []string
	join   int
	// folds means that the server may find out, before it plans, that it doesn't need the column.
	folds bool
}

// inner has the names of a subquery's own FROM clause, which aren't those of the statement around it.
type inner struct {
	names  map[string]bool
	tables []*catalog.Table
}

// has reports whether a column is one of a subquery's own.
func (in *inner) has(fields []string) bool {
	if in == nil || len(fields) == 0 {
		return false
	}
	if len(fields) > 1 {
		return in.names[fields[len(fields)-2]]
	}
	for _, t := range in.tables {
		if _, ok := t.Column(fields[0]); ok {
			return true
		}
	}
	return fields[0] == "*" || in.names[fields[0]]
}

// collect records the columns that a part of a statement mentions.
func (f *fromClause) collect(value any, join int) { f.collectWithin(value, join, nil) }

func (f *fromClause) collectWithin(value any, join int, in *inner) {
	switch v := value.(type) {
	case node:
		f.collectWithin(map[string]any(v), join, in)
	case []any:
		for _, below := range v {
			f.collectWithin(below, join, in)
		}
	case map[string]any:
		for name, below := range v {
			switch body := asNode(below); {
			case name == "ColumnRef":
				if fields := names(body.list("fields")); !in.has(fields) {
					f.refs = append(f.refs, reference{fields: fields, join: join, folds: f.folds})
				}
			case folds(name, body) && !f.folds:
				f.folds = true
				f.collectWithin(below, join, in)
				f.folds = false
			case name == "SelectStmt" && body != nil:
				f.collectWithin(below, join, f.inside(body, in))
			default:
				f.collectWithin(below, join, in)
			}
		}
	}
}

// folds reports whether a part of an expression may decide the whole of it before anything is read, as in `true OR a = 1`.
func folds(kind string, body node) bool {
	var parts []any
	switch kind {
	case "BoolExpr":
		parts = body.list("args")
	case "CoalesceExpr":
		if parts = body.list("args"); len(parts) > 0 {
			parts = parts[:len(parts)-1]
		}
	case "CaseExpr":
		if body.has("arg") {
			parts = []any{body["arg"]}
			break
		}
		for _, one := range body.list("args") {
			_, when := only(one)
			parts = append(parts, when["expr"])
		}
	}
	for _, part := range parts {
		if !kindFound(part, "ColumnRef") {
			return true
		}
	}
	return false
}

// inside adds a subquery's tables to those of the subqueries around it.
func (f *fromClause) inside(query node, around *inner) *inner {
	in := &inner{names: map[string]bool{}}
	if around != nil {
		in.tables = append(in.tables, around.tables...)
		for name := range around.names {
			in.names[name] = true
		}
	}
	visit(query["fromClause"], func(kind string, body node) bool {
		if name := body.node("alias").text("aliasname"); name != "" {
			in.names[name] = true
		} else if kind == "RangeVar" {
			in.names[body.text("relname")] = true
		}
		if t, ok := f.maker.catalog.Find(body.text("schemaname"), body.text("relname")); ok && kind == "RangeVar" {
			in.tables = append(in.tables, t)
		}
		return true
	})
	return in
}

// removable reports whether a table on the inner side of an outer join is mentioned only in that join's condition: the
// server doesn't read it if there is at most one such row.
func (f *fromClause) removable(it *item) bool {
	if it.optional == 0 || f.locks {
		return false
	}
	for _, ref := range f.refs {
		if _, all, hit := f.column(ref, it); ref.join != it.optional && !ref.folds && (all || hit) {
			return false
		}
	}
	return true
}

// indexOnly reports whether everything that is read of a table is in one index: the server may answer without the
// table, which a hidden xmin would prevent, and then it may read several rows in another order.
func (f *fromClause) indexOnly(it *item) bool {
	if f.locks {
		return false
	}
	columns := f.asked(it)
	key, _ := wholeKey(f.where, it, f.items == 1)
	return columns != nil && key == nil && it.table.Covered(columns)
}

// asked returns the columns that a statement asks of a table, by number, nil if it may ask for all of it.
func (f *fromClause) asked(it *item) map[int16]bool {
	columns := map[int16]bool{}
	for _, other := range f.found {
		if it.natural && other.natural && other != it {
			common(columns, it.table, other.table)
		}
	}
	for _, ref := range f.refs {
		number, all, hit := f.column(ref, it)
		switch {
		case ref.folds:
		case all && ref.fields[len(ref.fields)-1] == "*":
			common(columns, it.table, it.table)
		case all:
			return nil
		case hit:
			columns[number] = true
		}
	}
	return columns
}

// common adds those columns of a table whose names another one has too: NATURAL compares these.
func common(columns map[int16]bool, of, with *catalog.Table) {
	for _, column := range of.Columns {
		if _, ok := with.Column(column.Name); ok {
			columns[column.Number] = true
		}
	}
}

// width returns the least number of columns in a target list: a star counts as the columns of one table.
func (f *fromClause) width(targets []any) int {
	columns := 0
	for _, target := range targets {
		_, body := only(target)
		fields := names(body.as("val", "ColumnRef").list("fields"))
		star := 1
		if len(fields) > 0 && fields[len(fields)-1] == "*" {
			for _, it := range f.found {
				if n := len(it.table.Columns); n > star && (len(fields) == 1 || fields[len(fields)-2] == it.name) {
					star = n
				}
			}
			for _, d := range f.derived {
				if d.carried && d.inner != nil {
					if n := d.inner.width(d.query.list("targetList")); n > star {
						star = n
					}
				}
			}
		}
		columns += star
	}
	return columns
}

// column returns which of a table's columns a reference may mean, or that it means all of them or a system column.
func (f *fromClause) column(r reference, it *item) (number int16, all, hit bool) {
	if len(r.fields) == 0 {
		return 0, false, false
	}
	last := r.fields[len(r.fields)-1]
	if len(r.fields) > 1 && r.fields[len(r.fields)-2] != it.name {
		return 0, false, false
	}
	if column, ok := it.table.Column(last); ok {
		return column.Number, false, true
	}
	if last == "*" || isSystemColumn(last) {
		return 0, true, true
	}
	if len(r.fields) > 1 || last != it.name {
		return 0, false, false
	}
	for _, other := range f.found {
		if _, ok := other.table.Column(last); ok { // a column takes precedence over a whole row
			return 0, false, false
		}
	}
	return 0, true, false
}
