package condition

import "zanteyard/catalog"

// What the names in a statement with subqueries in FROM mean: columns of its tables.

// meant is what a name in FROM means: a table, under the name that it gets, or a subquery with its columns.
type meant struct {
	name    string
	path    string
	table   *catalog.Table // nil for a subquery
	written bool           // the table has no alias, so that its schema may stand before it
	columns map[string]any // what a subquery's columns are; nil for one that isn't followed
}

// names are those of a query's FROM clause.
type names struct {
	all    []*meant
	merged map[string]bool // columns of USING
}

// columnIn returns what a column is in the first of these that has it.
func columnIn(among []*meant, column string) any {
	for _, one := range among {
		if its, has := one.column(column); has {
			return its
		}
	}
	return nil
}

// column returns what a column is, over the statement's tables.
func (n *meant) column(name string) (its any, has bool) {
	if n.table == nil {
		its, has = n.columns[name]
		if has && its == nil {
			its = unclear()
		}
		return its, has
	}
	if _, has = n.table.Column(name); !has {
		return nil, false
	}
	var fields []any
	for _, part := range []string{n.path, name} {
		fields = append(fields, map[string]any{"String": map[string]any{"sval": part}})
	}
	return map[string]any{"ColumnRef": map[string]any{"fields": fields}}, true
}

// unclear stands in the place of what isn't followed: no condition with it is settled.
func unclear() any { return map[string]any{"FuncCall": map[string]any{}} }

// columns are what a query's columns are, by name.
func (n *names) columns(query tree) map[string]any {
	all := map[string]any{}
	add := func(name string, its any) {
		if _, is := all[name]; is {
			its = nil // it can't be named
		}
		all[name] = its
	}
	for _, item := range query.list("targetList") {
		_, target := open(item)
		kind, its := open(target["val"])
		fields := its.names("fields")
		if kind == "ColumnRef" && len(fields) > 0 && hasStar(its) {
			n.starred(fields[:len(fields)-1], add)
			continue
		}
		name := target.text("name")
		if name == "" && kind == "ColumnRef" && len(fields) > 0 {
			name = fields[len(fields)-1]
		}
		if name == "" {
			continue // whatever its name is, nothing else may have it
		}
		if kind != "ColumnRef" {
			add(name, nil)
		} else {
			add(name, n.reference(its))
		}
	}
	return all
}

func hasStar(column tree) bool {
	found := false
	for _, field := range column.list("fields") {
		kind, _ := open(field)
		found = found || kind == "A_Star"
	}
	return found
}

// starred adds the columns that a star stands for. of are the names in front of it.
func (n *names) starred(of []string, add func(name string, its any)) {
	merged := map[string]bool{}
	for _, one := range n.all {
		if len(of) > 0 && of[len(of)-1] != one.name {
			continue
		}
		each := func(name string) {
			if len(of) == 0 && n.merged[name] {
				if merged[name] {
					return
				}
				merged[name] = true
			}
			its, _ := one.column(name)
			add(name, its)
		}
		if one.table == nil {
			for name := range one.columns {
				each(name)
			}
			continue
		}
		for i := range one.table.Columns {
			each(one.table.Columns[i].Name)
		}
	}
}

// reference returns what a name means, over the statement's tables.
func (n *names) reference(column tree) any {
	fields := column.names("fields")
	if len(fields) == 0 || len(fields) > 3 || hasStar(column) || len(fields) != len(column.list("fields")) {
		return unclear()
	}
	var found any
	last := fields[len(fields)-1]
	for _, one := range n.all {
		switch len(fields) {
		case 2:
			if fields[0] != one.name {
				continue
			}
		case 3:
			if !one.written || fields[0] != one.table.Schema || fields[1] != one.table.Name {
				continue
			}
		}
		its, has := one.column(last)
		if !has {
			continue
		}
		if found != nil {
			if len(fields) == 1 && n.merged[last] {
				continue // USING: it means that of the first one
			}
			return unclear()
		}
		found = its
	}
	if found == nil {
		return unclear()
	}
	return found
}

// rewritten returns conditions over the statement's tables.
func (n *names) rewritten(all []any) []any {
	made := make([]any, len(all))
	for i, one := range all {
		made[i] = n.rewrite(one)
	}
	return made
}

// sorting returns a query's ORDER BY over the statement's tables.
func (n *names) sorting(body tree) []any {
	var all []any
	for _, item := range body.list("sortClause") {
		_, its := open(item)
		_, reference := open(its["node"])
		if fields := reference.names("fields"); len(fields) == 1 && (renames(body, fields[0]) || n.merged[fields[0]]) {
			return append(all, map[string]any{"SortBy": map[string]any{"node": unclear()}})
		}
		all = append(all, n.rewrite(item))
	}
	return all
}

// written adds to a column's name over the statement's tables the one that the statement has.
func written(its any, as tree) any {
	kind, column := open(its)
	if kind != "ColumnRef" {
		return its
	}
	return map[string]any{"ColumnRef": map[string]any{"fields": column["fields"], asWritten: as["fields"]}}
}

func (n *names) rewrite(value any) any {
	switch v := value.(type) {
	case map[string]any:
		made := make(map[string]any, len(v))
		for name, below := range v {
			switch body := asTree(below); {
			case name == "ColumnRef":
				return written(n.reference(body), body)
			case name == "SubLink":
				return unclear()
			}
			made[name] = n.rewrite(below)
		}
		return made
	case []any:
		made := make([]any, len(v))
		for i, below := range v {
			made[i] = n.rewrite(below)
		}
		return made
	}
	return value
}
