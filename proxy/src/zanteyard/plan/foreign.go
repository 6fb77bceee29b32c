package plan

import "zanteyard/catalog"

// foreign reports whether a statement may run what others have made (Plan.Foreign).
func (m *maker) foreign(tree node) bool {
	name, body := only(tree)
	switch name {
	case "TransactionStmt", "VariableShowStmt", "VariableSetStmt", "DiscardStmt", "NotifyStmt", "ListenStmt", "UnlistenStmt", "LockStmt",
		"DeallocateStmt", "ClosePortalStmt", "CheckPointStmt", "FetchStmt", "ExecuteStmt":
		return false
	case "SelectStmt", "InsertStmt", "UpdateStmt", "DeleteStmt":
		return m.runsForeign(tree)
	case "DeclareCursorStmt", "PrepareStmt":
		kind, _ := only(body["query"])
		return kind == "" || m.foreign(asNode(body["query"]))
	case "CreateStmt":
		return !m.makesTemporary(name, body)
	case "CreateTableAsStmt":
		return !m.makesTemporary(name, body) || m.runsForeign(node{"query": body["query"]})
	}
	return true
}

// runsForeign is foreign for a query.
func (m *maker) runsForeign(tree node) bool {
	if m.catalog.Foreign {
		return true
	}
	with, found := map[string]bool{}, false
	visit(tree, func(kind string, body node) bool {
		if kind == "CommonTableExpr" {
			with[body.text("ctename")] = true
		}
		return true
	})
	visit(tree, func(kind string, body node) bool {
		switch kind {
		case "SelectStmt":
			found = found || body.has("intoClause")
		case "InsertStmt", "UpdateStmt", "DeleteStmt":
			t := m.plainTable(body.node("relation"))
			found = found || t == nil || t.Foreign
		case "MergeStmt":
			found = true
		case "RangeVar":
			t := m.plainTable(body)
			found = found || t != nil && t.Planned || t == nil && !m.isNobodys(body, with)
		case "FuncCall":
			name, schema := names(body.list("funcname")), ""
			if len(name) > 1 {
				schema = name[len(name)-2]
			}
			f := m.catalog.Function(schema, name[len(name)-1])
			found = found || f.Foreign || f.Writes
		}
		return !found
	})
	return found || m.callsAsColumn(tree)
}

// callsAsColumn reports whether something that is written as a column may be a call of what others have made: if the table t
// has no column c, t.c means c(t), and so does (expression).c.
func (m *maker) callsAsColumn(tree any) bool {
	tables, found := map[string]*catalog.Table{}, false
	visit(tree, func(kind string, body node) bool {
		if kind == "RangeVar" {
			name := body.node("alias").text("aliasname")
			if name == "" {
				name = body.text("relname")
			}
			t := m.plainTable(body)
			if body.node("alias").has("colnames") {
				t = nil
			}
			if one, again := tables[name]; again && one != t { // in a subquery it means another one
				t = nil
			}
			tables[name] = t
		}
		return true
	})
	visit(tree, func(kind string, body node) bool {
		switch kind {
		case "ColumnRef":
			fields := names(body.list("fields"))
			if len(fields) < 2 || fields[len(fields)-1] == "*" {
				break
			}
			name := fields[len(fields)-1]
			if t := tables[fields[len(fields)-2]]; t != nil {
				_, is := t.Column(name)
				found = found || !is && !isSystemColumn(name)
			} else {
				found = found || m.catalog.MadeByOthers(name)
			}
		case "A_Indirection":
			for _, name := range names(body.list("indirection")) {
				found = found || m.catalog.MadeByOthers(name)
			}
		}
		return !found
	})
	return found
}

func isSystemColumn(name string) bool {
	switch name {
	case "ctid", "xmin", "xmax", "cmin", "cmax", "tableoid":
		return true
	}
	return false
}

// plainTable finds a table whose rows are read without running anything that others have made, other than what planning
// calls (catalog.Table.Planned).
func (m *maker) plainTable(r node) *catalog.Table {
	t, ok := m.catalog.Find(r.text("schemaname"), r.text("relname"))
	if !ok || r.has("catalogname") || t.Kind != 'r' && t.Kind != 'p' && t.Kind != 'S' || t.RowSecurity {
		return nil
	}
	return t
}
