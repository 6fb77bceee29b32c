package plan

import "strings"

// readsTables reports whether a SELECT may read a table of somebody's: it names one that is neither in the server's
// catalog, of which nothing is audited, nor a result of its own WITH.
func (m *maker) readsTables(body node) bool {
	with, found := map[string]bool{}, false
	visit(map[string]any(body), func(kind string, its node) bool {
		if kind == "CommonTableExpr" {
			with[its.text("ctename")] = true
		}
		return true
	})
	visit(map[string]any(body), func(kind string, its node) bool {
		found = found || kind == "RangeVar" && !m.isNobodys(its, with)
		return !found
	})
	return found
}

// isNobodys reports whether a name stands for a table of the server's own, or for a part of WITH. A name that a table
// has, too, may stand for that.
func (m *maker) isNobodys(r node, with map[string]bool) bool {
	schema, name := r.text("schemaname"), r.text("relname")
	if _, ok := m.catalog.Find(schema, name); ok {
		return false
	}
	return isServers(schema, name) || schema == "" && with[name]
}

// isServers reports whether a table that isn't in the catalog of tables is the server's own.
func isServers(schema, name string) bool {
	return schema == "pg_catalog" || schema == "information_schema" || schema == "" && strings.HasPrefix(name, "pg_")
}

// ofNoTable drops the reasons that are about rows of tables, from the plan of a SELECT that reads none.
func (p *Plan) ofNoTable() {
	kept := p.Unseen[:0]
	for _, it := range p.Unseen {
		if it.Reason == aFunctionReads {
			kept = append(kept, it)
		}
	}
	p.Unseen = kept
}
