package plan

// aWith is why rows aren't seen that a part of WITH reads.
const aWith = "WITH"

// withPart is a part of WITH: a SELECT that FROM may name, once or more.
type withPart struct {
	query  node
	before map[string]bool // the parts that it may name itself
	refs   int             // how often it is named in the statement
	opened int             // how often where its rows can be seen
	seen   bool            // its rows are
	empty  bool            // it reads no table
	// outputs are the names of its columns, if they are known.
	outputs map[string]bool
	known   bool
	inner   *fromClause // its own
	passed  []*item     // what it passes on
}

// opensWith reads a SELECT's WITH, or returns false if its rows can't be seen: if it writes, is recursive or is within
// another part of the statement, and if a name might mean a table elsewhere in the statement.
func (m *maker) opensWith(body node) (opens bool) {
	clause := body.node("withClause")
	if len(clause.list("ctes")) > mostItems {
		return false
	}
	all, before := map[string]*withPart{}, map[string]bool{}
	m.commons = all // a part may name those before it
	defer func() {
		if !opens {
			m.commons = nil
		}
	}()
	for _, item := range clause.list("ctes") {
		_, cte := only(item)
		name := cte.text("ctename")
		query := cte.as("ctequery", "SelectStmt")
		if _, is := m.catalog.Find("", name); is || clause.flag("recursive") || query == nil || all[name] != nil {
			return false
		}
		c := &withPart{query: query, before: map[string]bool{}, empty: !m.readsTables(query)}
		if cte.has("aliascolnames") && !c.empty {
			return false
		}
		for earlier := range before {
			c.before[earlier] = true
		}
		c.outputs, c.known = m.outputs(query)
		all[name], before[name] = c, true
	}
	parts := 0
	visit(map[string]any(body), func(kind string, its node) bool {
		switch c := all[its.text("relname")]; {
		case kind == "CommonTableExpr":
			parts++
		case kind == "RangeVar" && !its.has("schemaname") && c != nil:
			c.refs++
		}
		return true
	})
	return parts == len(all) && !writesWithin(clause)
}

// derived makes a part of WITH an item of FROM.
func (c *withPart) derived(r node, at place, place int) *derived {
	alias := node{"aliasname": r.text("relname")}
	if its := r.node("alias"); its != nil {
		alias = its
	}
	return &derived{query: c.query, alias: alias, at: at, place: place, common: c}
}

// closeWith decides whether what WITH reads is seen: only if each name of each part of it is where more columns of it change
// nothing.
func (f *fromClause) closeWith() {
	all := !f.maker.crowded
	for _, c := range f.maker.commons {
		all = all && (c.opened == c.refs || c.empty)
	}
	for _, c := range f.maker.commons {
		c.seen = all
	}
	if !all {
		f.drop()
	}
}

// drop leaves all parts of WITH as they are.
func (f *fromClause) drop() {
	for _, d := range f.derived {
		if d.common != nil {
			d.inner = nil
		} else if d.inner != nil {
			d.inner.drop()
		}
	}
}
