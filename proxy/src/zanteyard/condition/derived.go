package condition

import "zanteyard/catalog"

// A subquery in FROM, or a part of WITH that FROM names, returns a row for each that its own FROM and WHERE find. So a
// statement over it finds the same rows as one over its tables, with the conditions of both: it is read as that one. What it
// makes of a table's columns isn't looked into: a column of it is one of a table's, or no condition by it is followed.
//
// A row that its LIMIT cuts off isn't known from one that it passed over, so nothing is said of its own tables then. Those
// beside it are asked beside the rows that it returned.

const (
	aLimitWithin = Refusal("a LIMIT or OFFSET in a subquery in FROM")
	mergesWithin = Refusal("a subquery in FROM that groups, merges or unites rows")
	otherWithin  = Refusal("a subquery in FROM that isn't followed")
)

// Within separates the name of a subquery from that of a table in it: no name has that character.
const Within = "\x00"

// flattener reads a statement's subqueries in FROM as parts of it.
type flattener struct {
	catalog *catalog.Catalog
	with    map[string]*common
	limited map[string]bool // tables in a subquery that has LIMIT, by the names that they get
	where   []any           // conditions of the subqueries that no outer join may leave out
	open    int             // in how many subqueries it is
	tables  int             // how many there are by now
}

// common is a part of WITH.
type common struct {
	query tree
	with  map[string]*common // the parts that it may name
}

// mostNested is how deep subqueries may be in one another, and mostFlat how many tables they may have together: a part of WITH
// counts each time that it is named.
const (
	mostNested = 8
	mostFlat   = 64
)

// flatten returns a SELECT as one over tables alone: its FROM and WHERE, in which each table has a name of its own and each
// column that of its table. A statement without subqueries in FROM stays as it is.
func flatten(body tree, c *catalog.Catalog) (flat tree, limited map[string]bool, err error) {
	f := &flattener{catalog: c, limited: map[string]bool{}}
	if f.with, err = commons(body); err != nil {
		return nil, nil, err
	}
	if !f.nests(body) {
		if body.has("withClause") {
			return nil, nil, withQueries
		}
		return body, nil, nil
	}
	from, its, err := f.from(body, "")
	if err != nil {
		return nil, nil, err
	}
	where := append(f.where, its.rewritten(conjuncts(body["whereClause"]))...)
	flat = tree{"fromClause": []any{from}, "sortClause": its.sorting(body)}
	if len(where) > 0 {
		flat["whereClause"] = conjunctionOf(where)
	}
	return flat, f.limited, nil
}

// Nests reports whether a SELECT has subqueries in FROM, or names a part of WITH there.
func Nests(body map[string]any) bool {
	with, err := commons(body)
	return err != nil || (&flattener{with: with}).nests(body)
}

func (f *flattener) nests(body tree) bool {
	found := false
	walk(body["fromClause"], func(kind string, its tree) bool {
		found = found || kind == "RangeSubselect" || kind == "RangeVar" && !its.has("schemaname") && f.with[its.text("relname")] != nil
		return kind != "SubLink" && !found
	})
	return found
}

// commons reads a statement's WITH.
func commons(body tree) (map[string]*common, error) {
	clause := body.tree("withClause")
	if clause.flag("recursive") {
		return nil, withQueries
	}
	all := map[string]*common{}
	for _, item := range clause.list("ctes") {
		_, its := open(item)
		kind, query := open(its["ctequery"])
		if kind != "SelectStmt" || its.has("aliascolnames") || all[its.text("ctename")] != nil {
			return nil, withQueries
		}
		one := &common{query: query, with: map[string]*common{}}
		for name, earlier := range all {
			one.with[name] = earlier
		}
		all[its.text("ctename")] = one
	}
	return all, nil
}

// from reads a query's FROM clause. The result is one entry.
func (f *flattener) from(body tree, prefix string) (any, *names, error) {
	its := &names{merged: map[string]bool{}}
	var all any
	for _, entry := range body.list("fromClause") {
		one, err := f.walk(entry, prefix, its, false)
		if err != nil {
			return nil, nil, err
		}
		if all == nil {
			all = one
		} else {
			all = joinOf("JOIN_INNER", all, one, nil)
		}
	}
	if all == nil || len(its.all) == 0 {
		return nil, nil, otherWithin
	}
	return all, its, nil
}

func joinOf(kind string, left, right any, quals []any) any {
	its := map[string]any{"jointype": kind, "larg": left, "rarg": right}
	if len(quals) > 0 {
		its["quals"] = conjunctionOf(quals)
	}
	return map[string]any{"JoinExpr": its}
}

func conjunctionOf(all []any) any {
	if len(all) == 1 {
		return all[0]
	}
	return map[string]any{"BoolExpr": map[string]any{"boolop": "AND_EXPR", "args": all}}
}

// walk reads an entry of FROM, and adds its names. nullable: an outer join may leave it out, so that its conditions belong to
// that join. They are then the last of the result's.
func (f *flattener) walk(entry any, prefix string, to *names, nullable bool) (any, error) {
	switch kind, body := open(entry); kind {
	case "RangeVar":
		if one := f.with[body.text("relname")]; one != nil && !body.has("schemaname") {
			alias := body.tree("alias")
			if alias == nil {
				alias = tree{"aliasname": body.text("relname")}
			}
			before := f.with
			f.with = one.with
			its, err := f.derived(one.query, alias, prefix, to, nullable)
			f.with = before
			return its, err
		}
		return f.table(body, prefix, to)
	case "RangeSubselect":
		_, query := open(body["subquery"])
		if body.flag("lateral") {
			return nil, otherWithin
		}
		return f.derived(query, body.tree("alias"), prefix, to, nullable)
	case "JoinExpr":
		if nullable {
			return nil, otherJoin
		}
		return f.join(body, prefix, to)
	}
	return nil, otherJoin
}

// table gives a table a name of its own.
func (f *flattener) table(body tree, prefix string, to *names) (any, error) {
	table, ok := f.catalog.Find(body.text("schemaname"), body.text("relname"))
	if f.tables++; f.tables > mostFlat {
		return nil, otherWithin
	}
	if !ok {
		return nil, unknownTable
	}
	its := &meant{name: body.text("relname"), table: table, written: true}
	if alias := body.tree("alias").text("aliasname"); alias != "" {
		its.name, its.written = alias, false
	}
	its.path = prefix + its.name
	to.all = append(to.all, its)
	alias := map[string]any{"aliasname": its.path}
	if columns := body.tree("alias"); columns.has("colnames") {
		alias["colnames"] = columns["colnames"]
	}
	made := map[string]any{"alias": alias}
	for name, value := range body {
		if name != "alias" {
			made[name] = value
		}
	}
	return map[string]any{"RangeVar": made}, nil
}

// derived reads a subquery.
func (f *flattener) derived(query, alias tree, prefix string, to *names, nullable bool) (any, error) {
	name := alias.text("aliasname")
	if name == "" || alias.has("colnames") {
		return nil, renamedColumns
	}
	for field := range query {
		switch field {
		case "targetList", "fromClause", "whereClause", "sortClause", "limitCount", "limitOffset", "limitOption":
		case "op":
			if query.text(field) != "SETOP_NONE" {
				return nil, mergesWithin
			}
		case "lockingClause":
			return nil, locksRows
		case "withClause":
			return nil, withQueries
		default:
			return nil, mergesWithin
		}
	}
	if f.aggregates(query["targetList"]) || f.aggregates(query["sortClause"]) {
		return nil, mergesWithin
	}
	if f.open++; f.open > mostNested {
		return nil, otherWithin
	}
	path, outside := prefix+name+Within, f.where
	f.where = nil
	from, its, err := f.from(query, path)
	f.open--
	if err != nil {
		return nil, err
	}
	conditions := append(f.where, its.rewritten(conjuncts(query["whereClause"]))...)
	f.where = outside
	if query.has("limitCount") || query.has("limitOffset") {
		f.limit(from)
	}
	to.all = append(to.all, &meant{name: name, columns: its.columns(query)})
	if !nullable {
		f.where = append(f.where, conditions...)
		return from, nil
	}
	if kind, _ := open(from); kind != "RangeVar" {
		return nil, otherJoin
	}
	return joinOf("", from, nil, conditions), nil // the join around it takes it apart
}

// aggregates reports whether a query may make one row of several, by an aggregate or a function that nobody knows.
func (f *flattener) aggregates(value any) bool {
	found := false
	walk(value, func(kind string, call tree) bool {
		if names := call.names("funcname"); kind == "FuncCall" && len(names) > 0 && !call.has("over") {
			schema := ""
			if len(names) > 1 {
				schema = names[0]
			}
			its := f.catalog.Function(schema, names[len(names)-1])
			for _, field := range []string{"agg_star", "agg_distinct", "agg_within_group", "agg_filter", "agg_order"} {
				found = found || call.has(field)
			}
			found = found || its.Aggregate || its.Set
		}
		return kind != "SubLink" && !found
	})
	return found
}

// limit records which tables are in a subquery with LIMIT.
func (f *flattener) limit(from any) {
	walk(from, func(kind string, body tree) bool {
		if kind == "RangeVar" {
			f.limited[body.tree("alias").text("aliasname")] = true
		}
		return true
	})
}

// join reads JOIN.
func (f *flattener) join(body tree, prefix string, to *names) (any, error) {
	if body.has("alias") || body.flag("isNatural") || body.has("join_using_alias") {
		return nil, otherJoin
	}
	kind := body.text("jointype")
	if kind != "JOIN_LEFT" && kind != "JOIN_INNER" {
		return nil, otherJoin
	}
	first := len(to.all)
	left, err := f.walk(body["larg"], prefix, to, false)
	if err != nil {
		return nil, err
	}
	middle := len(to.all)
	right, err := f.walk(body["rarg"], prefix, to, kind == "JOIN_LEFT")
	if err != nil {
		return nil, err
	}
	quals := to.rewritten(conjuncts(body["quals"]))
	for _, name := range body.names("usingClause") {
		one, other := columnIn(to.all[first:middle], name), columnIn(to.all[middle:], name)
		if one == nil || other == nil {
			return nil, otherJoin
		}
		to.merged[name] = true
		quals = append(quals, map[string]any{"A_Expr": map[string]any{"kind": "AEXPR_OP", "lexpr": one, "rexpr": other,
			"name": []any{map[string]any{"String": map[string]any{"sval": "="}}}}})
	}
	if _, its := open(right); its.has("rarg") && its["rarg"] == nil { // a subquery with its conditions
		right, quals = its["larg"], append(quals, conjuncts(its["quals"])...)
	}
	return joinOf(kind, left, right, quals), nil
}
