package condition

import (
	"strings"

	"zanteyard/catalog"
)

// What the rows of a join's result satisfy, they would satisfy again, beside other rows: if it depends on nothing but
// them. A function that is called for each pair of rows may say something else of the next one, and so may an operator,
// a cast or a policy that somebody has made of a function.

// named are the tables that a condition mentions, in subqueries too, each as often as it does.
func (j *joins) named(value any) (all []*scope, err error) {
	walk(value, func(kind string, body tree) bool {
		switch kind {
		case "ColumnRef":
			found, _, wrong := j.resolve(body.names("fields"))
			if wrong != nil {
				err = wrong
			} else {
				all = append(all, found)
			}
		case "SubLink":
			outside, wrong := j.named(body["testexpr"])
			inside, unclear := j.namedInside(body["subselect"])
			if all = append(append(all, outside...), inside...); wrong != nil {
				err = wrong
			} else if unclear {
				err = j.unsettled()
			}
			return false
		}
		return true
	})
	return all, err
}

// unsettled is why a condition isn't followed that may differ from row to row.
func (j *joins) unsettled() Refusal {
	if len(j.scopes) == 1 && !j.flattened {
		return aSubquery
	}
	return unsettled
}

// namedInside are the tables around a subquery that it mentions. What a name without a table means isn't certain if both
// may have it, and neither what the name of a table means that has another one in it.
func (j *joins) namedInside(query any) (all []*scope, unclear bool) {
	if its, is := j.flat(query); is {
		return j.namedInFlat(query, its)
	}
	own := map[string]bool{}
	visit(query, func(kind string, body tree) {
		if alias := body.tree("alias").text("aliasname"); alias != "" {
			own[alias] = true
		} else if kind == "RangeVar" {
			own[body.text("relname")] = true
		}
	})
	visit(query, func(kind string, body tree) {
		fields := body.names("fields")
		if kind != "ColumnRef" || len(fields) == 0 {
			return
		}
		last := fields[len(fields)-1]
		for _, one := range j.scopes {
			if _, has := one.table.Column(last); len(fields) == 1 && (has || systemNames[last] || last == one.name) {
				unclear = true // a table's name stands for its rows
			}
			if len(fields) > 1 && fields[len(fields)-2] == one.name {
				all, unclear = append(all, one), unclear || own[one.name]
			}
		}
	})
	return all, unclear
}

// flat returns the tables of a subquery that has nothing else, by name: a name that may mean a column of theirs does so.
func (j *joins) flat(query any) (its map[string]*catalog.Table, is bool) {
	queries := 0
	its, is = map[string]*catalog.Table{}, true
	visit(query, func(kind string, body tree) {
		switch kind {
		case "SelectStmt":
			queries++
			is = is && body.has("fromClause") && !body.has("withClause")
		case "JoinExpr":
			is = is && !body.has("alias") && !body.has("join_using_alias")
		case "RangeSubselect", "RangeFunction", "RangeTableFunc", "RangeTableSample":
			is = false
		case "RangeVar":
			table, ok := j.catalog.Find(body.text("schemaname"), body.text("relname"))
			name := body.text("relname")
			if alias := body.tree("alias").text("aliasname"); alias != "" {
				name = alias
			}
			if is = is && ok && !body.tree("alias").has("colnames") && its[name] == nil; is {
				its[name] = table
			}
		}
	})
	return its, is && queries == 1
}

// namedInFlat is namedInside for such a subquery.
func (j *joins) namedInFlat(query any, its map[string]*catalog.Table) (all []*scope, unclear bool) {
	visit(query, func(kind string, body tree) {
		fields := body.names("fields")
		if kind != "ColumnRef" || len(fields) == 0 {
			return
		}
		last := fields[len(fields)-1]
		if len(fields) > 1 {
			name := fields[len(fields)-2]
			for _, one := range j.scopes {
				if one.name == name && its[name] == nil {
					all = append(all, one)
				}
				unclear = unclear || one.name == name && its[name] != nil && len(fields) > 2
			}
			return
		}
		var mine *catalog.Table
		for _, table := range its {
			if _, has := table.Column(last); has {
				mine = table
			}
		}
		for _, one := range j.scopes {
			_, has := one.table.Column(last)
			switch {
			case mine != nil: // until somebody drops the column
				if has && one.table.OID != mine.OID {
					j.relies[mine.OID] = mine
				}
			case has:
				all = append(all, one)
			default: // a table's name stands for its rows
				unclear = unclear || last == one.name && its[last] == nil
			}
		}
	})
	return all, unclear
}

var systemNames = map[string]bool{"ctid": true, "xmin": true, "xmax": true, "cmin": true, "cmax": true, "tableoid": true}

// walk calls f with each node under a value, and goes on below it if f says so.
func walk(value any, f func(kind string, body tree) bool) {
	switch v := value.(type) {
	case map[string]any:
		for name, below := range v {
			if name[0] < 'A' || name[0] > 'Z' || f(name, asTree(below)) {
				walk(below, f)
			}
		}
	case []any:
		for _, below := range v {
			walk(below, f)
		}
	}
}

// settledKinds are what a condition may be made of that is settled: whatever else there is may depend on more than it says.
var settledKinds = map[string]bool{}

func init() {
	for _, kind := range strings.Fields("SelectStmt ResTarget ColumnRef A_Const ParamRef A_Expr BoolExpr NullTest BooleanTest TypeCast " +
		"SubLink RangeVar JoinExpr List A_ArrayExpr CaseExpr CaseWhen CoalesceExpr RowExpr A_Star SortBy " +
		"String Integer Float Boolean BitString Null") {
		settledKinds[kind] = true
	}
}

// settled reports whether a condition that the rows of the result satisfy would be satisfied again.
func (j *joins) settled(value any) bool {
	its, limits := true, 0
	pure := func(names ...string) {
		for _, name := range names {
			its = its && j.catalog.PureOperator(name)
		}
	}
	visit(value, func(kind string, body tree) {
		its = its && settledKinds[kind]
		switch kind {
		case "SelectStmt":
			for _, field := range []string{"limitOffset", "lockingClause", "withClause"} {
				its = its && !body.has(field)
			}
			if body.has("limitCount") {
				limits++
			}
		case "A_Expr":
			if pure(body.names("name")...); len(body.text("kind")) > len("AEXPR_OP") {
				pure("=", "<>", "<", "<=", ">", ">=")
			}
		case "CaseExpr", "RowExpr", "SubLink":
			pure("=", "<>", "<", "<=", ">", ">=")
			_, query := open(body["subselect"])
			if limit, _ := open(query["limitCount"]); body.text("subLinkType") == "EXISTS_SUBLINK" && (limit == "A_Const" || limit == "ParamRef") {
				limits-- // whichever rows it leaves, there are some or none
			}
		case "TypeCast":
			its = its && j.isServers(body.tree("typeName"))
		case "RangeVar":
			table, ok := j.catalog.Find(body.text("schemaname"), body.text("relname"))
			its = its && ok && (table.Kind == 'r' || table.Kind == 'p') && !table.RowSecurity && !body.has("catalogname") &&
				(body.has("schemaname") || j.catalog.First(table.Schema))
			for i := 0; its && i < len(table.Columns); i++ {
				its = j.isPlain(&table.Columns[i])
			}
		case "ColumnRef":
			if _, column, err := j.resolve(body.names("fields")); err == nil {
				its = its && j.isPlain(column)
			}
		}
	})
	return its && limits == 0
}

// isPlain reports whether the server compares a column by what is its own.
func (j *joins) isPlain(column *catalog.Column) bool {
	return column.Declared < firstMade || familyOfColumn(column) != none && !j.catalog.CastsElsewhere(column.Declared, column.Base)
}

// isServers reports whether a type's name means one of the server's own.
func (j *joins) isServers(name tree) bool {
	names := name.names("names")
	switch len(names) {
	case 1:
		_, known := typeNames[names[0]]
		return known && !j.catalog.TypeElsewhere(names[0])
	case 2:
		return names[0] == "pg_catalog"
	}
	return false
}
