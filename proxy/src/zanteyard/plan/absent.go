package plan

import "zanteyard/condition"

// aSubquery is why the rows aren't seen that a subquery elsewhere than in FROM reads.
const aSubquery = "a subquery"

// asksForNone decides whether the subqueries are followed that have found nothing if an INSERT writes what a query returns, or
// if a SELECT without FROM returns something.
func (m *maker) asksForNone(p *Plan, name string, body, query node) {
	where := query["whereClause"]
	if !m.catalog.WithConditions() || !hasSubquery(where) || p.Kind == Select && p.MayWriteUnseen {
		return
	}
	for _, field := range []string{"havingClause", "groupClause", "larg", "valuesLists", "withClause", "limitOffset"} {
		if body.has(field) || query.has(field) { // some of these have a row without one that satisfies WHERE
			return
		}
	}
	its := []any{query["targetList"], query["sortClause"], query["windowClause"], query["distinctClause"]}
	if m.aggregates(its) || condition.AggregatesByName(its, m.catalog) {
		return
	}
	f, reason := m.followJoin(p, name, body)
	if p.follow = f; f == nil {
		p.NotFollowed = reason
	}
}

func hasSubquery(value any) bool { return kindFound(value, "SubLink") }

// onlySubqueries reports whether a plan leaves out nothing but what subqueries read.
func (p *Plan) onlySubqueries() bool {
	return len(p.Unseen) == 1 && p.Unseen[0].Reason == aSubquery
}

// namesWithin reports whether a statement's conditions name tables in subqueries. That they mean those of the catalog is tried
// with the statement.
func (m *maker) namesWithin(p *Plan, body node) bool {
	names := false
	visit(map[string]any(body), func(kind string, its node) bool {
		if kind == "SubLink" {
			visit(map[string]any(its), func(kind string, its node) bool {
				if t, ok := m.catalog.Find(its.text("schemaname"), its.text("relname")); kind == "RangeVar" && ok {
					names = true
					p.relations = append(p.relations, relation{name: m.newItem(its, t, place{}, false).written, oid: t.OID, named: true})
				}
				return true
			})
		}
		return true
	})
	return names
}
