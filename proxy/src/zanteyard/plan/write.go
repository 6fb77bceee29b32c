package plan

// Writes are asked for their transaction's number by RETURNING, if that returns few rows or the client asked for rows
// itself. A statement that may write any number of rows is asked for it at COMMIT.

const numberColumn = "pg_catalog.pg_current_xact_id_if_assigned()"

// joinedTables is why rows aren't seen that an UPDATE or DELETE joins.
const joinedTables = "tables of an UPDATE or DELETE that it doesn't change"

func (m *maker) inserts(p *Plan, body node, end int) {
	target := m.target(p, body.node("relation"))
	selected := body.node("selectStmt").node("SelectStmt")
	if selects := selected.has("fromClause") || selected.has("op") && selected.text("op") != "SETOP_NONE"; selects &&
		(m.readsTables(node{"selectStmt": body["selectStmt"], "withClause": body["withClause"]}) || writesWithin(body["withClause"])) {
		p.leaveOut("what INSERT selects")
	}
	conflict := body.node("onConflictClause")
	if conflict != nil && (conflict.text("action") == "ONCONFLICT_NOTHING" || conflict.has("whereClause")) {
		p.leaveOut("a conflicting row that isn't written")
	}
	if target == nil {
		return
	}
	m.asksForNone(p, "InsertStmt", body, selected)
	one := !selected.has("fromClause") && !selected.has("valuesLists") && !m.setReturning(selected["targetList"]) &&
		(!selected.has("op") || selected.text("op") == "SETOP_NONE")
	few := one || selected.has("valuesLists") && !m.many
	if !m.mayReturn(p, body, target, few) {
		return
	}
	m.returns(p, body, target, !target.table.Partitioned(), nil, true, end)
}

// changes plans UPDATE and DELETE, which have their other tables in a field.
func (m *maker) changes(p *Plan, body node, end int, others string) {
	target := m.target(p, body.node("relation"))
	joins := m.readsTables(node{others: body[others], "withClause": body["withClause"]})
	if target == nil {
		if joins {
			p.leaveOut(joinedTables)
		}
		return
	}
	key, _ := wholeKey(body["whereClause"], target, !body.has(others))
	current, _ := only(body["whereClause"])
	name := "UpdateStmt"
	if m.deletes(body) {
		name = "DeleteStmt"
	}
	p.ByKey = key != nil
	m.asksToWrite(p, name, body, others)
	if !m.mayReturn(p, body, target, key != nil || current == "CurrentOfExpr") {
		if joins {
			p.leaveOut(joinedTables)
		}
		return
	}
	f := &fromClause{maker: m, plan: p, with: withNames(body), taken: target.name}
	f.read(body, others)
	f.open(body, false)
	m.returns(p, body, target, others == "fromClause" && !target.table.Partitioned(), f.groups(), f.items == 0, end)
}

// target finds the table that is written to, or nil if nothing can be asked of it.
func (m *maker) target(p *Plan, r node) *item {
	t, ok := m.catalog.Find(r.text("schemaname"), r.text("relname"))
	reason := ""
	switch {
	case !ok:
		reason = "unknown table"
	case t.Hidden != "":
		reason = t.Hidden
	}
	if reason != "" {
		p.unseen(reason, true)
	}
	if reason != "" || t.Rules || r.has("catalogname") {
		p.MayWriteUnseen = true
		return nil
	}
	return m.newItem(r, t, place{}, false)
}

// mayReturn reports whether RETURNING may be added or extended. With row security it isn't added, since it would make
// the server check more policies.
func (m *maker) mayReturn(p *Plan, body node, target *item, few bool) bool {
	own := body.has("returningList")
	if target.table.Triggers {
		p.MayWriteUnseen = true // even if no row is returned
		p.MayLevel = p.MayLevel || m.catalog.Levels
	}
	if !own && (!few || target.table.RowSecurity) {
		p.MayWriteUnseen = true
		return false
	}
	return true
}

// returns adds what RETURNING should report: the number, the version that was written, and the rows that were read:
// those of other tables, and the one that a DELETE removed.
func (m *maker) returns(p *Plan, body node, target *item, version bool, found []*item, sole bool, end int) {
	p.AddsReturning = !body.has("returningList")
	begin := ", "
	if p.AddsReturning {
		begin = " RETURNING "
	}
	h := &hiding{sole: sole}
	h.value(numberColumn)
	version = version && !m.prepared // nothing would show of which relation it is
	p.TellsNumber, p.TellsVersion, p.target = true, version, target.table.OID
	wanted := relation{name: target.written, oid: target.table.OID}
	if version {
		h.version(target)
	} else if m.deletes(body) {
		h.reads(target)
		p.Sources = append(p.Sources, target.source())
		wanted = target.relation()
	}
	p.relations = append(p.relations, wanted)
	for _, it := range found {
		h.reads(it)
		p.Sources = append(p.Sources, it.source())
		p.relations = append(p.relations, it.relation())
	}
	p.insertions = []insertion{{text: begin + h.text(), token: end - 1, behind: true}}
}

// deletes distinguishes DELETE from the others: it has no list of columns, values or rows.
func (m *maker) deletes(body node) bool {
	return !body.has("targetList") && !body.has("selectStmt") && !body.has("override") && !body.has("cols")
}
