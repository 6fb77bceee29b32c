package plan

import (
	"encoding/binary"
	"fmt"
	"strconv"
	"strings"
	"time"

	"zanteyard/keys"
	"zanteyard/record"
)

// What a query made one row of, or left out as equal, is in none of its rows. So it is asked once more: the whole statement
// becomes a subquery of one that has a hidden column besides, with a query of its own that has the statement's FROM and WHERE,
// copied with their constants, and lists the rows that it finds. Both are parts of one statement, so of one snapshot. Of a
// UNION, INTERSECT or EXCEPT there is such a query for each part.
//
//	SELECT its columns, CASE WHEN it is the first row THEN (SELECT lists FROM (SELECT versions and keys, row_number()
//	FROM its FROM WHERE its WHERE) WHERE row_number <= 257) END FROM (the statement) AS zanteyard
//
// The statement within is planned as it is without that: none of its rows is wider, and the query around it asks for nothing
// else. So its rows are the same, in the same order. The copy may read rows in any other order. It is only made where no row
// can make a condition an error, since it may meet rows that the statement's own plan leaves out. It isn't begun if the
// statement has run for a time, and then takes about as long: with LIMIT in place of row_number the server might choose
// another plan, in the hope that 257 rows are soon found, and search for long. PostgreSQL 15 ends it after 257 rows anyhow.

const (
	// copiedFor is how long a statement may have run for its rows to be asked for once more.
	copiedFor = 100 * time.Millisecond
	// mostCopied is how long a FROM and WHERE may be that are copied, in bytes.
	mostCopied = 16 << 10
	// mostCopiedTokens is the same in tokens: it limits what planning them twice costs.
	mostCopiedTokens = 1500
)

// areLong reports whether so much is copied that the statement is left as it is.
func areLong(all []span) bool {
	size := int32(0)
	for _, one := range all {
		size += one.to - one.from
	}
	return size > mostCopied
}

// tooLongToCopy is why a statement is left as it is whose conditions are too long to be planned twice.
const tooLongToCopy = "conditions of more than 16 kB"

// repeats makes the plan of a query that merges rows by asking for them once more, or returns false if what it reads, or an
// error, may depend on that.
func (m *maker) repeats(p *Plan, body node, start, end int) bool {
	if p.Kind != Select || p.Calls || p.MayWriteUnseen || p.ChangesNames || m.cursor || m.prepared || m.catalog.CastsElsewhere() ||
		m.runsForeign(node{"SelectStmt": map[string]any(body)}) {
		return false
	}
	parts, ok := m.mergedParts(body, start, end, nil)
	if !ok {
		return false
	}
	size, tokens := 0, 0
	var lists []string
	var copies []copied
	for _, part := range parts {
		f := &fromClause{maker: m, plan: p, lists: true}
		f.read(part.body, "fromClause")
		found := f.copied()
		tokens += part.to - part.from
		if size += f.items; size > mostJoined || tokens > mostCopiedTokens {
			return false
		}
		if len(found) == 0 {
			return false
		}
		h := &hiding{}
		for _, it := range found {
			it.listed = true
			h.copies(it)
			p.Sources = append(p.Sources, it.source())
			p.relations = append(p.relations, it.relation())
		}
		p.merged = append(p.merged, len(found))
		m.merged = append(m.merged, part.body)
		begin, tail := h.copy()
		lists, copies = append(lists, begin), append(copies, copied{part.tokenRange, tail})
	}
	if len(copies) == 0 {
		return false
	}
	p.Copied, p.Ordered = true, true
	p.insertions = append(p.insertions, asksAgain(start, lists, copies),
		insertion{text: ") AS " + alias + " ", token: end - 1, behind: true})
	return true
}

// asksAgain is what is written before a statement that is asked once more.
func asksAgain(start int, lists []string, copies []copied) insertion {
	open, shut := "", ""
	if len(copies) > 1 {
		open, shut = "pg_catalog.record_send(ROW(", "))"
	}
	for i := range copies[:len(copies)-1] {
		copies[i].tail += ", " + lists[i+1]
	}
	copies[len(copies)-1].tail += shut + " ELSE ''::pg_catalog.bytea END END AS " + alias + " FROM ("
	return insertion{text: "SELECT " + alias + ".*, CASE WHEN pg_catalog.row_number() OVER () OPERATOR(pg_catalog.=) 1 THEN " +
		"CASE WHEN " + belowSerializable +
		" AND pg_catalog.clock_timestamp() OPERATOR(pg_catalog.<) (pg_catalog.statement_timestamp() " +
		"OPERATOR(pg_catalog.+) '" + strconv.Itoa(int(copiedFor.Milliseconds())) + "ms'::pg_catalog.interval) THEN " +
		open + lists[0], token: start, copies: copies}
}

// mergedPart is a query of a UNION, INTERSECT or EXCEPT, or the only one of a statement, with the tokens of its FROM and WHERE.
type mergedPart struct {
	body node
	tokenRange
}

// mergedParts adds the parts of a statement that read tables. It returns false if one of them can't be copied.
func (m *maker) mergedParts(body node, start, end int, to []mergedPart) ([]mergedPart, bool) {
	if body.has("larg") {
		for name := range body {
			switch name {
			case "op", "all", "larg", "rarg", "sortClause", "limitOption":
			default:
				return nil, false
			}
		}
		to, ok := m.mergedParts(body.node("larg"), nowhere, end, to)
		if !ok {
			return nil, false
		}
		return m.mergedParts(body.node("rarg"), nowhere, end, to)
	}
	for name := range body {
		switch name {
		case "targetList", "fromClause", "whereClause", "groupClause", "groupDistinct", "havingClause", "sortClause",
			"distinctClause", "windowClause", "op", "limitOption":
		default:
			return nil, false
		}
	}
	if !body.has("fromClause") {
		return to, start == nowhere && !body.has("whereClause") && !body.has("havingClause")
	}
	parts := []any{body["targetList"], body["sortClause"], body["windowClause"]}
	if !m.mayCopy(body) || !body.has("groupClause") && m.onlyEnds(body, parts) {
		return nil, false
	}
	word := nowhere
	if start != nowhere {
		word = m.fromWord(start, end)
	} else if targets := body.list("targetList"); len(targets) > 0 {
		_, first := only(targets[0])
		if at := m.tokenAt(first.number("location")); at >= 0 {
			word = m.fromAfter(at, end, m.depths[at])
		}
	}
	if word < 0 {
		return nil, false
	}
	return append(to, mergedPart{body, tokenRange{word, m.conditionsEnd(word, end)}}), true
}

// mayCopy reports whether a query reads only tables, and has only conditions that are an error for all rows or for none.
func (m *maker) mayCopy(body node) bool {
	c := copyable{m: m}
	return m.havingAlone(body["havingClause"]) && c.from(body["fromClause"], nil) && c.is(body["whereClause"])
}

// havingAlone reports whether HAVING leaves out groups alone. The server tries a condition without an aggregate on each row
// instead, also one that is only a part: of BETWEEN, of a row, or behind NOT.
func (m *maker) havingAlone(value any) bool {
	switch kind, body := only(value); kind {
	case "":
		return true
	case "BoolExpr":
		if body.text("boolop") != "AND_EXPR" {
			return false
		}
		for _, one := range body.list("args") {
			if !m.havingAlone(one) {
				return false
			}
		}
		return true
	case "A_Expr":
		return body.text("kind") == "AEXPR_OP" && !kindFound(value, "RowExpr") && m.aggregates([]any{value})
	}
	return false
}

// copied returns the tables whose rows are listed, and counts the others.
func (f *fromClause) copied() (seen []*item) {
	named := map[string]int{}
	for _, it := range f.found {
		named[it.name]++
	}
	for _, it := range f.found {
		switch {
		case named[it.name] > 1:
			f.plan.leaveOut("two tables with the same name")
		case f.removable(it):
			f.plan.leaveOut(aSkippedJoin)
		default:
			seen = append(seen, it)
		}
	}
	return seen
}

// conditionsEnd returns the token after a query's FROM and WHERE.
func (m *maker) conditionsEnd(from, end int) int {
	for i := from + 1; i < end; i++ {
		if m.depths[i] < m.depths[from] {
			return i
		}
		if m.depths[i] != m.depths[from] || m.tokens[i].kind != wordToken || m.word(i-1) == "." || m.is(i-1, "as") {
			continue
		}
		switch strings.ToLower(m.word(i)) {
		case "group", "having", "window", "order", "union", "intersect", "except":
			return i
		}
	}
	return end
}

// copies adds what a copy's rows have of a table: a record, or NULL if the key is long.
func (h *hiding) copies(it *item) {
	row, long := h.record(it)
	if long != "" {
		row = "CASE WHEN " + long + " THEN " + row + " END"
	}
	h.value(row)
}

// copy returns what is written before and after a copied FROM and WHERE.
func (h *hiding) copy() (begin, tail string) {
	lists, rows, number := "", h.texts(), quote(alias+" 0")
	for i := range rows {
		name := quote(alias + " " + strconv.Itoa(i+1))
		rows[i] += " AS " + name
		lists += ", CASE WHEN " + countOfRows + " OPERATOR(pg_catalog.<=) " + strconv.Itoa(MostListed) +
			" THEN pg_catalog.string_agg(" + alias + "." + name + ", '') END"
	}
	begin = "(SELECT pg_catalog.record_send(ROW(" + countOfRows + lists + ")) FROM (SELECT " + strings.Join(rows, ", ") +
		", pg_catalog.row_number() OVER () AS " + number + " "
	tail = ") AS " + alias + " WHERE " + alias + "." + number + " OPERATOR(pg_catalog.<=) " + strconv.Itoa(MostListed+1) + ")"
	return begin, tail
}

// copiedPart is what a copy of one part has returned: how many rows there were, and a list for each of its tables.
type copiedPart struct {
	rows  uint64
	lists [][]byte
}

// copiedIn returns what copies have returned. ok is false if they have returned nothing.
func (p *Plan) copiedIn(value []byte, isBinary bool) (all []copiedPart, ok bool) {
	its, ok := raw(value, isBinary)
	if !ok || len(its) == 0 {
		return nil, false
	}
	parts := [][]byte{its}
	if len(p.merged) > 1 {
		if parts, _, its, ok = cutRecord(its, nil); !ok || len(its) > 0 || len(parts) != len(p.merged) {
			return nil, false
		}
	}
	for i, part := range parts {
		const bytea = 17
		fields, last, rest, ok := cutRecord(part, make([][]byte, 0, 1+p.merged[i]))
		if !ok || len(rest) > 0 || len(fields) != 1+p.merged[i] || len(fields[0]) != 8 || last != bytea {
			return nil, false
		}
		all = append(all, copiedPart{binary.BigEndian.Uint64(fields[0]), fields[1:]})
	}
	return all, true
}

// lists returns all lists of copies, in the order of the plan's tables.
func listsOf(all []copiedPart) (lists [][]byte) {
	for _, one := range all {
		lists = append(lists, one.lists...)
	}
	return lists
}

// appendCopied returns the rows that a copy lists.
func (p *Plan) appendCopied(to []record.Read, value []byte, isBinary bool) ([]record.Read, error) {
	if value == nil {
		return to, nil
	}
	all, ok := p.copiedIn(value, isBinary)
	lists := listsOf(all)
	var failed error
	if its, readable := raw(value, isBinary); !ok && (!readable || len(its) > 0) {
		return to, fmt.Errorf("a list of what a statement read can't be read")
	}
	for i := range lists {
		var err error
		if to, err = p.Sources[i].appendList(to, lists[i]); err == ErrOtherRelation {
			return to, err
		} else if err != nil {
			failed = err
		}
	}
	return to, failed
}

// copyOf checks that a rewritten statement has the whole statement within, and a copy of each FROM and WHERE that is copied,
// and nothing else.
func (m *maker) copyOf(statement, rewritten node) bool {
	_, body := only(rewritten)
	for name := range body {
		switch name {
		case "targetList", "fromClause", "op", "limitOption":
		default:
			return false
		}
	}
	from, list := body.list("fromClause"), body.list("targetList")
	if len(from) != 1 || len(list) != 2 {
		return false
	}
	kind, within := only(from[0])
	if kind != "RangeSubselect" || within.flag("lateral") || !alike(statement, within["subquery"]) {
		return false
	}
	_, star := only(list[0])
	if fields := names(star.as("val", "ColumnRef").list("fields")); len(fields) != 2 || fields[0] != alias || fields[1] != "*" {
		return false
	}
	copies, same := 0, true
	visit(list[1], func(kind string, its node) bool {
		if kind != "RangeSubselect" {
			return true
		}
		found := its.node("subquery").node("SelectStmt")
		if same = same && copies < len(m.merged); same {
			query := m.merged[copies]
			same = alike(query["fromClause"], found["fromClause"]) && alike(query["whereClause"], found["whereClause"])
		}
		copies++
		return false
	})
	return same && copies == len(m.merged)
}

// isLong writes that the texts of a key are short enough to be listed, "" if they always are.
func isLong(texts []string) string {
	if len(texts) == 0 {
		return ""
	}
	return "pg_catalog.octet_length(pg_catalog.concat(" + strings.Join(texts, ", ") + ")) OPERATOR(pg_catalog.<=) " +
		strconv.Itoa(longestListed)
}

// record writes a record of a row's version, its table, its key and its type, and the condition that it isn't too long.
func (h *hiding) record(it *item) (record, condition string) {
	var names []string
	for _, column := range it.table.Key {
		names = append(names, quote(column.Name))
	}
	h.isSure(it, append(h.shares(it), names...))
	row, long := []string{h.of(it, "xmin"), h.of(it, "tableoid")}, []string(nil)
	for i, column := range it.table.Key {
		text := keys.Expression(column.Type, h.of(it, names[i]), it.converts)
		row = append(row, text)
		if keys.IsLong(column.Type) {
			long = append(long, text)
		}
	}
	row = append(row, h.of(it, rowOf))
	return "pg_catalog.record_send(ROW(" + strings.Join(row, ", ") + "))", isLong(long)
}
