package plan

import (
	"sort"
	"strings"
	"sync/atomic"
)

// alias is the name of every hidden column: it can't be taken for a column of the statement in ORDER BY.
const alias = "zanteyard"

// IsHidden reports whether a column's name is that of the hidden ones.
func IsHidden(name []byte) bool { return string(name) == alias }

// query plans a statement that reads or writes rows, whose tokens begin at start.
func (m *maker) query(stmt statement, name string, body node, start int) *Plan {
	p := &Plan{Shape: m.shape, Kind: Write}
	if name == "SelectStmt" {
		p.Kind = Select
	}
	m.calls(p, body)
	if writesWithin(body["withClause"]) {
		p.MayWriteUnseen = true
		if p.Kind == Select {
			p.Kind = Write
		}
	}
	if kindFound(body, "SubLink") {
		p.leaveOut(aSubquery)
	}
	m.with = withNames(body)
	if body.has("withClause") {
		opens := false
		if name == "SelectStmt" {
			opens = m.opensWith(body)
		} else { // as of VALUES that an UPDATE joins
			opens = !writesWithin(body["withClause"]) && !m.readsTables(body.node("withClause"))
		}
		if !opens {
			p.leaveOut(aWith)
		}
	}
	field := "returningList"
	switch name {
	case "SelectStmt":
		field = "targetList"
		p.ByKey = m.byKey(body)
		m.selects(p, body, start, stmt.to)
		for _, c := range m.commons {
			if c.refs > 0 && !c.seen && !c.empty {
				p.leaveOut(aWith)
			}
		}
		m.asksBy(p, body)
		m.typesLabels(p)
		if p.Kind == Select && !m.readsTables(body) {
			p.ofNoTable()
		}
	case "InsertStmt":
		m.inserts(p, body, stmt.to)
	case "UpdateStmt":
		m.changes(p, body, stmt.to, "fromClause")
	case "DeleteStmt":
		m.changes(p, body, stmt.to, "usingClause")
	case "MergeStmt":
		p.MayWriteUnseen = true
		p.leaveOut("MERGE")
	}
	m.finish(p, stmt, field, start)
	return p
}

func kindFound(value any, wanted string) bool {
	found := false
	visit(value, func(kind string, _ node) bool {
		found = found || kind == wanted
		return !found
	})
	return found
}

// finish checks an insertion by parsing the result, and writes the sample that is tried on a connection.
func (m *maker) finish(p *Plan, stmt statement, field string, start int) {
	if !p.adds() {
		p.positions = nil
		return
	}
	sort.SliceStable(p.insertions, func(i, j int) bool { return p.insertions[i].token < p.insertions[j].token })
	reason := ""
	switch {
	case m.mentions(alias):
		reason = "it uses the hidden columns' name"
	case !m.sound(p, stmt, field):
		reason = "unknown form of statement"
	}
	if reason != "" {
		*p = *p.without(reason)
		return
	}
	if p.Copied {
		p.misplaced = p.without(tooLongToCopy)
	}
	if len(p.positions) > 0 {
		p.misplaced = p.without("ORDER BY or GROUP BY may refer to a column by its position")
	}
	if len(p.labels) > 0 && p.misplaced == nil {
		p.misplaced = p.without("a label of an enumeration in an unknown form")
	}
	p.sample = m.sample(p, stmt, start)
	if p.Counts || p.Looks || p.Copied {
		p.rests = &atomic.Int64{}
	}
}

// maxSample limits the text that a plan keeps for its trial.
const maxSample = 16 << 10

// sample returns the rewritten text of a query or, if that is long, a text with shorter lists.
func (m *maker) sample(p *Plan, stmt statement, start int) string {
	first, last := int(m.tokens[start].start), int(m.tokens[stmt.to-1].last)
	var text string
	var inserted []Inserted
	if last-first > maxSample {
		from, to := m.offsets[start], m.offsets[stmt.to-1]+len(m.word(stmt.to-1))
		text, inserted = insert(m.joined[from:to], p.insertions, m.joinedPlaces(from))
	} else {
		text, inserted = insert(m.text[first:last], p.insertions, func(one insertion) places { return one.in(m.tokens, first) })
	}
	if p.inserted = inserted; p.Copied {
		p.plain = span{int32(inserted[0].At + inserted[0].Length), int32(inserted[1].At)}
	}
	return text
}

// places are where an insertion goes in a text, and which parts of the text it copies.
type places struct {
	at     int
	copied []span
}

// in returns an insertion's places in a text that begins at a byte of the one that has the tokens.
func (one insertion) in(tokens []token, begin int) places {
	its := places{at: int(tokens[one.token].start) - begin}
	if one.alone && tokens[one.token].last != tokens[one.token].end {
		return places{at: nowhere}
	}
	if one.behind {
		its.at = int(tokens[one.token].last) - begin
	}
	for _, c := range one.copies {
		its.copied = append(its.copied, span{tokens[c.tokens.from].start - int32(begin), tokens[c.tokens.to-1].last - int32(begin)})
	}
	return its
}

// joinedPlaces returns a function for an insertion's places in the joined text, from a byte on.
func (m *maker) joinedPlaces(begin int) func(one insertion) places {
	return func(one insertion) places {
		its := places{at: m.offsets[one.token] - begin}
		if one.behind {
			its.at += len(m.word(one.token))
		}
		for _, one := range one.copies {
			c := one.tokens
			its.copied = append(its.copied, span{int32(m.offsets[c.from] - begin), int32(m.offsets[c.to-1] + len(m.word(c.to-1)) - begin)})
		}
		return its
	}
}

// without returns the plan that leaves the statement unchanged.
func (p *Plan) without(reason string) *Plan {
	bare := &Plan{
		Kind: p.Kind, Shape: p.Shape, ChangesNames: p.ChangesNames, Unseen: append(p.Unseen[:0:0], p.Unseen...),
		MayWriteUnseen: p.MayWriteUnseen || p.Kind == Write, ByKey: p.ByKey, Settings: p.Settings, Calls: p.Calls,
	}
	if bare.leaveOut(reason); p.follow != nil || p.NotFollowed != "" {
		bare.NotFollowed = reason
	}
	return bare
}

// mentions reports whether a statement has a name that hidden columns have.
func (m *maker) mentions(name string) bool {
	for i, t := range m.tokens {
		word := strings.ToLower(strings.Trim(m.word(i), `"`))
		if (t.kind == wordToken || t.kind == quotedToken) && (word == name || strings.HasPrefix(word, name+" ")) {
			return true
		}
	}
	return false
}

// sound reports whether the rewritten text means the same as the text, except for the hidden columns after the others:
// the parser decides.
func (m *maker) sound(p *Plan, stmt statement, field string) bool {
	text, inserted := insert(m.joined, p.insertions, m.joinedPlaces(0))
	trees, err := parse(text)
	if err != nil || len(trees) != 1 {
		return false
	}
	rewritten := trees[0].node("stmt")
	if !p.withoutTypes(rewritten, inserted) {
		return false
	}
	if p.Copied {
		return m.copyOf(stmt.tree, rewritten)
	}
	_, body := only(rewritten)
	if body.has("query") { // DECLARE, PREPARE
		_, body = only(body["query"])
	}
	hidden := 0
	if field == "targetList" {
		visit(rewritten, func(kind string, its node) bool {
			if kind == "SelectStmt" {
				hidden += its.cutAll(field)
			}
			return true
		})
	} else {
		hidden = body.cut(field)
	}
	return hidden == p.Hidden()*m.times() && alike(stmt.tree, rewritten)
}

// cutAll is cut for a SELECT and all parts of a UNION.
func (n node) cutAll(field string) (results int) {
	results = n.cut(field)
	for _, side := range []string{"larg", "rarg"} {
		if n.has(side) {
			results += n.node(side).cutAll(field)
		}
	}
	return results
}

// times returns how often a statement has its hidden columns.
func (m *maker) times() int {
	if m.parts > 0 {
		return m.parts
	}
	return 1
}

// cut removes the hidden columns at the end of a list, and returns how many of them are those of the statement's result.
func (n node) cut(field string) (results int) {
	list := n.list(field)
	for len(list) > 0 {
		kind, target := only(list[len(list)-1])
		name := target.text("name")
		if kind != "ResTarget" || name != alias && !strings.HasPrefix(name, alias+" ") {
			break
		}
		if list = list[:len(list)-1]; name == alias {
			results++
		}
	}
	if n[field] = list; len(list) == 0 {
		delete(n, field)
	}
	return results
}

func quote(name string) string { return `"` + strings.ReplaceAll(name, `"`, `""`) + `"` }
