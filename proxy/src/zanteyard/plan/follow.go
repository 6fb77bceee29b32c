package plan

import (
	"encoding/binary"
	"math"
	"strconv"
	"sync"

	"zanteyard/condition"
	"zanteyard/keys"
	"zanteyard/record"
)

// follow is what a SELECT, an UPDATE or a DELETE asks its tables for, if that are conditions that are followed.
type follow struct {
	sides   []side
	joins   bool // it has several tables, or subqueries: what it asks for depends on its result
	within  bool // it depends on what names in subqueries refer to
	limited bool
	limit   askedPart
	skips   bool // it has an OFFSET
	offset  askedPart
	sorted  bool      // if LIMIT cuts rows off, ORDER BY or something else in it says which
	tables  *sync.Map // those of which rows' values are wanted, by record.Relation
}

// side is what is asked of one of them.
type side struct {
	form      *condition.Form // nil if it isn't followed
	why       string
	columns   record.Identity
	constants []int // the token of each of the form's constants: a minus, for a negative number
	// Of several tables: which of the plan's sources it is, or -1, and the name by which the statement knows it. whole means
	// that beside the others' rows it is asked for by its whole key.
	source   int
	name     string
	whole    bool
	nullable bool
	// alone is what asks for one row of it by its whole key, whatever the others have, with its constants. decides means that
	// beside such rows of the others nothing but its own condition decides what is found.
	alone          *condition.Form
	aloneConstants []int
	decides        bool
	checked        *side            // what it is asked if the result has no row, by foreign keys; nil if these don't say it
	relies         []record.Columns // on which it depends what the statement's names mean
	absent         bool             // a subquery found none, if the statement has a result
}

// Why what a SELECT asks for isn't followed.
const (
	severalTables = "several tables"
	aSetFunction  = "a function that returns any number of rows"
	writesToo     = "a function that may write"
	unclearLimit  = "a LIMIT that isn't a number"
	skipsRows     = "OFFSET"
	foundSome     = "a subquery that may have found rows"
)

// asksBy decides whether what a SELECT asks for is followed: then whatever isn't in its result was passed over.
func (m *maker) asksBy(p *Plan, body node) {
	if !m.catalog.WithConditions() || p.Kind != Select || p.Asked {
		return
	}
	if body.has("larg") {
		p.NotFollowed = "UNION, INTERSECT or EXCEPT"
		return
	}
	if !body.has("fromClause") {
		m.asksForNone(p, "SelectStmt", body, body)
		if p.follow == nil && p.NotFollowed == "" && len(p.Unseen) > 0 && m.reads(body["targetList"]) { // SELECT EXISTS (..)
			p.NotFollowed = p.Unseen[0].Reason
		}
		return
	}
	if len(p.Sources) == 0 && len(p.Unseen) == 0 { // it has only the server's own tables
		return
	}
	f, reason := m.follow(p, body)
	if p.follow = f; f == nil {
		p.NotFollowed = reason
	}
}

// reads reports whether something in a tree reads a table that isn't the server's own.
func (m *maker) reads(tree any) (is bool) {
	visit(tree, func(kind string, body node) bool {
		if kind == "RangeVar" {
			_, known := m.catalog.Find(body.text("schemaname"), body.text("relname"))
			is = is || known
		}
		return true
	})
	return is
}

// asksToWrite decides the same of an UPDATE or a DELETE.
func (m *maker) asksToWrite(p *Plan, name string, body node, others string) {
	switch {
	case !m.catalog.WithConditions():
		return
	case body.has(others):
		p.NotFollowed = severalTables
		return
	case len(p.Unseen) > 0 && !p.onlySubqueries():
		p.NotFollowed = p.Unseen[0].Reason
		return
	}
	f, reason := (*follow)(nil), ""
	if hasSubquery(body["whereClause"]) {
		f, reason = m.followJoin(p, name, body)
	} else {
		f, reason = m.followBy(name, body)
	}
	if p.follow = f; f == nil {
		p.NotFollowed = reason
	}
}

func (m *maker) follow(p *Plan, body node) (*follow, string) {
	switch {
	case p.MayWriteUnseen:
		return nil, writesToo
	case len(p.Unseen) > 0 && (len(p.Sources) == 0 || !isJoin(body) && !p.onlySubqueries()):
		return nil, p.Unseen[0].Reason
	case body.has("groupClause") && !p.Lists(): // otherwise each group lists its rows
		return nil, "GROUP BY"
	case body.has("distinctClause") && !p.Lists(): // otherwise each of its rows lists those that are equal
		return nil, "DISTINCT"
	case body.has("havingClause") && !p.Copied: // otherwise the first group lists those of all
		return nil, "HAVING"
	case m.setReturning(map[string]any(body)):
		return nil, aSetFunction
	}
	if isJoin(body) || hasSubquery(body["whereClause"]) {
		return m.followJoin(p, "SelectStmt", body)
	}
	if len(p.Sources) != 1 {
		return nil, severalTables
	}
	return m.followBy("SelectStmt", body)
}

// isJoin reports whether a SELECT has several tables, or a subquery in FROM.
func isJoin(body node) bool {
	from := body.list("fromClause")
	if len(from) != 1 {
		return true
	}
	kind, _ := only(from[0])
	return kind == "JoinExpr" || condition.Nests(body)
}

func (m *maker) followBy(name string, body node) (*follow, string) {
	form, err := condition.Make(map[string]any{name: map[string]any(body)}, m.joined, m.catalog)
	if err != nil {
		return nil, err.Error()
	}
	f := &follow{limited: body.has("limitCount"), skips: body.has("limitOffset")}
	its, reason := m.side(form, f.limited || f.skips)
	if reason != "" {
		return nil, reason
	}
	f.sides = []side{its}
	if reason := m.limits(f, body); reason != "" {
		return nil, reason
	}
	return f, ""
}

// side finds the constants of a form.
func (m *maker) side(form *condition.Form, limited bool) (its side, reason string) {
	its = side{form: form, columns: form.Table.ColumnsIdentity}
	if form.Drops != "" && !limited {
		return side{}, form.Drops
	}
	if its.columns == 0 {
		return side{}, "unknown table"
	}
	for _, table := range form.Relies {
		if its.relies = append(its.relies, record.Columns{Relation: record.Relation(table.OID), Identity: table.ColumnsIdentity}); table.ColumnsIdentity == 0 {
			return side{}, "unknown table"
		}
	}
	for _, at := range form.Constants {
		token := m.tokenAt(at)
		if token < 0 {
			return side{}, "a constant in an unknown form"
		}
		its.constants = append(its.constants, token)
	}
	return its, ""
}

func (m *maker) limits(f *follow, body node) (reason string) {
	var ok bool
	if f.limited {
		if f.limit, ok = m.valuePart(0, body["limitCount"]); !ok || f.limit.negative {
			return unclearLimit
		}
	}
	if f.skips {
		if f.offset, ok = m.valuePart(0, body["limitOffset"]); !ok || f.offset.negative {
			return skipsRows
		}
	}
	visit(map[string]any(body), func(kind string, its node) bool {
		f.sorted = f.sorted || kind == "SortBy" || kind == "FuncCall" && its.has("over")
		return !f.sorted
	})
	f.sorted = f.sorted || body.has("groupClause") || body.has("distinctClause") || body.text("limitOption") == "LIMIT_OPTION_WITH_TIES"
	return ""
}

// followJoin decides what a statement over several tables asks each of them for, or one with subqueries.
func (m *maker) followJoin(p *Plan, name string, body node) (*follow, string) {
	tables, err := m.tablesOf(name, body)
	if err != nil {
		return nil, err.Error()
	}
	f, follows := &follow{joins: true, limited: body.has("limitCount"), skips: body.has("limitOffset")}, false
	f.within = m.namesWithin(p, body)
	for _, one := range tables {
		its := side{}
		if one.Whole && one.Nullable && p.sourceOf(one.Name) < 0 && p.onlySkips() {
			continue // the result doesn't depend on it
		}
		if one.Form == nil {
			its.why = one.Why.Error()
		} else if its, its.why = m.side(one.Form, f.limited || f.skips); its.why == "" {
			its.why = p.shows(one)
			if its.why == "" && p.lacksColumn(one.Form) {
				its.why = condition.NotItsKey.Error()
			}
		}
		its.name, its.whole, its.nullable, its.source = one.Name, one.Whole, one.Nullable, p.sourceOf(one.Name)
		if its.absent = one.Absent; one.Absent || p.Kind == Write {
			its.source = -1
		}
		if its.why != "" {
			its.form, its.constants = nil, nil
		}
		its.decides = one.Decides
		if one.Alone != nil && its.source >= 0 {
			if alone, reason := m.side(one.Alone, true); reason == "" {
				its.alone, its.aloneConstants = one.Alone, alone.constants
			}
		}
		if one.Checked != nil && p.showsAll(tables) {
			if checked, reason := m.side(one.Checked, f.limited || f.skips); reason == "" {
				checked.source, its.checked = its.source, &checked
			}
		}
		f.sides = append(f.sides, its)
		f.sorted = f.sorted || its.absent // whatever rows were cut off, a subquery found none beside the others
		follows = follows || its.form != nil || its.checked != nil || its.whole && its.source >= 0
	}
	switch {
	case len(f.sides) == 0:
		return nil, ""
	case !follows:
		return nil, f.sides[0].why
	}
	if reason := m.limits(f, body); reason != "" {
		return nil, reason
	}
	return f, ""
}

// shows says why the result doesn't show the rows of a table, or of one beside whose rows it is asked.
func (p *Plan) shows(of condition.Side) string {
	names := []string{of.Name}
	if of.Absent || p.Kind == Write { // it found none, and what it wrote the log tells
		names = nil
	}
	for _, outer := range of.Form.Outer {
		names = append(names, outer.Name)
	}
	for _, name := range names {
		if p.sourceOf(name) >= 0 {
			continue
		}
		if len(p.Unseen) > 0 {
			return p.Unseen[0].Reason
		}
		return severalTables
	}
	return ""
}

// showsAll reports whether the result shows of which tables each of its rows is made.
func (p *Plan) showsAll(tables []condition.Side) bool {
	for _, one := range tables {
		if !one.Absent && !one.Nullable && p.sourceOf(one.Name) < 0 {
			return false
		}
	}
	return p.Kind == Select
}

// onlySkips reports whether a plan leaves out nothing but joins whose tables aren't used.
func (p *Plan) onlySkips() bool {
	return len(p.Unseen) == 1 && p.Unseen[0].Reason == aSkippedJoin
}

// sourceOf returns which of its sources a plan knows by a name, or -1.
func (p *Plan) sourceOf(name string) int {
	for i := range p.Sources {
		if p.Sources[i].Name == name {
			return i
		}
	}
	return -1
}

// Follows reports whether what a statement asks its tables for is followed: Asks returns it.
func (p *Plan) Follows() bool { return p.follow != nil }

// Joins reports whether it asks several tables. Then what it asks for depends on its result.
func (p *Plan) Joins() bool { return p.follow != nil && p.follow.joins }

// NamesWithin reports whether what it asks for depends on what names refer to in its subqueries, which no result shows.
func (p *Plan) NamesWithin() bool { return p.follow != nil && p.follow.within }

// Question is what a statement asks a table for.
type Question struct {
	By       *condition.Condition
	Identity record.Identity // of the table's key
	Columns  record.Identity // and of its columns
	Source   int             // which of the plan's sources it is, if there are several tables; -1 for none of them
	Absent   bool            // it is a subquery's that found none: it hasn't seen what its own statement wrote
	Why      string          // why it isn't followed
	Partly   string          // or a part of it
	Given    []record.Read   // rows of other tables beside which it was asked: they have to have been there
	Relies   []record.Columns
}

// Most returns how many rows a statement returns at most: if it returned as many, others may be missing of which its
// condition holds.
func (p *Plan) Most(text string, tokens Tokens, with condition.Arguments) (uint64, error) {
	f := p.follow
	if !f.limited {
		return math.MaxUint64, nil
	}
	behind := 1
	if f.skips && f.offset.parameter == 0 {
		behind++
	}
	if most, ok := f.limit.rows(text, tokens.last(f.limit, behind), with); ok {
		return most, nil
	}
	return 0, condition.Refusal(unclearLimit)
}

// last returns the place of a constant that is the last one, or so many before the end.
func (t Tokens) last(of askedPart, behind int) span {
	if of.parameter > 0 {
		return span{}
	}
	return t.follow[len(t.follow)-behind]
}

// Skips reports whether a statement leaves out rows that it found, by OFFSET, or may do so.
func (p *Plan) Skips(text string, tokens Tokens, with condition.Arguments) bool {
	f := p.follow
	if !f.skips {
		return false
	}
	if f.offset.parameter > 0 && f.offset.parameter <= len(with.Parameters) && with.Parameters[f.offset.parameter-1] == nil {
		return false
	}
	n, ok := f.offset.rows(text, tokens.last(f.offset, 1), with)
	return !ok || n > 0
}

// MayCut reports whether a statement has a LIMIT.
func (p *Plan) MayCut() bool { return p.follow != nil && p.follow.limited }

// AsksNothingCut reports whether a statement whose LIMIT cut rows off has asked for nothing but what it returned: nothing
// decides which rows it returns, so it might have returned any others.
func (p *Plan) AsksNothingCut() bool {
	for i := range p.follow.sides {
		if p.follow.sides[i].absent { // beside the rows that it returned, a subquery found none
			return false
		}
	}
	return p.mayCutAny()
}

func (p *Plan) mayCutAny() bool { return !p.follow.sorted && !p.Lists() }

// Asks returns what a statement asks its only table for, by the constants of its text and Bind's parameters.
func (p *Plan) Asks(text string, tokens Tokens, with condition.Arguments) Question {
	with.Labelled = len(p.labels) > 0
	return p.follow.sides[0].asks(text, tokens, 0, with)
}

// Found are the rows of one source in a result: their keys, each once, and whether an outer join left some out.
type Found struct {
	Keys    []record.Key
	Beside  []record.Key // the same with the values of further columns, if the source has some
	Missing bool
	Last    record.Key // of the result's last row; "" if an outer join left it out
}

// AsksJoined returns what a statement asks several tables for, by its result: the rows that it found, and whether it wrote
// any, or has some though it is of no table. What it asks a table for by its whole key isn't returned: no other row can
// satisfy it. before finds a row by its key among those that earlier statements have read.
func (p *Plan) AsksJoined(text string, tokens Tokens, with condition.Arguments, found []Found, before Before, hasRows bool) []Question {
	with.Labelled = len(p.labels) > 0
	with.Beside, with.HasRows = map[string][]record.Key{}, hasRows && (p.Kind == Write || len(p.Sources) == 0)
	for i := range found {
		if with.Beside[p.Sources[i].Name] = found[i].Keys; len(p.Sources[i].More) > 0 {
			with.Beside[p.Sources[i].Name] = found[i].Beside
		}
		with.HasRows = with.HasRows || len(found[i].Keys) > 0
	}
	var given []*record.Read
	if !with.HasRows {
		given = p.given(text, tokens, with, before)
	}
	var all []Question
	at := 0
	for i := range p.follow.sides {
		its := &p.follow.sides[i]
		if with.Last = ""; its.source >= 0 {
			with.Last = found[its.source].Last
		}
		switch checked := its.checked != nil && !with.HasRows; {
		case checked && (its.whole || !p.follow.isBeside(i, given)):
			by := with
			by.Cut = false
			all = append(all, its.checked.asks(text, tokens, at+len(its.constants)+len(its.aloneConstants), by))
		case its.whole && (p.Kind == Write && hasRows || its.source >= 0 && !found[its.source].Missing):
		case with.Cut && !its.absent && p.mayCutAny():
		case its.absent && !with.HasRows:
			all = append(all, Question{Source: -1, Why: foundSome})
		default:
			by := with
			by.Cut = with.Cut && !its.absent
			keys, rows := p.follow.beside(i, given)
			if len(rows) > 0 {
				by.Beside, by.HasRows = keys, true
			}
			q := its.asks(text, tokens, at, by)
			q.Given = rows
			all = append(all, q)
		}
		at += its.count()
	}
	return all
}

// asks binds one side, whose constants begin at a place among those that are followed.
func (s *side) asks(text string, tokens Tokens, at int, with condition.Arguments) Question {
	if s.form == nil {
		return Question{Why: s.why}
	}
	with.Constants, with.Left = tokens.texts(text, at, len(s.constants)), tokens.left
	q := Question{Identity: s.form.Table.Identity, Columns: s.columns, Source: s.source, Absent: s.absent, Relies: s.relies}
	var err error
	if q.By, err = s.form.Bind(with); err != nil {
		q.Why = err.Error()
	} else if s.form.Partly != nil {
		q.Partly = s.form.Partly.Error()
	}
	return q
}

// rows returns the number of rows that LIMIT allows. In binary a number is read only if the client has declared that it is
// a whole one: the server takes others, too.
func (a askedPart) rows(text string, at span, with condition.Arguments) (uint64, bool) {
	if a.parameter > 0 && a.parameter <= len(with.Parameters) && with.Parameters[a.parameter-1] == nil {
		return math.MaxUint64, true
	}
	value, isBinary, ok := a.value(text, at, with.Parameters, with.Formats, nil)
	if !ok {
		return 0, false
	}
	if isBinary {
		if i := a.parameter - 1; i >= len(with.Types) || keys.Family(with.Types[i]) != keys.Int8 {
			return 0, false
		}
		switch len(value) {
		case 2:
			return uint64(binary.BigEndian.Uint16(value)), true
		case 4:
			return uint64(binary.BigEndian.Uint32(value)), true
		case 8:
			return binary.BigEndian.Uint64(value), true
		}
		return 0, false
	}
	n, err := strconv.ParseUint(string(value), 10, 63)
	return n, err == nil
}

// places returns where a text has the constants that the condition and LIMIT depend on.
func (f *follow) places(text string, tokens []token) []span {
	var all []span
	for i := range f.sides {
		its := &f.sides[i]
		for _, at := range its.allConstants() {
			its := span{tokens[at].start, tokens[at].last}
			if text[tokens[at].start] == '-' && at+1 < len(tokens) {
				its.to = tokens[at+1].last
			}
			all = append(all, its)
		}
	}
	for _, one := range []struct {
		is bool
		of askedPart
	}{{f.limited, f.limit}, {f.skips, f.offset}} {
		if one.is && one.of.token >= 0 {
			all = append(all, span{tokens[one.of.token].start, tokens[one.of.token].end})
		}
	}
	return all
}

// HasAsked records that a statement asked its tables by conditions that are followed.
func (p *Plan) HasAsked() {
	if p.follow == nil || p.follow.tables == nil {
		return
	}
	for i := range p.follow.sides {
		its := p.follow.sides[i].form
		if checked := p.follow.sides[i].checked; its == nil && checked != nil {
			its = checked.form
		}
		if its == nil {
			continue
		}
		relation := record.Relation(its.Table.Root)
		if _, is := p.follow.tables.Load(relation); !is {
			p.follow.tables.Store(relation, true)
		}
	}
}

// FollowsTable reports whether a plan was made, by this catalog or an earlier one, that follows a condition on this
// table's rows, or that one by a whole key has asked for a row that isn't there.
func (c *Cache) FollowsTable(relation record.Relation) bool {
	_, is := c.followed.Load(relation)
	return is
}
