package plan

import (
	"zanteyard/condition"
	"zanteyard/record"
)

// Before finds a row by its key among those that earlier statements of the transaction have read.
type Before func(relation record.Relation, identity record.Identity, key record.Key) (record.Read, bool)

// allConstants are the tokens of all constants of a side.
func (s *side) allConstants() []int {
	all := append(s.constants[:len(s.constants):len(s.constants)], s.aloneConstants...)
	if s.checked != nil {
		all = append(all, s.checked.constants...)
	}
	return all
}

// count is how many there are.
func (s *side) count() int {
	n := len(s.constants) + len(s.aloneConstants)
	if s.checked != nil {
		n += len(s.checked.constants)
	}
	return n
}

// given returns, for each side of a join that found no row, the row that it asks for by its whole key; nil for one that
// nobody has read.
func (p *Plan) given(text string, tokens Tokens, with condition.Arguments, before Before) []*record.Read {
	rows := make([]*record.Read, len(p.follow.sides))
	at := 0
	for i := range p.follow.sides {
		its := &p.follow.sides[i]
		if its.alone != nil {
			with.Constants, with.Left = tokens.texts(text, at+len(its.constants), len(its.aloneConstants)), tokens.left
			if key, ok := its.alone.Key(with); ok {
				table := its.alone.Table
				if read, is := before(record.Relation(table.OID), table.Identity, key); is {
					rows[i] = &read
				}
			}
		}
		at += its.count()
	}
	return rows
}

// beside returns the rows beside which a side is asked, if those of all other tables are known.
func (f *follow) beside(of int, given []*record.Read) (keys map[string][]record.Key, rows []record.Read) {
	its := &f.sides[of]
	if given == nil || its.nullable || !its.decides {
		return nil, nil
	}
	keys = map[string][]record.Key{}
	for i := range f.sides {
		switch {
		case i == of, f.sides[i].nullable:
		case given[i] == nil:
			return nil, nil
		default:
			keys[f.sides[i].name] = []record.Key{given[i].Key}
			rows = append(rows, *given[i])
		}
	}
	return keys, rows
}

// isBeside reports whether all rows are known beside which a side is asked.
func (f *follow) isBeside(of int, given []*record.Read) bool {
	_, rows := f.beside(of, given)
	return len(rows) > 0
}

// texts returns constants, from one of those that are followed on.
func (t Tokens) texts(text string, from, count int) []string {
	all := make([]string, count)
	for i := range all {
		all[i] = text[t.follow[from+i].from:t.follow[from+i].to]
	}
	return all
}

// carries lets tables have columns besides their keys among the hidden ones, if it depends on these what is asked of others.
func (m *maker) carries(p *Plan, body node, found []*item) {
	if !m.catalog.WithConditions() || p.Kind != Select || !isJoin(body) && !hasSubquery(body["whereClause"]) {
		return
	}
	tables, _ := m.tablesOf("SelectStmt", body)
	for _, one := range tables {
		for _, it := range found {
			if it.path == one.Name && it.passed == nil && !it.looked && !it.listed {
				it.more = one.More
			}
		}
	}
}

// tablesOf returns what a statement over several tables asks of each of them.
func (m *maker) tablesOf(name string, body node) ([]condition.Side, error) {
	if m.tables == nil {
		its := &tablesAsked{}
		its.sides, its.err = condition.Joined(map[string]any{name: map[string]any(body)}, m.joined, m.catalog)
		m.tables = its
	}
	return m.tables.sides, m.tables.err
}

// tablesAsked is what is made once for a statement.
type tablesAsked struct {
	sides []condition.Side
	err   error
}

// lacksColumn reports whether a form depends on a column of another table that isn't among the hidden ones.
func (p *Plan) lacksColumn(of *condition.Form) bool {
	for _, outer := range of.Outer {
		source := p.sourceOf(outer.Name)
		if further := outer.Place - len(outer.Table.Key); further >= 0 && (source < 0 || further >= len(p.Sources[source].More)) {
			return true
		}
	}
	return false
}
