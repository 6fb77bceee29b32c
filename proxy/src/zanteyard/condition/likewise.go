package condition

import (
	"sort"

	"zanteyard/catalog"
)

// A part of a condition that isn't followed held of each row of the result. If it depends on nothing but some of the row's
// columns, it would hold of any other row with the same values there. So what is asked for is the rest of the condition, and
// that a row has these values of a row in the result: `WHERE open AND status IN (SELECT ..)` with rows of the statuses 2 and
// 5 asks for the rows WHERE open AND status IN (2, 5). Where the whole key is among these columns, that says nothing.
//
// It may depend on rows of other tables, too, if each of these is joined by its whole key, by columns of the row: another row
// with the same values there is beside the same rows of theirs.

// likewise adds to a form that a row has the same values of some columns as one in the result, in place of conditions that
// aren't followed. It returns false if these depend on more than that.
func (j *joins) likewise(conditions []any, of *scope, p *parted, locks bool) bool {
	var columns []*catalog.Column
	for _, one := range conditions {
		its, ok := j.columnsOf(one, of)
		if !ok || locks || len(its) == 0 || !j.settled(one) {
			return false
		}
		for _, column := range its {
			columns = with(columns, column)
		}
	}
	if len(conditions) == 0 || j.hasKey(columns, of) {
		return len(conditions) == 0
	}
	sort.Slice(columns, func(i, k int) bool { return columns[i].Number < columns[k].Number }) // a tree's parts come in any order
	r := &reader{form: p.form, catalog: j.catalog, joins: j}
	for _, column := range columns {
		if column.Generated || column.Collation == catalog.NotDeterministic || r.elsewhere(column, symbol{name: "=", qualified: true}) != nil {
			return false
		}
		switch familyOfColumn(column) {
		case integers, texts, uuids:
		default:
			return false
		}
		p.form.Outer = append(p.form.Outer, Outer{of.name, of.table, column, of.place(column)})
		p.of(of.name, same{column, operand{outer: len(p.form.Outer)}})
	}
	p.form.Given = true
	return true
}

func with(all []*catalog.Column, column *catalog.Column) []*catalog.Column {
	for _, one := range all {
		if one.Number == column.Number {
			return all
		}
	}
	return append(all, column)
}

// hasKey reports whether columns have a table's whole key, with those that are asked for a constant.
func (j *joins) hasKey(columns []*catalog.Column, of *scope) bool {
	has := j.byConstants(of)
	for _, one := range columns {
		has[one.Number] = true
	}
	for i := range of.table.Key {
		if !has[of.table.Key[i].Number] {
			return false
		}
	}
	return true
}

// byConstants are the columns of a table that a statement asks for a value that no column has.
func (j *joins) byConstants(of *scope) map[int16]bool {
	its := map[int16]bool{}
	for _, one := range append(append([]any(nil), of.quals...), j.where...) {
		kind, body := open(one)
		if kind != "A_Expr" || body.text("kind") != "AEXPR_OP" || !isEquals(body) {
			continue
		}
		for _, sides := range [][2]string{{"lexpr", "rexpr"}, {"rexpr", "lexpr"}} {
			kind, name := open(body[sides[0]])
			if kind != "ColumnRef" || kindWithin(body[sides[1]], "ColumnRef") {
				continue
			}
			if found, column, err := j.resolve(name.names("fields")); err == nil && found == of {
				its[column.Number] = true
			}
		}
	}
	return its
}

// columnsOf returns the columns of a table on which a condition depends, if it depends on nothing else around its subqueries
// but what is joined by them.
func (j *joins) columnsOf(value any, of *scope) (all []*catalog.Column, ok bool) {
	ok = true
	add := func(name string) {
		for i := range of.table.Columns {
			if column := &of.table.Columns[i]; column.Name == name {
				all = with(all, column)
				return
			}
		}
		ok = false
	}
	walk(value, func(kind string, body tree) bool {
		switch kind {
		case "ColumnRef":
			found, column, err := j.resolve(body.names("fields"))
			switch {
			case err != nil:
				ok = false
			case found == of:
				add(column.Name)
			default:
				ok = ok && j.joinedBy(found, of, add)
			}
		case "SubLink":
			outside, is := j.columnsOf(body["testexpr"], of)
			for _, column := range outside {
				add(column.Name)
			}
			ok = ok && is && j.columnsInside(body["subselect"], of, add)
			return false
		}
		return ok
	})
	return all, ok
}

// joinedBy calls add with the columns of a table by which another one is joined to each of its rows, or returns false if it
// isn't joined by its whole key.
func (j *joins) joinedBy(other, of *scope, add func(name string)) bool {
	by := map[int16]string{}
	for _, one := range append(append([]any(nil), of.quals...), j.where...) {
		kind, body := open(one)
		if kind != "A_Expr" || body.text("kind") != "AEXPR_OP" || !isEquals(body) || !j.settled(one) {
			continue
		}
		for _, sides := range [][2]string{{"lexpr", "rexpr"}, {"rexpr", "lexpr"}} {
			kind, its := open(body[sides[0]])
			otherKind, mine := open(body[sides[1]])
			if kind != "ColumnRef" || otherKind != "ColumnRef" {
				continue
			}
			found, key, err := j.resolve(its.names("fields"))
			beside, column, wrong := j.resolve(mine.names("fields"))
			if err == nil && wrong == nil && found == other && beside == of {
				by[key.Number] = column.Name
			}
		}
	}
	for i := range other.table.Key {
		if by[other.table.Key[i].Number] == "" {
			return false
		}
	}
	for _, name := range by {
		add(name)
	}
	return !other.nullable && len(other.table.Key) > 0
}

// columnsInside calls add with the columns of a table around a subquery that it mentions. It returns false if it may mention
// another table around it.
func (j *joins) columnsInside(query any, of *scope, add func(name string)) bool {
	named, unclear := j.namedInside(query)
	for _, one := range named {
		unclear = unclear || one != of && !j.joinedBy(one, of, add)
	}
	its, isFlat := j.flat(query)
	visit(query, func(kind string, body tree) {
		fields := body.names("fields")
		if kind != "ColumnRef" || len(fields) == 0 {
			return
		}
		last := fields[len(fields)-1]
		switch {
		case len(fields) > 1:
			if fields[len(fields)-2] == of.name && its[of.name] == nil {
				add(last)
			}
		case isFlat:
			for _, table := range its {
				if _, has := table.Column(last); has {
					return
				}
			}
			if _, has := of.table.Column(last); has {
				add(last)
			}
		}
	})
	return !unclear
}

// same is that a column has the same value as one of another row, or is NULL as that is.
type same struct {
	column *catalog.Column
	value  operand
}

func (s same) bind(b *binder) (part, error) {
	if its, err := b.one(s.value); err != nil || its.null {
		made, _ := nulls{s.column, false}.bind(b)
		return made, err
	}
	return compared{s.column, equal, s.value}.bind(b)
}
