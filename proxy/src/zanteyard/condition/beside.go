package condition

import (
	"sort"
	"strings"

	"zanteyard/record"
)

// beside is what a form asks for beside a row of another table.
type beside struct {
	name string // by which the statement knows that table
	root expression
}

// mostBeside is how many rows of another table one condition compares a row with, unless it is one of equality.
const mostBeside = 64

// outer is the value of another table's column in the row that the condition is bound for.
func (b *binder) outer(of operand) (value, error) {
	if of.cast != 0 {
		return value{}, aCast
	}
	its := b.form.Outer[of.outer-1]
	if its.Place >= len(b.row) {
		return value{}, Refusal("a row of another table that isn't known")
	}
	part := b.row[its.Place]
	if its.Place >= len(its.Table.Key) {
		if part == "" {
			return value{typ: its.Column.Base, null: true}, nil
		}
		part = part[1:]
	}
	return b.cast(value{typ: its.Column.Base, raw: []byte(part), canonical: true, shownAs: its.Column.Type}, 0)
}

// Beside is a row of another table with its key and the values of more columns, as Arguments.Beside has it; nil for NULL.
func Beside(key record.Key, more []*string) record.Key {
	for _, one := range more {
		if key += "\x00"; one != nil {
			key += record.Key("=" + *one)
		}
	}
	return key
}

// standing binds what a form asks for beside the rows of another table: it holds of a row that could stand beside one of
// them.
func (b *binder) standing(of beside) (part, error) {
	rows := append([]record.Key(nil), b.with.Beside[of.name]...)
	if len(rows) == 0 {
		return part{}, noneBeside
	}
	var equals compared
	byEquality, nullsToo := false, false
	switch its := of.root.(type) {
	case compared:
		equals, byEquality = its, its.is == equal && its.value.outer > 0
	case same:
		equals, byEquality, nullsToo = compared{its.column, equal, its.value}, true, true
	}
	if !byEquality && len(rows) > mostBeside {
		return part{}, manyBeside
	}
	sort.Slice(rows, func(i, k int) bool { return rows[i] < rows[k] })
	if byEquality {
		return b.amongRows(equals, nullsToo, rows)
	}
	left, known := b.left, map[string]bool{}
	var parts []part
	for _, row := range rows {
		b.left, b.row = left, strings.Split(string(row), "\x00")
		its, err := of.root.bind(b)
		if err != nil {
			return part{}, err
		}
		if !known[its.key] {
			known[its.key] = true
			parts = append(parts, its)
		}
	}
	if b.row = nil; len(parts) == 1 {
		return parts[0], nil
	}
	return joined(parts, false), nil
}

// amongRows binds column = other.key for several rows of the other table; nullsToo: NULL is like NULL.
func (b *binder) amongRows(of compared, nullsToo bool, rows []record.Key) (part, error) {
	its, like := &membership{is: equal}, []part(nil)
	var shown []string
	known := map[string]bool{}
	show := func(text string) {
		if !known[text] {
			known[text], shown = true, append(shown, text)
		}
	}
	for _, row := range rows {
		b.row = strings.Split(string(row), "\x00")
		one, err := b.one(of.value)
		if err != nil {
			return part{}, err
		}
		column, unknown, err := b.pair(of.column, []value{one}, false)
		if err != nil {
			return part{}, err
		}
		if one.null && nullsToo {
			if like == nil {
				made, _ := nulls{of.column, false}.bind(b)
				like = []part{made}
			}
			continue
		}
		if one.null {
			its.column, its.nulls = column, true
			show("NULL")
			continue
		}
		made, err := b.datum(one, column, unknown)
		if err != nil {
			return part{}, err
		}
		its.column, its.values = column, append(its.values, made)
		show(one.shown(unknown))
	}
	if b.row = nil; its.column == nil { // of the first such row
		return like[0], nil
	}
	its.sort()
	made := part{clause: its, key: its.key(), strength: aTest}
	if made.text, made.shape = (among{column: of.column}).words(shown); like != nil {
		return joined(append(like, made), false), nil
	}
	return made, nil
}
