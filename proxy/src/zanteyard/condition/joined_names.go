package condition

import "zanteyard/catalog"

// What the names in a statement over several tables mean.

// mentions reports whether a condition mentions a table, and others that an outer join may leave out.
func (j *joins) mentions(value any, of *scope) (its, nullable bool, err error) {
	named, err := j.named(value)
	for _, one := range named {
		its = its || one == of
		nullable = nullable || one != of && one.nullable
	}
	return its, nullable, err
}

// resolve finds the table and column that a name means.
func (j *joins) resolve(names []string) (*scope, *catalog.Column, error) {
	if len(names) == 0 || len(names) > 3 {
		return nil, nil, unknownColumn
	}
	var found *scope
	last := names[len(names)-1]
	scopes := j.scopes
	if j.inner != nil {
		switch mine, err := j.inside(names); {
		case err != nil:
			return nil, nil, err
		case mine:
			scopes = []*scope{j.inner}
		}
	}
	for _, one := range scopes {
		if _, ok := one.table.Column(last); !ok || !named(names, one.name, one.table) {
			continue
		}
		if found != nil {
			if j.merged[last] && len(names) == 1 {
				continue // USING: it means that of the first table
			}
			return nil, nil, ambiguous
		}
		found = one
	}
	if found == nil {
		return nil, nil, unknownColumn
	}
	for i := range found.table.Columns {
		if column := &found.table.Columns[i]; column.Name == last {
			return found, column, nil
		}
	}
	return nil, nil, unknownColumn
}

// named reports whether a column's name may be one of a table's.
func named(names []string, name string, table *catalog.Table) bool {
	switch len(names) {
	case 1:
		return true
	case 2:
		return names[0] == name
	}
	return names[0] == table.Schema && names[1] == table.Name && name == table.Name
}

// outer reads a column of another table as a value.
func (r *reader) outer(names []string) (operand, error) {
	if r.joins == nil {
		return operand{}, severalColumns
	}
	other, column, err := r.joins.resolve(names)
	switch {
	case err != nil:
		return operand{}, err
	case other.name == r.form.Name:
		return operand{}, severalColumns
	case column.Collation == catalog.NotDeterministic:
		return operand{}, anotherCollation
	}
	switch familyOfColumn(column) {
	case integers, texts, uuids:
	default:
		return operand{}, outerType
	}
	r.form.Outer = append(r.form.Outer, Outer{other.name, other.table, column, other.place(column)})
	return operand{outer: len(r.form.Outer)}, nil
}

// place returns where a row of the table that stands beside another has a column's value: behind its key, if that hasn't it.
func (s *scope) place(column *catalog.Column) int {
	for i := range s.table.Key {
		if s.table.Key[i].Number == column.Number {
			return i
		}
	}
	for i, one := range s.more {
		if one.Number == column.Number {
			return len(s.table.Key) + i
		}
	}
	s.more = append(s.more, column)
	return len(s.table.Key) + len(s.more) - 1
}

// mores are how many columns each table has besides its key, and without takes off those that were added since.
func (j *joins) mores() []int {
	counts := make([]int, len(j.scopes))
	for i, one := range j.scopes {
		counts[i] = len(one.more)
	}
	return counts
}

func (j *joins) without(since []int) {
	for i, count := range since {
		j.scopes[i].more = j.scopes[i].more[:count]
	}
}
