package condition

import (
	"zanteyard/catalog"
	"zanteyard/keys"
)

// column finds the column that an expression is; the error is noColumn if it is none.
func (r *reader) column(value any) (*catalog.Column, error) {
	kind, body := open(value)
	if kind != "ColumnRef" {
		found := noColumn
		visit(value, func(kind string, _ tree) {
			if kind == "ColumnRef" {
				found = computedColumn
			}
		})
		if found == computedColumn && kind != "A_Expr" && kind != "TypeCast" {
			found = refusalOf(kind, body)
		}
		return nil, found
	}
	names := body.names("fields")
	if r.joins != nil {
		of, column, err := r.joins.resolve(names)
		switch {
		case err != nil:
			return nil, err
		case of.name != r.form.Name:
			return nil, noColumn
		case column.Generated:
			return nil, generatedColumn
		}
		return column, nil
	}
	if len(names) == 0 || len(names) > 3 || !named(names, r.form.Name, r.form.Table) {
		return nil, unknownColumn
	}
	for i := range r.form.Table.Columns {
		column := &r.form.Table.Columns[i]
		if column.Name != names[len(names)-1] {
			continue
		}
		if column.Generated {
			return nil, generatedColumn
		}
		return column, nil
	}
	switch names[len(names)-1] {
	case "ctid", "xmin", "xmax", "cmin", "cmax", "tableoid":
		return nil, systemColumn
	}
	return nil, unknownColumn
}

// visit calls f with each node under a value.
func visit(value any, f func(kind string, body tree)) {
	switch v := value.(type) {
	case map[string]any:
		for name, below := range v {
			if name[0] >= 'A' && name[0] <= 'Z' {
				f(name, asTree(below))
			}
			visit(below, f)
		}
	case []any:
		for _, below := range v {
			visit(below, f)
		}
	}
}

// suits refuses what a column can't be compared by.
func (r *reader) suits(column *catalog.Column, name symbol) error {
	is, compares := operators[name.name]
	switch by := familyOfColumn(column); {
	case by == none:
		return unknownType
	case by == ranges && (!compares || is.ordering()):
		return unknownOperator
	case column.Collation == catalog.NotDeterministic:
		return anotherCollation
	case is.ordering() && column.Collation == catalog.Deterministic:
		return anotherOrder
	}
	return r.elsewhere(column, name)
}

// elsewhere refuses an operator if one that somebody has made has its name, is visible, and takes the column as its
// operand, perhaps as another type that the server casts it to by itself.
func (r *reader) elsewhere(column *catalog.Column, name symbol) error {
	casts := r.catalog.CastsElsewhere(column.Declared, column.Base)
	_, isOfRanges := rangeTests[name.name]
	if by := familyOfColumn(column); casts && (isOfRanges || by == ranges || by == labelled) {
		return operatorElse // one operator is for all such types, so that another one may fit better once there is a cast
	}
	if name.qualified {
		return nil
	}
	others := r.catalog.OperatorsElsewhere(name.name)
	if len(others) > 0 && casts {
		return operatorElse
	}
	for _, other := range others {
		takes := other.Left
		if name.swapped {
			takes = other.Right
		}
		if takes == column.Declared || takes < firstMade && !unrelated(takes, column.Base) {
			return operatorElse
		}
	}
	return nil
}

const firstMade = 16384 // types below this are the server's own

// unrelated reports whether the server casts neither of two of its own types to the other by itself. It may for those
// that aren't known here, and for those that stand for several, such as anyelement.
func unrelated(one, other uint32) bool {
	if elementTypes[one] != 0 {
		return true
	}
	known := familyOf(one) != none && one != keys.Enum
	return known && kin(one) != kin(other)
}

// kin returns a type that stands for all those which the server casts to each other by itself.
func kin(typ uint32) uint32 {
	switch typ {
	case keys.Varchar, keys.Bpchar:
		return keys.Text
	case keys.Int2, keys.Int4, keys.Int8:
		return keys.Numeric
	case keys.Date, keys.Timestamptz:
		return keys.Timestamp
	case keys.Time:
		return intervalType
	}
	return typ
}

// familyOfColumn returns the family of a column's type. Some types that package catalog resolves to another one have
// operators of their own.
func familyOfColumn(column *catalog.Column) family {
	by := familyOf(column.Type)
	if by != labelled && column.Base != column.Type {
		return none
	}
	return by
}
