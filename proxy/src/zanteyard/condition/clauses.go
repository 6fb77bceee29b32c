package condition

import (
	"encoding/binary"
	"sort"
	"strconv"
)

// truths is a set of truth values: those that a clause may have for a row. It has one, unless a value isn't known.
type truths uint8

const (
	isTrue truths = 1 << iota
	isFalse
	isNullTruth

	anything = isTrue | isFalse | isNullTruth
)

func truthOf(it bool) truths {
	if it {
		return isTrue
	}
	return isFalse
}

// clause is a part of a condition that has a truth value for each row.
type clause interface {
	truths(row *Row) truths
}

// constant is a clause that doesn't depend on the row.
type constant struct{ its truths }

func (c constant) truths(*Row) truths { return c.its }

// both are clauses joined by AND: false if one is, and true if all are.
type both []clause

func (b both) truths(row *Row) truths {
	all := isTrue
	for _, one := range b {
		its := one.truths(row)
		if its == isFalse {
			return isFalse
		}
		if all != isTrue || its != isTrue {
			all = conjunction(all, its)
		}
	}
	return all
}

func conjunction(one, other truths) truths {
	its := (one | other) & isFalse
	its |= one & other & isTrue
	if one&isNullTruth != 0 && other&(isTrue|isNullTruth) != 0 || other&isNullTruth != 0 && one&(isTrue|isNullTruth) != 0 {
		its |= isNullTruth
	}
	return its
}

// either are clauses joined by OR: true if one is, and false if all are.
type either []clause

func (e either) truths(row *Row) truths {
	all := isFalse
	for _, one := range e {
		if all = negation(conjunction(negation(all), negation(one.truths(row)))); all == isTrue {
			break
		}
	}
	return all
}

// not is NOT.
type not struct{ of clause }

func (n not) truths(row *Row) truths { return negation(n.of.truths(row)) }

func negation(of truths) truths {
	its := of & isNullTruth
	if of&isTrue != 0 {
		its |= isFalse
	}
	if of&isFalse != 0 {
		its |= isTrue
	}
	return its
}

// operator is a comparison.
type operator uint8

const (
	equal operator = iota
	unequal
	less
	lessOrEqual
	greater
	greaterOrEqual
)

func (o operator) String() string { return [...]string{"=", "<>", "<", "<=", ">", ">="}[o] }

// ordering reports whether the operator asks for an order, not only for equality.
func (o operator) ordering() bool { return o > unequal }

// swapped is the operator with its operands in the other order.
func (o operator) swapped() operator {
	return [...]operator{equal, unequal, greater, greaterOrEqual, less, lessOrEqual}[o]
}

func (o operator) holds(order int) bool {
	switch o {
	case equal:
		return order == 0
	case unequal:
		return order != 0
	case less:
		return order < 0
	case lessOrEqual:
		return order <= 0
	case greater:
		return order > 0
	}
	return order >= 0
}

// comparison is column operator value. The value isn't NULL: otherwise the clause is a constant.
type comparison struct {
	column *column
	is     operator
	value  datum
}

func (c *comparison) truths(row *Row) truths {
	its := row.value(c.column)
	switch its.known {
	case isNull:
		return isNullTruth
	case notKnown:
		return anything
	}
	return truthOf(c.is.holds(compare(&its.datum, &c.value)))
}

// nullTest is column IS NULL, or IS NOT NULL.
type nullTest struct {
	number int16
	not    bool
}

func (n *nullTest) truths(row *Row) truths {
	switch row.state(n.number) {
	case IsNull:
		return truthOf(!n.not)
	case Present:
		return truthOf(n.not)
	}
	return isTrue | isFalse
}

// truthTest is true if the truth value of its clause is one of these.
type truthTest struct {
	clause clause
	of     truths
}

func (t truthTest) truths(row *Row) truths {
	its := t.clause.truths(row)
	made := truths(0)
	if its&t.of != 0 {
		made |= isTrue
	}
	if its&^t.of != 0 {
		made |= isFalse
	}
	return made
}

// booleanColumn is a column that is a condition by itself.
type booleanColumn struct{ column *column }

func (c *booleanColumn) truths(row *Row) truths {
	its := row.value(c.column)
	switch its.known {
	case isNull:
		return isNullTruth
	case notKnown:
		return anything
	}
	return truthOf(its.datum.n == 1)
}

// difference is column IS DISTINCT FROM value, or IS NOT. The value isn't NULL.
type difference struct {
	column *column
	value  datum
	not    bool
}

func (d *difference) truths(row *Row) truths {
	its := row.value(d.column)
	switch its.known {
	case isNull:
		return truthOf(!d.not)
	case notKnown:
		return isTrue | isFalse
	}
	return truthOf((compare(&its.datum, &d.value) != 0) != d.not)
}

// membership is column operator ANY of values, or ALL of them. The values are in order, each once, and nulls says that
// NULL is one of them.
type membership struct {
	column *column
	is     operator
	values []datum
	nulls  bool
	every  bool
}

func (m *membership) sort() {
	sort.Slice(m.values, func(i, j int) bool { return compare(&m.values[i], &m.values[j]) < 0 })
	kept := m.values[:0]
	for i := range m.values {
		if i == 0 || compare(&m.values[i], &kept[len(kept)-1]) != 0 {
			kept = append(kept, m.values[i])
		}
	}
	m.values = kept
}

func (m *membership) key() string {
	out := []byte(columnKey(m.column) + " " + m.is.String() + " " + strconv.FormatBool(m.every) + strconv.FormatBool(m.nulls))
	for _, one := range m.values {
		its := datumKey(one)
		out = append(binary.AppendUvarint(out, uint64(len(its))), its...)
	}
	return string(out)
}

func (m *membership) truths(row *Row) truths {
	if len(m.values) == 0 && !m.nulls {
		return truthOf(m.every) // even for NULL
	}
	its := row.value(m.column)
	switch {
	case its.known == isNull:
		return isNullTruth
	case its.known == notKnown:
		return anything
	case m.decides(&its.datum):
		return truthOf(!m.every)
	case m.nulls:
		return isNullTruth
	}
	return truthOf(m.every)
}

// decides reports whether a value is enough for the clause's truth: one for which ANY holds, or for which ALL doesn't.
func (m *membership) decides(its *datum) bool {
	if m.every == (m.is == unequal) && (m.is == equal || m.is == unequal) {
		at := sort.Search(len(m.values), func(i int) bool { return compare(&m.values[i], its) >= 0 })
		return at < len(m.values) && compare(&m.values[at], its) == 0
	}
	for i := range m.values {
		if m.is.holds(compare(its, &m.values[i])) != m.every {
			return true
		}
	}
	return false
}
