// Package condition evaluates what SQL statements ask their tables for: whether a row satisfies a WHERE clause, as the
// server evaluates it. A Form is made of a statement's parse tree, once for all statements that differ only in their
// constants; with constants and parameters it is a Condition, which is tried on rows as the replication slot has them.
// An Index finds the conditions that could hold for a row.
//
// The package has no clock and no goroutine. It takes a small part of SQL, and refuses everything else with a reason: a
// condition that isn't refused holds for exactly the rows for which the server's own does.
package condition

import (
	"zanteyard/catalog"
	"zanteyard/keys"
	"zanteyard/record"
)

// Truth is what is known of a condition about a row.
type Truth uint8

// The server returns a row exactly if its condition is true: neither No nor Null. Unknown means that a value on which
// the condition depends isn't known.
const (
	Unknown Truth = iota
	Yes
	No
	Null
)

func (t Truth) String() string {
	switch t {
	case Yes:
		return "yes"
	case No:
		return "no"
	case Null:
		return "null"
	}
	return "unknown"
}

// Value is a column's value in a row. The zero value is one that isn't known.
type Value struct {
	// Text is the value as the slot's plugin writes it on a connection with keys.SlotSettings, without quotes.
	Text  string
	State State
}

// State says whether a value is known.
type State uint8

// A value is Missing if the log doesn't have it, as that of a column that is stored apart and didn't change.
const (
	Missing State = iota
	IsNull
	Present
)

// ValueOf is a column's value as a plugin writes it. wal2json writes null for a number that JSON doesn't have, such as NaN
// and the infinities: it may be NULL or one of these.
func ValueOf(c *catalog.Column, text string, null, wal2json bool) Value {
	switch {
	case null && wal2json && (c.Type == keys.Numeric || c.Type == keys.Float4 || c.Type == keys.Float8):
		return Value{}
	case null:
		return Value{State: IsNull}
	}
	return Value{Text: text, State: Present}
}

// Row is one version of a row of a table, or of its partitions: its values by the number of the column in the table that
// statements name. It remembers what it has read of its values, so only one goroutine may use it at a time.
type Row struct {
	values []Value
	read   []reading
}

// reading is how a value was read the last time.
type reading struct {
	number int16
	by     family
	known  knowledge
	datum  datum
}

type knowledge uint8

const (
	notKnown knowledge = iota
	isNull
	isKnown
)

// NewRow makes a row from the values of its columns: that of column 1 is the first. Those beyond the end are missing.
func NewRow(values []Value) *Row { return &Row{values: values} }

// state says whether a column's value is known, without reading it.
func (r *Row) state(number int16) State {
	if int(number) > len(r.values) {
		return Missing
	}
	return r.values[number-1].State
}

// beyond is a column that the row doesn't have.
var beyond = reading{known: notKnown}

// value reads a column's value.
func (r *Row) value(c *column) *reading {
	if int(c.number) > len(r.values) {
		return &beyond
	}
	for i := range r.read { // few columns are asked for
		if its := &r.read[i]; its.number == c.number {
			if its.by != c.by {
				*its = c.reading(&r.values[c.number-1])
			}
			return its
		}
	}
	r.read = append(r.read, c.reading(&r.values[c.number-1]))
	return &r.read[len(r.read)-1]
}

// Condition is a form with its constants. It never changes, and is safe for use by many goroutines.
type Condition struct {
	table   *catalog.Table
	root    clause
	key     string
	text    string
	shape   string
	checked bool
}

// Table is the table that the statement names.
func (c *Condition) Table() record.Relation { return record.Relation(c.table.OID) }

// Key is equal for conditions of the same table, the same shape and the same constants, and for no others.
func (c *Condition) Key() string { return c.key }

// String is the condition in the application's words: bookings WHERE room = 7.
func (c *Condition) String() string { return c.text }

// Shape is the same without its constants: bookings WHERE room = ?.
func (c *Condition) Shape() string { return c.shape }

// Checked says that it was asked of those rows alone that were inserted while the server checked their foreign keys.
func (c *Condition) Checked() bool { return c.checked }

// Size is about how many bytes the condition takes.
func (c *Condition) Size() int { return 256 + 3*len(c.key) + len(c.text) + len(c.shape) }

// Holds evaluates the condition on a row.
func (c *Condition) Holds(row *Row) Truth {
	switch possible := c.root.truths(row); possible {
	case isTrue:
		return Yes
	case isNullTruth:
		return Null
	case isFalse, isFalse | isNullTruth:
		return No
	}
	return Unknown
}

// Refusal is why a condition, or a statement's part, isn't evaluated.
type Refusal string

func (r Refusal) Error() string { return string(r) }
