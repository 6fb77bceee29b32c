package condition

import "zanteyard/catalog"

// A constant that is compared with an enumeration's column is a label of it. It has no type of its own, and takes the one
// of the server's operator, which is the same for all enumerations: who owns this one may make a cast from it, so that the
// server compares texts in its place, and drop the cast again. So a label is followed only if the statement is sent with a
// constant that has the column's type: COALESCE('sad', mood) is 'sad' of the type of mood, whatever casts there are. With
// both sides of the enumeration's type a cast makes the statement an error.

// Label is such a constant in the text that a form was made from.
type Label struct {
	At     int      // where its token begins, as in Form.Constants
	Column []string // the column's name, as the statement has it
}

// label records an operand that is a constant without a type, and is compared with an enumeration's column.
func (r *reader) label(of *catalog.Column, named any, its operand) operand {
	if familyOfColumn(of) != labelled || of.Declared != of.Base || its.constant == 0 || its.parameter > 0 || its.cast > 0 || its.array || its.ofArray {
		return its
	}
	kind, column := open(named)
	if kind != "ColumnRef" || r.form.literals[its.constant-1].kind != stringLiteral {
		return its
	}
	fields := column.names(asWritten)
	if len(fields) == 0 {
		fields = column.names("fields")
	}
	r.form.Labels = append(r.form.Labels, Label{r.form.Constants[its.constant-1], fields})
	its.label = of.Base
	return its
}

// asWritten are a column's names in the statement, if another name stands for it (flatten).
const asWritten = "written"

// labelled gives a label its column's type, if the statement was sent with it.
func (b *binder) labelled(of operand, all []value, kind literalKind) {
	if of.label > 0 && b.with.Labelled && len(all) == 1 && kind == stringLiteral && all[0].typ == 0 {
		all[0].typ = of.label
	}
}
