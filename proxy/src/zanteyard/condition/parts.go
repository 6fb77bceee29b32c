package condition

import (
	"strconv"
	"strings"

	"zanteyard/catalog"
	"zanteyard/keys"
)

// part is an expression with its constants: the clause, its identity, and its text for people, with and without
// constants.
type part struct {
	clause           clause
	key, text, shape string
	strength         strength
}

// strength says what needs parentheses around it.
type strength uint8

const (
	anOr strength = iota
	anAnd
	aNot
	aTest
)

// within puts parentheses around a text if it is weaker than what it stands in.
func (p part) within(text string, outer strength) string {
	if p.strength < outer {
		return "(" + text + ")"
	}
	return text
}

// all is a statement without a condition.
type all struct{}

func (all) bind(*binder) (part, error) {
	return part{clause: constant{isTrue}, key: "all", strength: aTest}, nil
}

// junction is AND or OR.
type junction struct {
	args []expression
	and  bool
}

func (j junction) bind(b *binder) (part, error) {
	parts := make([]part, len(j.args))
	for i, arg := range j.args {
		its, err := arg.bind(b)
		if err != nil {
			return part{}, err
		}
		parts[i] = its
	}
	return joined(parts, j.and), nil
}

func joined(parts []part, and bool) part {
	word, own := " OR ", anOr
	if and {
		word, own = " AND ", anAnd
	}
	clauses := make([]clause, len(parts))
	var text, shape strings.Builder
	for i, its := range parts {
		clauses[i] = its.clause
		if i > 0 {
			text.WriteString(word)
			shape.WriteString(word)
		}
		text.WriteString(its.within(its.text, own))
		shape.WriteString(its.within(its.shape, own))
	}
	made := part{key: keyOf(word[1:2], parts), text: text.String(), shape: shape.String(), strength: own}
	if and {
		made.clause = both(clauses)
	} else {
		made.clause = either(clauses)
	}
	return made
}

// negated is NOT.
type negated struct{ of expression }

func (n negated) bind(b *binder) (part, error) {
	its, err := n.of.bind(b)
	if err != nil {
		return part{}, err
	}
	return part{
		clause: not{its.clause}, key: keyOf("N", []part{its}), strength: aNot,
		text: "NOT " + its.within(its.text, aTest), shape: "NOT " + its.within(its.shape, aTest),
	}, nil
}

// nulls is column IS NULL, or IS NOT NULL.
type nulls struct {
	column *catalog.Column
	not    bool
}

func (n nulls) bind(*binder) (part, error) {
	text := quoted(n.column.Name) + " IS NULL"
	if n.not {
		text = quoted(n.column.Name) + " IS NOT NULL"
	}
	key := strconv.Itoa(int(n.column.Number)) + " null " + strconv.FormatBool(n.not)
	return part{clause: &nullTest{n.column.Number, n.not}, key: key, text: text, shape: text, strength: aTest}, nil
}

// tests are the truth values for which IS TRUE and the like are true.
var tests = map[string]struct {
	of   truths
	word string
}{
	"IS_TRUE": {isTrue, "IS TRUE"}, "IS_NOT_TRUE": {isFalse | isNullTruth, "IS NOT TRUE"},
	"IS_FALSE": {isFalse, "IS FALSE"}, "IS_NOT_FALSE": {isTrue | isNullTruth, "IS NOT FALSE"},
	"IS_UNKNOWN": {isNullTruth, "IS UNKNOWN"}, "IS_NOT_UNKNOWN": {isTrue | isFalse, "IS NOT UNKNOWN"},
}

// tested is expression IS TRUE, and the like.
type tested struct {
	of   expression
	test string
}

func (t tested) bind(b *binder) (part, error) {
	test := tests[t.test]
	its, err := t.of.bind(b)
	if err != nil || test.of == 0 {
		return part{}, refusalIf(err)
	}
	return part{
		clause: truthTest{its.clause, test.of}, key: keyOf(test.word, []part{its}), strength: aTest,
		text: its.within(its.text, aTest) + " " + test.word, shape: its.within(its.shape, aTest) + " " + test.word,
	}, nil
}

func refusalIf(err error) error {
	if err == nil {
		return unknownForm
	}
	return err
}

// itself is a column of type bool.
type itself struct{ column *catalog.Column }

func (i itself) bind(b *binder) (part, error) {
	column := b.column(i.column, booleans)
	text := quoted(i.column.Name)
	return part{clause: &booleanColumn{column}, key: columnKey(column), text: text, shape: text, strength: aTest}, nil
}

// spoken is a constant of type bool.
type spoken struct{ its operand }

func (s spoken) bind(b *binder) (part, error) {
	its, err := b.one(s.its)
	if err != nil {
		return part{}, err
	}
	if its.typ != 0 && its.typ != keys.Bool {
		return part{}, otherTypes
	}
	made := part{clause: constant{isNullTruth}, key: "null", text: "NULL", shape: "?", strength: aTest}
	if !its.null {
		value, err := b.datum(its, &column{by: booleans}, keys.Bool)
		if err != nil {
			return part{}, err
		}
		made.clause, made.key = constant{truthOf(value.n == 1)}, strconv.FormatBool(value.n == 1)
		made.text = its.shown(keys.Bool)
	}
	return made, nil
}

// numbers is a comparison of two constants.
type numbers struct {
	one, other operand
	is         operator
}

func (n numbers) bind(b *binder) (part, error) {
	one, err := b.one(n.one)
	if err != nil {
		return part{}, err
	}
	other, err := b.one(n.other)
	if err != nil {
		return part{}, err
	}
	if !isInteger(one.typ) || !isInteger(other.typ) || one.null || other.null {
		return part{}, noColumn
	}
	as := &column{by: integers}
	left, err := b.datum(one, as, one.typ)
	if err != nil {
		return part{}, err
	}
	right, err := b.datum(other, as, other.typ)
	if err != nil {
		return part{}, err
	}
	its := n.is.holds(compare(&left, &right))
	return part{
		clause: constant{truthOf(its)}, key: strconv.FormatBool(its), strength: aTest,
		text: one.shown(one.typ) + " " + n.is.String() + " " + other.shown(other.typ), shape: "? " + n.is.String() + " ?",
	}, nil
}

// compared is a comparison of a column with a value.
type compared struct {
	column *catalog.Column
	is     operator
	value  operand
}

func (c compared) bind(b *binder) (part, error) {
	its, err := b.one(c.value)
	if err != nil {
		return part{}, err
	}
	name := quoted(c.column.Name) + " " + c.is.String() + " "
	column, unknown, err := b.pair(c.column, []value{its}, false)
	if err != nil {
		return part{}, err
	}
	made := part{clause: constant{isNullTruth}, key: "null", text: name + "NULL", shape: name + "?", strength: aTest}
	if its.null { // the operators are strict
		return made, nil
	}
	value, err := b.datum(its, column, unknown)
	if err != nil {
		return part{}, err
	}
	made.clause = &comparison{column, c.is, value}
	made.key = columnKey(column) + " " + c.is.String() + " " + datumKey(value)
	made.text = name + its.shown(unknown)
	return made, nil
}

// distinct is column IS DISTINCT FROM value, or IS NOT DISTINCT FROM.
type distinct struct {
	column *catalog.Column
	value  operand
	not    bool
}

func (d distinct) bind(b *binder) (part, error) {
	its, err := b.one(d.value)
	if err != nil {
		return part{}, err
	}
	words := " IS DISTINCT FROM "
	if d.not {
		words = " IS NOT DISTINCT FROM "
	}
	name := quoted(d.column.Name) + words
	column, unknown, err := b.pair(d.column, []value{its}, false)
	if err != nil {
		return part{}, err
	}
	made := part{text: name + its.shown(unknown), shape: name + "?", strength: aTest}
	if its.null {
		made.clause = &nullTest{d.column.Number, !d.not}
		made.key = columnKey(column) + " distinct null " + strconv.FormatBool(d.not)
		return made, nil
	}
	value, err := b.datum(its, column, unknown)
	if err != nil {
		return part{}, err
	}
	made.clause = &difference{column, value, d.not}
	made.key = columnKey(column) + " distinct " + strconv.FormatBool(d.not) + " " + datumKey(value)
	return made, nil
}

// among is column operator ANY or ALL of values, as IN is.
type among struct {
	column *catalog.Column
	is     operator
	values []operand
	every  bool
	array  bool
}

func (a among) bind(b *binder) (part, error) {
	values, isNull, err := b.list(a.values)
	if err != nil {
		return part{}, err
	}
	made := part{strength: aTest}
	column, unknown, err := b.pair(a.column, values, !a.array && len(values) > 1)
	if err != nil {
		return part{}, err
	}
	if isNull {
		made.clause, made.key = constant{isNullTruth}, "null"
		made.text, made.shape = a.words([]string{"NULL"})
		return made, nil
	}
	its := &membership{column: column, is: a.is, every: a.every}
	for _, one := range values {
		if one.null && one.inArray && (column.by == texts || column.by == padded || column.by == labelled) {
			return part{}, Refusal("NULL in an array's text, whose meaning depends on array_nulls")
		}
		if one.null {
			its.nulls = true
			continue
		}
		value, err := b.datum(one, column, unknown)
		if err != nil {
			return part{}, err
		}
		its.values = append(its.values, value)
	}
	its.sort()
	made.clause = its
	made.key = its.key()
	shown := make([]string, len(values))
	for i, one := range values {
		shown[i] = one.shown(unknown)
	}
	made.text, made.shape = a.words(shown)
	return made, nil
}

// words writes the list for people.
func (a among) words(shown []string) (text, shape string) {
	name := quoted(a.column.Name)
	if !a.array {
		in := " IN ("
		if a.every {
			in = " NOT IN ("
		}
		return name + in + strings.Join(shown, ", ") + ")", name + in + "?)"
	}
	word := " ANY"
	if a.every {
		word = " ALL"
	}
	name += " " + a.is.String() + word
	return name + " (ARRAY[" + strings.Join(shown, ", ") + "])", name + " (?)"
}

// likened is column LIKE pattern, or NOT LIKE.
type likened struct {
	column *catalog.Column
	value  operand
	not    bool
}

func (l likened) bind(b *binder) (part, error) {
	its, err := b.one(l.value)
	if err != nil {
		return part{}, err
	}
	if its.typ != 0 && !isText(its.typ) {
		return part{}, otherTypes
	}
	words := " LIKE "
	if l.not {
		words = " NOT LIKE "
	}
	name := quoted(l.column.Name) + words
	made := part{clause: constant{isNullTruth}, key: "null", text: name + "NULL", shape: name + "?", strength: aTest}
	if its.null {
		return made, nil
	}
	by := familyOfColumn(l.column)
	if by == padded {
		by = patterned
	}
	column := b.column(l.column, by)
	value, err := b.datum(its, column, keys.Text)
	if err != nil {
		return part{}, err
	}
	pattern, err := patternOf(value.s, b.form.encoding)
	if err != nil {
		return part{}, err
	}
	made.clause = &likeness{column, pattern, l.not}
	made.key = columnKey(column) + " like " + strconv.FormatBool(l.not) + " " + value.s
	made.text = name + its.shown(keys.Text)
	return made, nil
}

// ranged is a test of a range.
type ranged struct {
	column *catalog.Column
	is     rangeTest
	value  operand
}

func (r ranged) bind(b *binder) (part, error) {
	its, err := b.one(r.value)
	if err != nil {
		return part{}, err
	}
	by := familyOfColumn(r.column)
	of := b.column(r.column, by)
	typ := its.typ
	ofOne := false
	switch {
	case by == ranges && (typ == 0 || typ == r.column.Type): // a constant without a type is taken for one like the column
		typ = r.column.Type
	case by == ranges && typ == elementOf(r.column.Type) && r.is == containing:
		ofOne = true
	case by != ranges && elementOf(typ) == r.column.Type && r.is == contained:
		ofOne = true
	default:
		return part{}, otherTypes
	}
	name := quoted(r.column.Name) + " " + r.is.String() + " "
	made := part{clause: constant{isNullTruth}, key: "null", text: name + "NULL", shape: name + "?", strength: aTest}
	if its.null {
		return made, nil
	}
	value, err := b.datum(its, &column{by: familyOf(typ)}, typ)
	if err != nil {
		return part{}, err
	}
	made.clause = &rangeClause{of, r.is, value, ofOne}
	made.key = columnKey(of) + " " + r.is.String() + " " + strconv.Itoa(int(typ)) + " " + datumKey(value)
	made.text = name + its.shown(typ)
	return made, nil
}

func columnKey(c *column) string {
	return strconv.Itoa(int(c.number)) + "." + strconv.Itoa(int(c.by))
}

// quoted writes a name, in quotes if it has to be.
func quoted(name string) string {
	plain := name != ""
	for i, c := range name {
		plain = plain && (c >= 'a' && c <= 'z' || c == '_' || i > 0 && c >= '0' && c <= '9')
	}
	if plain {
		return name
	}
	return `"` + strings.ReplaceAll(name, `"`, `""`) + `"`
}
