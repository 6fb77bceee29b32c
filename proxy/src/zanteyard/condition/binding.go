package condition

import (
	"crypto/sha256"
	"strconv"

	"zanteyard/catalog"
	"zanteyard/keys"
	"zanteyard/record"
)

// Arguments are what a statement has in the places of its form's constants and parameters.
type Arguments struct {
	// Constants are the texts of the tokens at Form.Constants. If constants and parameters that follow in a list were left
	// out of the text that the form was made from, they are in it, too: `1, $2, 3`. Nil stands for those of that text.
	Constants []string
	// Left is how many parameters were left out of that text, in these and in other lists.
	Left int
	// Parameters are those of Bind, nil for NULL. Formats has none, one for all, or one each (0 text, 1 binary). Types are
	// those that the client declared in Parse, none or 0 if the server determines the type.
	Parameters [][]byte
	Formats    []int16
	Types      []uint32
	// Beside are the keys of the other tables' rows that are in the result, by the names by which the statement knows these
	// tables, each once. HasRows says that the result has rows at all.
	Beside  map[string][]record.Key
	HasRows bool
	// Cut says that a LIMIT cut rows off, and Last is the key of the table's row in the last one of the result.
	Cut  bool
	Last record.Key
	// Labelled says that each of the form's Labels was sent with its column's type.
	Labelled bool
	// Escapes says that standard_conforming_strings is off: a backslash in a constant has another meaning.
	Escapes bool
	// Temporary says that the connection has temporary objects: a type among them comes before the server's own.
	Temporary bool
	// Converts says that the client's encoding isn't the server's: texts beyond ASCII aren't those of the log.
	Converts bool
}

const (
	missingArgument = Refusal("a parameter that isn't known")
	escaped         = Refusal("a backslash in a constant, with standard_conforming_strings off")
	otherEncoding   = Refusal("a text beyond ASCII, in another encoding than the server's")
	otherTypes      = Refusal("a comparison of two types that isn't followed")
	unknownValue    = Refusal("a value whose meaning depends on settings, or that isn't one of its type")
	tooLarge        = Refusal("a condition with too many or too long constants")
	severalPlaces   = Refusal("a parameter without a type, which may get it in several places")
	untypedLabel    = Refusal("an enumeration's label without a type, of which a cast may make a text")
	untypedBound    = Refusal("a bound of a range without the range's own type, which may choose another function")
)

// untyped is the type of a parameter that a client declares as unknown.
const untyped = 705

// Limits of one condition.
const (
	mostBytes  = 16 << 10 // of all constants and parameters in it
	mostValues = 1000
)

// Bind makes the condition of a statement with these constants and parameters. The error is a Refusal.
func (f *Form) Bind(with Arguments) (*Condition, error) {
	b := &binder{form: f, with: with}
	its, err := f.bindAll(b)
	if err != nil {
		return nil, err
	}
	if len(b.inferred) > 0 && with.Left > b.left { // another list may decide their types
		return nil, severalPlaces
	}
	made := &Condition{table: f.Table, root: its.clause, checked: f.Checked}
	made.key = strconv.FormatUint(uint64(f.Table.OID), 10) + " " + its.key
	if f.Checked {
		made.key = "checked " + made.key
	}
	if len(made.key) > sha256.Size {
		sum := sha256.Sum256([]byte(made.key))
		made.key = string(sum[:])
	}
	made.text, made.shape = f.words(its.text), f.words(its.shape)
	return made, nil
}

// bindAll binds the form's own part, and what it asks for beside other tables' rows.
func (f *Form) bindAll(b *binder) (part, error) {
	if f.Given && !b.with.HasRows {
		return part{}, noneBeside
	}
	if f.limit != nil {
		if err := b.limits(*f.limit); err != nil {
			return part{}, err
		}
	}
	var parts []part
	if _, isAll := f.root.(all); !isAll || len(f.beside) == 0 {
		its, err := f.root.bind(b)
		if err != nil {
			return part{}, err
		}
		parts = append(parts, its)
	}
	for _, one := range f.beside {
		its, err := b.standing(one)
		if err != nil {
			return part{}, err
		}
		parts = append(parts, its)
	}
	if b.with.Cut {
		its, err := b.before()
		if err != nil {
			return part{}, err
		}
		if _, isAll := f.root.(all); isAll && len(f.beside) == 0 {
			parts = nil
		}
		parts = append(parts, its)
	}
	if len(parts) == 1 {
		return parts[0], nil
	}
	return joined(parts, true), nil
}

// words writes a condition for people.
func (f *Form) words(where string) string {
	if where == "" {
		return quoted(f.Table.Name)
	}
	return quoted(f.Table.Name) + " WHERE " + where
}

// binder binds one condition.
type binder struct {
	form     *Form
	with     Arguments
	bytes    int
	count    int            // of values
	left     int            // parameters that were left out of the form's text, and that it has
	inferred map[int]uint32 // the types of parameters for which the server determines them
	row      []string       // the key of another table's row, beside which it is bound
}

// value is a value in a statement. Its type is 0 if the server determines it by what it is compared with.
type value struct {
	null      bool
	typ       uint32
	raw       []byte
	binary    bool
	parameter int
	inArray   bool   // it is the word NULL in an array's text
	canonical bool   // it is another table's, in the canonical text of its column:
	shownAs   uint32 // the type by which package keys interprets it
	made      bool   // it is a range that was made of its bounds:
	r         *span
}

// one returns the value of an operand that stands for one.
func (b *binder) one(of operand) (value, error) {
	if of.made != nil {
		return b.rangeMade(of)
	}
	if of.array {
		return value{}, otherTypes
	}
	values, err := b.values(of)
	if err != nil {
		return value{}, err
	}
	if len(values) != 1 {
		return value{}, manyConstants
	}
	return values[0], nil
}

// values returns the values in an operand's place: several if they were left out of a list.
func (b *binder) values(of operand) ([]value, error) {
	if of.made != nil {
		its, err := b.rangeMade(of)
		return []value{its}, err
	}
	if of.bare && b.with.Temporary {
		return nil, castElsewhere
	}
	if of.outer > 0 {
		its, err := b.outer(of)
		return []value{its}, err
	}
	literals := b.form.literals[of.constant-1 : of.constant]
	if b.with.Constants != nil {
		if of.constant > len(b.with.Constants) {
			return nil, missingArgument
		}
		var err error
		if literals, err = readLiterals(b.with.Constants[of.constant-1]); err != nil {
			return nil, err
		}
	}
	if len(literals) > 1 && !of.listed {
		return nil, manyConstants
	}
	all := make([]value, len(literals))
	for i, one := range literals {
		if i > 0 && one.kind == parameterLiteral {
			b.left++
		}
		var err error
		if all[i], err = b.literal(one, of.cast); err != nil {
			return nil, err
		}
	}
	b.labelled(of, all, literals[0].kind)
	return all, nil
}

// list returns the values of a list, or of an array, and whether the array is NULL.
func (b *binder) list(of []operand) (all []value, isNull bool, err error) {
	untyped, ofArray := true, false
	for _, one := range of {
		var values []value
		if one.array {
			values, isNull, err = b.array(one)
		} else {
			values, err = b.values(one)
		}
		if err != nil || isNull {
			return nil, isNull, err
		}
		for _, its := range values {
			untyped = untyped && its.typ == 0
		}
		ofArray = ofArray || one.ofArray
		all = append(all, values...)
	}
	if ofArray && untyped { // the server takes them for texts
		for i := range all {
			if all[i].typ = keys.Text; all[i].parameter > 0 {
				return nil, false, severalPlaces
			}
		}
	}
	return all, false, nil
}

// array returns the elements of an array.
func (b *binder) array(of operand) (all []value, isNull bool, err error) {
	bare := of
	bare.array, bare.cast = false, 0
	its, err := b.one(bare)
	if err != nil {
		return nil, false, err
	}
	element := uint32(0)
	if its.typ != 0 {
		if element = elementTypes[its.typ]; element == 0 {
			return nil, false, otherTypes
		}
	} else if its.parameter > 0 {
		if err := b.infer(its.parameter, arrayOf|of.cast); err != nil {
			return nil, false, err
		}
	}
	if its.null {
		return nil, true, nil
	}
	ok := false
	if its.binary {
		var within uint32
		all, within, ok = arrayBinary(its.raw)
		ok = ok && (element == 0 || within == element)
	} else {
		all, ok = arrayText(string(its.raw), element)
	}
	if !ok {
		return nil, false, unknownValue
	}
	for i := range all {
		if all[i], err = b.cast(all[i], of.cast); err != nil {
			return nil, false, err
		}
	}
	return all, false, nil
}

// arrayOf stands for an array in the types of parameters: no type has so large a number.
const arrayOf = 1 << 31

func (b *binder) literal(one literal, cast uint32) (value, error) {
	if one.escape && b.with.Escapes {
		return value{}, escaped
	}
	its := value{raw: []byte(one.text)}
	switch one.kind {
	case parameterLiteral:
		number, err := strconv.Atoi(one.text)
		if err != nil || number < 1 {
			return value{}, missingArgument
		}
		return b.parameter(number, cast)
	case nullLiteral:
		its.null = true
	case trueLiteral:
		its.typ, its.raw = keys.Bool, []byte("t")
	case falseLiteral:
		its.typ, its.raw = keys.Bool, []byte("f")
	case numberLiteral:
		its.typ = numberType(one.text)
	}
	return b.cast(its, cast)
}

// numberType is the type of a number in a statement: the smallest that holds it.
func numberType(text string) uint32 {
	if n, err := strconv.ParseInt(text, 10, 64); err == nil {
		if n == int64(int32(n)) {
			return keys.Int4
		}
		return keys.Int8
	}
	return keys.Numeric
}

func (b *binder) parameter(number int, cast uint32) (value, error) {
	i := number - 1
	if i >= len(b.with.Parameters) {
		return value{}, missingArgument
	}
	its := value{raw: b.with.Parameters[i], null: b.with.Parameters[i] == nil, parameter: number}
	switch {
	case len(b.with.Formats) == 1:
		its.binary = b.with.Formats[0] == 1
	case i < len(b.with.Formats):
		its.binary = b.with.Formats[i] == 1
	}
	if i < len(b.with.Types) && b.with.Types[i] != untyped {
		its.typ = b.with.Types[i]
	}
	if its.typ == 0 && cast != 0 {
		if err := b.infer(number, cast); err != nil {
			return value{}, err
		}
	}
	return b.cast(its, cast)
}

// infer refuses a parameter for which the server may determine another type than this one: by a place in the statement
// that isn't followed, or by another one.
func (b *binder) infer(number int, typ uint32) error {
	if before, ok := b.inferred[number]; b.form.elsewhere[number] > 0 || ok && before != typ {
		return severalPlaces
	}
	if b.inferred == nil {
		b.inferred = map[int]uint32{}
	}
	b.inferred[number] = typ
	return nil
}

// cast casts a value. A text is read as a constant of the type would be.
func (b *binder) cast(its value, to uint32) (value, error) {
	if b.count++; b.count > mostValues {
		return value{}, tooLarge
	}
	if b.bytes += len(its.raw); b.bytes > mostBytes {
		return value{}, tooLarge
	}
	switch {
	case to == 0 || to == its.typ:
	case its.typ == 0, isText(its.typ) && !its.binary:
		its.typ = to
	case isText(its.typ) && isText(to):
		its.typ = to
	case isInteger(its.typ) && (isInteger(to) || to == keys.Numeric) && !its.null:
		canonical, ok := keys.Canonical(its.typ, its.raw, its.binary)
		if !ok {
			return value{}, unknownValue
		}
		its.raw, its.binary, its.typ = []byte(canonical), false, to
	default:
		return value{}, aCast
	}
	return its, nil
}

// rangeMade makes a range of its bounds. NULL is no bound.
func (b *binder) rangeMade(of operand) (value, error) {
	element := elementOf(of.cast)
	ends := [2]bound{}
	brackets := "[)"
	args, err := b.boundsOf(of.made)
	if err != nil {
		return value{}, err
	}
	for i, its := range args {
		if i == 2 {
			if its.null || its.typ != 0 && !isText(its.typ) || its.parameter > 0 {
				return value{}, otherTypes
			}
			brackets = string(its.raw)
			break
		}
		if its.typ != element && !of.qualified {
			return value{}, untypedBound
		}
		widened := element == keys.Int8 && isInteger(its.typ) || element == keys.Numeric && isInteger(its.typ)
		if its.typ != 0 && its.typ != element && !widened || its.typ == keys.Int8 && element == keys.Int4 {
			return value{}, otherTypes
		}
		if ends[i].infinite = its.null; its.null {
			continue
		}
		if ends[i].value, err = b.datum(its, &column{by: familyOf(element)}, element); err != nil {
			return value{}, err
		}
	}
	if len(brackets) != 2 || brackets[0] != '[' && brackets[0] != '(' || brackets[1] != ']' && brackets[1] != ')' {
		return value{}, unknownValue
	}
	ends[0].inclusive, ends[1].inclusive = brackets[0] == '[', brackets[1] == ']'
	its, ok := rangeOf(element, ends[0], ends[1])
	if !ok {
		return value{}, unknownValue
	}
	return value{typ: of.cast, made: true, r: its}, nil
}

// boundsOf returns what a range is made of. If it is one operand, it stands for those that were left out of the text.
func (b *binder) boundsOf(made []operand) ([]value, error) {
	var all []value
	for _, arg := range made {
		its, err := b.values(arg)
		if err != nil {
			return nil, err
		}
		all = append(all, its...)
	}
	if len(all) != 2 && len(all) != 3 {
		return nil, manyConstants
	}
	return all, nil
}

// column is a column as it is read for a family.
func (b *binder) column(of *catalog.Column, by family) *column {
	its := &column{number: of.Number, typ: of.Type, by: by}
	if by == labelled {
		its.labels = make(map[string]int64, len(of.Labels))
		for i, label := range of.Labels {
			its.labels[label] = int64(i)
		}
	}
	return its
}
