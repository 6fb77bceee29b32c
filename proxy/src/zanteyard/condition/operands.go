package condition

import (
	"strconv"

	"zanteyard/keys"
)

// operand is a value in a form: a constant or a parameter, perhaps cast to a type, or a range made of two.
type operand struct {
	constant  int    // its place among the form's, from 1, of a constant or a parameter; 0 for others
	parameter int    // its number, from 1; 0 for others
	outer     int    // its place among the form's columns of other tables, from 1; 0 for others
	cast      uint32 // the type that it is cast to, or 0
	array     bool   // it is an array, and cast the type of its elements
	bare      bool   // the cast names its type without a schema
	listed    bool   // it is one of a list, and stands for those that were left out of the text, too
	ofArray   bool   // it is an element of ARRAY[..]
	made      []operand
	qualified bool   // what makes the range is named with the server's own schema
	label     uint32 // the enumeration whose label it is, if it has no type of its own; 0 for others
}

const (
	aCast         = Refusal("a cast that isn't followed")
	castElsewhere = Refusal("a type that the search path finds elsewhere")
)

// operand reads a constant, a parameter, or a range made of some.
func (r *reader) operand(value any) (operand, error) {
	switch kind, body := open(value); kind {
	case "A_Const":
		its, err := literalAt(r.form.text, body.number("location"))
		if err != nil {
			return operand{}, err
		}
		return operand{constant: r.form.token(its, body)}, nil
	case "ParamRef":
		number := body.number("number")
		if number < 1 {
			return operand{}, unknownForm
		}
		r.form.elsewhere[number]--
		its := literal{kind: parameterLiteral, text: strconv.Itoa(number)}
		return operand{constant: r.form.token(its, body), parameter: number}, nil
	case "TypeCast":
		its, err := r.operand(body["arg"])
		if err != nil {
			return operand{}, err
		}
		if its.cast != 0 {
			return operand{}, aCast
		}
		its.cast, its.array, its.bare, err = r.castType(body.tree("typeName"))
		return its, err
	case "FuncCall":
		return r.rangeMade(body)
	case "ColumnRef":
		return r.outer(body.names("fields"))
	case "A_Expr":
		return operand{}, Refusal("a computed value")
	default:
		return operand{}, refusalOf(kind, body)
	}
}

// token adds the place of a constant or a parameter, and returns the place's own number, from 1.
func (f *Form) token(its literal, body tree) int {
	f.literals = append(f.literals, its)
	f.Constants = append(f.Constants, body.number("location"))
	return len(f.literals)
}

var rangeTypes = map[string]uint32{
	"int4range": int4Range, "int8range": int8Range, "numrange": numRange, "tsrange": tsRange, "tstzrange": tstzRange,
	"daterange": dateRange,
}

// rangeMade reads a range that is made of its bounds: tstzrange($1, $2, '[]').
func (r *reader) rangeMade(body tree) (operand, error) {
	names := body.names("funcname")
	args := body.list("args")
	if len(names) == 0 || rangeTypes[names[len(names)-1]] == 0 || len(args) < 1 || len(args) > 3 {
		return operand{}, refusalOf("FuncCall", body)
	}
	for _, field := range []string{"agg_order", "agg_filter", "over", "agg_within_group", "agg_star", "agg_distinct", "func_variadic"} {
		if body.has(field) {
			return operand{}, aFunction
		}
	}
	name := names[len(names)-1]
	if len(names) == 1 && r.catalog.FunctionElsewhere(name) || len(names) > 2 || len(names) == 2 && names[0] != "pg_catalog" {
		return operand{}, functionElse
	}
	its := operand{cast: rangeTypes[name], qualified: len(names) == 2}
	for _, arg := range args {
		one, err := r.operand(arg)
		if err != nil {
			return operand{}, err
		}
		if one.made != nil || one.array {
			return operand{}, aFunction
		}
		its.made = append(its.made, one)
	}
	if its.made[0].listed = len(args) == 1; its.made[0].listed && its.made[0].cast != 0 {
		return operand{}, aFunction
	}
	return its, nil
}

// elements reads an array: ARRAY[..], a constant or a parameter.
func (r *reader) elements(value any) ([]operand, error) {
	cast, bare := uint32(0), false
	kind, body := open(value)
	if kind == "TypeCast" {
		if inner, list := open(body["arg"]); inner == "A_ArrayExpr" {
			its, array, isBare, err := r.castType(body.tree("typeName"))
			if err != nil || !array {
				return nil, aCast
			}
			cast, bare, kind, body = its, isBare, inner, list
		}
	}
	switch kind {
	case "A_ArrayExpr":
		var all []operand
		for _, item := range body.list("elements") {
			one, err := r.operand(item)
			if err != nil {
				return nil, err
			}
			if one.array || one.cast != 0 && cast != 0 {
				return nil, aCast
			}
			one.listed, one.ofArray = one.cast == 0, true
			if cast != 0 {
				one.cast, one.bare = cast, bare
			}
			all = append(all, one)
		}
		if len(all) == 0 && cast == 0 {
			return nil, unknownForm
		}
		return all, nil
	case "SubLink", "ColumnRef", "FuncCall":
		if kind == "ColumnRef" {
			return nil, severalColumns
		}
		return nil, refusalOf(kind, body)
	}
	one, err := r.operand(value)
	if err != nil {
		return nil, err
	}
	if one.cast != 0 && !one.array {
		return nil, aCast
	}
	one.array = true
	return []operand{one}, nil
}

// castType returns the type of a cast to one of the server's own types, without a length, or to an array of it. bare
// says that the type's schema isn't named.
func (r *reader) castType(name tree) (typ uint32, array, bare bool, err error) {
	if name.has("typmods") || name.flag("setof") || name.flag("pct_type") || len(name.list("arrayBounds")) > 1 {
		return 0, false, false, aCast
	}
	names := name.names("names")
	if len(names) == 2 && names[0] == "pg_catalog" {
		names = names[1:]
	} else if len(names) != 1 || r.catalog.TypeElsewhere(names[0]) {
		return 0, false, false, castElsewhere
	}
	typ, ok := typeNames[names[0]]
	if !ok {
		return 0, false, false, aCast
	}
	return typ, len(name.list("arrayBounds")) == 1, len(name.names("names")) == 1, nil
}

var typeNames = map[string]uint32{
	"bool": keys.Bool, "int2": keys.Int2, "int4": keys.Int4, "int8": keys.Int8, "numeric": keys.Numeric,
	"text": keys.Text, "varchar": keys.Varchar, "bytea": keys.Bytea, "bpchar": keys.Bpchar, "uuid": keys.UUID, "date": keys.Date,
	"time": keys.Time, "timestamp": keys.Timestamp, "timestamptz": keys.Timestamptz, "interval": intervalType,
	"int4range": int4Range, "int8range": int8Range, "numrange": numRange, "tsrange": tsRange, "tstzrange": tstzRange,
	"daterange": dateRange,
}
