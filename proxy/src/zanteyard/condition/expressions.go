package condition

import (
	"zanteyard/catalog"
	"zanteyard/keys"
)

// expression is a part of a form that has a truth value.
type expression interface {
	bind(b *binder) (part, error)
}

// Why a WHERE clause isn't followed.
const (
	unknownForm      = Refusal("an expression in an unknown form")
	aSubquery        = Refusal("a subquery")
	aFunction        = Refusal("a function")
	aClock           = Refusal("now(), or another clock")
	systemColumn     = Refusal("a system column")
	unknownColumn    = Refusal("an unknown column")
	generatedColumn  = Refusal("a generated column")
	compositeColumn  = Refusal("a column of a composite type")
	computedColumn   = Refusal("an expression over a column")
	severalColumns   = Refusal("a comparison of two columns")
	noColumn         = Refusal("a comparison without a column")
	unknownOperator  = Refusal("an operator that isn't followed")
	operatorElse     = Refusal("an operator that the search path finds elsewhere")
	functionElse     = Refusal("a function that the search path finds elsewhere")
	unknownType      = Refusal("a type that isn't followed")
	anotherCollation = Refusal("a collation that isn't deterministic")
	anotherOrder     = Refusal("an order of texts by a language's rules")
	namedCollation   = Refusal("COLLATE")
	equalsNull       = Refusal("= NULL, whose meaning depends on transform_null_equals")
)

// reader makes expressions of parse trees.
type reader struct {
	form    *Form
	catalog *catalog.Catalog
	joins   *joins // nil for one table
	inner   int    // in how many expressions it is that may hold because what is in them doesn't
}

func (r *reader) where(value any) (expression, error) {
	if value == nil {
		return all{}, nil
	}
	return r.truth(value)
}

// truth reads an expression that has a truth value.
func (r *reader) truth(value any) (expression, error) {
	kind, body := open(value)
	switch kind {
	case "BoolExpr":
		return r.logic(body)
	case "A_Expr":
		return r.operation(body)
	case "NullTest":
		column, err := r.column(body["arg"])
		if err == nil && column.Composite || err == nil && column.Base != column.Declared && familyOfColumn(column) == none {
			err = compositeColumn
		}
		return nulls{column, body.text("nulltesttype") == "IS_NOT_NULL"}, err
	case "BooleanTest":
		r.inner++
		its, err := r.truth(body["arg"])
		r.inner--
		return tested{its, body.text("booltesttype")}, err
	case "ColumnRef":
		column, err := r.column(value)
		if err == nil && familyOfColumn(column) != booleans {
			err = unknownType
		}
		return itself{column}, err
	case "A_Const", "ParamRef", "TypeCast":
		its, err := r.operand(value)
		return spoken{its}, err
	}
	return nil, refusalOf(kind, body)
}

// refusalOf names what an expression is that isn't followed.
func refusalOf(kind string, body tree) Refusal {
	switch kind {
	case "SubLink":
		return aSubquery
	case "SQLValueFunction":
		switch op := body.text("op"); op {
		case "SVFOP_CURRENT_DATE", "SVFOP_CURRENT_TIME", "SVFOP_CURRENT_TIME_N", "SVFOP_CURRENT_TIMESTAMP",
			"SVFOP_CURRENT_TIMESTAMP_N", "SVFOP_LOCALTIME", "SVFOP_LOCALTIME_N", "SVFOP_LOCALTIMESTAMP",
			"SVFOP_LOCALTIMESTAMP_N":
			return aClock
		}
		return aFunction
	case "FuncCall":
		names := body.names("funcname")
		if len(names) > 0 {
			switch names[len(names)-1] {
			case "now", "transaction_timestamp", "statement_timestamp", "clock_timestamp", "timeofday":
				return aClock
			}
		}
		return aFunction
	case "CoalesceExpr", "MinMaxExpr", "CaseExpr", "NullIfExpr":
		return aFunction
	case "CurrentOfExpr":
		return currentOf
	case "CollateClause":
		return namedCollation
	case "A_Expr":
		return computedColumn
	}
	return unknownForm
}

func (r *reader) logic(body tree) (expression, error) {
	if body.text("boolop") == "OR_EXPR" {
		return r.either(body.list("args"))
	}
	var args []expression
	r.inner += negations[body.text("boolop")]
	for _, arg := range body.list("args") {
		one, err := r.truth(arg)
		if err != nil {
			return nil, err
		}
		args = append(args, one)
	}
	r.inner -= negations[body.text("boolop")]
	switch {
	case body.text("boolop") == "AND_EXPR":
		return junction{args, true}, nil
	case body.text("boolop") == "NOT_EXPR" && len(args) == 1:
		return negated{args[0]}, nil
	}
	return nil, unknownForm
}

// operation reads a comparison.
func (r *reader) operation(body tree) (expression, error) {
	left, right := body["lexpr"], body["rexpr"]
	switch body.text("kind") {
	case "AEXPR_OP":
		return r.plain(body, left, right)
	case "AEXPR_OP_ANY", "AEXPR_OP_ALL":
		return r.array(body, left, right)
	case "AEXPR_IN":
		return r.list(body, left, right)
	case "AEXPR_DISTINCT", "AEXPR_NOT_DISTINCT":
		column, value, _, err := r.sides(left, right)
		if err == nil {
			err = r.suits(column, symbol{name: "="})
		}
		return distinct{column, value, body.text("kind") == "AEXPR_NOT_DISTINCT"}, err
	case "AEXPR_LIKE":
		return r.like(body, left, right)
	case "AEXPR_BETWEEN", "AEXPR_NOT_BETWEEN", "AEXPR_BETWEEN_SYM", "AEXPR_NOT_BETWEEN_SYM":
		return r.between(body.text("kind"), left, right)
	case "AEXPR_ILIKE", "AEXPR_SIMILAR":
		return nil, unknownOperator
	case "AEXPR_NULLIF":
		return nil, aFunction
	}
	return nil, unknownForm
}

var operators = map[string]operator{
	"=": equal, "<>": unequal, "<": less, "<=": lessOrEqual, ">": greater, ">=": greaterOrEqual,
}

var rangeTests = map[string]rangeTest{"&&": overlapping, "@>": containing, "<@": contained}

// symbol is an operator as a statement names it.
type symbol struct {
	name      string
	qualified bool // by the server's own schema
	swapped   bool // the column is on its right
}

func symbolOf(body tree) (symbol, error) {
	names := body.names("name")
	if len(names) == 2 && names[0] == "pg_catalog" {
		return symbol{name: names[1], qualified: true}, nil
	}
	if len(names) != 1 {
		return symbol{}, operatorElse
	}
	return symbol{name: names[0]}, nil
}

// plain reads left operator right.
func (r *reader) plain(body tree, left, right any) (expression, error) {
	its, err := symbolOf(body)
	if err != nil {
		return nil, err
	}
	if _, ok := rangeTests[its.name]; ok {
		return r.ranges(its, left, right)
	}
	is, ok := operators[its.name]
	if !ok {
		return nil, unknownOperator
	}
	if is == equal && (isNullWord(left) || isNullWord(right)) {
		return nil, equalsNull
	}
	column, value, swapped, err := r.sides(left, right)
	if err == noColumn && !swapped {
		return r.numbers(its, left, right)
	}
	if err != nil {
		return nil, err
	}
	if its.swapped = swapped; swapped {
		is = is.swapped()
	}
	return compared{column, is, value}, r.suits(column, its)
}

// isNullWord reports whether an expression is the word NULL.
func isNullWord(value any) bool {
	kind, body := open(value)
	return kind == "A_Const" && body.flag("isnull")
}

// numbers reads a comparison of two numbers, as in WHERE 1 = 1.
func (r *reader) numbers(is symbol, left, right any) (expression, error) {
	one, err := r.operand(left)
	if err != nil {
		return nil, err
	}
	other, err := r.operand(right)
	if err != nil {
		return nil, err
	}
	if one.constant == 0 || other.constant == 0 || one.parameter != 0 || other.parameter != 0 {
		return nil, noColumn
	}
	whole := &catalog.Column{Type: keys.Int4, Meaning: catalog.Meaning{Declared: keys.Int4, Base: keys.Int4}}
	return numbers{one, other, operators[is.name]}, r.suits(whole, is)
}

// sides reads a column and a value, in either order.
func (r *reader) sides(left, right any) (column *catalog.Column, its operand, swapped bool, err error) {
	column, err = r.column(left)
	if err == noColumn {
		if column, err = r.column(right); err != nil {
			return nil, its, false, err
		}
		left, right, swapped = right, left, true
	}
	if err != nil {
		return nil, its, swapped, err
	}
	if its, err = r.operand(right); err == nil {
		its = r.label(column, left, its)
	}
	return column, its, swapped, err
}

// array reads column operator ANY (array), or ALL.
func (r *reader) array(body tree, left, right any) (expression, error) {
	name, err := symbolOf(body)
	if err != nil {
		return nil, err
	}
	is, ok := operators[name.name]
	if !ok {
		return nil, unknownOperator
	}
	column, err := r.column(left)
	if err != nil {
		return nil, err
	}
	its := among{column: column, is: is, every: body.text("kind") == "AEXPR_OP_ALL", array: true}
	if its.values, err = r.elements(right); err != nil {
		return nil, err
	}
	return its, r.suits(column, name)
}

// list reads column IN (values), or NOT IN.
func (r *reader) list(body tree, left, right any) (expression, error) {
	name, err := symbolOf(body)
	if err != nil {
		return nil, err
	}
	if kind, _ := open(left); kind == "RowExpr" {
		return nil, Refusal("a comparison of rows")
	}
	column, err := r.column(left)
	if err != nil {
		return nil, err
	}
	its := among{column: column, is: equal, every: name.name == "<>"}
	if its.every {
		its.is = unequal
	}
	_, list := open(right)
	for _, item := range list.list("items") {
		one, err := r.operand(item)
		if err != nil {
			return nil, err
		}
		if one.listed = one.cast == 0; len(list.list("items")) == 1 { // several get one type, with the column
			one = r.label(column, left, one)
		}
		its.values = append(its.values, one)
	}
	return its, r.suits(column, name)
}

func (r *reader) like(body tree, left, right any) (expression, error) {
	name, err := symbolOf(body)
	if err != nil {
		return nil, err
	}
	column, err := r.column(left)
	if err != nil {
		return nil, err
	}
	if kind, call := open(right); kind == "FuncCall" {
		if names := call.names("funcname"); len(names) == 2 && names[1] == "like_escape" {
			return nil, Refusal("LIKE .. ESCAPE")
		}
	}
	value, err := r.operand(right)
	if err != nil {
		return nil, err
	}
	if by := familyOfColumn(column); by != texts && by != padded {
		return nil, unknownType
	}
	return likened{column, value, name.name == "!~~"}, r.suits(column, name)
}

func (r *reader) between(kind string, left, right any) (expression, error) {
	column, err := r.column(left)
	if err != nil {
		return nil, err
	}
	_, body := open(right)
	items := body.list("items")
	if len(items) != 2 {
		return nil, unknownForm
	}
	first, err := r.operand(items[0])
	if err != nil {
		return nil, err
	}
	second, err := r.operand(items[1])
	if err != nil {
		return nil, err
	}
	first, second = r.label(column, left, first), r.label(column, left, second)
	for _, name := range []string{"<", "<=", ">", ">="} {
		if err := r.suits(column, symbol{name: name}); err != nil {
			return nil, err
		}
	}
	within := func(one, other operand) expression {
		return junction{[]expression{compared{column, greaterOrEqual, one}, compared{column, lessOrEqual, other}}, true}
	}
	outside := func(one, other operand) expression {
		return junction{[]expression{compared{column, less, one}, compared{column, greater, other}}, false}
	}
	switch kind {
	case "AEXPR_BETWEEN":
		return within(first, second), nil
	case "AEXPR_NOT_BETWEEN":
		return outside(first, second), nil
	case "AEXPR_BETWEEN_SYM":
		return junction{[]expression{within(first, second), within(second, first)}, false}, nil
	}
	return junction{[]expression{outside(first, second), outside(second, first)}, true}, nil
}

// ranges reads a test of a range and another one, or a value.
func (r *reader) ranges(name symbol, left, right any) (expression, error) {
	column, value, swapped, err := r.sides(left, right)
	if err != nil {
		return nil, err
	}
	is := rangeTests[name.name]
	if name.swapped = swapped; swapped {
		is = [...]rangeTest{overlapping, contained, containing}[is]
	}
	its := ranged{column, is, value}
	if familyOfColumn(column) == none {
		return nil, unknownType
	}
	return its, r.elsewhere(column, name)
}
