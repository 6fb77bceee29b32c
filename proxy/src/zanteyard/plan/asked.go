package plan

import (
	"strconv"
	"strings"

	"zanteyard/catalog"
	"zanteyard/keys"
	"zanteyard/record"
)

// askedPart is one value that a SELECT asks for a key by: a parameter, or a constant in the text. A LIMIT is another
// part, which has to be more than 0.
type askedPart struct {
	column    uint32 // the key column's type, 0 for LIMIT
	parameter int    // from 1; 0 for a constant
	token     int    // of the constant, -1 for a parameter
	negative  bool
}

// askedPart reads a constant or parameter that a key column is compared with, possibly with a cast to the column's
// type.
func (m *maker) askedPart(column catalog.Column, value any) (askedPart, bool) {
	if !keys.Askable(column.Type) {
		return askedPart{}, false
	}
	if kind, body := only(value); kind == "TypeCast" {
		cast := castType(body.node("typeName"))
		if cast == 0 || keys.Family(cast) != keys.Family(column.Type) {
			return askedPart{}, false
		}
		value = body["arg"]
	}
	return m.valuePart(column.Type, value)
}

const firstMade = 16384 // types below this are the server's own

// isOwnEquality reports whether a column is compared by an operator of the server's own: one that somebody has made may
// say of no row that it has the key. A cast may make a text of an enumeration's label: that is followed as a condition.
func (m *maker) isOwnEquality(column catalog.Column) bool {
	if column.Type == keys.Enum {
		return false
	}
	for _, other := range m.catalog.OperatorsElsewhere("=") {
		for _, takes := range []uint32{other.Left, other.Right} {
			isAny := takes < firstMade && !keys.Known(takes) // as anyelement is
			if takes == column.Declared || takes == column.Base || takes == column.Type || isAny ||
				keys.IsText(takes) && keys.IsText(column.Type) {
				return false
			}
		}
	}
	return true
}

func (m *maker) limitPart(value any) (askedPart, bool) {
	part, ok := m.valuePart(0, value)
	return part, ok && part.parameter == 0 && !part.negative && m.tokens[part.token].kind == numberToken
}

func (m *maker) valuePart(column uint32, value any) (askedPart, bool) {
	switch kind, body := only(value); kind {
	case "ParamRef":
		return askedPart{column: column, parameter: body.number("number"), token: -1}, body.number("number") > 0
	case "A_Const":
		part := askedPart{column: column, token: m.tokenAt(body.number("location"))}
		if part.token < 0 || body.flag("isnull") {
			return part, false
		}
		if m.word(part.token) == "-" {
			part.negative = true
			part.token++
		}
		next := part.token + 1
		kind := m.tokens[part.token].kind
		ok := kind == numberToken || kind == stringToken && !part.negative
		// A string may continue on the next line, as another token.
		return part, ok && (next >= len(m.tokens) || m.tokens[next].kind != stringToken && !m.is(next, "uescape"))
	}
	return askedPart{}, false
}

// castType returns the object identifier of some of the server's own types, without a length.
func castType(name node) uint32 {
	if name.has("typmods") || name.has("arrayBounds") || name.flag("setof") {
		return 0
	}
	parts := names(name.list("names"))
	if len(parts) == 0 || len(parts) == 2 && parts[0] != "pg_catalog" || len(parts) > 2 {
		return 0
	}
	switch parts[len(parts)-1] {
	case "int2":
		return keys.Int2
	case "int4":
		return keys.Int4
	case "int8":
		return keys.Int8
	case "text":
		return keys.Text
	case "varchar":
		return keys.Varchar
	case "uuid":
		return keys.UUID
	case "numeric":
		return keys.Numeric
	case "date":
		return keys.Date
	case "timestamp":
		return keys.Timestamp
	case "timestamptz":
		return keys.Timestamptz
	case "bytea":
		return keys.Bytea
	}
	return 0
}

// AskedKey returns the whole primary key by which a SELECT asks for one row, from the constants of its text, or from
// Bind's parameters with their formats (none, one for all, or one each) and the types that the client declared for them
// in Parse (none, or 0 if the server determines the type). ok is false if the key isn't known for certain.
func (p *Plan) AskedKey(text string, tokens Tokens, parameters [][]byte, formats []int16, types []uint32) (record.Key, bool) {
	if !p.Asked {
		return "", false
	}
	var key strings.Builder
	for i, part := range p.asked {
		if part.column == 0 {
			limit, err := strconv.ParseUint(text[tokens.constants[i].from:tokens.constants[i].to], 10, 64)
			if err != nil || limit == 0 {
				return "", false
			}
			continue
		}
		value, binary, ok := part.value(text, tokens.constants[i], parameters, formats, types)
		if !ok {
			return "", false
		}
		canonical, ok := keys.Canonical(part.column, value, binary)
		if !ok {
			return "", false
		}
		if i > 0 {
			key.WriteByte(0)
		}
		key.WriteString(canonical)
	}
	return record.Key(key.String()), true
}

func (a askedPart) value(text string, at span, parameters [][]byte, formats []int16, types []uint32) ([]byte, bool, bool) {
	if a.parameter == 0 {
		value, ok := constant(text[at.from:at.to], a.negative)
		return value, false, ok
	}
	i := a.parameter - 1
	if i >= len(parameters) || parameters[i] == nil {
		return nil, false, false
	}
	if i < len(types) && types[i] != 0 && keys.Family(types[i]) != keys.Family(a.column) {
		return nil, false, false
	}
	format := int16(0)
	switch {
	case len(formats) == 1:
		format = formats[0]
	case i < len(formats):
		format = formats[i]
	}
	return parameters[i], format == 1, format == 0 || format == 1
}

// constant returns the value of a constant's text.
func constant(text string, negative bool) ([]byte, bool) {
	switch {
	case text == "":
		return nil, false
	case negative:
		return []byte("-" + text), true
	case text[0] == '\'':
		return []byte(strings.ReplaceAll(text[1:len(text)-1], "''", "'")), true
	case text[0] == '$':
		tag := strings.IndexByte(text[1:], '$') + 2
		return []byte(text[tag : len(text)-tag]), true
	case (text[0] == 'E' || text[0] == 'e') && !strings.Contains(text, `\`):
		return constant(text[1:], false)
	case text[0] >= '0' && text[0] <= '9' || text[0] == '.':
		return []byte(text), true
	}
	return nil, false
}
