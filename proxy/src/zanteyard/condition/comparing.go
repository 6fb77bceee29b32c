package condition

import (
	"encoding/binary"
	"sort"
	"strings"

	"zanteyard/catalog"
	"zanteyard/keys"
)

// pair decides how a column is compared with values: the column as it is then read, and the type of values whose type
// the server determines. Values of IN get one type from all of them and the column, if there are several.
//
// What the server's own operators are chosen by must be certain. For an enumeration there is one operator for all, and
// its owner may make a cast to another type, and drop it: a label without a type would then be compared as a text. If
// both sides have the enumeration's type, the statement would be an error.
func (b *binder) pair(of *catalog.Column, values []value, in bool) (*column, uint32, error) {
	by := familyOfColumn(of)
	unknown := of.Type
	switch by {
	case integers, numerics:
		unknown = keys.Int8
		numeric := by == numerics
		for _, one := range values {
			if one.typ != 0 && !isInteger(one.typ) && one.typ != keys.Numeric {
				return nil, 0, otherTypes
			}
			numeric = numeric || one.typ == keys.Numeric
		}
		if numeric {
			by, unknown = numerics, keys.Numeric
		}
	case texts:
		unknown = keys.Text
		for _, one := range values {
			if one.typ != 0 && !isText(one.typ) {
				return nil, 0, otherTypes
			}
		}
	case padded:
		texted := 0
		for _, one := range values {
			switch one.typ {
			case keys.Text:
				texted++
			case 0, keys.Bpchar, keys.Varchar:
			default:
				return nil, 0, otherTypes
			}
		}
		if texted > 0 { // its spaces are gone, and those of the text count
			if texted < len(values) || in {
				return nil, 0, otherTypes
			}
			by, unknown = texts, keys.Text
		}
	default:
		for _, one := range values {
			if one.typ != 0 && one.typ != of.Base {
				return nil, 0, otherTypes
			}
			if one.typ == 0 && by == labelled && !in {
				return nil, 0, untypedLabel
			}
		}
	}
	return b.column(of, by), unknown, nil
}

func isInteger(typ uint32) bool { return typ == keys.Int2 || typ == keys.Int4 || typ == keys.Int8 }

func isText(typ uint32) bool { return typ == keys.Text || typ == keys.Varchar }

// datum reads a value as one that the column is compared with.
func (b *binder) datum(its value, with *column, unknown uint32) (datum, error) {
	if its.made {
		return datum{s: its.r.text(), r: its.r}, nil
	}
	if its.canonical {
		made, ok := read(with.by, string(its.raw), with.labels)
		if !ok {
			return datum{}, unknownValue
		}
		return made, nil
	}
	typ := its.typ
	if typ == 0 {
		if its.parameter > 0 {
			if err := b.infer(its.parameter, unknown); err != nil {
				return datum{}, err
			}
		}
		typ = unknown
	} else if typ >= firstMade {
		typ = unknown // an enumeration, which is the column's own
	}
	if b.with.Converts && keys.IsText(typ) && !isASCII(its.raw) {
		return datum{}, otherEncoding
	}
	made, ok := readValue(typ, its.raw, its.binary, with)
	if !ok {
		return datum{}, unknownValue
	}
	return made, nil
}

// readValue reads a value in the wire protocol's text or binary format.
func readValue(typ uint32, raw []byte, binary bool, with *column) (made datum, ok bool) {
	switch {
	case with.by == spans && binary:
		return intervalBinary(raw)
	case with.by == spans:
		return intervalText(string(raw), false)
	case with.by == ranges:
		element := &column{by: familyOf(elementOf(typ))}
		if binary {
			made.r, ok = rangeBinary(typ, raw, func(of uint32, text []byte) (datum, bool) {
				return readValue(of, text, true, element)
			})
		} else {
			made.r, ok = rangeText(typ, string(raw), func(of uint32, text string) (datum, bool) {
				return readValue(of, []byte(text), false, element)
			})
		}
		made.s = made.r.text()
		return made, ok
	}
	canonical, ok := keys.Canonical(typ, raw, binary)
	if !ok {
		return datum{}, false
	}
	return read(with.by, canonical, with.labels)
}

func isASCII(text []byte) bool {
	for _, c := range text {
		if c >= 0x80 {
			return false
		}
	}
	return true
}

// shown writes a value for people, as SQL would have it.
func (v value) shown(unknown uint32) string {
	if v.null {
		return "NULL"
	}
	typ := v.typ
	if typ == 0 || typ >= firstMade {
		typ = unknown
	}
	text := string(v.raw)
	switch canonical, ok := keys.Canonical(typ, v.raw, v.binary); {
	case v.canonical:
		typ = v.shownAs
		text = keys.Show(typ, text)
	case v.made:
		text = v.r.words(typ)
	case ok:
		text = keys.Show(typ, canonical)
	case v.binary && typ == intervalType:
		text = "an interval"
	case v.binary:
		text = "a range"
	}
	switch typ {
	case keys.Int2, keys.Int4, keys.Int8, keys.Numeric:
		return text
	case keys.Bool:
		return map[string]string{"t": "true", "f": "false"}[text]
	}
	return "'" + strings.ReplaceAll(text, "'", "''") + "'"
}

// keyOf joins the identities of clauses for which the order doesn't matter.
func keyOf(word string, parts []part) string {
	all := make([]string, len(parts))
	for i, one := range parts {
		all[i] = one.key
	}
	sort.Strings(all)
	out := append([]byte(word), '(')
	for _, one := range all {
		out = binary.AppendUvarint(out, uint64(len(one)))
		out = append(out, one...)
	}
	return string(append(out, ')'))
}

// datumKey writes a value such that no two values of a family have the same text.
func datumKey(its datum) string {
	out := binary.AppendVarint(nil, its.n)
	out = binary.AppendVarint(out, its.m)
	return string(append(out, its.s...))
}
