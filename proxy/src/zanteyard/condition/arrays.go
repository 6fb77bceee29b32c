package condition

import (
	"encoding/binary"
	"strings"

	"zanteyard/keys"
)

// elementTypes are the types of the elements of the server's own array types.
var elementTypes = map[uint32]uint32{
	1000: keys.Bool, 1001: keys.Bytea, 1005: keys.Int2, 1007: keys.Int4, 1016: keys.Int8, 1009: keys.Text,
	1014: keys.Bpchar, 1015: keys.Varchar, 1231: keys.Numeric, 1115: keys.Timestamp, 1182: keys.Date, 1183: keys.Time,
	1185: keys.Timestamptz, 1187: intervalType, 2951: keys.UUID,
}

// arrayText reads an array of one dimension: {1,2,NULL,"a b"}.
func arrayText(text string, element uint32) ([]value, bool) {
	text = strings.Trim(text, " \t\n\r\f\v")
	if len(text) < 2 || text[0] != '{' {
		return nil, false
	}
	rest := strings.TrimLeft(text[1:], " \t\n\r\f\v")
	if rest == "}" {
		return nil, true
	}
	var all []value
	for {
		one, after, ok := elementText(rest)
		if !ok || after == "" {
			return nil, false
		}
		one.typ = element
		all = append(all, one)
		rest = after[1:]
		switch {
		case after[0] == ',':
		case after[0] == '}' && rest == "":
			return all, true
		default:
			return nil, false
		}
	}
}

// elementText reads an element of an array, up to a comma or the end.
func elementText(text string) (value, string, bool) {
	const spaces = " \t\n\r\f\v"
	text = strings.TrimLeft(text, spaces)
	if text == "" {
		return value{}, "", false
	}
	var out strings.Builder
	if text[0] == '"' {
		for i := 1; i < len(text); i++ {
			switch {
			case text[i] == '"':
				return value{raw: []byte(out.String())}, strings.TrimLeft(text[i+1:], spaces), true
			case text[i] == '\\' && i+1 < len(text):
				i++
				out.WriteByte(text[i])
			default:
				out.WriteByte(text[i])
			}
		}
		return value{}, "", false
	}
	end := strings.IndexAny(text, `,}{"\`)
	if end <= 0 || text[end] != ',' && text[end] != '}' {
		return value{}, "", false
	}
	word := strings.TrimRight(text[:end], spaces)
	if strings.EqualFold(word, "null") {
		return value{null: true, inArray: true}, text[end:], true
	}
	return value{raw: []byte(word)}, text[end:], word != ""
}

// arrayBinary reads an array of one dimension at most: the number of dimensions, whether there is a NULL, the type of
// the elements, each dimension's length and first index, and the elements with their lengths.
func arrayBinary(content []byte) ([]value, uint32, bool) {
	if len(content) < 12 {
		return nil, 0, false
	}
	dimensions := binary.BigEndian.Uint32(content)
	element := binary.BigEndian.Uint32(content[8:])
	rest := content[12:]
	if dimensions == 0 {
		return nil, element, len(rest) == 0
	}
	if dimensions != 1 || len(rest) < 8 {
		return nil, 0, false
	}
	count := binary.BigEndian.Uint32(rest)
	rest = rest[8:]
	var all []value
	for ; count > 0; count-- {
		if len(rest) < 4 {
			return nil, 0, false
		}
		n := int32(binary.BigEndian.Uint32(rest))
		rest = rest[4:]
		switch {
		case n == -1:
			all = append(all, value{null: true, typ: element})
		case n < 0 || int(n) > len(rest):
			return nil, 0, false
		default:
			all = append(all, value{raw: rest[:n], binary: true, typ: element})
			rest = rest[n:]
		}
	}
	return all, element, len(rest) == 0
}
