// Package keys gives each value of a key column one canonical text, whatever format and settings it came in, so that a
// row that a client read and the same row in the replication slot have the same key. A type that isn't listed here has
// no such text: tables with a key of such a type aren't seen.
package keys

import (
	"encoding/binary"
	"strings"
	"unicode/utf8"
)

// Object identifiers of the types that a key may have. Domains are passed as their base type, and each enumeration as
// Enum: the catalog knows which types these are.
const (
	Bool        uint32 = 16
	Bytea       uint32 = 17
	Name        uint32 = 19
	Int8        uint32 = 20
	Int2        uint32 = 21
	Int4        uint32 = 23
	Text        uint32 = 25
	Oid         uint32 = 26
	Cidr        uint32 = 650
	Float4      uint32 = 700
	Float8      uint32 = 701
	Macaddr     uint32 = 829
	Inet        uint32 = 869
	Bpchar      uint32 = 1042
	Varchar     uint32 = 1043
	Date        uint32 = 1082
	Time        uint32 = 1083
	Timestamp   uint32 = 1114
	Timestamptz uint32 = 1184
	Bit         uint32 = 1560
	Varbit      uint32 = 1562
	Numeric     uint32 = 1700
	UUID        uint32 = 2950
	Enum        uint32 = 3500 // anyenum
)

// Known reports whether values of the type have a canonical text.
func Known(typeOID uint32) bool {
	switch typeOID {
	case Bool, Bytea, Name, Int8, Int2, Int4, Text, Oid, Cidr, Float4, Float8, Macaddr, Inet, Bpchar, Varchar, Date, Time,
		Timestamp, Timestamptz, Bit, Varbit, Numeric, UUID, Enum:
		return true
	}
	return false
}

// Canonical returns the canonical text of a value in the wire protocol's text or binary format. ok is false if the type
// isn't known, if the text's meaning depends on the session's settings (a date that isn't in ISO's form), or if the
// value isn't one of the type. Values of text are assumed to be UTF-8, or bytes from a server without an encoding.
func Canonical(typeOID uint32, value []byte, binary bool) (string, bool) {
	if binary {
		return fromBinary(typeOID, value)
	}
	return fromText(typeOID, value)
}

// FromSlot returns the canonical text of a value as wal2json or test_decoding writes it on a connection with
// SlotSettings, without the quotes around it.
func FromSlot(typeOID uint32, text string) (string, bool) {
	switch typeOID {
	case Bytea: // wal2json omits the two characters in front
		return hexText(strings.TrimPrefix(text, `\x`))
	case Bit, Varbit: // test_decoding writes B'01'
		if strings.HasPrefix(text, "B'") && strings.HasSuffix(text, "'") && len(text) > 2 {
			text = text[2 : len(text)-1]
		}
	}
	return fromText(typeOID, []byte(text))
}

// SlotSettings returns the settings that the replication slot's connection must have for FromSlot to understand its
// texts.
func SlotSettings() map[string]string {
	return map[string]string{
		"DateStyle":          "ISO, YMD",
		"IntervalStyle":      "postgres",
		"TimeZone":           "UTC",
		"bytea_output":       "hex",
		"extra_float_digits": "3",
		"client_encoding":    "SQL_ASCII", // names and texts come as the server stores them, as in the slot
	}
}

// Family returns the type that stands for all types whose values are compared like this one's: a parameter declared as
// int8 asks for a key of int4 just as one declared as int4 does.
func Family(typeOID uint32) uint32 {
	switch typeOID {
	case Int2, Int4:
		return Int8
	case Varchar:
		return Text
	}
	return typeOID
}

// Askable reports whether a value that a statement asks for names the same row as its canonical text. It doesn't for
// floating-point numbers, which are compared as another type than the column's, and if the text has several forms.
func Askable(typeOID uint32) bool {
	switch typeOID {
	case Float4, Float8, Inet, Cidr, Macaddr, Bit, Varbit, Bool, Name, Oid:
		return false
	}
	return Known(typeOID)
}

// Expression returns the SQL for a hidden column that contains a key column's value, with one type whatever ALTER TABLE
// makes of the column: otherwise the server would refuse a statement that was prepared before. It is the value's text
// or, if that depends on the session's settings, its binary form in a record of one column, as bytea. If it converts,
// texts are bytea too, in the server's encoding. Nothing is cast, since the owner of the column's type may have defined
// the cast: concat and record_send call only the type's own functions for its texts and binary forms.
func Expression(typeOID uint32, column string, converts bool) string {
	if sent(typeOID) {
		return "pg_catalog.record_send(ROW(" + column + "))"
	}
	text := "pg_catalog.concat(" + column + ")"
	if converts && IsText(typeOID) {
		return "pg_catalog.convert_to(" + text + ", pg_catalog.getdatabaseencoding())"
	}
	return text
}

// IsText reports whether a type's canonical text may have characters beyond ASCII.
func IsText(typeOID uint32) bool {
	switch typeOID {
	case Text, Varchar, Name, Bpchar, Enum:
		return true
	}
	return false
}

// IsLong reports whether a type's values may be of any length.
func IsLong(typeOID uint32) bool {
	switch typeOID {
	case Text, Varchar, Bpchar, Bytea, Numeric, Bit, Varbit:
		return true
	}
	return false
}

// ExpressionType returns the type of Expression's column.
func ExpressionType(typeOID uint32, converts bool) uint32 {
	if sent(typeOID) || converts && IsText(typeOID) {
		return Bytea
	}
	return Text
}

// FromHidden returns the canonical text of a value of Expression's column.
func FromHidden(typeOID uint32, value []byte, binary, converts bool) (string, bool) {
	if ExpressionType(typeOID, converts) == Text {
		return fromText(typeOID, value)
	}
	if !binary {
		var room [48]byte
		raw, ok := appendBytea(room[:0], value)
		if !ok {
			return "", false
		}
		value = raw
	}
	if sent(typeOID) {
		var ok bool
		if value, ok = onlyField(value); !ok {
			return "", false
		}
	}
	return fromBinary(typeOID, value)
}

// onlyField returns the value of a record of one column in its binary form: how many columns there are, the column's
// type, its length and its value.
func onlyField(record []byte) ([]byte, bool) {
	const header = 12
	if len(record) < header || binary.BigEndian.Uint32(record) != 1 ||
		int64(binary.BigEndian.Uint32(record[8:])) != int64(len(record)-header) {
		return nil, false
	}
	return record[header:], true
}

// sent reports whether a type's text depends on DateStyle, TimeZone or extra_float_digits: its binary form doesn't.
func sent(typeOID uint32) bool {
	switch typeOID {
	case Float4, Float8, Date, Time, Timestamp, Timestamptz:
		return true
	}
	return false
}

func fromText(typeOID uint32, value []byte) (string, bool) {
	switch typeOID {
	case Int2, Int4, Int8, Oid:
		return integerText(typeOID, value)
	case Text, Varchar, Name, Enum:
		return string(value), true
	case Bpchar:
		return strings.TrimRight(string(value), " "), true
	case UUID:
		return uuidText(value)
	case Numeric:
		return numericText(value)
	case Bool:
		return boolText(value)
	case Bytea:
		raw, ok := appendBytea(nil, value)
		return hexOf(raw), ok
	case Date, Time, Timestamp, Timestamptz:
		return timeText(typeOID, string(value))
	case Float4, Float8:
		return floatText(typeOID, value)
	case Inet, Cidr:
		return inetText(string(value))
	case Macaddr:
		return macaddrText(string(value))
	case Bit, Varbit:
		return bitText(value)
	}
	return "", false
}

func fromBinary(typeOID uint32, value []byte) (string, bool) {
	switch typeOID {
	case Int2, Int4, Int8, Oid:
		return integerBinary(typeOID, value)
	case Text, Varchar, Name, Enum, Bpchar:
		return fromText(typeOID, value)
	case UUID:
		return uuidBinary(value)
	case Numeric:
		return numericBinary(value)
	case Bool:
		if len(value) != 1 || value[0] > 1 {
			return "", false
		}
		return "ft"[value[0] : value[0]+1], true
	case Bytea:
		return hexOf(value), true
	case Date, Time, Timestamp, Timestamptz:
		return timeBinary(typeOID, value)
	case Float4, Float8:
		return floatBinary(typeOID, value)
	case Inet, Cidr:
		return inetBinary(value)
	case Macaddr:
		return macaddrBinary(value)
	case Bit, Varbit:
		return bitBinary(value)
	}
	return "", false
}

// Show converts a canonical text to one for people: a date that is kept as a number is shown as a date.
func Show(typeOID uint32, canonical string) string {
	switch typeOID {
	case Date, Time, Timestamp, Timestamptz:
		return showTime(typeOID, canonical)
	case Bytea:
		return `\x` + canonical
	}
	if !utf8.ValidString(canonical) {
		return strings.ToValidUTF8(canonical, "\uFFFD")
	}
	return canonical
}

func int64Of(value []byte) int64 { return int64(binary.BigEndian.Uint64(value)) }
func int32Of(value []byte) int32 { return int32(binary.BigEndian.Uint32(value)) }

// Join joins a key's columns, in the order of the primary key, to one text.
func Join(columns ...string) string { return strings.Join(columns, "\x00") }
