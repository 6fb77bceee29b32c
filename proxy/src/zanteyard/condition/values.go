package condition

import (
	"math"
	"strconv"
	"strings"

	"zanteyard/keys"
)

// family is how values are compared: values of a family have a total order, and columns of several types may belong to
// it.
type family uint8

const (
	none      family = iota
	booleans         // in datum.n
	integers         // of any width, in n
	numerics         // in s, in an order of bytes
	texts            // in s
	padded           // char(n): in s, without the spaces at the end
	binaries         // bytea: in s, as digits
	uuids            // in s, as digits
	days             // in n
	clocks           // time: in n
	instants         // timestamp: in n
	zoned            // timestamptz: in n
	spans            // interval: in n and m
	labelled         // of an enumeration: its label's place, in n
	ranges           // in s, as a text that only equal ones have, and in r
	patterned        // char(n) with the spaces at its end, in s
)

// datum is a value in the form in which its family is compared.
type datum struct {
	n, m int64
	s    string
	r    *span
}

// compare returns whether one value of a family is less than (-1), equal to (0) or greater than another.
func compare(one, other *datum) int {
	switch {
	case one.n != other.n:
		return sign(one.n < other.n)
	case one.m != other.m:
		return sign(one.m < other.m)
	case one.s != other.s:
		return sign(one.s < other.s)
	}
	return 0
}

func sign(less bool) int {
	if less {
		return -1
	}
	return 1
}

// column is a column of a condition's table, and how the condition reads its values.
type column struct {
	number int16
	typ    uint32 // as package catalog resolves it
	by     family
	labels map[string]int64 // of an enumeration, in its order
}

func (c *column) reading(value *Value) reading {
	cell := reading{number: c.number, by: c.by, known: notKnown}
	switch value.State {
	case IsNull:
		cell.known = isNull
	case Present:
		var ok bool
		if cell.datum, ok = c.fromSlot(value.Text); ok {
			cell.known = isKnown
		}
	}
	return cell
}

func (c *column) fromSlot(text string) (datum, bool) {
	switch c.by {
	case none: // whether it is NULL is all that is asked
		return datum{}, true
	case patterned:
		return datum{s: text}, true
	case spans:
		return intervalText(text, true)
	case ranges:
		its, ok := rangeText(c.typ, text, elementFromSlot)
		return datum{s: its.text(), r: its}, ok
	}
	canonical, ok := keys.FromSlot(c.typ, text)
	if !ok {
		return datum{}, false
	}
	return read(c.by, canonical, c.labels)
}

func elementFromSlot(typ uint32, text string) (datum, bool) {
	canonical, ok := keys.FromSlot(typ, text)
	if !ok {
		return datum{}, false
	}
	return read(familyOf(typ), canonical, nil)
}

// familyOf returns the family of a type's own values, or none if it isn't in the class.
func familyOf(typ uint32) family {
	switch typ {
	case keys.Bool:
		return booleans
	case keys.Int2, keys.Int4, keys.Int8:
		return integers
	case keys.Numeric:
		return numerics
	case keys.Text, keys.Varchar:
		return texts
	case keys.Bpchar:
		return padded
	case keys.Bytea:
		return binaries
	case keys.UUID:
		return uuids
	case keys.Date:
		return days
	case keys.Time:
		return clocks
	case keys.Timestamp:
		return instants
	case keys.Timestamptz:
		return zoned
	case keys.Enum:
		return labelled
	case intervalType:
		return spans
	}
	if elementOf(typ) != 0 {
		return ranges
	}
	return none
}

// read makes a datum of a family from a canonical text (package keys) of one of its types, or of a type that the server
// casts to it.
func read(by family, canonical string, labels map[string]int64) (datum, bool) {
	switch by {
	case booleans:
		return datum{n: int64(strings.IndexByte("ft", canonical[0]))}, true
	case integers, days, clocks, instants, zoned:
		n, ok := whole(canonical)
		return datum{n: n}, ok
	case numerics:
		s, ok := ordered(canonical)
		return datum{s: s}, ok
	case labelled:
		n, ok := labels[canonical]
		return datum{n: n}, ok
	case none, spans, ranges:
		return datum{}, false
	}
	return datum{s: canonical}, true
}

// whole reads a number, or the infinities of dates and timestamps, which the server stores as the largest and smallest.
func whole(canonical string) (int64, bool) {
	switch canonical {
	case "infinity":
		return math.MaxInt64, true
	case "-infinity":
		return math.MinInt64, true
	}
	n, err := strconv.ParseInt(canonical, 10, 64)
	return n, err == nil
}

// ordered writes a number's canonical text such that its order is that of the bytes: a byte for the sign, then where
// the first digit stands, then the digits. A negative number has the complement of each, and a byte that is greater at
// its end, since the longer of two that begin alike is the lesser one.
func ordered(canonical string) (string, bool) {
	switch canonical {
	case "-Infinity":
		return "\x00", true
	case "0":
		return "\x02", true
	case "Infinity":
		return "\x04", true
	case "NaN": // equal to itself, and greater than all
		return "\x05", true
	}
	digits, negative := canonical, canonical[0] == '-'
	if negative {
		digits = digits[1:]
	}
	whole, fraction, _ := strings.Cut(digits, ".")
	place := len(whole)
	digits = whole + fraction
	first := strings.TrimLeft(digits, "0")
	place -= len(digits) - len(first)
	digits = strings.TrimRight(first, "0")
	if digits == "" || place > math.MaxInt16 || place < math.MinInt16 {
		return "", false
	}
	out := make([]byte, 0, len(digits)+4)
	high, low := byte(uint16(place+1<<15)>>8), byte(place)
	if !negative {
		return string(append(append(out, 3, high, low), digits...)), true
	}
	out = append(out, 1, ^high, ^low)
	for i := range digits {
		out = append(out, ^digits[i])
	}
	return string(append(out, 0xFF)), true
}

// unordered is the inverse of ordered, for people.
func unordered(s string) string {
	switch s[0] {
	case 0:
		return "-Infinity"
	case 2:
		return "0"
	case 4:
		return "Infinity"
	case 5:
		return "NaN"
	}
	raw, sign := []byte(s), ""
	if s[0] == 1 {
		for i := range raw {
			raw[i] = ^raw[i]
		}
		raw, sign = raw[:len(raw)-1], "-"
	}
	place := int(uint16(raw[1])<<8|uint16(raw[2])) - 1<<15
	digits := string(raw[3:])
	switch {
	case place <= 0:
		return sign + "0." + strings.Repeat("0", -place) + digits
	case place >= len(digits):
		return sign + digits + strings.Repeat("0", place-len(digits))
	}
	return sign + digits[:place] + "." + digits[place:]
}
