package condition

import (
	"encoding/binary"
	"math"
	"strconv"
	"strings"

	"zanteyard/keys"
)

// Object identifiers of the range types in the class.
const (
	int4Range = 3904
	numRange  = 3906
	tsRange   = 3908
	tstzRange = 3910
	dateRange = 3912
	int8Range = 3926
)

// elementOf returns the type of a range's bounds, or 0 for a type that is no range.
func elementOf(typ uint32) uint32 {
	switch typ {
	case int4Range:
		return keys.Int4
	case int8Range:
		return keys.Int8
	case numRange:
		return keys.Numeric
	case tsRange:
		return keys.Timestamp
	case tstzRange:
		return keys.Timestamptz
	case dateRange:
		return keys.Date
	}
	return 0
}

// bound is an end of a range.
type bound struct {
	value     datum
	infinite  bool
	inclusive bool
	lower     bool
}

// span is a range that isn't empty, or nil for an empty one, in the form in which the server stores it.
type span struct{ lower, upper bound }

// order orders bounds as points on a line: those of a range lie before or after the values that they exclude.
func (b *bound) order(other *bound) int {
	switch {
	case b.infinite && other.infinite && b.lower == other.lower:
		return 0
	case b.infinite:
		return sign(b.lower)
	case other.infinite:
		return sign(!other.lower)
	}
	if order := compare(&b.value, &other.value); order != 0 {
		return order
	}
	return b.side() - other.side()
}

// side is where a bound lies beside its own value.
func (b *bound) side() int {
	switch {
	case b.inclusive:
		return 0
	case b.lower:
		return 1
	}
	return -1
}

func (s *span) overlaps(other *span) bool {
	return s != nil && other != nil && s.lower.order(&other.upper) <= 0 && other.lower.order(&s.upper) <= 0
}

func (s *span) contains(other *span) bool {
	if other == nil {
		return true
	}
	return s != nil && s.lower.order(&other.lower) <= 0 && s.upper.order(&other.upper) >= 0
}

func (s *span) has(value *datum) bool {
	if s == nil {
		return false
	}
	point := bound{value: *value, inclusive: true}
	return s.lower.order(&point) <= 0 && s.upper.order(&point) >= 0
}

// rangeOf makes a range of its bounds, as the server stores it. ok is false if the server would refuse it.
func rangeOf(element uint32, lower, upper bound) (*span, bool) {
	lower.lower = true
	discrete := element == keys.Int4 || element == keys.Int8 || element == keys.Date
	for _, b := range []*bound{&lower, &upper} {
		if b.infinite {
			b.inclusive, b.value = false, datum{}
		}
	}
	if !lower.infinite && !upper.infinite {
		switch order := compare(&lower.value, &upper.value); {
		case order > 0:
			return nil, false
		case order == 0 && !(lower.inclusive && upper.inclusive):
			return nil, true
		}
	}
	if discrete {
		if !canonical(&lower, element, false) || !canonical(&upper, element, true) {
			return nil, false
		}
		if !lower.infinite && !upper.infinite && compare(&lower.value, &upper.value) == 0 && !upper.inclusive {
			return nil, true
		}
	}
	return &span{lower, upper}, true
}

// canonical makes a bound of a range over whole values one that includes its value at the lower end, and excludes it at
// the upper one. Infinite dates stay as they are.
func canonical(b *bound, element uint32, includes bool) bool {
	finite := element != keys.Date || b.value.n != math.MaxInt64 && b.value.n != math.MinInt64
	if b.infinite || b.inclusive != includes || !finite {
		return true
	}
	if element == keys.Int4 && b.value.n == math.MaxInt32 || b.value.n == math.MaxInt64 {
		return false
	}
	b.value.n++
	b.inclusive = !includes
	return true
}

// rangeText reads a range as the server writes it, or as a client may write a constant.
func rangeText(typ uint32, text string, read func(element uint32, text string) (datum, bool)) (*span, bool) {
	text = strings.TrimSpace(text)
	if strings.EqualFold(text, "empty") {
		return nil, true
	}
	if len(text) < 3 || text[0] != '[' && text[0] != '(' {
		return nil, false
	}
	lower, upper := bound{inclusive: text[0] == '['}, bound{}
	element := elementOf(typ)
	rest, ok := boundText(&lower, text[1:], element, read)
	if !ok || rest == "" || rest[0] != ',' {
		return nil, false
	}
	rest, ok = boundText(&upper, rest[1:], element, read)
	if !ok || rest != "]" && rest != ")" {
		return nil, false
	}
	upper.inclusive = rest == "]"
	return rangeOf(element, lower, upper)
}

// boundText reads a bound up to a comma or bracket. In quotes, quotes are doubled, or follow a backslash.
func boundText(to *bound, text string, element uint32, read func(uint32, string) (datum, bool)) (string, bool) {
	var out strings.Builder
	quoted, within := false, false
	i := 0
	for ; i < len(text); i++ {
		c := text[i]
		switch {
		case !within && strings.IndexByte(",()[]", c) >= 0:
			goto ended
		case c == '\\' && i+1 < len(text):
			i++
			out.WriteByte(text[i])
		case c == '"' && within && i+1 < len(text) && text[i+1] == '"':
			i++
			out.WriteByte('"')
		case c == '"':
			quoted, within = true, !within
		default:
			out.WriteByte(c)
		}
	}
	return "", false
ended:
	if out.Len() == 0 && !quoted {
		to.infinite = true
		return text[i:], true
	}
	var ok bool
	to.value, ok = read(element, out.String())
	return text[i:], ok
}

const (
	rangeEmpty         = 0x01
	rangeLowerIncl     = 0x02
	rangeUpperIncl     = 0x04
	rangeLowerInfinite = 0x08
	rangeUpperInfinite = 0x10
)

// rangeBinary reads a byte of flags, and each bound that isn't infinite with its length.
func rangeBinary(typ uint32, value []byte, read func(element uint32, value []byte) (datum, bool)) (*span, bool) {
	if len(value) == 0 {
		return nil, false
	}
	flags, rest := value[0], value[1:]
	if flags&rangeEmpty != 0 {
		return nil, len(rest) == 0
	}
	lower := bound{inclusive: flags&rangeLowerIncl != 0, infinite: flags&rangeLowerInfinite != 0}
	upper := bound{inclusive: flags&rangeUpperIncl != 0, infinite: flags&rangeUpperInfinite != 0}
	for _, b := range []*bound{&lower, &upper} {
		if b.infinite {
			continue
		}
		if len(rest) < 4 {
			return nil, false
		}
		n := int(binary.BigEndian.Uint32(rest))
		if n < 0 || len(rest)-4 < n {
			return nil, false
		}
		var ok bool
		if b.value, ok = read(elementOf(typ), rest[4:4+n]); !ok {
			return nil, false
		}
		rest = rest[4+n:]
	}
	if len(rest) != 0 {
		return nil, false
	}
	return rangeOf(elementOf(typ), lower, upper)
}

// text writes a range such that two have the same text only if they are equal.
func (s *span) text() string {
	if s == nil {
		return "empty"
	}
	var out []byte
	for _, b := range []*bound{&s.lower, &s.upper} {
		flags := byte('(')
		switch {
		case b.infinite:
			flags = '*'
		case b.inclusive:
			flags = '['
		}
		its := datumKey(b.value)
		out = binary.AppendUvarint(append(out, flags), uint64(len(its)))
		out = append(out, its...)
	}
	return string(out)
}

// words writes a range for people.
func (s *span) words(typ uint32) string {
	if s == nil {
		return "empty"
	}
	brackets := [2]string{"(", ")"}
	var ends [2]string
	for i, b := range []*bound{&s.lower, &s.upper} {
		if b.inclusive {
			brackets[i] = [2]string{"[", "]"}[i]
		}
		if !b.infinite {
			ends[i] = b.value.words(elementOf(typ))
		}
	}
	return brackets[0] + ends[0] + "," + ends[1] + brackets[1]
}

// words writes a bound's value for people.
func (d *datum) words(typ uint32) string {
	switch n := d.n; {
	case typ == keys.Numeric:
		return unordered(d.s)
	case n == math.MaxInt64 && typ != keys.Int8:
		return "infinity"
	case n == math.MinInt64 && typ != keys.Int8:
		return "-infinity"
	}
	return keys.Show(typ, strconv.FormatInt(d.n, 10))
}

// rangeTest compares a range with another, or with a value in it.
type rangeTest uint8

const (
	overlapping rangeTest = iota
	containing
	contained
)

func (t rangeTest) String() string { return [...]string{"&&", "@>", "<@"}[t] }

// rangeClause is column operator value, of which at least one is a range.
type rangeClause struct {
	column *column
	is     rangeTest
	value  datum
	ofOne  bool // the value, or the column, isn't a range
}

func (c *rangeClause) truths(row *Row) truths {
	its := row.value(c.column)
	switch its.known {
	case isNull:
		return isNullTruth
	case notKnown:
		return anything
	}
	switch {
	case c.is == overlapping:
		return truthOf(its.datum.r.overlaps(c.value.r))
	case c.is == containing && c.ofOne:
		return truthOf(its.datum.r.has(&c.value))
	case c.is == containing:
		return truthOf(its.datum.r.contains(c.value.r))
	case c.ofOne:
		return truthOf(c.value.r.has(&its.datum))
	}
	return truthOf(c.value.r.contains(its.datum.r))
}
