package keys

import (
	"encoding/binary"
	"math"
	"strconv"
	"strings"
)

// integerText accepts what the server sends quickly, and also what a client may write: spaces around it, a plus,
// leading zeros.
func integerText(typeOID uint32, value []byte) (string, bool) {
	if plainInteger(value) {
		return string(value), true
	}
	text := strings.Trim(string(value), " \t\n\r\f\v")
	if text == "" || strings.ContainsAny(text, "_xXoObB") {
		return "", false
	}
	bits := 64
	switch typeOID {
	case Int2:
		bits = 16
	case Int4:
		bits = 32
	}
	number, err := strconv.ParseInt(text, 10, bits)
	if err != nil {
		return "", false
	}
	return strconv.FormatInt(number, 10), true
}

// plainInteger reports whether these are digits as the server writes them, few enough for any of the types.
func plainInteger(value []byte) bool {
	digits := value
	if len(digits) > 1 && digits[0] == '-' {
		digits = digits[1:]
		if digits[0] == '0' {
			return false
		}
	}
	if len(digits) == 0 || len(digits) > 18 || len(digits) > 1 && digits[0] == '0' {
		return false
	}
	for _, c := range digits {
		if c < '0' || c > '9' {
			return false
		}
	}
	return true
}

// integerBinary accepts any width of integer: a parameter may have been declared with another one than the column's.
func integerBinary(typeOID uint32, value []byte) (string, bool) {
	switch {
	case len(value) == 4 && typeOID == Oid:
		return strconv.FormatUint(uint64(binary.BigEndian.Uint32(value)), 10), true
	case len(value) == 2:
		return strconv.FormatInt(int64(int16(binary.BigEndian.Uint16(value))), 10), true
	case len(value) == 4:
		return strconv.FormatInt(int64(int32Of(value)), 10), true
	case len(value) == 8:
		return strconv.FormatInt(int64Of(value), 10), true
	}
	return "", false
}

// numericText returns the same digits for equal numbers: 1, 1.0, 01.00 and 10e-1 are one key.
func numericText(value []byte) (string, bool) {
	text := strings.Trim(string(value), " \t\n\r\f\v")
	if special, ok := specialNumber(text); ok {
		return special, true
	}
	negative := false
	if text != "" && (text[0] == '-' || text[0] == '+') {
		negative, text = text[0] == '-', text[1:]
	}
	exponent := 0
	if at := strings.IndexAny(text, "eE"); at >= 0 {
		number, err := strconv.Atoi(text[at+1:])
		if err != nil || number > 20000 || number < -20000 {
			return "", false
		}
		exponent, text = number, text[:at]
	}
	whole, fraction, _ := strings.Cut(text, ".")
	digits := whole + fraction
	if digits == "" || strings.Trim(digits, "0123456789") != "" {
		return "", false
	}
	return decimal(negative, digits, len(whole)+exponent), true
}

func specialNumber(text string) (string, bool) {
	switch strings.ToLower(text) {
	case "nan":
		return "NaN", true
	case "infinity", "inf", "+infinity", "+inf":
		return "Infinity", true
	case "-infinity", "-inf":
		return "-Infinity", true
	}
	return "", false
}

// decimal writes digits with the point after the first `point` of them (which may be outside), without zeros at either
// end.
func decimal(negative bool, digits string, point int) string {
	trimmed := strings.TrimLeft(digits, "0")
	point -= len(digits) - len(trimmed)
	digits = strings.TrimRight(trimmed, "0")
	if digits == "" {
		return "0"
	}
	var out strings.Builder
	if negative {
		out.WriteByte('-')
	}
	switch {
	case point <= 0:
		out.WriteString("0.")
		out.WriteString(strings.Repeat("0", -point))
		out.WriteString(digits)
	case point >= len(digits):
		out.WriteString(digits)
		out.WriteString(strings.Repeat("0", point-len(digits)))
	default:
		out.WriteString(digits[:point])
		out.WriteByte('.')
		out.WriteString(digits[point:])
	}
	return out.String()
}

// numericBinary reads groups of four decimal digits after a header of four 16-bit words: the number of groups, the
// weight of the first, the sign, and how many digits are shown after the point (which doesn't change the value).
func numericBinary(value []byte) (string, bool) {
	if len(value) < 8 {
		return "", false
	}
	groups := int(binary.BigEndian.Uint16(value))
	weight := int(int16(binary.BigEndian.Uint16(value[2:])))
	sign := binary.BigEndian.Uint16(value[4:])
	switch sign {
	case 0xC000:
		return "NaN", true
	case 0xD000:
		return "Infinity", true
	case 0xF000:
		return "-Infinity", true
	}
	if len(value) != 8+2*groups {
		return "", false
	}
	digits := make([]byte, 0, 4*groups)
	for i := 0; i < groups; i++ {
		group := binary.BigEndian.Uint16(value[8+2*i:])
		if group > 9999 {
			return "", false
		}
		digits = append(digits, byte('0'+group/1000), byte('0'+group/100%10), byte('0'+group/10%10), byte('0'+group%10))
	}
	return decimal(sign == 0x4000, string(digits), 4*(weight+1)), true
}

func floatText(typeOID uint32, value []byte) (string, bool) {
	text := strings.Trim(string(value), " \t\n\r\f\v")
	if special, ok := specialNumber(text); ok {
		return special, true
	}
	if text == "" || strings.Trim(text, "0123456789.+-eE") != "" {
		return "", false
	}
	bits := floatBits(typeOID)
	number, err := strconv.ParseFloat(text, bits)
	if err != nil {
		return "", false
	}
	return floatOf(number, bits), true
}

func floatBinary(typeOID uint32, value []byte) (string, bool) {
	switch {
	case typeOID == Float4 && len(value) == 4:
		return floatOf(float64(math.Float32frombits(binary.BigEndian.Uint32(value))), 32), true
	case typeOID == Float8 && len(value) == 8:
		return floatOf(math.Float64frombits(binary.BigEndian.Uint64(value)), 64), true
	}
	return "", false
}

func floatBits(typeOID uint32) int {
	if typeOID == Float4 {
		return 32
	}
	return 64
}

func floatOf(number float64, bits int) string {
	switch {
	case number == 0: // including -0, which is equal to it
		return "0"
	case math.IsNaN(number):
		return "NaN"
	case math.IsInf(number, 1):
		return "Infinity"
	case math.IsInf(number, -1):
		return "-Infinity"
	}
	return strconv.FormatFloat(number, 'g', -1, bits)
}
