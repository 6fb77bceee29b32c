package keys

import (
	"encoding/hex"
	"net/netip"
	"strconv"
	"strings"
)

func boolText(value []byte) (string, bool) {
	switch string(value) {
	case "t", "true":
		return "t", true
	case "f", "false":
		return "f", true
	}
	return "", false
}

func hexOf(raw []byte) string { return hex.EncodeToString(raw) }

func hexText(text string) (string, bool) {
	raw, err := hex.DecodeString(text)
	return hexOf(raw), err == nil
}

// Raw returns the bytes that a text of type bytea stands for.
func Raw(value []byte) ([]byte, bool) {
	return appendBytea(make([]byte, 0, len(value)/2), value)
}

// appendBytea appends the bytes that a text of type bytea stands for, in the form of hexadecimal digits (\x00ff) or of
// escapes (\000\377): bytea_output determines which of them the server sends.
func appendBytea(to, value []byte) ([]byte, bool) {
	if len(value) >= 2 && value[0] == '\\' && value[1] == 'x' {
		return appendHex(to, value[2:])
	}
	for i := 0; i < len(value); {
		switch {
		case value[i] != '\\':
			to = append(to, value[i])
			i++
		case i+1 < len(value) && value[i+1] == '\\':
			to = append(to, '\\')
			i += 2
		case i+3 < len(value):
			number, err := strconv.ParseUint(string(value[i+1:i+4]), 8, 8)
			if err != nil {
				return to, false
			}
			to = append(to, byte(number))
			i += 4
		default:
			return to, false
		}
	}
	return to, true
}

func appendHex(to, digits []byte) ([]byte, bool) {
	if len(digits)%2 != 0 {
		return to, false
	}
	for i := 0; i < len(digits); i += 2 {
		high, low := hexDigit(digits[i]), hexDigit(digits[i+1])
		if high > 15 || low > 15 {
			return to, false
		}
		to = append(to, high<<4|low)
	}
	return to, true
}

func hexDigit(c byte) byte {
	switch {
	case c >= '0' && c <= '9':
		return c - '0'
	case c >= 'a' && c <= 'f':
		return c - 'a' + 10
	case c >= 'A' && c <= 'F':
		return c - 'A' + 10
	}
	return 255
}

// uuidText accepts what the server sends quickly (lower case, four hyphens), and also other ways to write 32 digits.
func uuidText(value []byte) (string, bool) {
	var digits [32]byte
	plain, n := len(value) == 36, 0
	if len(value) == 38 && value[0] == '{' && value[37] == '}' {
		value = value[1:37]
	}
	for i, c := range value {
		if c == '-' {
			if n == 0 || n%4 != 0 || i == len(value)-1 || value[i-1] == '-' {
				return "", false
			}
			plain = plain && (i == 8 || i == 13 || i == 18 || i == 23)
			continue
		}
		if c >= 'A' && c <= 'F' {
			c, plain = c+'a'-'A', false
		}
		if n == 32 || hexDigit(c) > 15 {
			return "", false
		}
		digits[n] = c
		n++
	}
	if n != 32 {
		return "", false
	}
	if plain {
		return string(value), true
	}
	d := string(digits[:])
	return d[:8] + "-" + d[8:12] + "-" + d[12:16] + "-" + d[16:20] + "-" + d[20:], true
}

func uuidBinary(value []byte) (string, bool) {
	if len(value) != 16 {
		return "", false
	}
	var out [36]byte
	hex.Encode(out[0:8], value[0:4])
	hex.Encode(out[9:13], value[4:6])
	hex.Encode(out[14:18], value[6:8])
	hex.Encode(out[19:23], value[8:10])
	hex.Encode(out[24:36], value[10:16])
	out[8], out[13], out[18], out[23] = '-', '-', '-', '-'
	return string(out[:]), true
}

func bitText(value []byte) (string, bool) {
	for _, c := range value {
		if c != '0' && c != '1' {
			return "", false
		}
	}
	return string(value), true
}

func bitBinary(value []byte) (string, bool) {
	if len(value) < 4 {
		return "", false
	}
	bits := int(int32Of(value))
	if bits < 0 || len(value)-4 != (bits+7)/8 {
		return "", false
	}
	out := make([]byte, bits)
	for i := range out {
		out[i] = '0' + value[4+i/8]>>(7-i%8)&1
	}
	return string(out), true
}

// inetText returns an address with the length of its network part, even if the server omits that because it is the
// whole address.
func inetText(text string) (string, bool) {
	address, length, _ := strings.Cut(text, "/")
	parsed, err := netip.ParseAddr(address)
	if err != nil || parsed.Zone() != "" {
		return "", false
	}
	bits := parsed.BitLen()
	if length != "" {
		if bits, err = strconv.Atoi(length); err != nil {
			return "", false
		}
	}
	return parsed.String() + "/" + strconv.Itoa(bits), true
}

func inetBinary(value []byte) (string, bool) {
	if len(value) < 4 || int(value[3]) != len(value)-4 {
		return "", false
	}
	address, ok := netip.AddrFromSlice(value[4:])
	if !ok {
		return "", false
	}
	return address.String() + "/" + strconv.Itoa(int(value[1])), true
}

func macaddrText(text string) (string, bool) {
	digits := strings.ReplaceAll(text, ":", "")
	if len(digits) != 12 || len(text) != 17 {
		return "", false
	}
	return hexText(digits)
}

func macaddrBinary(value []byte) (string, bool) { return hexOf(value), len(value) == 6 }
