package condition

import "strings"

// literal is a constant as a statement has it.
type literal struct {
	kind literalKind
	text string // of a number or a string, whose escapes are resolved; of a parameter its number
	// escape says that a string without the letter E has a backslash.
	escape bool
}

type literalKind uint8

const (
	nullLiteral literalKind = iota
	trueLiteral
	falseLiteral
	numberLiteral
	stringLiteral
	parameterLiteral
)

const manyConstants = Refusal("a constant in an unknown form")

// literalAt reads the constant at a place of a statement's text. The parse tree isn't asked: pg_query omits the value of
// a negative number.
func literalAt(text string, at int) (literal, error) {
	if at < 0 || at >= len(text) {
		return literal{}, manyConstants
	}
	its, _, err := readLiteral(text[at:])
	return its, err
}

// readLiterals reads the constants of a statement's text, separated by commas. It refuses a form that it doesn't know.
func readLiterals(text string) ([]literal, error) {
	var all []literal
	for {
		one, rest, err := readLiteral(skipSpace(text))
		if err != nil {
			return nil, err
		}
		all = append(all, one)
		rest = skipSpace(rest)
		if rest == "" {
			return all, nil
		}
		if rest[0] != ',' {
			return nil, manyConstants
		}
		text = rest[1:]
	}
}

// skipSpace omits spaces and comments; a comment without an end stays.
func skipSpace(text string) string {
	for {
		text = strings.TrimLeft(text, " \t\n\r\f\v")
		switch {
		case strings.HasPrefix(text, "--"):
			end := strings.IndexAny(text, "\n\r")
			if end < 0 {
				return ""
			}
			text = text[end:]
		case strings.HasPrefix(text, "/*"):
			end := strings.Index(text, "*/")
			if end < 0 || strings.Contains(text[2:end], "/*") {
				return text
			}
			text = text[end+2:]
		default:
			return text
		}
	}
}

func readLiteral(text string) (literal, string, error) {
	if text == "" {
		return literal{}, "", manyConstants
	}
	switch c := text[0]; {
	case c == '-':
		its, rest, err := readLiteral(skipSpace(text[1:]))
		if err != nil || its.kind != numberLiteral || its.text[0] == '-' {
			return literal{}, "", manyConstants
		}
		its.text = "-" + its.text
		return its, rest, nil
	case isDigit(c), c == '.':
		end := 0
		for end < len(text) && (isDigit(text[end]) || text[end] == '.' ||
			text[end]|0x20 == 'e' || (text[end] == '+' || text[end] == '-') && text[end-1]|0x20 == 'e') {
			end++
		}
		return literal{kind: numberLiteral, text: text[:end]}, text[end:], nil
	case c == '\'':
		return readString(text[1:], false)
	case (c == 'e' || c == 'E') && len(text) > 1 && text[1] == '\'':
		return readString(text[2:], true)
	case c == '$' && len(text) > 1 && isDigit(text[1]):
		end := 1
		for end < len(text) && isDigit(text[end]) {
			end++
		}
		return literal{kind: parameterLiteral, text: text[1:end]}, text[end:], nil
	case c == '$':
		return readDollar(text)
	}
	end := 0
	for end < len(text) && text[end]|0x20 >= 'a' && text[end]|0x20 <= 'z' {
		end++
	}
	switch strings.ToLower(text[:end]) {
	case "null":
		return literal{kind: nullLiteral}, text[end:], nil
	case "true":
		return literal{kind: trueLiteral}, text[end:], nil
	case "false":
		return literal{kind: falseLiteral}, text[end:], nil
	}
	return literal{}, "", manyConstants
}

func isDigit(c byte) bool { return c >= '0' && c <= '9' }

// readString reads up to the closing quote. A string with escapes is read if it has none but those of a quote, a
// backslash or a control character.
func readString(text string, escapes bool) (literal, string, error) {
	var out strings.Builder
	for i := 0; i < len(text); i++ {
		switch c := text[i]; {
		case c == '\'' && i+1 < len(text) && text[i+1] == '\'':
			out.WriteByte('\'')
			i++
		case c == '\'':
			rest := text[i+1:]
			if continued(rest) {
				return literal{}, "", manyConstants
			}
			its := literal{kind: stringLiteral, text: out.String()}
			its.escape = !escapes && strings.Contains(its.text, `\`)
			return its, rest, nil
		case c == '\\' && escapes:
			i++
			at := -1
			if i < len(text) {
				at = strings.IndexByte(`'\bfnrt`, text[i])
			}
			if at < 0 {
				return literal{}, "", manyConstants
			}
			out.WriteByte("'\\\b\f\n\r\t"[at])
		default:
			out.WriteByte(c)
		}
	}
	return literal{}, "", manyConstants
}

// continued reports whether a string goes on after its quote: on another line, or with UESCAPE.
func continued(rest string) bool {
	rest = skipSpace(rest)
	return strings.HasPrefix(rest, "'") || len(rest) >= 7 && strings.EqualFold(rest[:7], "uescape")
}

func readDollar(text string) (literal, string, error) {
	end := strings.IndexByte(text[1:], '$')
	if end < 0 {
		return literal{}, "", manyConstants
	}
	tag := text[:end+2]
	its, rest, found := strings.Cut(text[len(tag):], tag)
	if !found {
		return literal{}, "", manyConstants
	}
	return literal{kind: stringLiteral, text: its}, rest, nil
}
