package plan

import (
	"bytes"
	"strings"
)

// The scanner cuts a text into tokens as PostgreSQL's does (scan.l), and builds the key of the cache from them at the
// same time: constants are left out, and lists of constants that differ only in length have the same key.

type tokenKind uint8

const (
	wordToken tokenKind = iota
	quotedToken
	stringToken
	numberToken
	parameterToken
	symbolToken
)

type token struct {
	start, end int32
	last       int32 // the end of what was left out after it, or its own
	key        int32 // where the key's part for this token begins
	kind       tokenKind
}

const (
	maxText   = 1 << 20
	maxTokens = 4096
	maxDepth  = 200 // of parentheses: the parser's recursion has to be limited
	manyRows  = 100 // VALUES of more rows than this aren't asked to return them
)

// scanner is the memory for scanning, which is reused.
type scanner struct {
	text   string
	tokens []token
	key    []byte
	list   listState
	values valuesState
	depth  int
	apart  bool // lists aren't collapsed
	popped bool // one was
	left   int  // how many parameters were left out with them
}

// Classes of bytes.
const (
	wordStart = 1 << iota
	wordPart
	digitByte
	spaceByte
	operatorByte
)

var classes = func() (table [256]uint8) {
	for c := 0; c < 256; c++ {
		switch {
		case c >= 'a' && c <= 'z', c >= 'A' && c <= 'Z', c == '_', c >= 0x80:
			table[c] = wordStart | wordPart
		case c >= '0' && c <= '9':
			table[c] = wordPart | digitByte
		case c == '$':
			table[c] = wordPart
		case strings.IndexByte(" \t\n\r\f", byte(c)) >= 0:
			table[c] = spaceByte
		case strings.IndexByte("~!@#^&|`?+-*/%<>=", byte(c)) >= 0:
			table[c] = operatorByte
		}
	}
	return table
}()

// scan fills tokens and key. It returns false if the text ends within a token, or is too long or too deeply nested to
// be planned.
func (s *scanner) scan(text string) bool {
	s.text, s.tokens, s.key = text, s.tokens[:0], s.key[:0]
	s.list, s.values, s.depth, s.popped, s.left = noList, valuesState{}, 0, false, 0
	if len(text) > maxText {
		return false
	}
	if s.apart {
		s.key = append(s.key, 0) // no other key begins with this
	}
	for at := 0; at < len(text); {
		c := text[at]
		class := classes[c]
		if class&spaceByte != 0 {
			at++
			continue
		}
		if (c == '-' || c == '/') && at+1 < len(text) {
			if end := comment(text, at); end != at {
				if end < 0 {
					return false
				}
				at = end
				continue
			}
		}
		end, kind := s.next(at, c, class)
		if end <= at || !s.push(at, end, kind) {
			return false
		}
		at = end
	}
	if s.values.many {
		s.key = append(s.key, " many rows"...)
	}
	return true
}

// next returns the end of the token that begins at a byte, or 0 if it has none.
func (s *scanner) next(at int, c byte, class uint8) (int, tokenKind) {
	text := s.text
	switch {
	case class&wordStart != 0:
		if at+1 < len(text) && (text[at+1] == '\'' || text[at+1] == '&') {
			if end, kind := prefixed(text, at, c); end != 0 {
				return end, kind
			}
		}
		end := at + 1
		for end < len(text) && classes[text[end]]&wordPart != 0 {
			end++
		}
		return end, wordToken
	case c == '\'':
		return quotation(text, at, '\'', false), stringToken
	case c == '"':
		return quotation(text, at, '"', false), quotedToken
	case c == '$':
		return dollar(text, at)
	case class&digitByte != 0, c == '.' && at+1 < len(text) && classes[text[at+1]]&digitByte != 0:
		return numeral(text, at), numberToken
	case class&operatorByte != 0:
		return operator(text, at), symbolToken
	case c == 0:
		return 0, symbolToken
	case c == ':' && at+1 < len(text) && (text[at+1] == ':' || text[at+1] == '='),
		c == '.' && at+1 < len(text) && text[at+1] == '.':
		return at + 2, symbolToken
	}
	return at + 1, symbolToken
}

// comment returns the end of a comment that begins here, the same position if none does, -1 if it doesn't end.
func comment(text string, at int) int {
	switch {
	case text[at] == '-' && text[at+1] == '-':
		for at < len(text) && text[at] != '\n' && text[at] != '\r' {
			at++
		}
	case text[at] == '/' && text[at+1] == '*':
		depth := 1
		for at += 2; depth > 0; {
			switch {
			case at+1 >= len(text):
				return -1
			case text[at] == '*' && text[at+1] == '/':
				depth, at = depth-1, at+2
			case text[at] == '/' && text[at+1] == '*':
				depth, at = depth+1, at+2
			default:
				at++
			}
		}
	}
	return at
}

// prefixed reads E'..', B'..', X'..', N'..', U&'..' and U&"..".
func prefixed(text string, at int, c byte) (int, tokenKind) {
	if text[at+1] == '\'' {
		switch c {
		case 'e', 'E':
			return quotation(text, at+1, '\'', true), stringToken
		case 'b', 'B', 'x', 'X', 'n', 'N':
			return quotation(text, at+1, '\'', false), stringToken
		}
		return 0, wordToken
	}
	if (c == 'u' || c == 'U') && at+2 < len(text) {
		switch text[at+2] {
		case '\'':
			return quotation(text, at+2, '\'', false), stringToken
		case '"':
			return quotation(text, at+2, '"', false), quotedToken
		}
	}
	return 0, wordToken
}

// quotation returns the end of a quoted token, or -1 if the text ends before it.
func quotation(text string, at int, quote byte, escapes bool) int {
	for at++; at < len(text); at++ {
		switch {
		case escapes && text[at] == '\\':
			at++
		case text[at] == 0:
			return -1
		case text[at] == quote:
			if at+1 >= len(text) || text[at+1] != quote {
				return at + 1
			}
			at++
		}
	}
	return -1
}

// dollar reads a parameter ($1) or a dollar-quoted string ($tag$ .. $tag$).
func dollar(text string, at int) (int, tokenKind) {
	end := at + 1
	if end < len(text) && classes[text[end]]&digitByte != 0 {
		for end < len(text) && classes[text[end]]&digitByte != 0 {
			end++
		}
		return end, parameterToken
	}
	for end < len(text) && text[end] != '$' {
		if class := classes[text[end]]; class&wordPart == 0 || end == at+1 && class&wordStart == 0 {
			return -1, stringToken
		}
		end++
	}
	if end >= len(text) {
		return -1, stringToken
	}
	tag := text[at : end+1]
	length := strings.Index(text[end+1:], tag)
	if length < 0 || strings.IndexByte(text[end+1:end+1+length], 0) >= 0 {
		return -1, stringToken
	}
	return end + 1 + length + len(tag), stringToken
}

func numeral(text string, at int) int {
	digits := func() {
		for at < len(text) && classes[text[at]]&digitByte != 0 {
			at++
		}
	}
	digits()
	if at < len(text) && text[at] == '.' && (at+1 >= len(text) || text[at+1] != '.') {
		at++
		digits()
	}
	if at < len(text) && (text[at] == 'e' || text[at] == 'E') {
		exponent := at + 1
		if exponent < len(text) && (text[exponent] == '+' || text[exponent] == '-') {
			exponent++
		}
		if exponent < len(text) && classes[text[exponent]]&digitByte != 0 {
			at = exponent
			digits()
		}
	}
	return at
}

// operator returns an operator's end: it ends where a comment begins and, unless it contains certain characters,
// doesn't end in a plus or minus.
func operator(text string, at int) int {
	end, special := at, false
	for end < len(text) && classes[text[end]]&operatorByte != 0 {
		if end > at && end+1 < len(text) && (text[end:end+2] == "--" || text[end:end+2] == "/*") {
			break
		}
		special = special || strings.IndexByte("~!@#^&|`?%", text[end]) >= 0
		end++
	}
	for !special && end > at+1 && (text[end-1] == '+' || text[end-1] == '-') {
		end--
	}
	return end
}

// push adds a token.
func (s *scanner) push(start, end int, kind tokenKind) bool {
	if len(s.tokens) >= maxTokens {
		return false
	}
	s.tokens = append(s.tokens, token{int32(start), int32(end), int32(end), int32(len(s.key)), kind})
	switch kind {
	case stringToken:
		s.key = append(s.key, '\'', ' ')
	case numberToken:
		s.key = append(s.key, '0', ' ')
	default:
		s.key = append(s.key, s.text[start:end]...)
		s.key = append(s.key, ' ')
	}
	symbol := byte(0)
	if kind == symbolToken && end == start+1 {
		symbol = s.text[start]
		switch symbol {
		case '(', '[':
			s.depth++
		case ')', ']':
			s.depth--
		}
	}
	if !s.apart && (s.list != noList || symbol == '(' || symbol == '[') {
		s.collapseList(start, end, kind, symbol)
	}
	switch {
	case kind == wordToken && end-start == len("values") && s.text[start]|0x20 == 'v' &&
		strings.EqualFold(s.text[start:end], "values"):
		s.values = valuesState{active: true, depth: s.depth, start: -1, previous: -1, many: s.values.many}
	case s.values.active && !s.apart:
		s.collapseRows(symbol)
	}
	return s.depth <= maxDepth
}

// pop removes the last tokens: they count as part of the one before them.
func (s *scanner) pop(count int) {
	s.popped = true
	keep := len(s.tokens) - count
	for _, gone := range s.tokens[keep:] {
		if gone.kind == parameterToken {
			s.left++
		}
	}
	s.tokens[keep-1].last = s.tokens[len(s.tokens)-1].last
	s.key = s.key[:s.tokens[keep].key]
	s.tokens = s.tokens[:keep]
}

func (s *scanner) keyOf(from, to int) []byte {
	if to == len(s.tokens) {
		return s.key[s.tokens[from].key:]
	}
	return s.key[s.tokens[from].key:s.tokens[to].key]
}

func (s *scanner) sameKey(from, to, length int) bool {
	return bytes.Equal(s.keyOf(from, from+length), s.keyOf(to, to+length))
}
