package plan

import "strings"

// Redacted returns a statement with a question mark for each constant, and without comments. What is left are keywords
// and identifiers.
func Redacted(text string) string {
	var s scanner
	if !s.scan(text) {
		return "(a very long or incomplete statement)"
	}
	var out strings.Builder
	behind := int32(0)
	value := values{}
	for i, t := range s.tokens {
		if i > 0 && t.start > behind {
			out.WriteByte(' ')
		}
		if word := text[t.start:t.end]; i > 0 && continues(s.tokens[i-1], t) {
		} else if value.is(t.kind, word) {
			out.WriteByte('?')
		} else {
			out.WriteString(word)
		}
		behind = t.last
	}
	return out.String()
}

// continues reports whether a token is the rest of a number, as newer servers write them: 0xFF, 1_000.
func continues(number, t token) bool {
	return number.kind == numberToken && t.start == number.last && (t.kind == wordToken || t.kind == numberToken)
}

// values tells constants from the other tokens of a statement, or of several. A setting's value may be written as a word,
// with or without quotes: SET a.b TO secret, ALTER ROLE r SET a.b = "secret", CREATE FUNCTION .. SET a.b TO secret.
type values struct {
	within           bool // a statement, after its first word
	may, sets, begun bool // it may set; it has the word SET; the value has begun
}

func (v *values) is(kind tokenKind, word string) bool {
	isWord := kind == wordToken || kind == quotedToken
	switch {
	case kind == stringToken || kind == numberToken:
		return true
	case word == ";":
		*v = values{}
	case v.begun && isWord:
		return true
	case v.sets && (word == "=" || strings.EqualFold(word, "to") || strings.EqualFold(word, "zone")): // SET TIME ZONE
		v.begun = true
	case kind == wordToken:
		is := func(other string) bool { return strings.EqualFold(word, other) }
		v.may = v.may || !v.within && (is("set") || is("alter") || is("create"))
		v.sets = v.sets || v.may && is("set")
		v.within = true
	}
	return false
}
