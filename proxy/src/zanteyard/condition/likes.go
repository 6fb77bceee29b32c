package condition

import "strings"

// pattern is that of a LIKE: pieces between which any text may be.
type pattern struct {
	pieces []piece // the first one is at the beginning of a text, the last one at its end
	wide   bool    // characters may have several bytes, as in UTF-8
}

// piece is a text in which some characters may be any.
type piece []element

// element is a text, or any one character.
type element struct {
	text string
	any  bool
}

// patternOf reads a pattern with backslashes as escapes. It refuses one that ends in a backslash: that is an error for
// some rows.
func patternOf(text, encoding string) (*pattern, error) {
	made := &pattern{pieces: []piece{nil}}
	switch encoding {
	case "UTF8":
		made.wide = true
	case "SQL_ASCII", "LATIN1", "LATIN9", "WIN1252":
	default:
		return nil, Refusal("LIKE in an encoding that isn't followed")
	}
	var out strings.Builder
	flush := func() {
		if out.Len() > 0 {
			last := &made.pieces[len(made.pieces)-1]
			*last = append(*last, element{text: out.String()})
			out.Reset()
		}
	}
	for i := 0; i < len(text); i++ {
		switch text[i] {
		case '%':
			flush()
			made.pieces = append(made.pieces, nil)
		case '_':
			flush()
			last := &made.pieces[len(made.pieces)-1]
			*last = append(*last, element{any: true})
		case '\\':
			i++
			if i == len(text) {
				return nil, Refusal("a pattern that ends in a backslash")
			}
			out.WriteByte(text[i])
		default:
			out.WriteByte(text[i])
		}
	}
	flush()
	return made, nil
}

// matches reports whether a text has the pattern.
func (p *pattern) matches(text string) bool {
	rest, ok := p.begins(p.pieces[0], text)
	if !ok {
		return false
	}
	if len(p.pieces) == 1 {
		return rest == ""
	}
	last := len(p.pieces) - 1
	for _, one := range p.pieces[1:last] { // the first place is as good as any other
		if rest, ok = p.find(one, rest); !ok {
			return false
		}
	}
	for {
		after, ok := p.begins(p.pieces[last], rest)
		if ok && after == "" {
			return true
		}
		if rest == "" {
			return false
		}
		rest = rest[p.width(rest):]
	}
}

func (p *pattern) find(one piece, text string) (string, bool) {
	for {
		if rest, ok := p.begins(one, text); ok {
			return rest, true
		}
		if text == "" {
			return "", false
		}
		text = text[p.width(text):]
	}
}

// begins reports whether a text begins with a piece, and what is left after it.
func (p *pattern) begins(one piece, text string) (string, bool) {
	for _, part := range one {
		switch {
		case !part.any && !strings.HasPrefix(text, part.text), part.any && text == "":
			return "", false
		case part.any:
			text = text[p.width(text):]
		default:
			text = text[len(part.text):]
		}
	}
	return text, true
}

// width returns how many bytes a text's first character has.
func (p *pattern) width(text string) int {
	n := 1
	for p.wide && n < len(text) && text[n]&0xC0 == 0x80 {
		n++
	}
	return n
}

// likeness is column LIKE pattern, or NOT LIKE.
type likeness struct {
	column  *column
	pattern *pattern
	not     bool
}

func (c *likeness) truths(row *Row) truths {
	its := row.value(c.column)
	switch its.known {
	case isNull:
		return isNullTruth
	case notKnown:
		return anything
	}
	return truthOf(c.pattern.matches(its.datum.s) != c.not)
}
