package plan

import "strings"

// Clients give each of their cursors a name of its own, as a driver counts them. So statements that differ only in a
// cursor's name have one plan, which is tried once.

// mostName is what the server takes of a name (NAMEDATALEN).
const mostName = 63

// cursor returns the token of a cursor's name, if the text is one DECLARE, FETCH, MOVE or CLOSE of a quoted name that means
// nothing else, and otherwise nowhere. Any such name may stand in place of another one.
func (s *scanner) cursor() int {
	end := len(s.tokens)
	if end > 0 && s.symbol(end-1, ";") {
		end--
	}
	if end < 2 || s.tokens[0].kind != wordToken {
		return nowhere
	}
	at := end - 1
	switch strings.ToLower(s.text[s.tokens[0].start:s.tokens[0].end]) {
	case "declare":
		at = 1
		for i := 2; i < end; i++ {
			if s.symbol(i, ";") {
				return nowhere
			}
		}
	case "fetch", "move", "close":
		for i := 1; i < at; i++ {
			if s.symbol(i, ";") {
				return nowhere
			}
		}
	default:
		return nowhere
	}
	if _, ok := s.quoted(at); !ok {
		return nowhere
	}
	return at
}

func (s *scanner) symbol(i int, wanted string) bool {
	t := s.tokens[i]
	return t.kind == symbolToken && s.text[t.start:t.end] == wanted
}

// quoted returns the name that a quoted token stands for, if it is a plain one.
func (s *scanner) quoted(i int) (string, bool) {
	t := s.tokens[i]
	text := s.text[t.start:t.end]
	if t.kind != quotedToken || t.last != t.end || len(text) < 3 || len(text) > mostName+2 || text[0] != '"' {
		return "", false
	}
	name := text[1 : len(text)-1]
	if strings.IndexByte(name, '"') >= 0 || !isASCII(name) || strings.HasPrefix(strings.ToLower(name), alias) {
		return "", false
	}
	return name, true
}

// noName stands for a cursor's name in the key. No token has a NUL: an empty name is in a text of its own, an error.
const noName = "\"\x00\""

// nameless leaves a cursor's name out of the key.
func (s *scanner) nameless() {
	at := s.cursor()
	if at == nowhere {
		return
	}
	t := s.tokens[at]
	begin := int(t.key)
	rest := append([]byte(nil), s.key[begin+int(t.end-t.start):]...)
	s.key = append(append(s.key[:begin], noName...), rest...)
}

// named is the plan with the cursor's name that a text has.
func (p *Plan) named(s *scanner) *Plan {
	at := s.cursor()
	if at == nowhere || p.Kind != Declare && p.Kind != Fetch && p.Kind != CloseCursor {
		return p
	}
	name, _ := s.quoted(at)
	if name == p.Name {
		return p
	}
	its := *p
	its.Name, its.shared = name, p.Shared()
	return &its
}

// Shared returns the plan that all statements have which differ from this one's only in a cursor's name: what was tried of
// one of them was tried of all.
func (p *Plan) Shared() *Plan {
	if p.shared != nil {
		return p.shared
	}
	return p
}
