package plan

import (
	"sort"
	"strings"

	"zanteyard/catalog"
)

// maker makes the plan of one statement. It parses the statement without its comments and without what the scanner left
// out of lists, one token on each line, so that a position in this text says which token it is.
type maker struct {
	catalog *catalog.Catalog
	text    string
	tokens  []token
	joined  string
	offsets []int // of the tokens in the joined text
	depths  []int // how many parentheses each is in; a parenthesis itself counts as outside
	shape   string
	many    bool            // VALUES has more rows than are to be returned
	named   int             // the token of a cursor's name that other statements with this plan may have otherwise, or nowhere
	configs []int           // the tokens of the names that set_config sets, nowhere for one that is no constant
	renames bool            // something else may change what names mean
	cursor  bool            // the statement declares one
	passed  int             // how many hidden columns subqueries pass on
	with    map[string]bool // the names of the statement's own WITH
	commons map[string]*withPart
	crowded bool // too many items of FROM
	parts   int  // of a UNION, each of which has the hidden columns
	tables  *tablesAsked
	// prepared: it is SQL's PREPARE. EXECUTE runs a statement before the server describes its result, so definitions may have
	// changed in between.
	prepared bool
	merged   []node // the queries whose FROM and WHERE are copied, in order
}

func newMaker(c *catalog.Catalog, s *scanner) *maker {
	m := &maker{catalog: c, text: s.text, tokens: append([]token(nil), s.tokens...), many: s.values.many, named: s.cursor()}
	var joined strings.Builder
	depth := 0
	for i := range m.tokens {
		word := m.word(i)
		if word == ")" || word == "]" {
			depth--
		}
		m.depths = append(m.depths, depth)
		if word == "(" || word == "[" {
			depth++
		}
		m.offsets = append(m.offsets, joined.Len())
		joined.WriteString(word)
		joined.WriteByte('\n')
	}
	m.joined = joined.String()
	m.shape = m.shorten()
	return m
}

func (m *maker) word(i int) string { return m.text[m.tokens[i].start:m.tokens[i].end] }

// is reports whether a token is this keyword.
func (m *maker) is(i int, keyword string) bool {
	return i >= 0 && i < len(m.tokens) && m.tokens[i].kind == wordToken && strings.EqualFold(m.word(i), keyword)
}

// tokenAt returns the token that begins at a position of the joined text, or -1 if none does.
func (m *maker) tokenAt(location int) int {
	i := sort.SearchInts(m.offsets, location)
	if i < len(m.offsets) && m.offsets[i] == location {
		return i
	}
	return -1
}

// statement is a parsed statement with its own tokens, without a semicolon.
type statement struct {
	tree     node
	from, to int
}

func (m *maker) parse() ([]statement, error) {
	stmts, err := parse(m.joined)
	if err != nil {
		return nil, err
	}
	all := make([]statement, len(stmts))
	for i, stmt := range stmts {
		location, length := stmt.number("stmt_location"), stmt.number("stmt_len")
		if length == 0 {
			length = len(m.joined) - location
		}
		all[i] = statement{
			tree: stmt.node("stmt"),
			from: sort.SearchInts(m.offsets, location),
			to:   sort.SearchInts(m.offsets, location+length),
		}
	}
	return all, nil
}

// make plans a text that the cache doesn't know, from the scanner's tokens.
func (c *Cache) make(state *cached, s *scanner) *Plan {
	m := newMaker(state.catalog, s)
	stmts, err := m.parse()
	var p *Plan
	switch {
	case err != nil && s.popped: // some lists of constants have a length that matters, as NULLIF's
		p = &Plan{apart: true}
	case err != nil:
		p = &Plan{Kind: Other, Shape: m.shape, Unknown: true, MayWriteUnseen: true, MayCommit: true, ChangesNames: true,
			Foreign: true}
		if err == errDeep {
			p.leaveOut("it is too deeply nested")
		} else {
			p.leaveOut("it can't be parsed")
		}
	case len(stmts) == 0:
		p = &Plan{Kind: Empty}
	case len(stmts) > 1:
		p = c.several(state, m, stmts)
	default:
		p = m.plan(stmts[0])
		m.customs(p)
	}
	p.stamp(state.generation)
	p.Beyond = m.beyond() || !isASCII(p.added())
	return p
}

// beyond reports whether the statement's text has characters beyond ASCII, except in constants and comments.
func (m *maker) beyond() bool {
	for i, t := range m.tokens {
		if t.kind != stringToken && !isASCII(m.word(i)) {
			return true
		}
	}
	return false
}

func isASCII(text string) bool {
	for i := 0; i < len(text); i++ {
		if text[i] >= 0x80 {
			return false
		}
	}
	return true
}

func (p *Plan) stamp(generation uint64) {
	p.Generation = generation
	for _, part := range []*Plan{p.Inner, p.misplaced, p.custom} {
		if part != nil {
			part.stamp(generation)
		}
	}
}

// unknownPlan is for texts that aren't parsed.
func unknownPlan(generation uint64) *Plan {
	p := &Plan{
		Shape: "(a very long or incomplete statement)", Generation: generation,
		Unknown: true, MayWriteUnseen: true, MayCommit: true, ChangesNames: true, Foreign: true,
	}
	p.leaveOut("a very long or incomplete statement")
	return p
}

// several also plans each statement of a text by itself, so that it is known when it comes alone.
func (c *Cache) several(state *cached, m *maker, stmts []statement) *Plan {
	p := &Plan{Kind: Several, Shape: m.shape}
	for _, stmt := range stmts {
		from, to := m.tokens[stmt.from].start, m.tokens[stmt.to-1].last
		part, _ := c.lookUp(state, m.text[from:to])
		p.Parts = append(p.Parts, part)
		p.ranges = append(p.ranges, tokenRange{stmt.from, stmt.to})
		p.MayWriteUnseen = p.MayWriteUnseen || part.MayWriteUnseen
		p.ChangesNames = p.ChangesNames || part.ChangesNames
		p.Foreign = p.Foreign || part.Foreign
	}
	return p
}

// parts plans each statement of a text of several statements.
func (c *Cache) parts(state *cached, p *Plan, text string, tokens []token) []Part {
	parts := make([]Part, len(p.ranges))
	for i, r := range p.ranges {
		part := Part{From: int(tokens[r.from].start), To: int(tokens[r.to-1].last)}
		part.Plan, part.Tokens = c.lookUp(state, text[part.From:part.To])
		parts[i] = part
	}
	return parts
}

// shorten writes the statement for people, without constants, and at most a line or two long.
func (m *maker) shorten() string {
	const most = 200
	var out strings.Builder
	glued := true
	value := values{}
	for i, t := range m.tokens {
		word := m.word(i)
		if i > 0 && continues(m.tokens[i-1], t) {
			continue
		}
		if value.is(t.kind, word) || i == m.named {
			word = "?"
		}
		closes := t.kind == symbolToken && strings.Contains(",);].::", word)
		called := word == "(" && i > 0 && m.tokens[i-1].kind == wordToken && !spaced(m.word(i-1))
		if !glued && !closes && !called {
			out.WriteByte(' ')
		}
		out.WriteString(word)
		glued = t.kind == symbolToken && strings.Contains("([.::", word)
		if out.Len() > most {
			cut := strings.ToValidUTF8(out.String()[:most], "")
			return cut + " .."
		}
	}
	return out.String()
}

// spaced has the keywords that are followed by a space before a parenthesis.
func spaced(word string) bool {
	switch strings.ToLower(word) {
	case "in", "values", "as", "and", "or", "not", "where", "from", "join", "on", "using", "select", "exists", "any",
		"all", "some", "over", "returning", "set", "when", "then", "else", "with", "by", "limit", "offset", "array":
		return true
	}
	return false
}
