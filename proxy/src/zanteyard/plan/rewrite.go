package plan

import (
	"strings"
	"unicode/utf8"
)

const nowhere = -1

type span struct{ from, to int32 }

// Tokens are a plan's places in one text: where text is inserted, and where the constants are by which a key is asked
// for.
type Tokens struct {
	at        int    // of the first insertion; nowhere if nothing is inserted
	copied    []span // what the first one copies
	further   []int  // of the others
	constants [maxAsked + 1]span
	follow    []span
	left      int // how many parameters lists were left without
	parts     []Part
}

// Part is one of several statements in a text: its position, without its semicolon, its plan, and its own places in
// that part of the text.
type Part struct {
	From, To int
	Plan     *Plan
	Tokens   Tokens
}

// Parts returns the statements of a text, if its plan is Several.
func (t Tokens) Parts() []Part { return t.parts }

// Inserted is what was inserted into a text: so many bytes, at a byte of the rewritten text.
type Inserted struct{ At, Length int }

// Rewrite returns the text with the plan's hidden columns, and what was inserted, in order.
func (p *Plan) Rewrite(text string, tokens Tokens) (rewritten string, inserted []Inserted) {
	if tokens.at == nowhere {
		return text, nil
	}
	i := -1
	return insert(text, p.insertions, func(insertion) places {
		if i++; i == 0 {
			return places{tokens.at, tokens.copied}
		}
		return places{at: tokens.further[i-1]}
	})
}

// insert returns a text with each insertion at its place, which is a byte of the text.
func insert(text string, all []insertion, find func(one insertion) places) (string, []Inserted) {
	size := len(text)
	for _, one := range all {
		size += len(one.text)
	}
	var out strings.Builder
	out.Grow(size)
	inserted, last := make([]Inserted, len(all)), 0
	for i, one := range all {
		its := find(one)
		if its.at == nowhere {
			inserted[i].At = out.Len()
			continue
		}
		out.WriteString(text[last:its.at])
		begin := out.Len()
		out.WriteString(one.text)
		for i, copied := range its.copied {
			out.WriteString(text[copied.from:copied.to])
			out.WriteString(one.copies[i].tail)
		}
		inserted[i] = Inserted{begin, out.Len() - begin}
		last = its.at
	}
	out.WriteString(text[last:])
	return out.String(), inserted
}

// MoveBack converts a position in a rewritten text, as an error reports it (in characters, from 1), to the position in
// the text that the client sent. A position inside an insertion becomes that of what follows it.
func MoveBack(rewritten string, inserted []Inserted, position int) int {
	moved := position
	for _, its := range inserted {
		before := utf8.RuneCountInString(rewritten[:its.At])
		length := utf8.RuneCountInString(rewritten[its.At : its.At+its.Length])
		switch {
		case position <= before:
			return moved
		case position <= before+length:
			return moved - (position - before) + 1
		}
		moved -= length
	}
	return moved
}

// Trial is what has to succeed on a connection before a plan is used there. Parse resolves names and types, but doesn't
// check rights; Privileges checks these, and whether the names mean what the plan takes them for.
type Trial struct {
	// Statements are texts that Parse must accept, as rewritten. Parameters need the types that the client declared for
	// them.
	Statements []string
	// Privileges is a SELECT of one boolean, which must be true; "" if nothing has to be checked.
	Privileges string
	// Plain is the statement without the hidden columns, if they may make its plan dearer, and otherwise "".
	Plain string
}

// Trial returns how the plan is tried. A plan that inserts nothing needs no trial: both fields are empty.
func (p *Plan) Trial() Trial {
	if !p.adds() {
		return Trial{}
	}
	its := Trial{Statements: []string{p.sample}, Privileges: privileges(p.relations, p.functions())}
	if p.Compared() || p.Inner != nil && p.Inner.Compared() {
		its.Plain = p.sample
		if p.Copied {
			its.Plain = p.sample[p.plain.from:p.plain.to]
			return its
		}
		its.Plain = cutOut(p.sample, p.inserted)
	}
	return its
}

// cutOut returns a text without what was inserted into it.
func cutOut(text string, inserted []Inserted) string {
	var out strings.Builder
	last := 0
	for _, its := range inserted {
		out.WriteString(text[last:its.At])
		last = its.At + its.Length
	}
	out.WriteString(text[last:])
	return out.String()
}
