package plan

import "strings"

// Lists of constants: (1, 2, 3) has the same key as (1), and VALUES of many similar rows the same key as two. Otherwise
// each length of a list would need another plan.

// listState is how far a list of constants, directly after a parenthesis, has been read.
type listState uint8

const (
	noList    listState = iota
	opened              // after the parenthesis
	openMinus           // after the parenthesis and a minus
	listed              // after a constant
	comma               // after a constant and a comma
	minus               // after a constant, a comma and a minus
)

// valuesState is what has been read of VALUES (..), (..).
type valuesState struct {
	active   bool
	depth    int // of the word VALUES
	start    int // the first token of the row that is being read, -1 between rows
	previous int // the first token of the previous row, -1 if there is none
	rows     int
	many     bool // of this VALUES or an earlier one
}

func (s *scanner) collapseList(start, end int, kind tokenKind, symbol byte) {
	constant := kind == numberToken || kind == stringToken || kind == parameterToken ||
		kind == wordToken && s.list != noList && constantWord(s.text[start:end])
	switch {
	case symbol == '(' || symbol == '[':
		s.list = opened
	case s.list == noList:
	case constant && s.list == comma:
		s.pop(2)
		s.list = listed
	case kind == numberToken && s.list == minus:
		s.pop(3)
		s.list = listed
	case constant && s.list == opened, kind == numberToken && s.list == openMinus:
		s.list = listed
	case symbol == ',' && s.list == listed:
		s.list = comma
	case symbol == '-' && s.list == comma:
		s.list = minus
	case symbol == '-' && s.list == opened:
		s.list = openMinus
	default:
		s.list = noList
	}
}

func constantWord(word string) bool {
	switch len(word) {
	case 4:
		return strings.EqualFold(word, "null") || strings.EqualFold(word, "true")
	case 5:
		return strings.EqualFold(word, "false")
	case 7:
		return strings.EqualFold(word, "default")
	}
	return false
}

func (s *scanner) collapseRows(symbol byte) {
	v, last := &s.values, len(s.tokens)-1
	switch {
	case v.start < 0 && symbol == '(' && s.depth == v.depth+1:
		v.start = last
	case v.start < 0 && symbol == ',' && v.previous >= 0:
	case v.start < 0:
		v.active = false
	case symbol == ')' && s.depth == v.depth:
		v.rows++
		v.many = v.many || v.rows > manyRows
		length := last + 1 - v.start
		// Two rows stay, so that many rows have another key than one. A third that is like the second is removed, with its
		// comma.
		if v.rows > 2 && v.previous+length+1 == v.start && s.likeRow(v.previous, v.start, length) {
			s.pop(length + 1)
		} else {
			v.previous = v.start
		}
		v.start = -1
	}
}

// likeRow reports whether two rows differ only in constants and the numbers of parameters.
func (s *scanner) likeRow(one, other, length int) bool {
	if s.sameKey(one, other, length) {
		return true
	}
	for i := 0; i < length; i++ {
		a, b := s.tokens[one+i], s.tokens[other+i]
		if a.kind != b.kind || a.kind != parameterToken && !s.sameKey(one+i, other+i, 1) {
			return false
		}
	}
	return true
}
