package session

import (
	"strconv"
	"strings"
	"unicode/utf8"

	"zanteyard/own"
	"zanteyard/plan"
	"zanteyard/wire"
)

// A statement made by SQL's PREPARE is left as it is: CREATE TABLE AS EXECUTE and EXPLAIN EXECUTE show what it returns.
// A rewritten twin is prepared under one of the proxy's own names, and EXECUTE is given that name.

// executes handles a Query that is an EXECUTE, and reports whether it was sent with the twin's name. If the twin isn't
// there yet, it is prepared first, with its own Sync, like the question before COMMIT.
func (s *Session) executes(o *output, st *statement, e *expectation) bool {
	of := s.names.prepared[st.plan.Name]
	if of == nil || s.names.statements[st.plan.Name] != nil || s.status == 'E' || s.open || !s.queue.empty() {
		return false
	}
	e.use = of.use
	if of.use == nil || !s.looking() || !s.understands(of.plan) || s.replay.plain || !s.trust.usable(of.use, of) {
		return false
	}
	from, to, ok := nameIn(st.text, "execute")
	if !ok {
		return false
	}
	if of.twin == "" || of.twinIn != s.trust.era {
		if !s.prepares(o, of) {
			return false
		}
	}
	name := own.Name{of.twin}.String()
	st.renamed = utf8.RuneCountInString(name) - utf8.RuneCountInString(st.text[from:to])
	st.renamedAt = utf8.RuneCountInString(st.text[:from])
	text := st.text[:from] + name + st.text[to:]
	begin := len(o.own())
	o.buf = wire.End(wire.AppendText(wire.Begin(o.own(), 'Q'), text), begin)
	st.altered, e.changed, e.hides, e.hidden = true, true, of.plan.Inner, of.use.hidden
	return true
}

// prepares sends the rewritten PREPARE under one of the proxy's own names.
func (s *Session) prepares(o *output, of *statement) bool {
	rewritten, _ := of.plan.Rewrite(of.text, of.tokens)
	from, to, ok := nameIn(rewritten, "prepare")
	if !ok {
		return false
	}
	if of.twin != "" {
		s.trust.orphans = append(s.trust.orphans, of.twin)
	}
	s.names.twins++
	of.twin, of.twinIn = "zanteyard_"+strconv.Itoa(s.names.twins), s.trust.era
	text := rewritten[:from] + own.Name{of.twin}.String() + rewritten[to:]
	o.buf = append(append(o.own(), once(prepareName, own.Planned(text))...), syncMessage...)
	s.queue.once(expectation{kind: silent})
	s.queue.push(expectation{kind: prepareEnd, message: 'S', on: of})
	return true
}

// nameIn finds the name after the keyword that a statement begins with.
func nameIn(text, keyword string) (from, to int, ok bool) {
	at := blank(text, 0)
	if len(text)-at < len(keyword) || !strings.EqualFold(text[at:at+len(keyword)], keyword) {
		return 0, 0, false
	}
	from = blank(text, at+len(keyword))
	if from == at+len(keyword) || from >= len(text) {
		return 0, 0, false
	}
	if text[from] == '"' {
		for to = from + 1; to < len(text); to++ {
			if text[to] != '"' {
				continue
			}
			if to++; to == len(text) || text[to] != '"' {
				return from, to, true
			}
		}
		return 0, 0, false
	}
	for to = from; to < len(text) && isWord(text[to]); to++ {
	}
	return from, to, to > from && !strings.HasPrefix(text[to:], "&")
}

func isWord(c byte) bool {
	return c == '_' || c == '$' || c >= 0x80 || c >= '0' && c <= '9' || c >= 'a' && c <= 'z' || c >= 'A' && c <= 'Z'
}

// blank returns where spaces and comments end.
func blank(text string, at int) int {
	for at < len(text) {
		switch {
		case strings.IndexByte(" \t\n\r\f\v", text[at]) >= 0:
			at++
		case strings.HasPrefix(text[at:], "--"):
			n := strings.IndexAny(text[at:], "\r\n")
			if n < 0 {
				return len(text)
			}
			at += n
		case strings.HasPrefix(text[at:], "/*"):
			depth := 0
			for done := false; !done; {
				switch {
				case at+1 >= len(text):
					return len(text)
				case strings.HasPrefix(text[at:], "/*"):
					depth, at = depth+1, at+2
				case strings.HasPrefix(text[at:], "*/"):
					depth, at = depth-1, at+2
					done = depth == 0
				default:
					at++
				}
			}
		default:
			return at
		}
	}
	return at
}

// madeBySQL handles a PREPARE that has run: its statement is tried when there is time, since it was made to be run
// again.
func (s *Session) madeBySQL(p *plan.Plan, of *statement) {
	if of.plan != p || p.Inner == nil { // one of several statements
		of = &statement{plan: p, others: never}
	}
	s.names.set(s.names.prepared, p.Name, of)
	if of.use != nil && s.looking() && s.understands(of.plan) {
		s.trust.usable(of.use, of)
	}
}
