package plan

import (
	"bytes"
	"strconv"
	"strings"
	"time"
)

// mostJoined is how many tables a statement may join whose plans have to be compared: the server needs time to find one.
const mostJoined = 12

// aLargeJoin is why a statement is left as it is of which it can't be known whether hidden columns would change its plan.
const aLargeJoin = "a sort or join of more than 12 tables"

// widens reports whether hidden columns make rows wider that are sorted, joined or grouped.
func widens(body node, f *fromClause) bool {
	return body.has("sortClause") || body.has("groupClause") || body.has("distinctClause") || hasWindow(body) || f.items > 1
}

func hasWindow(body node) bool {
	over := body.has("windowClause")
	visit([]any{body["targetList"], body["sortClause"]}, func(kind string, its node) bool {
		over = over || kind == "FuncCall" && its.has("over")
		return kind != "SubLink" && !over
	})
	return over
}

// mostParameters limits the statements that are explained.
const mostParameters = 1000

// Explained returns a text that explains what a prepared statement costs, "" if it has too many parameters. Their values
// aren't known, so they are NULL, and the plan must be the generic one (plan_cache_mode). A client may have declared more
// parameters than the statement's text has.
func Explained(name, text string, declared int) string {
	most := declared
	s := &scanner{}
	if !s.scan(text) {
		return ""
	}
	for _, t := range s.tokens {
		if t.kind != parameterToken {
			continue
		}
		n, err := strconv.Atoi(text[t.start+1 : t.end])
		if err != nil {
			return ""
		}
		if n > most {
			most = n
		}
	}
	explained := "EXPLAIN (FORMAT JSON) EXECUTE " + quote(name)
	switch {
	case most > mostParameters:
		return ""
	case most > 0:
		explained += "(NULL" + strings.Repeat(", NULL", most-1) + ")"
	}
	return explained
}

// Cost reads the whole cost of a plan from the answer to Explained.
func Cost(answer []byte) (float64, bool) {
	const field = `"Total Cost":`
	at := bytes.Index(answer, []byte(field))
	if at < 0 {
		return 0, false
	}
	rest := bytes.TrimLeft(answer[at+len(field):], " ")
	if end := bytes.IndexAny(rest, ",\n}"); end >= 0 {
		rest = rest[:end]
	}
	cost, err := strconv.ParseFloat(string(rest), 64)
	return cost, err == nil
}

// What a plan may cost in any case, in the server's units: a page that is read at random costs 4, a row that is listed
// about a fiftieth.
const (
	lookingUp = 400 // a hundred pages
	listing   = 50  // 2,500 rows, as many as a small table may have that was never analyzed
	copying   = 400 // what a statement costs whose rows are asked for once more: as many pages
)

// Compared reports whether what a statement costs with the hidden columns is compared with what it costs without them.
func (p *Plan) Compared() bool { return p.Widens || p.ComparedByForm() }

// ComparedByForm reports whether a statement isn't changed before its plans, with the hidden columns and without them, were
// seen to have the same form.
func (p *Plan) ComparedByForm() bool { return p.Looks || p.Counts || p.Copied }

// TooDear reports whether a statement's plan is so much dearer with the hidden columns that they aren't used: by more than
// a third, and by more than what few rows cost that are looked up in a table or listed.
func (p *Plan) TooDear(with, without float64) bool {
	most := 0.0
	switch {
	case p.Looks:
		most = lookingUp
	case p.Counts:
		most = listing
	case p.Copied:
		most = copying
	}
	return 3*with > 4*without && with-without > most
}

// Dear is why a statement is left as it is whose plan would be more than a third dearer with the hidden columns.
const Dear = "the hidden columns would make its plan more than a third dearer"

// Reordered is why a statement is left as it is whose rows might be read in another order with the hidden columns.
const Reordered = "the hidden columns might change the order in which it reads rows"

// Elsewhere is why a statement is left as it is of which a copy would meet other rows, or meet them in another way.
const Elsewhere = "asking for its rows once more would find them in another way"

// Uncompared is why a statement is left as it is of which it isn't known whether they would.
const Uncompared = "its plans with the hidden columns and without them couldn't be compared"

// WhyDear returns why a plan isn't used that is too dear.
func (p *Plan) WhyDear() string {
	if p.Looks {
		return ByIndex
	}
	return Dear
}

// WhyReordered returns why a plan isn't used that has another form.
func (p *Plan) WhyReordered() string {
	if p.Copied {
		return Elsewhere
	}
	return Reordered
}

// restFor is how long a statement is left as it is after it has listed or looked up more rows than expected.
const restFor = time.Minute

// Rest leaves the statement as it is for a while, on all connections.
func (p *Plan) Rest(now time.Time) {
	if p.rests != nil {
		p.rests.Store(now.Add(restFor).UnixNano())
	}
}

// Rests reports whether it is left as it is now.
func (p *Plan) Rests() bool {
	if p.rests == nil {
		return false
	}
	until := p.rests.Load()
	return until != 0 && time.Now().UnixNano() < until
}
