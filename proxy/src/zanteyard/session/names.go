package session

import (
	"bytes"

	"zanteyard/plan"
	"zanteyard/record"
	"zanteyard/wire"
)

// statement is a statement that a client prepared, or a text that it sent as a Query.
type statement struct {
	name   string
	text   string // "" if it was too long to look at
	tokens plan.Tokens
	plan   *plan.Plan // nil if it wasn't looked at
	types  []byte     // the end of its Parse: the number of parameter types, and the types
	// parameters holds the types that the server has found, in the same form, or nil if it wasn't asked. They stay what
	// they were when the statement was prepared.
	parameters []byte
	use        *use
	// altered means that the server's statement of this name has hidden columns. Only unnamed statements are altered: a
	// named one is left as it is, and gets a rewritten twin.
	altered            bool
	rewritten          string // the text of several statements, with the insertions
	renamed, renamedAt int    // an EXECUTE: how many characters longer its name is, and from which statement on
	asked              asked
	// A named statement's rewritten twin: its name, the plan that it was made from, and the era of trust then.
	twin   string
	twinOf *plan.Plan
	twinIn uint64
	// twinMade means that the server has made the twin; until then it may skip what makes it, with the rest of a part of a
	// pipeline. twinPart is in which part that was sent.
	twinMade bool
	twinPart uint64
	made     bool   // the server has prepared it
	part     uint64 // in which part of a pipeline it was sent
	looked   uint64 // trust.plans when the plan was made
	others   uint64 // what trust counted when it was prepared: its name may stand for another statement afterwards
	unseen   string // why it wasn't looked at
	// fetchesNot: it wasn't looked at, and is no FETCH.
	fetchesNot bool
	behind     bool // it was sent while another one ran
}

// kind returns what the statement does, as far as is known.
func (s *statement) kind() plan.Kind {
	if s == nil || s.plan == nil {
		return plan.Other
	}
	return s.plan.Kind
}

// portal is a statement bound to parameters.
type portal struct {
	name       string
	on         *statement
	changed    bool       // its statement is rewritten
	hides      *plan.Plan // nil if it has no hidden columns
	hidden     int
	own        int // columns of the client's own, if it has hidden ones
	binary     bool
	asked      asked
	parameters []string
	more       int // parameters beyond those
	counted    bool
	asking     *asking
	told       *foretold // of a FETCH
	described  bool      // a Describe of it was sent
	shown      bool      // the server has described it
	isOver     bool      // its description shows that it is run over the tables of its plan
	others     uint64    // what trust counted when it was bound or run: its name may stand for another portal afterwards
	replaced   bool      // it may
	mayBeOther bool      // its statement's name stood for another one when it was bound
}

// names records what the names of a connection stand for. Changes that the server didn't get to are undone
// (queue.skipped).
type names struct {
	statements map[string]*statement
	portals    map[string]*portal
	// cursors has the cursors that DECLARE made with a rewritten query, prepared the statements of SQL's PREPARE.
	cursors  map[string]*cursor
	prepared map[string]*statement
	// unread says of other cursors why their rows aren't seen; "" if they are of no table.
	unread map[string]string
	twins  int // made so far
	bytes  int // of the texts of statements and prepared
	// hides: a cursor was declared with a rewritten query. unsure: a statement that wasn't looked at was run in this
	// transaction, so a cursor's name may stand for another one. forgot: a statement or portal that may be a FETCH isn't
	// known by its name.
	hides, unsure, forgot bool
}

// cursor is a cursor whose rows have hidden columns.
type cursor struct {
	plan  *plan.Plan
	era   uint64           // of trust, when it was declared
	own   int              // columns of the client's own
	holds bool             // it is WITH HOLD
	held  *heldBy          // nil as long as its transaction runs
	again bool             // its SELECT is counted as one of which all was seen
	said  record.Statement // its DECLARE, if that is kept
}

// neverEra: nothing is told of what a portal of the protocol's returns to SQL's FETCH.
const neverEra = ^uint64(0)

// cursor returns what FETCH by a name returns hidden columns of: a cursor, or one of the protocol's portals, which are
// cursors of that name to the server; nil if there is none.
func (n *names) cursor(name string) *cursor {
	if c := n.cursors[name]; c != nil {
		return c
	}
	if p := n.portals[name]; p != nil && p.hidden > 0 {
		return p.cursor()
	}
	return nil
}

func (p *portal) cursor() *cursor { return &cursor{plan: p.hides, era: neverEra, own: p.own} }

// fetchable reports whether FETCH may return hidden columns.
func (n *names) fetchable() bool {
	if len(n.cursors) > 0 {
		return true
	}
	for name, p := range n.portals {
		if name != "" && p.hidden > 0 {
			return true
		}
	}
	return false
}

// mostUnread is how many cursors that aren't rewritten are known by name.
const mostUnread = 256

func (n *names) unseen(cursor, reason string) {
	if len(n.unread) >= mostUnread {
		n.unread = map[string]string{}
	}
	n.unread[cursor] = reason
}

func newNames() names {
	return names{statements: map[string]*statement{}, portals: map[string]*portal{}, cursors: map[string]*cursor{},
		prepared: map[string]*statement{}, unread: map[string]string{}}
}

// setStatement records what a name stands for; beyond the bound it stands for nothing that is known.
func (n *names) setStatement(name string, s *statement) { n.set(n.statements, name, s) }

func (n *names) set(in map[string]*statement, name string, s *statement) {
	if before := in[name]; before != nil {
		n.bytes -= before.size()
		delete(in, name)
	}
	isOne := name == "" // there is one of this name
	if s == nil || !isOne && (len(n.statements)+len(n.prepared) >= mostNamed || n.bytes+s.size() > mostNamedBytes) {
		n.forgot = n.forgot || s != nil && (s.plan == nil || s.plan.Kind == plan.Fetch)
		return
	}
	in[name] = s
	n.bytes += s.size()
}

// size returns about how many bytes a statement takes.
func (s *statement) size() int { return 512 + len(s.name) + len(s.text) + len(s.types) }

func (n *names) setPortal(name string, p *portal) {
	if p == nil {
		delete(n.portals, name)
	} else {
		n.portals[name] = p
	}
}

// isBeyond reports whether there are too many portals for one more of this name.
func (n *names) isBeyond(name string) bool {
	return name != "" && len(n.portals) >= mostPortals && n.portals[name] == nil
}

// back undoes what a message changed that the server didn't run, and that isn't in the queue any more. If a newer message in
// the queue has changed the same name, that has its meaning, and this one's is what the newer one would leave behind.
func (n *names) back(q *queue, e *expectation) {
	if e.message == 'D' && e.at != nil {
		e.at.described = false
	}
	switch e.undo {
	case undoStatement:
		n.wasStatement(q, e.name, e.previous)
	case undoPortal:
		if newer := q.nextChange(change{undoPortal, e.name}); newer != nil {
			newer.before = e.before
		} else {
			n.setPortal(e.name, e.before)
		}
	case undoTwin:
		if e.on.twin == e.name {
			e.on.twin = ""
		}
	case undoAltered:
		e.on.altered = true
	}
}

// wasStatement sets what a name stood for before the messages in the queue.
func (n *names) wasStatement(q *queue, name string, s *statement) {
	if newer := q.nextChange(change{undoStatement, name}); newer != nil {
		newer.previous = s
	} else {
		n.setStatement(name, s)
	}
}

// ended forgets what ends with a transaction: the protocol's portals, and cursors that don't outlive it. A portal whose Bind
// isn't answered yet is bound behind the end, and stays.
func (n *names) ended(q *queue) {
	for k := range n.portals {
		if !q.binding(k) {
			delete(n.portals, k)
		}
	}
	for k, c := range n.cursors {
		if c.held == nil {
			delete(n.cursors, k)
			delete(n.unread, k) // another one may have the name
		}
	}
	n.unsure = n.unsure && len(n.cursors) > 0
}

// discarded forgets all named statements; the unnamed one stays.
func (n *names) discarded() {
	for k := range n.prepared {
		n.set(n.prepared, k, nil)
	}
	for k := range n.statements {
		if k != "" {
			n.setStatement(k, nil)
		}
	}
}

// renamed is an error with the client's own name of a statement in place of its twin's.
func (s *Session) renamed(e *expectation, m []byte) []byte {
	st := e.on
	if e.at != nil {
		st = e.at.on
	}
	if st == nil {
		return m
	}
	twin, name := st.twin, st.name
	if st.kind() == plan.Execute {
		if of := s.names.prepared[st.plan.Name]; of != nil {
			twin, name = of.twin, st.plan.Name
		}
	}
	own := []byte(`"` + twin + `"`)
	if twin == "" || !bytes.Contains(m, own) {
		return m
	}
	body := bytes.ReplaceAll(m[wire.Header:], own, []byte(`"`+name+`"`))
	to := wire.Begin(nil, m[0])
	return wire.End(append(to, body...), 0)
}
