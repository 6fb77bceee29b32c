package session

import "zanteyard/plan"

// state is how far a plan has come on a connection.
type state uint8

const (
	untried state = iota
	waiting       // for the next idle moment
	trying        // its trial was sent
	tried         // it may be used
	failed        // it isn't used here until something changes
	putOff        // it isn't tried before its statement's next run
)

// use is what a connection knows about a plan.
type use struct {
	plan       *plan.Plan
	state      state
	generation uint64 // of trust, when state was reached
	hidden     int    // number of columns that the plan adds
	sample     *statement
	columns    bool      // the trial's description had the columns that the plan adds
	own        int       // number of columns that the statement returns without these
	allowed    bool      // the trial's query of privileges answered yes
	forms      []string  // of the plans with the columns and without them, if the trial compares these
	costs      []float64 // of the plans with the columns and without them, if the trial compares these
	compares   bool      // it does
	compared   bool      // they needn't be compared any more
	unpriced   bool      // they have to be, since the client hadn't run it when it was tried
	runs       bool      // the client has run it in this generation, or is about to, so that the server plans it anyway
	ran        bool      // its statement was seen here, or tried on another connection
	repeats    bool      // and was seen here again
	delays     int       // number of trials that ended for want of a lock
	reason     string
}

// of returns what is known about a plan, or nil if the plan adds nothing.
func (t *trust) of(p *plan.Plan) *use {
	p = p.Shared()
	u := t.uses[p]
	if u == nil {
		n := hiddenColumns(p)
		if n == 0 {
			return nil
		}
		if len(t.uses) >= mostUses {
			t.forget()
			t.uses = map[*plan.Plan]*use{}
		}
		u = &use{plan: p, hidden: n}
		t.uses[p] = u
	}
	return u
}

// usable reports whether a plan may be used now. If it wasn't tried, it is queued for a trial, with a text to try.
func (t *trust) usable(u *use, sample *statement) bool {
	if u == nil {
		return false
	}
	if u.generation != t.generation || u.state == untried {
		own, is := 0, false
		if !t.doubt && !t.block.isPrivate {
			own, is = t.shared.has(t.signature, t.catalog, u.plan)
		}
		if is && own == tooDear {
			u.state, u.generation, u.reason = failed, t.generation, rows(u.plan).WhyDear()
		} else if is && own == reordered {
			u.state, u.generation, u.reason = failed, t.generation, rows(u.plan).WhyReordered()
		} else if is {
			u.state, u.generation, u.own, u.ran = tried, t.generation, own, true
		} else if !t.affords(u.plan) {
			u.state, u.generation = putOff, t.generation
			return false
		} else {
			u.state, u.generation, u.sample, u.delays = waiting, t.generation, nil, 0
			if sample != nil && len(sample.text) <= mostSample && len(t.queue) < mostSamples {
				u.sample = sample
			}
			u.compares, u.compared, u.runs, u.unpriced = false, false, false, false
			t.queue = append(t.queue, u)
			return false
		}
	}
	if u.state == tried && u.unpriced {
		u.state, u.sample, u.delays, u.unpriced = waiting, nil, 0, false
		if sample != nil && len(sample.text) <= mostSample && len(t.queue) < mostSamples {
			u.sample = sample
		}
		t.queue = append(t.queue, u)
	}
	if u.state != tried || rows(u.plan).Rests() {
		return false
	}
	sure := !t.doubt && t.asks && t.here
	t.wanted = t.wanted || !sure
	return sure
}

// why returns why a plan isn't used.
func (t *trust) why(u *use) string {
	switch {
	case t.taken:
		return "the client uses names that begin with zanteyard"
	case t.pooled:
		return "a pooler between proxy and server"
	case t.elsewhere:
		return Elsewhere
	case t.broken:
		return "the connection's user may not run the proxy's queries"
	case u.state == failed:
		return u.reason
	case u.state == putOff:
		return Seldom
	case u.state == tried && rows(u.plan).Rests():
		return ManyRows
	case u.state == tried:
		return string(t.cause)
	}
	return "not tried on its connection yet"
}

// Elsewhere is why nothing is seen on a connection that a balancer, a name or a failover has led to another server.
const Elsewhere = "the connection is to another server than the audited one, or to a standby"

// ManyRows is why a statement is left as it is for a while: an aggregate of it was made of very many rows, or it read
// very many from a table though an index had them.
const ManyRows = "it reads too many rows to be listed"

// dear reports whether the trial found a plan too dear, as when the hidden columns make the rows of a sort too wide for the
// memory that it may use.
func (u *use) dear() bool { return len(u.costs) == 2 && rows(u.plan).TooDear(u.costs[0], u.costs[1]) }

// hiddenColumns returns how many columns a plan adds to what its statement returns, or to the rows of its cursor.
func hiddenColumns(p *plan.Plan) int { return rows(p).Hidden() }

// rows returns the plan of the query whose rows have the hidden columns.
func rows(p *plan.Plan) *plan.Plan {
	if (p.Kind == plan.Declare || p.Kind == plan.Prepare) && p.Inner != nil {
		return p.Inner
	}
	return p
}
