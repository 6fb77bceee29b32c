package session

import (
	"time"

	"zanteyard/plan"
)

// trust records which plans may be used on a connection: those tried there since the last event that may have changed
// what a name means or what its user may do.
type trust struct {
	generation uint64 // what was tried in another one isn't used
	// Each signature has its own generation, so that a connection which returns to one finds what it has tried there.
	generations map[string]uint64
	newest      uint64 // of all generations
	era         uint64 // what the proxy prepared in an older one may be something else by now
	others      uint64 // counts what may have run any statement: what anybody prepared before may be something else
	settled     uint64 // others, when the signature was last compared: no temporary object can have been made since
	// Of the changes of what names mean that the audit has seen, so many are in the plans, and so many were there when the
	// signature was last asked for.
	planned, made uint64
	resettle      bool // something wasn't followed since: the signature is worth comparing again
	compared      time.Time
	foreign       bool // others' statements may have run in the transaction, so that deferred triggers may, too
	begun         bool // it is a block, which a Sync doesn't end
	// declared are the cursors of the transaction, as it was sent, that don't run what others have made.
	declared map[string]bool
	catalog  uint64 // the catalog's generation, as last looked at
	path     string // the search path for resolving names, "" for the catalog's own
	plans    uint64 // counts changes of these two: plans from before aren't used any more
	uses     map[*plan.Plan]*use
	queue    []*use // those that wait for a trial
	// doubt means that something happened which may have changed names or rights. Nothing is used until the signature has
	// been compared; doubts counts them, so that an answer to one isn't taken for an answer to a later one.
	doubt     bool
	cause     cause // of the doubt
	doubts    uint64
	levels    uint64 // counts what may have changed the level at which transactions begin
	unsure    bool   // this level isn't known, though nothing else is in doubt
	signature []byte
	initial   initial    // what the parts of the connection are after a reset
	back      plan.Parts // these are as at its beginning, or after a reset
	fresh     bool       // nothing may have been changed since its beginning
	asks      bool       // the ask has run in this generation
	wanted    bool       // the ask is worth preparing
	broken    bool       // not even the proxy's own questions work here
	pooled    bool       // there is a pooler between proxy and server: statements may reach one backend after another
	orphans   []string   // twins whose statements are gone
	taken     bool       // the client has used names that are the proxy's own
	mark      int64      // of the audit that the connection was last asked about
	here      bool       // it is to that audit's server
	accounted time.Time  // the connection's time up to then was accounted for, in what trials may cost
	elsewhere bool       // it isn't
	shared    *Shared
	block     block
}

const (
	trialsAtOnce = 8
	mostUses     = 2048
	mostDelays   = 20
	mostOrphans  = 16
	mostStates   = 256 // signatures whose generations are known
)

// cause is why it isn't known what names refer to.
type cause string

const (
	newConnection  cause = "what names refer to wasn't known yet on a new connection"
	newAudit       cause = "what names refer to wasn't known yet, since the audit had just begun"
	setSomething   cause = "what names refer to wasn't known, just after SET, set_config, DO or the like"
	unparsed       cause = "what names refer to wasn't known, just after a text that isn't understood"
	newDefinitions cause = "what names refer to wasn't known, just after definitions had changed"
	failedToAsk    cause = "what names refer to wasn't known, since the proxy's question had failed"
	endedBlock     cause = "what names refer to wasn't known, just after a transaction that may have changed it"
)

// forget makes everything be tried again.
func (t *trust) forget() {
	t.generations = map[string]uint64{}
	t.renew()
	t.era++
	t.leaveQueue()
	t.broken = t.pooled
	t.signature = nil
	why := newDefinitions
	if t.doubt && (t.cause == newConnection || t.cause == newAudit) {
		why = t.cause // it is looked at for the first time, by newer definitions
	}
	t.doubtful(why)
	if len(t.uses) > mostUses {
		t.uses = map[*plan.Plan]*use{}
	}
}

// renew begins a generation in which nothing was tried.
func (t *trust) renew() {
	t.newest++
	t.generation = t.newest
}

func (t *trust) leaveQueue() {
	for _, u := range t.queue {
		u.state = untried
	}
	t.queue = t.queue[:0]
}

// moves takes over another signature and its search path. What is tried in a private generation is only known on this
// connection, for as long as nothing else happens that may change names.
func (t *trust) moves(signature []byte, path string, isPrivate bool) {
	if path != t.path {
		t.path = path
		t.plans++
		t.uses = map[*plan.Plan]*use{}
	}
	t.leaveQueue()
	t.broken = t.pooled
	known, is := t.generations[digest(signature)]
	if is && !isPrivate {
		t.generation = known
		return
	}
	t.renew()
	if !isPrivate {
		t.knows(signature)
	}
}

// knows records which signature the generation is of.
func (t *trust) knows(signature []byte) {
	if len(t.generations) >= mostStates {
		t.generations = map[string]uint64{}
	}
	t.generations[digest(signature)] = t.generation
}

// planAnew makes all statements be planned and tried again.
func (t *trust) planAnew() {
	t.plans++
	t.forget()
	t.uses = map[*plan.Plan]*use{}
}

func (t *trust) doubtful(why cause) {
	t.doubt, t.cause = true, why
	t.asks = false
	t.doubts++
	t.levels++
}

// unsureLevel is called before what may change the level at which transactions begin, and nothing else.
func (t *trust) unsureLevel() {
	t.unsure = true
	t.levels++
}

// work reports whether there is something to try at an idle moment.
func (t *trust) work() bool {
	return !t.broken && !t.taken && !t.elsewhere && (len(t.queue) > 0 || t.wanted && (t.doubt || !t.asks || t.unsure || !t.here) ||
		len(t.orphans) > mostOrphans || t.resettle && clock().Sub(t.compared) > resettlePause)
}

// resettlePause is the shortest time between two comparisons of the signature that are made only since others have run.
const resettlePause = 100 * time.Millisecond

// isUpToDate reports whether names mean what the plans and the signature take them for, unless that has changed in a way that
// the audit hasn't seen yet.
func (s *Session) isUpToDate() bool {
	t, made := &s.trust, uint64(0)
	if s.options.Made != nil {
		made, _ = s.options.Made()
	}
	t.resettle = t.resettle || t.made != made
	return t.made == made && t.planned >= made
}

// hasTemporary reports whether the connection may have temporary objects. What others have made may have made one since
// the signature was last compared, and drop it before the next time.
func (t *trust) hasTemporary() bool {
	stale := t.others != t.settled
	t.resettle = t.resettle || stale
	return stale || !shareable(t.signature)
}
