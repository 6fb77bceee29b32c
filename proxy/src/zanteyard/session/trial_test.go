package session

import (
	"strings"
	"testing"

	"github.com/jackc/pgproto3/v2"
)

// useOf returns what is known about the plan of a statement with these words.
func (p *proxied) useOf(words string) use {
	p.session.state.Lock()
	defer p.session.state.Unlock()
	for plan, its := range p.session.trust.uses {
		if strings.Contains(plan.Shape, words) {
			return *its
		}
	}
	p.t.Fatalf("there is no plan with %q", words)
	return use{}
}

// TestFailedTrialIsBackedOff: after a trial that has failed before it said anything, no statement waits for another one
// for a while.
func TestFailedTrialIsBackedOff(t *testing.T) {
	needServer(t)
	p := through(t, "postgres", nil)
	p.query("SELECT 1")
	p.settle()
	p.session.state.Lock()
	defer p.session.state.Unlock()
	p.session.trial = &trial{generation: p.session.trust.generation, failed: true, done: make(chan struct{})}
	p.session.tryEnd()
	if p.session.slow.IsZero() {
		t.Error("the next statement waits for another one")
	}
}

// TestOnlyTheNextIsTriedInABlock: a trial in a block doesn't wait for locks of tables that its statements haven't named.
func TestOnlyTheNextIsTriedInABlock(t *testing.T) {
	needServer(t)
	sql(t, fill)
	p, locker := through(t, "postgres", func(o *Options) { o.Shared = nil }), direct(t, "postgres")
	p.query("SELECT 1")
	p.settle()
	locker.query("BEGIN")
	locker.query("LOCK TABLE u")
	defer locker.query("ROLLBACK")
	p.query("BEGIN")
	p.query("SELECT v FROM t WHERE id = 1")
	p.session.state.Lock()
	other := p.session.look("", []byte("SELECT u.v FROM u WHERE b = 'b1'"))
	p.session.trust.usable(other.use, other)
	p.session.state.Unlock()
	p.query("SELECT v FROM t WHERE id = 2 AND v > 1")
	if its := p.useOf("FROM u"); its.state != waiting || its.delays != 0 {
		t.Errorf("another statement's plan was tried in the block: state %d, %d delays", its.state, its.delays)
	}
	if its := p.useOf("v > ?"); its.state != tried {
		t.Errorf("the statement's own one wasn't: state %d, %s", its.state, its.reason)
	}
	p.query("COMMIT")
}

// TestCommitBehindATrial: a COMMIT that arrives while a trial is under way is asked for the transaction's number.
func TestCommitBehindATrial(t *testing.T) {
	needServer(t)
	sql(t, fill)
	p := through(t, "postgres", nil)
	p.warm("BEGIN", "UPDATE t SET v = v + 1 WHERE id > 3", "COMMIT")
	p.query("BEGIN")
	p.query("UPDATE t SET v = v + 1 WHERE id > 3")
	p.session.writes.Lock()
	p.session.state.Lock()
	out := p.session.try(nil)
	out = append(out, p.session.fromClient(&p.session.toServer, (&pgproto3.Query{String: "COMMIT"}).Encode(nil))...)
	p.session.state.Unlock()
	p.session.server.Write(out)
	p.session.writes.Unlock()
	p.until('Z')
	if its := p.sink.take(); len(its) != 1 || its[0].Number == 0 {
		t.Errorf("told: %+v", its)
	}
}

// TestPrivateTrialsEndWithTheirBlock: what was tried in a block of which it isn't known what it has changed isn't relied
// on after it.
func TestPrivateTrialsEndWithTheirBlock(t *testing.T) {
	needServer(t)
	p := through(t, "postgres", nil)
	p.query("SELECT 1")
	p.settle()
	p.session.state.Lock()
	defer p.session.state.Unlock()
	p.session.trust.doubt, p.session.trust.block.isPrivate = false, true
	p.session.trust.undoes()
	if !p.session.trust.doubt {
		t.Error("it is")
	}
}
