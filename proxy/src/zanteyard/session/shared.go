package session

import (
	"bytes"
	"crypto/sha256"
	"sync"
	"time"

	"zanteyard/plan"
)

// Shared is where the sessions of a proxy share which plans they have tried. What a trial finds depends on the catalog
// and on the connection's signature: its user, its search path, and whether it has temporary objects. If these are the
// same, a plan that was tried on one connection may be used on another, which may be too short-lived to try it.
// Connections that have temporary objects share nothing. Safe for use by many goroutines.
type Shared struct {
	lock    sync.Mutex
	catalog uint64 // of all that was tried
	// When the younger generation is full it becomes the older one, whose plans are forgotten unless they are used in the
	// meantime.
	young, old map[triedOn]int
	paused     time.Time // until then no new connection is asked for its signature
	patience   patience
}

// triedOn is a plan that was tried on connections of one signature. Its value is how many columns its statement returns,
// without the hidden ones, or why it isn't used.
type triedOn struct {
	signature [sha256.Size]byte // its digest
	plan      *plan.Plan
}

// Why a plan isn't used, in place of the number of columns: because of its cost, or of the order of rows.
const (
	tooDear   = -1
	reordered = -2
)

const mostShared = 8192 // plans of a generation: as many as there may be in both generations of a plan.Cache

// NewShared returns a Shared that knows nothing.
func NewShared() *Shared { return &Shared{patience: newPatience()} }

// shareable reports whether a signature says everything: there are no temporary objects.
func shareable(signature []byte) bool { return bytes.HasSuffix(signature, []byte(`, ""]`)) }

// add records that a plan was tried on a connection.
func (s *Shared) add(signature []byte, catalog uint64, u *use) {
	if s == nil || !shareable(signature) {
		return
	}
	s.lock.Lock()
	defer s.lock.Unlock()
	if catalog < s.catalog {
		return // from an old plan
	}
	if catalog > s.catalog {
		s.catalog, s.young, s.old = catalog, nil, nil
	}
	s.keep(triedOn{sha256.Sum256(signature), u.plan}, u.own)
}

// keep puts a plan into the younger generation.
func (s *Shared) keep(it triedOn, own int) {
	if _, is := s.young[it]; !is && (s.young == nil || len(s.young) >= mostShared) {
		s.young, s.old = map[triedOn]int{}, s.young
	}
	s.young[it] = own
}

// drop forgets a plan that has failed.
func (s *Shared) drop(signature []byte, p *plan.Plan) {
	if s == nil {
		return
	}
	s.lock.Lock()
	defer s.lock.Unlock()
	it := triedOn{sha256.Sum256(signature), p}
	delete(s.young, it)
	delete(s.old, it)
}

// has reports whether a plan was tried on a connection of this signature, and how many columns its statement returns.
func (s *Shared) has(signature []byte, catalog uint64, p *plan.Plan) (own int, is bool) {
	if s == nil || !shareable(signature) {
		return 0, false
	}
	it := triedOn{sha256.Sum256(signature), p}
	s.lock.Lock()
	defer s.lock.Unlock()
	if s.catalog != catalog {
		return 0, false
	}
	if own, is = s.young[it]; !is {
		if own, is = s.old[it]; is {
			s.keep(it, own) // it is in use: it stays
		}
	}
	return own, is
}

// greetingPause is how long no new connection is asked for its signature after the server took too long to return one.
const greetingPause = time.Second

// pause is called when the server took too long.
func (s *Shared) pause() {
	s.lock.Lock()
	defer s.lock.Unlock()
	s.paused = clock().Add(greetingPause)
}

// knows reports whether anything was tried with this catalog, and the server isn't too slow to return signatures.
func (s *Shared) knows(catalog uint64) bool {
	if s == nil {
		return false
	}
	s.lock.Lock()
	defer s.lock.Unlock()
	return !clock().Before(s.paused) && s.catalog == catalog && len(s.young)+len(s.old) > 0
}

// greet asks for the connection's signature before the client may begin, if plans were tried elsewhere that it may use.
// A client that sends something before it may begin is left alone.
func (s *Session) greet() {
	catalog := s.options.Generation()
	s.follow()
	if s.early || !s.looking() || !s.options.Shared.knows(catalog) {
		return
	}
	s.trust.catalog, s.trust.wanted = catalog, true
	greeting := make(chan struct{})
	s.greeting.Store(&greeting)
}

// greeted ends the wait.
func (s *Session) greeted() {
	if greeting := s.greeting.Swap(nil); greeting != nil {
		close(*greeting)
	}
}

// waitGreeting holds the client's first message until the connection's signature has arrived, for the bound at most.
// The server was asked before the client was told that it may begin, so it would answer that first in any case.
func (s *Session) waitGreeting(greeting chan struct{}) {
	timer := time.NewTimer(s.options.Bound)
	defer timer.Stop()
	select {
	case <-greeting:
	case <-timer.C:
		s.options.Shared.pause()
		s.greeted()
	}
}
