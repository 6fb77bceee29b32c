package session

import "crypto/sha256"

// What a connection can make its session hold is bounded. Beyond a bound statements are passed on as they are, and
// counted. proxy/README has a table of all bounds.

const (
	// Of what the server was sent, so many messages and statements may be unanswered: then nothing more is read from the
	// client until the server has answered half of it. Without this, a client that sends without end could make the proxy
	// hold fifty times as much as is under way.
	mostOwed = 8192

	mostNamed      = 16384    // prepared statements of a connection that are known by name
	mostNamedBytes = 16 << 20 // and their texts
	mostPortals    = 1024     // portals that have hidden columns, or of which parameters are kept
	mostCursors    = 256      // cursors with hidden columns

	mostSamples = 256     // statements of which a text is kept for the trial
	mostSample  = 8 << 10 // bytes of one
	mostKeys    = 8 << 20 // bytes of the keys of a transaction's reads
)

// isFull reports whether the server owes more answers than may be owed. If an answer wasn't expected, nobody knows what
// it owes.
func (s *Session) isFull() bool {
	return s.queue.size()+s.queue.pieces >= mostOwed && !s.blind.Load() && !s.confused
}

// eased lets the client's direction go on that has waited for answers. Called with state locked.
func (s *Session) eased() {
	if s.stalled && (s.queue.size()+s.queue.pieces < mostOwed/2 || s.blind.Load() || s.confused) {
		s.stalled = false
		s.waiting.Broadcast()
	}
}

// deserted is called when the server has ended: nobody waits for its answers any more.
func (s *Session) deserted() {
	s.state.Lock()
	defer s.state.Unlock()
	s.gone = true
	s.waiting.Broadcast()
}

// digest stands for a signature, which may be long.
func digest(signature []byte) string {
	its := sha256.Sum256(signature)
	return string(its[:])
}
