package session

import (
	"zanteyard/own"
	"zanteyard/record"
)

// A name may lead to several servers: through a balancer, by DNS, or after a failover. What a standby, a copy or the
// primary of before returns isn't what the audited server's log explains. So a connection shows, before anything of it
// is offered to an audit, that it is to the server whose log that audit reads: this server isn't in recovery, was
// started when that one was, and has the lock that the audit's own connection holds.

// signatureOf is the question for a connection's signature, with the audit's mark.
func signatureOf(mark int64) []byte {
	if mark == anywhere {
		mark = 0
	}
	return once(signatureName, own.Guest(signatureForm, own.Number(own.Started(mark)), own.Number(mark)))
}

// mark is the number of the audit's lock, 0 while there is none.
func (s *Session) mark() int64 {
	if s.options.Mark == nil {
		return anywhere
	}
	return s.options.Mark()
}

// anywhere stands for the mark, if no server has to be told from another.
const anywhere = -1

// follow takes notice of another audit: for that one the connection has to show again where it leads.
func (s *Session) follow() {
	if t, mark := &s.trust, s.mark(); t.mark != mark {
		why := newAudit
		if t.fresh && t.signature == nil {
			why = newConnection
		}
		t.mark, t.here, t.elsewhere = mark, mark == anywhere, false
		t.doubtful(why)
	}
}

// shows takes the answer to the question for a mark.
func (t *trust) shows(mark int64, here bool) {
	if mark == t.mark && mark != anywhere {
		t.here, t.elsewhere = here, !here
	}
}

// offered reports whether a transaction may be reported to the audit that there is now. Before its connection has shown
// where it leads, only one of which nothing was learned from the server may.
func (s *Session) offered(it *record.Transaction) bool {
	t := &s.trust
	if t.here && t.mark == s.mark() {
		return true
	}
	return !t.elsewhere && it.Number == 0 && len(it.Reads)+len(it.Absent)+len(it.Versions) == 0
}
