package remote

import (
	"fmt"
	"time"

	"zanteyard/record"
)

// What ends while a proxy has no attachment isn't checked, but counted: by the next attachment to the same watch. Another
// watch has no part in it, so the proxy's log says how many there were.

// mostIdle is how many transactions may wait for an attachment. Further ones are counted as transactions alone.
const mostIdle = 4096

// bare is a transaction without all that is of no use if it isn't checked.
func bare(it record.Transaction) record.Transaction {
	return record.Transaction{Connection: it.Connection, Place: it.Place, Began: it.Began, Ended: it.Ended, Level: it.Level,
		Held: it.Held, Uncounted: it.Uncounted, Outcome: it.Outcome, Number: it.Number, MayHaveWritten: it.MayHaveWritten, Unnumbered: it.Unnumbered, Defines: it.Defines,
		Elsewhere: it.Elsewhere, Unaudited: !it.Elsewhere, Did: it.Did.Alone(len(it.Reads))}
}

// keep keeps what ends without an attachment, if there ever was one. Called with lock held.
func (p *Post) keep(it record.Transaction) {
	switch {
	case p.fed == "":
	case len(p.idle) >= mostIdle:
		p.dropped++
	default:
		p.idle = append(p.idle, bare(it))
	}
}

// reportIdle sends what was kept. Called with lock held.
func (p *Post) reportIdle() {
	if n := len(p.idle); n > 0 && p.fed != p.run {
		p.options.Log(fmt.Sprintf("%d transactions ended while nothing was audited", n))
		p.idle = nil
	}
	for i := range p.idle {
		it := &p.idle[i]
		p.put(item{Transaction: &transaction{Its: *it}}, sizeOf(it))
	}
	p.idle, p.fed = nil, p.run
}

// takeLate counts what a proxy had sent before it heard that its attachment had ended, if nothing is missing before it.
// Called with lock held.
func (h *Hub) takeLate(a *attached, m *toHub, now time.Time) {
	if a == nil || a.epoch != 0 || m.Epoch == 0 || m.Epoch != a.last || m.Number != a.next {
		return
	}
	a.next = m.Number + 1
	h.drop(a, m.Dropped)
	for _, it := range m.Items {
		switch {
		case it.Transaction != nil:
			its := bare(it.Transaction.Its)
			its.Connection, its.After, its.Known = 0, h.at(it.Transaction.Tick, now), now
			a.arrived++
			h.sink.Transaction(its)
		case it.Unseen != nil:
			h.sink.UnseenMany(it.Unseen.Shape, it.Unseen.Reason, it.Unseen.Reads, it.Unseen.Count)
		}
	}
	a.received = m.Sent
}
