package join

import (
	"sort"
	"time"
)

// A transaction may have read more than the auditor takes of it. What is kept is chosen by what others wrote. Of the
// rest most says nothing that fences don't say: what it found was written in front of a meeting's fences that the reader
// is behind, and is overwritten, if at all, behind fences that the reader is in front of. Without such a read the same
// orders explain the rest (docs/FOLDING.md, "Reads that need no place"), so it is checked although it isn't offered.
// Which these are is known once a meeting is over that the reader is in front of, and everything named before it is in
// lines. Until then the reader isn't counted.

// beyond is a transaction that is offered without some of its reads, and isn't counted yet.
type beyond struct {
	e     entry
	to    resolution
	reads int // that it keeps in memory
}

// mostBeyond limits the reads of transactions that aren't counted yet. Of further ones what isn't offered isn't checked.
const mostBeyond = 1 << 18

// ranked is a read with its rank: the lowest ones are kept.
type ranked struct {
	source
	rank int
}

// rank says which reads are kept if there are too many: first those that the transaction's writes are themselves, since
// they say where the writes stand; then others of the rows that it wrote, which may be lost updates; those of rows that
// weren't there; those that say more than fences, by what is known now; and then the others. What was passed over comes
// last.
func (c *core) rank(e *entry, one source, wrote map[*row]bool) int {
	switch {
	case one.at == 0:
		return 0
	case one.at >= askAt:
		return 4
	case wrote[one.row]:
		return 1
	case one.at < 0, c.matters(e, one):
		return 2
	}
	return 3
}

// choose keeps as many reads as the auditor takes, and one of those that are the same to it.
func (c *core) choose(e *entry, to *resolution) {
	wrote := map[*row]bool{}
	for _, one := range to.writes {
		wrote[one] = true
	}
	its := make([]ranked, len(to.reads))
	for i, one := range to.reads {
		its[i] = ranked{one, c.rank(e, one, wrote)}
	}
	sort.SliceStable(its, func(i, j int) bool { return its[i].rank < its[j].rank })
	type place struct {
		row  *row
		from name
	}
	taken := map[place]bool{}
	to.reads = to.reads[:0]
	for _, one := range its {
		at := place{one.row, one.from}
		switch {
		case taken[at] || len(taken) < c.opt.Reads:
			taken[at] = true
			to.reads = append(to.reads, one.source)
		case one.at >= askAt:
			to.passed--
			to.leavePassed(tooMany)
		default:
			one.row.used = c.used // it is kept as long as the transaction
			to.beyond = append(to.beyond, one.source)
		}
	}
}

// matters reports whether a read may say more than fences do. Before its reader's meeting is over, that may change.
func (c *core) matters(e *entry, one source) bool {
	began, ended := span(&e.its)
	var next *writer // of the version by which what was read is overwritten, among those that are or may be offered
	oldest := initial
	for v := one.row.last; v != nil; v = v.before {
		w := v.writer
		if !v.isFolded() {
			if w.fate == offered && w.name == one.from {
				return !c.fencesBetween(c.began.Add(w.over), began) || c.mayMatter(next, e, ended)
			}
			next = w
		}
		oldest = v.base
	}
	if one.from != initial || oldest != initial {
		return true // what came before is forgotten
	}
	return c.mayMatter(next, e, ended)
}

// mayMatter reports whether fences don't say that this transaction comes before the one that overwrote what it has read.
func (c *core) mayMatter(next *writer, e *entry, ended time.Time) bool {
	switch {
	case next == nil, next == e.writer:
		return false
	case next.fate == undecided:
		return true
	}
	return !c.fencesBetween(ended, c.began.Add(next.over))
}

// fencesBetween reports whether a meeting's fences say that what had ended at the first time comes before what had ended,
// or begun, at the second one: no offered transaction spans a moment.
func (c *core) fencesBetween(ended, other time.Time) bool { return c.fencedAt.between(ended, other) }

// countLater reports whether a transaction is counted later, since it isn't known yet which of its reads need no place.
func (c *core) countLater(e *entry, to *resolution) bool {
	if len(to.beyond) == 0 {
		return false
	}
	n := len(e.its.Reads) + len(to.reads)
	if c.beyondReads+n > mostBeyond {
		c.decide(e, to, false)
		return false
	}
	c.beyondReads += n
	its := *e
	its.its.Statements = nil
	c.beyond = append(c.beyond, beyond{its, *to, n})
	return true
}

// decideBeyond counts those in front of the fences of a meeting. What was named before these has to be in lines.
func (c *core) decideBeyond() {
	kept := c.beyond[:0]
	for i := range c.beyond {
		one := &c.beyond[i]
		if _, ended := span(&one.e.its); !c.fencesBetween(ended, c.met) {
			kept = append(kept, *one)
			continue
		}
		c.countBeyond(one, true)
	}
	for i := len(kept); i < len(c.beyond); i++ {
		c.beyond[i] = beyond{}
	}
	c.beyond = kept
}

// endBeyond counts what isn't counted yet, at the audit's end.
func (c *core) endBeyond() {
	for i := range c.beyond {
		c.countBeyond(&c.beyond[i], false)
	}
	c.beyond = nil
}

func (c *core) countBeyond(one *beyond, isOver bool) {
	c.beyondReads -= one.reads
	c.decide(&one.e, &one.to, isOver)
	c.counts.put(&one.e, &one.to)
}

// decide leaves out the reads that aren't offered, except those that need no place, if that is known.
func (c *core) decide(e *entry, to *resolution, isOver bool) {
	last := int32(0)
	for _, one := range to.beyond {
		matters := !isOver || c.matters(e, one)
		if c.judged != nil {
			c.judged(e.name, one, matters)
		}
		switch {
		case !matters:
			to.found(e, one)
		case one.at != last: // an absent row has two, one after the other
			to.leave(int(one.at), tooMany)
			last = one.at
		}
	}
	to.beyond = nil
}

// found counts what a checked read has found.
func (r *resolution) found(e *entry, one source) {
	switch one.is {
	case fromBefore:
		r.before++
		r.beforeRows += e.rowsOf(one.at)
	case notOffered:
		r.folded++
		r.foldedRows += e.rowsOf(one.at)
	}
}
