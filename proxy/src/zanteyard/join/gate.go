package join

import "zanteyard/record"

// gate holds back what the slot reports until it is known that tables' names still mean what the slot's reader took
// them for: the slot names tables as they were called when they were written, and a reader learns of a renamed table
// only afterwards. A write that may belong to another table is dropped, which folds it.
//
// What was verified at a place is: the names of the tables that were looked at, as the snapshot of that time shows them. A
// commit isn't released before that snapshot shows it, and with it all that it saw: the server writes a commit to its log
// before others can see it. Nor is it before all tables in it were looked at, since a table that the slot reports for the
// first time may have been renamed before.
type gate struct {
	queue    []fromSlot
	verified uint64 // names are known to have the same meaning up to this place
	used     uint64 // so many tables were looked at
	shows    snapshot
	changed  map[record.Relation]change
	awaited  map[uint32][]record.Relation // of these, which wait for a commit, by its transaction's number
	until    uint64                       // after this place, and with these names, all are right again
	names    uint64
}

// change says of a table up to where its name may have had another meaning.
type change struct {
	names, place uint64
	// Its definition was written before this place, by so many transactions that haven't come yet: after their commits the
	// name is right.
	rewritten uint64
	by        int
}

// isUnsure reports whether the table's name in a commit may have had another meaning.
func (c change) isUnsure(it *record.Commit) bool {
	return it.Names < c.names || it.LSN <= c.place || it.LSN <= c.rewritten && c.by > 0
}

// mostHeld is how many commits may wait before the slot has to.
const mostHeld = 20_000

func (g *gate) put(it fromSlot) { g.queue = append(g.queue, it) }
func (g *gate) isFull() bool    { return len(g.queue) >= mostHeld }
func (g *gate) waits() bool     { return len(g.queue) > 0 }

// verify records what names mean at a place, and releases what comes before it.
func (g *gate) verify(place Place, to *core) {
	if g.changed == nil {
		g.changed, g.awaited = map[record.Relation]change{}, map[uint32][]record.Relation{}
	}
	forgotten := map[record.Relation]bool{}
	for _, relation := range place.Changed {
		its := g.changed[relation]
		its.names, its.place = place.Names, place.At
		g.changed[relation], forgotten[relation] = its, true
	}
	for _, one := range place.Rewritten {
		g.rewrite(one, place.At)
		forgotten[one.Root] = true
	}
	if len(forgotten) > 0 && place.At > g.until {
		g.until = place.At
	}
	if len(place.Changed) > 0 && place.Names > g.names {
		g.names = place.Names
	}
	if to.forgetTables(forgotten); len(forgotten) > 0 {
		to.rows.uncheck(place.At)
	}
	if place.Remade {
		to.forgetMeanings()
	}
	if place.MayMean {
		to.questions.remakes(to.now)
	}
	if place.Reread {
		to.reread = to.now.Add(settles)
		to.questions.remakes(to.reread)
	}
	if shows, ok := snapshotOf(place.Shows); ok && !place.Unsure && place.At >= g.verified {
		g.verified, g.used, g.shows = place.At, place.Used, shows
	}
	g.release(to)
}

// rewrite records that a table's definition was written before a place. Who wrote it hasn't come yet: the place before
// this one didn't show it.
func (g *gate) rewrite(one Rewritten, at uint64) {
	its := g.changed[one.Relation]
	if len(one.By) == 0 {
		its.place = at
	}
	for _, number := range one.By {
		if !g.awaits(number, one.Relation) {
			g.awaited[number] = append(g.awaited[number], one.Relation)
			its.by++
		}
	}
	its.rewritten = at
	g.changed[one.Relation] = its
}

func (g *gate) awaits(number uint32, relation record.Relation) bool {
	for _, one := range g.awaited[number] {
		if one == relation {
			return true
		}
	}
	return false
}

// release lets through what is verified. The slot reports in the log's order: if its next commit comes after a place,
// it has reported everything before that place.
func (g *gate) release(to *core) {
	n := 0
	for ; n < len(g.queue); n++ {
		it := g.queue[n]
		if it.commit == nil {
			if it.place > g.verified {
				break
			}
			to.advance(it.place)
			continue
		}
		if it.commit.LSN > g.verified || it.commit.Used > g.used || !g.shows.has(it.commit.Number) {
			break
		}
		to.commit(g.sure(*it.commit))
		g.passes(it.commit)
		to.advance(it.commit.LSN)
	}
	if n < len(g.queue) && g.queue[n].after(g.verified) {
		to.advance(g.verified)
	}
	if n == len(g.queue) {
		g.queue = g.queue[:0]
		return
	}
	g.queue = append(g.queue[:0], g.queue[n:]...)
}

// passes notices the commit of a transaction that wrote definitions, and forgets all changes once names are right again.
func (g *gate) passes(it *record.Commit) {
	if len(g.changed) == 0 {
		return
	}
	if it.LSN > g.until && it.Names >= g.names {
		g.changed, g.awaited = nil, nil
		return
	}
	for _, relation := range g.awaited[it.Number] {
		its := g.changed[relation]
		its.by--
		g.changed[relation] = its
	}
	delete(g.awaited, it.Number)
}

// sure returns the commit without the writes of tables that may be others, which are counted.
func (g *gate) sure(it record.Commit) record.Commit {
	if len(g.changed) == 0 {
		return it
	}
	kept := it.Writes[:0]
	for _, one := range it.Writes {
		if by, is := g.changed[one.Relation]; !is || !by.isUnsure(&it) {
			kept = append(kept, one)
		} else {
			it.Gaps = append(it.Gaps, one.Relation)
		}
	}
	it.Keyless += uint64(len(it.Writes) - len(kept))
	it.Writes = kept
	return it
}
