package join

import "zanteyard/record"

// A join that found no row says nothing of what could stand beside a row, unless that row was there. It was, if an earlier
// statement of the same transaction got it, and nothing changed it from then on until the answer: then it was in the snapshot
// of the statement, as it had been read.

// hadGiven reports whether all rows were there beside which a statement asked.
func (c *core) hadGiven(e *entry, it *asking) bool {
	for i := range it.its.Given {
		if !c.had(e, it, &it.its.Given[i]) {
			return false
		}
	}
	return true
}

func (c *core) had(e *entry, it *asking, one *record.Read) bool {
	if isOwn(&e.its, one.Version) || !c.tables.Same(one.Relation, one.Identity) {
		return false
	}
	id := rowID{c.tables.Root(one.Relation), one.Key}
	if c.isFromBefore(id.relation, &e.its) || c.missed(id.relation, &e.its) {
		return false
	}
	if gap := c.questions.lastGap(id.relation); gap > 0 && gap <= it.upTo {
		return false
	}
	top := c.rows.by[id]
	at, read := top.find(one.Version)
	if read == nil && !c.isOld(one.Version) {
		return false
	}
	for r := top; r != nil; r = r.earlier {
		for v := r.last; v != nil && v != read; v = v.before {
			if v.writer == e.writer || v.writer.place <= it.upTo && (it.shows == nil || it.shows.has(v.writer.number)) {
				return false
			}
		}
		if read != nil && r == at {
			return read.writer != e.writer && !read.deleted
		}
		if r.trimmed {
			return false
		}
	}
	return true
}
