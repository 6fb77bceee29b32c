package join

import (
	"container/list"
	"time"

	"zanteyard/condition"
	"zanteyard/record"
)

// Reads by conditions (docs/FOLDING.md, third law). Whoever asks a table for the rows of which a condition holds has
// read of each row that it didn't get that the condition doesn't hold. For a row and a condition there is a register: a
// key of the auditor's, whose versions are those of the row's versions that changed whether the condition holds. Its
// versions are folded as a row's are (versions.go), and a reader names the last offered one at or before the row's
// version that it saw (passed.go).

// Condition is one that somebody asked by: package condition makes them.
type Condition interface {
	record.Condition
	Holds(*condition.Row) condition.Truth
	// Checked reports whether it was asked of those rows alone whose foreign keys were checked (checked.go).
	Checked() bool
}

// question is a condition that somebody asked by, with its registers.
type question struct {
	its       Condition
	relation  record.Relation // whose primary key identifies the rows
	registers []*row
	on        map[*row]*row // the registers by row; nil as long as there is none
	// next are registers that no row has yet: the next rows of which a version changes whether the condition holds get
	// them. So who asks now is a reader of theirs: it saw the row before that version, which comes later in the log.
	next  []*row
	since time.Time // when next was begun
	asked time.Time // when the last one who asked had ended
	bytes int       // of its registers, about
	place *list.Element
	gone  bool // its table has changed
}

// register says what a key of the auditor's stands for that isn't a row.
type register struct {
	of *question
	on *row // nil while no row has it
}

const (
	ahead         = 2       // registers that wait for rows, of a question
	mostRegisters = 256     // of a question
	mostMarks     = 64      // registers that one transaction writes
	mostFresh     = 1 << 14 // versions whose writers aren't offered yet, in one table
	mostCaughtUp  = 512     // of these, how many are looked at for a new condition that asks for no value
)

// conditions are those that are known.
type conditions struct {
	by    map[string]*question
	of    map[record.Relation]*tableAsks // by the table whose key identifies the rows
	index *condition.Index               // those that package condition has made, by the values that they ask for
	order list.List                      // of all questions, those asked last at the end
	bytes int
	most  int // bytes
	// values are the versions whose values are kept, oldest first.
	values     []*version
	valueBytes int
	gap        uint64 // the last commit in which a change of some row of an unknown table is missing
	shown      []shownAt
	dropped    uint64    // conditions, to make room
	remade     time.Time // when operators and the like were last seen to have been made or dropped; zero if never
}

// remakes records that what was asked before this time may have meant something else.
func (c *conditions) remakes(at time.Time) {
	if at.After(c.remade) {
		c.remade = at
	}
}

// tableAsks are the conditions by which rows of one table were asked for.
type tableAsks struct {
	all    map[*question]bool
	others []*question // those that the index doesn't have
	fresh  []fresh
	filed  condition.Rows // of fresh
	gap    uint64         // the last commit in which a change of one of its rows is missing, or its values
}

// fresh is a version whose writer isn't offered yet, and may still write registers.
type fresh struct {
	row     *row
	version *version
	was     record.Row // what the row was before, if the log has it and its version before isn't known
}

// shownAt is a snapshot that the server had taken by this time.
type shownAt struct {
	at  time.Time
	its snapshot
}

const mostShown = 256

func newConditions(most int) *conditions {
	q := &conditions{by: map[string]*question{}, of: map[record.Relation]*tableAsks{}, most: most}
	limits := condition.DefaultLimits()
	limits.Bytes = most
	q.index = condition.NewIndex(limits, func(lost *condition.Condition) {
		q.dropped++
		q.drop(q.by[lost.Key()])
	})
	return q
}

// table returns what is known of a table's conditions.
func (q *conditions) table(relation record.Relation) *tableAsks {
	it := q.of[relation]
	if it == nil {
		it = &tableAsks{all: map[*question]bool{}}
		q.of[relation] = it
	}
	return it
}

// lastGap returns the last commit in which a change of one of the table's rows may be missing.
func (q *conditions) lastGap(relation record.Relation) uint64 {
	its := q.of[relation]
	if its == nil || its.gap < q.gap {
		return q.gap
	}
	return its.gap
}

// ask returns the question for a condition by which a transaction asked, which is made if it isn't known: then the
// writers that aren't offered yet get its registers.
func (c *core) ask(one *record.Ask, ended time.Time) *question {
	its, ok := one.Condition.(Condition)
	if !ok || !c.sameTable(one) {
		return nil
	}
	q := c.questions.by[its.Key()]
	if q == nil {
		q = &question{its: its, relation: c.tables.Root(its.Table())}
		c.questions.by[its.Key()] = q
		q.place = c.questions.order.PushBack(q)
		c.questions.bytes += q.size()
		table := c.questions.table(q.relation)
		table.all[q] = true
		if _, indexed := q.its.(*condition.Condition); !indexed {
			table.others = append(table.others, q)
		}
		c.catchUp(q, table)
		c.questions.makeRoom()
	}
	c.questions.order.MoveToBack(q.place)
	if it, is := q.its.(*condition.Condition); is {
		c.questions.index.Add(it)
	}
	if ended.After(q.asked) {
		q.asked = ended
	}
	return q
}

// sameTable reports whether the table's key and columns still mean what the statement took them for.
func (c *core) sameTable(one *record.Ask) bool {
	relation := one.Condition.Table()
	columns, known := c.tables.(Columns)
	for _, its := range one.Relies {
		known = known && columns.SameColumns(its.Relation, its.Identity)
	}
	return known && c.tables.Same(relation, one.Identity) && columns.SameColumns(relation, one.Columns)
}

// registerBytes is about how much memory a register takes, with the last of its versions.
const registerBytes = 384

func (q *question) size() int { return 512 + q.its.Size() + q.bytes }

// makeRoom drops the conditions that were asked by longest ago, beyond the limit.
func (q *conditions) makeRoom() {
	for q.bytes > q.most && q.order.Len() > 1 {
		q.dropped++
		q.drop(q.order.Front().Value.(*question))
	}
}

func (q *conditions) drop(old *question) {
	if old == nil || q.by[old.its.Key()] != old {
		return
	}
	delete(q.by, old.its.Key())
	q.order.Remove(old.place)
	q.bytes -= old.size()
	q.index.Drop(old.its.Key())
	table := q.of[old.relation]
	delete(table.all, old)
	for i, one := range table.others {
		if one == old {
			table.others = append(table.others[:i], table.others[i+1:]...)
			return
		}
	}
}

// forgetTable drops the conditions of a table, since its columns have another meaning from now on.
func (q *conditions) forgetTable(relation record.Relation, at uint64) {
	its := q.of[relation]
	if its == nil {
		return
	}
	q.forgetAll(relation)
	its.fresh, its.filed, its.gap = nil, condition.Rows{}, at
}

// forgetAll drops all conditions of a table: what was asked by them isn't known any more.
func (q *conditions) forgetAll(relation record.Relation) {
	for one := range q.of[relation].all {
		one.gone = true
		q.drop(one)
	}
}

// forget drops conditions that nobody has asked by since the last moment but one. What ran beside them is on this side
// of it, and arcs across a moment are in no cycle.
func (c *core) forgetQuestions(old func(*version) bool) {
	q := c.questions
	if n := len(c.moments.its); n > 1 {
		for at := q.order.Front(); at != nil; {
			one := at.Value.(*question)
			at = at.Next()
			if one.asked.Before(c.moments.its[n-2]) {
				q.drop(one)
			}
		}
	}
	for at := q.order.Front(); at != nil; at = at.Next() {
		for _, one := range at.Value.(*question).registers {
			one.trim(old)
		}
	}
	for _, one := range q.of {
		one.forgetDone()
	}
}

// gaps records in which tables a commit changed rows that aren't known, and reports whether there are any.
func (c *core) gaps(it record.Commit) bool {
	q := c.questions
	if it.Dropped > 0 {
		q.gap = c.commits
	}
	for _, relation := range it.Gaps {
		if relation == record.NoRelation {
			q.gap = c.commits
		} else {
			q.table(c.tables.Root(relation)).gap = c.commits
		}
	}
	return it.Dropped > 0 || len(it.Gaps) > 0
}

// keep keeps a version's values, for conditions that are asked by later.
func (q *conditions) keep(v *version, values record.Row, bytes int) {
	row := asRow(values)
	if row == nil {
		return
	}
	v.values, v.bytes = row, int32(bytes)
	q.values = append(q.values, v)
	q.valueBytes += bytes
	n := 0
	for ; q.valueBytes > q.most && n < len(q.values); n++ {
		q.letGo(q.values[n])
	}
	if q.values = q.values[n:]; len(q.values) == 0 {
		q.values = nil
	}
}

func (q *conditions) letGo(v *version) {
	q.valueBytes -= int(v.bytes)
	v.values, v.bytes = nil, 0
}

// holds returns what is known of a condition about a row as a version left it.
func (q *question) holds(v *version) condition.Truth {
	switch {
	case v.deleted:
		return condition.No
	case v.values == nil:
		return condition.Unknown
	}
	return q.its.Holds(v.values)
}

// before returns what is known of a condition about a row before a version. Something may be missing in a commit: what
// was known by then says nothing.
func (q *question) before(it fresh, gap uint64) condition.Truth {
	v := it.version
	switch {
	case v.inserted:
		return condition.No // there was none
	case v.before != nil && v.before.writer.place > gap:
		return q.holds(v.before)
	}
	if was := asRow(it.was); was != nil {
		return q.its.Holds(was)
	}
	return condition.Unknown
}

// change lets a version write the condition's register of its row, if it changes whether the condition holds. If it
// isn't known whether it did before, a reader may still tell.
func (c *core) change(q *question, it fresh) {
	w := it.version.writer
	if w.done || w.fate == folded || it.version.left {
		return
	}
	is, was := q.holds(it.version), q.before(it, c.questions.lastGap(q.relation))
	switch {
	case q.its.Checked() && !it.row.checked:
		if is == condition.Yes && was != condition.Yes {
			c.counts.leftPassed[notChecked]++
		}
		return
	case is == condition.Unknown:
		if it.version.values != nil {
			c.counts.leftPassed[valueUnknown]++
		}
		return
	case was == condition.Unknown && is != condition.Yes:
		return // nobody will know, and nothing is lost: who passed it over before read nothing else of it
	case was != condition.Unknown && (is == condition.Yes) == (was == condition.Yes):
		return
	}
	known := len(q.registers)
	at := q.register(it.row)
	if grown := registerBytes * (len(q.registers) - known); grown > 0 {
		q.bytes += grown
		c.questions.bytes += grown
	}
	if at == nil {
		c.counts.leftPassed[tooManyRegisters]++
		return
	}
	v := &version{writer: w, before: at.last, base: initial, left: true, unsure: true}
	at.last = v
	if was != condition.Unknown {
		c.sure(write{at, v})
	}
}

// sure offers a register's version with its writer, if there is room.
func (c *core) sure(it write) {
	w := it.version.writer
	it.version.unsure = false
	if w.done || w.fate == folded || len(w.marks()) >= mostMarks || len(w.marks())+len(w.writes()) >= mostOfEach {
		return // it stays folded
	}
	it.version.left = false
	w.addMark(it)
}

// register returns the condition's register of a row, or nil if there are too many.
func (q *question) register(on *row) *row {
	at := q.on[on]
	if at != nil {
		return at
	}
	if len(q.registers) >= mostRegisters {
		return nil
	}
	if len(q.next) > 0 {
		at, q.next = q.next[0], q.next[1:]
	} else {
		at = q.newRegister()
	}
	at.as.on, at.born = on, true
	if q.on == nil {
		q.on = map[*row]*row{}
	}
	q.on[on] = at
	q.registers = append(q.registers, at)
	return at
}

// await returns the registers that wait for rows.
func (q *question) await(c *core, began time.Time) []*row {
	if c.moments.between(q.since, began) {
		q.next = nil // whoever reads these is on the other side of a moment
	}
	if len(q.next) == 0 {
		q.since = began
	}
	if q.next == nil {
		q.next = make([]*row, 0, ahead)
	}
	for len(q.next) < ahead {
		q.next = append(q.next, q.newRegister())
	}
	return q.next
}

// newRegister makes a register that no row has.
func (q *question) newRegister() *row {
	its := &struct {
		row row
		as  register
	}{as: register{of: q}}
	its.row.as = &its.as
	return &its.row
}

// tells reports whether anything is known of the row from which a condition's truth may be told. Of tables that nobody
// asks by conditions nothing is.
func (f fresh) tells() bool {
	return f.version.values != nil || asRow(f.was) != nil || f.before() != nil
}

// changes makes the versions of one commit write registers.
func (c *core) changes(its []fresh) {
	for _, it := range its {
		table := c.questions.table(it.row.id.relation)
		if len(table.all) > 0 {
			c.changeAll(table, it)
		}
		if len(table.fresh) >= mostFresh {
			table.fresh = append(table.fresh[:0], table.fresh[mostFresh/2:]...)
			table.filed.Clear()
		}
		table.fresh = append(table.fresh, it)
	}
	c.questions.makeRoom()
}

// changeAll makes one version write the registers of all questions of its table that may hold of the row before or
// after it.
func (c *core) changeAll(table *tableAsks, it fresh) {
	for _, q := range table.others {
		c.change(q, it)
	}
	rows := make([]*condition.Row, 0, 3)
	for _, one := range []*condition.Row{it.version.values, it.before(), asRow(it.was)} {
		if one != nil {
			rows = append(rows, one)
		}
	}
	c.questions.index.Candidates(it.row.id.relation, func(one *condition.Condition) {
		if q := c.questions.by[one.Key()]; q != nil {
			c.change(q, it)
		}
	}, rows...)
	if row, w := it.version.values, it.version.writer; row != nil && !w.done && w.fate != folded {
		if n := c.questions.index.Unread(it.row.id.relation, row); n > 0 {
			c.counts.leftPassed[valueUnknown] += uint64(n)
		}
	}
}

// before returns the row as the version before left it, nil if that isn't known.
func (f fresh) before() *condition.Row {
	if f.version.before == nil {
		return nil
	}
	return f.version.before.values
}

func asRow(it record.Row) *condition.Row {
	row, _ := it.(*condition.Row)
	return row
}

// catchUp makes the versions whose writers aren't offered yet write the registers of a new question: those that may matter
// to it, by their values, or the last ones, if its condition asks for no value.
func (c *core) catchUp(q *question, table *tableAsks) {
	from := 0
	if it, is := q.its.(*condition.Condition); is {
		if table.filed.Find(it, len(table.fresh), table.rowsAt, func(at int) { c.change(q, table.fresh[at]) }) {
			return
		}
		if from = len(table.fresh) - mostCaughtUp; from > 0 {
			c.counts.leftPassed[tooManyChanges] += uint64(from)
		} else {
			from = 0
		}
	}
	for _, it := range table.fresh[from:] {
		c.change(q, it)
	}
}

// rowsAt are a fresh version's rows, as far as they are known: afterwards, and before.
func (t *tableAsks) rowsAt(place int) [3]*condition.Row {
	it := &t.fresh[place]
	return [3]*condition.Row{it.version.values, it.before(), asRow(it.was)}
}

// forgetDone forgets versions whose writers write no more registers.
func (t *tableAsks) forgetDone() {
	kept := t.fresh[:0]
	for _, it := range t.fresh {
		if w := it.version.writer; !w.done && w.fate != folded {
			kept = append(kept, it)
		}
	}
	for i := len(kept); i < len(t.fresh); i++ {
		t.fresh[i] = fresh{}
	}
	switch {
	case len(t.fresh) == 0: // nothing was written since it was asked for the last time
		t.fresh, t.filed = nil, condition.Rows{}
	case len(kept) < len(t.fresh):
		t.fresh = kept
		t.filed.Clear()
	}
}
