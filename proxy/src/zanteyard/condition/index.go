package condition

import (
	"container/list"

	"zanteyard/record"
)

// Limits bounds what an Index holds.
type Limits struct {
	Conditions int // of all tables
	Bytes      int // of all conditions, by Condition.Size
	// Scanned is how many conditions without an equality each table may have: each of them is tried on every row.
	Scanned int
}

// DefaultLimits are for an audit of a busy application.
func DefaultLimits() Limits { return Limits{Conditions: 1 << 16, Bytes: 64 << 20, Scanned: 128} }

// Index finds the conditions that could hold for a row, by the values that they ask a column for. When it is full, the
// condition that was added or used longest ago is dropped, and counted. It isn't safe for use by several goroutines.
type Index struct {
	limits  Limits
	tables  map[record.Relation]*shelf
	entries map[string]*entry
	order   *list.List // of *entry, that which was used longest ago first
	bytes   int
	dropped uint64
	lost    func(*Condition)
}

// entry is a condition in an index.
type entry struct {
	condition *Condition
	place     *list.Element
	at        []equality    // where it is found; none if it is tried on every row
	scanned   *list.Element // its place in the list of its table's
	seen      uint64        // the last search that found it
}

// shelf has the conditions of one table.
type shelf struct {
	columns map[columnBy]*drawer
	scanned *list.List // of *entry
	search  uint64
}

// columnBy is a column and how its values are compared.
type columnBy struct {
	number int16
	by     family
}

// drawer has the conditions that ask one column for a value.
type drawer struct {
	column *column
	of     map[datum][]*entry
	nulls  []*entry // those that ask for NULL
	count  int
}

// equality is a value that a condition asks a column for, or NULL.
type equality struct {
	column *column
	value  datum
	null   bool
}

// NewIndex makes an empty index. It calls lost with each condition that is dropped to make room.
func NewIndex(limits Limits, lost func(*Condition)) *Index {
	return &Index{
		limits: limits, tables: map[record.Relation]*shelf{}, entries: map[string]*entry{}, order: list.New(), lost: lost,
	}
}

// Len is how many conditions there are.
func (x *Index) Len() int { return len(x.entries) }

// Bytes is about how much memory they take.
func (x *Index) Bytes() int { return x.bytes }

// Dropped counts the conditions that were dropped to make room.
func (x *Index) Dropped() uint64 { return x.dropped }

// Find returns the condition with a key.
func (x *Index) Find(key string) (*Condition, bool) {
	if its, ok := x.entries[key]; ok {
		return its.condition, true
	}
	return nil, false
}

// Add adds a condition, and returns the one with its key: if there is one already, it counts as used just now.
func (x *Index) Add(c *Condition) (its *Condition, added bool) {
	if known, ok := x.entries[c.key]; ok {
		x.order.MoveToBack(known.place)
		if known.scanned != nil {
			x.tables[c.Table()].scanned.MoveToBack(known.scanned)
		}
		return known.condition, false
	}
	one := &entry{condition: c, at: equalities(c.root)}
	one.place = x.order.PushBack(one)
	x.entries[c.key] = one
	x.bytes += c.Size()
	table := x.tables[c.Table()]
	if table == nil {
		table = &shelf{columns: map[columnBy]*drawer{}, scanned: list.New()}
		x.tables[c.Table()] = table
	}
	table.put(one)
	if table.scanned.Len() > x.limits.Scanned {
		x.lose(table.scanned.Front().Value.(*entry))
	}
	for x.order.Len() > 0 && (x.order.Len() > x.limits.Conditions || x.bytes > x.limits.Bytes) {
		x.lose(x.order.Front().Value.(*entry))
	}
	return c, true
}

func (x *Index) lose(one *entry) {
	x.dropped++
	x.remove(one)
	if x.lost != nil {
		x.lost(one.condition)
	}
}

// Drop removes the condition with a key, if there is one.
func (x *Index) Drop(key string) {
	if one, ok := x.entries[key]; ok {
		x.remove(one)
	}
}

func (x *Index) remove(one *entry) {
	delete(x.entries, one.condition.key)
	x.order.Remove(one.place)
	x.bytes -= one.condition.Size()
	table := x.tables[one.condition.Table()]
	if table == nil { // it never holds, so it is filed nowhere
		return
	}
	table.take(one)
	if len(table.columns) == 0 && table.scanned.Len() == 0 {
		delete(x.tables, one.condition.Table())
	}
}

func (s *shelf) put(one *entry) {
	if one.at == nil {
		one.scanned = s.scanned.PushBack(one)
		return
	}
	for _, at := range one.at {
		by := columnBy{at.column.number, at.column.by}
		its := s.columns[by]
		if its == nil {
			its = &drawer{column: at.column, of: map[datum][]*entry{}}
			s.columns[by] = its
		}
		its.count++
		if at.null {
			its.nulls = append(its.nulls, one)
		} else {
			its.of[at.value] = append(its.of[at.value], one)
		}
	}
}

func (s *shelf) take(one *entry) {
	if one.scanned != nil {
		s.scanned.Remove(one.scanned)
		return
	}
	for _, at := range one.at {
		by := columnBy{at.column.number, at.column.by}
		its := s.columns[by]
		its.count--
		if at.null {
			its.nulls = without(its.nulls, one)
		} else if left := without(its.of[at.value], one); len(left) > 0 {
			its.of[at.value] = left
		} else {
			delete(its.of, at.value)
		}
		if its.count == 0 {
			delete(s.columns, by)
		}
	}
}

func without(from []*entry, one *entry) []*entry {
	for i, other := range from {
		if other == one {
			from[i] = from[len(from)-1]
			from[len(from)-1] = nil
			return from[:len(from)-1]
		}
	}
	return from
}

// Candidates calls take with each condition on a table that may hold for one of the rows: those of a write are the old
// row, if it is known, and the new one. Every condition that is Yes for a row is among them, each once. One that asks a
// column for a value isn't if that column's isn't known: the log has just the key of most old rows. take must not change
// the index.
func (x *Index) Candidates(table record.Relation, take func(*Condition), rows ...*Row) {
	its := x.tables[table]
	if its == nil {
		return
	}
	its.search++
	for at := its.scanned.Front(); at != nil; at = at.Next() {
		take(at.Value.(*entry).condition)
	}
	for _, one := range its.columns {
		for _, row := range rows {
			one.find(row, its.search, take)
		}
	}
}

// Unread returns how many conditions ask a column of a row for a value that isn't known: Candidates hasn't got them.
func (x *Index) Unread(table record.Relation, row *Row) (n int) {
	if its := x.tables[table]; its != nil {
		for _, one := range its.columns {
			if row.value(one.column).known == notKnown {
				n += one.count
			}
		}
	}
	return n
}

// find finds the conditions that ask the column for the row's value; none of them holds if that isn't known.
func (d *drawer) find(row *Row, search uint64, take func(*Condition)) {
	value := row.value(d.column)
	switch value.known {
	case isKnown:
		each(d.of[value.datum], search, take)
	case isNull:
		each(d.nulls, search, take)
	}
}

func each(those []*entry, search uint64, take func(*Condition)) {
	for _, one := range those {
		if one.seen != search {
			one.seen = search
			take(one.condition)
		}
	}
}

// equalities returns values one of which a row must have for a clause to be true, the fewest that are found; nil if
// there are none.
func equalities(of clause) []equality {
	switch c := of.(type) {
	case constant:
		if c.its&isTrue == 0 { // it never holds
			return []equality{}
		}
	case *comparison:
		if c.is == equal && c.column.by != ranges {
			return []equality{{column: c.column, value: c.value}}
		}
	case *membership:
		if c.is != equal || c.every || c.column.by == ranges {
			return nil
		}
		its := make([]equality, len(c.values))
		for i := range c.values {
			its[i] = equality{column: c.column, value: c.values[i]}
		}
		return its
	case *booleanColumn:
		return []equality{{column: c.column, value: datum{n: 1}}}
	case *nullTest:
		if !c.not {
			return []equality{{column: &column{number: c.number}, null: true}}
		}
	case *difference:
		if c.not && c.column.by != ranges {
			return []equality{{column: c.column, value: c.value}}
		}
	case both:
		var best []equality
		for _, one := range c {
			if its := equalities(one); its != nil && (best == nil || len(its) < len(best)) {
				best = its
			}
		}
		return best
	case either:
		var every []equality
		for _, one := range c {
			its := equalities(one)
			if its == nil {
				return nil
			}
			every = append(every, its...)
		}
		return every
	}
	return nil
}
