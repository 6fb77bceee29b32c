package slot

import (
	"strings"

	"zanteyard/condition"
	"zanteyard/record"
)

// mostValue is the length of the longest value that is kept: a longer one counts as unknown.
const mostValue = 1 << 10

// valuesOf returns the table whose columns a row's values are of, nil if nobody wants them: the topmost partitioned one
// of a partition, whose columns have the same names and other numbers.
func (w *wal2json) valuesOf(named *Table) *Table {
	if w.wanted == nil || named == nil || len(named.Key) == 0 || !w.wanted(named.Root) {
		return nil
	}
	if of := w.tables.known(named.Root); of != nil && of.columns != nil {
		return of
	}
	return nil
}

// known returns a table, nil if it isn't known.
func (t *Tables) known(relation record.Relation) *Table {
	t.lock.RLock()
	defer t.lock.RUnlock()
	return t.by[relation]
}

// values returns what a message has of a row's columns.
func (w *wal2json) values(m *message) values {
	var its values
	if m.of == nil {
		return its
	}
	its.now, its.bytes = rowOf(m.of, m.now)
	its.was, _ = rowOf(m.of, m.was)
	return its
}

// rowOf makes a row of the values that the log has. The others are unknown: of columns that are stored apart and didn't
// change, or that aren't part of the old row's identity.
func rowOf(of *Table, its []column) (*condition.Row, int) {
	if len(its) == 0 {
		return nil, 0
	}
	var text strings.Builder // of all values
	most, length := 0, 0
	for i := range its {
		at := of.columns[string(its[i].name)]
		if its[i].at = at; at == nil || len(its[i].value) > mostValue {
			continue
		}
		if length += len(its[i].value); int(at.Number) > most {
			most = int(at.Number)
		}
	}
	text.Grow(length)
	all := make([]condition.Value, most)
	bytes := 192 + 24*most + length // with two of them read
	for _, one := range its {
		if one.at == nil || len(one.value) > mostValue {
			continue
		}
		from := text.Len()
		text.Write(one.value)
		all[one.at.Number-1] = condition.ValueOf(one.at, text.String()[from:], one.null, true)
	}
	return condition.NewRow(all), bytes
}

// readable reads a value that isn't a key's, and reports whether it is in a form that is known.
func (s *scanner) readable(to *column) (bool, error) {
	from := s.at
	var err error
	if to.value, to.null, err = s.scalar(); err == nil {
		return true, nil
	}
	s.at = from
	return false, s.skip()
}
