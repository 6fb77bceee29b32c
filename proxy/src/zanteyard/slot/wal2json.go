package slot

import (
	"fmt"
	"strconv"

	"zanteyard/catalog"
	"zanteyard/record"
)

// wal2json reads the messages of wal2json's format 2: one JSON object for a transaction's begin, for each of its
// changes, and for its commit.
type wal2json struct {
	tables    *Tables
	canonical func(uint32, string) (string, bool)
	wanted    func(record.Relation) bool // nil: no values are
	open      transaction
	scan      scanner
	message   message
}

// wal2jsonOptions are the options of START_REPLICATION. Values come without types, since the catalog has those.
const wal2jsonOptions = `"format-version" '2', "include-xids" '1', "include-lsn" '1', "include-pk" '1', ` +
	`"include-types" '0', "include-timestamp" '0', "include-transaction" '1'`

// message has the parts of a message that are needed.
type message struct {
	action        byte
	number        uint64
	lsn, next     []byte
	schema, table []byte
	columns       []column // columns of the key, from the new row
	identity      []column // from the old row
	pk            [][]byte
	named         *Table
	of            *Table   // the table whose columns the values are of; nil if they aren't wanted
	now, was      []column // values, from the new row and the old one
}

type column struct {
	name, value []byte
	null        bool
	at          *catalog.Column // set where the values of a row are made
}

// decode handles one message. It returns a commit if the message is one.
func (w *wal2json) decode(text []byte, _ uint64) (record.Commit, bool, error) {
	m := &w.message
	*m = message{columns: m.columns[:0], identity: m.identity[:0], pk: m.pk[:0], now: m.now[:0], was: m.was[:0]}
	w.scan = scanner{text: text}
	if err := w.read(m); err != nil {
		return record.Commit{}, false, err
	}
	switch m.action {
	case 'B':
		start, ok := parsePlace(string(m.lsn))
		if !ok {
			return record.Commit{}, false, errForm
		}
		w.open.begin(uint32(m.number), start, w.tables.Names())
	case 'C':
		end, ok := parsePlace(string(m.next))
		if !ok {
			return record.Commit{}, false, errForm
		}
		return w.open.commit(end, w.tables.Used()), true, nil
	case 'I', 'U', 'D', 'T':
		w.open.touched = true
		w.change(m)
	case 'M': // a message that an application wrote to the log
	default:
		return record.Commit{}, false, fmt.Errorf("%w: action %q", errForm, m.action)
	}
	return record.Commit{}, false, nil
}

func (w *wal2json) read(m *message) error {
	s := &w.scan
	if !s.is('{') {
		return errForm
	}
	for !s.is('}') {
		s.is(',')
		name, err := s.name()
		if err != nil {
			return err
		}
		if !s.is(':') {
			return errForm
		}
		if err := w.field(m, name); err != nil {
			return err
		}
	}
	return nil
}

func (w *wal2json) field(m *message, name []byte) error {
	s := &w.scan
	var err error
	switch string(name) {
	case "action":
		var text []byte
		if text, err = s.name(); err == nil && len(text) == 1 {
			m.action = text[0]
		}
	case "xid":
		var text []byte
		if text, _, err = s.scalar(); err == nil {
			m.number, err = strconv.ParseUint(string(text), 10, 32)
		}
	case "lsn":
		m.lsn, err = s.name()
	case "nextlsn":
		m.next, err = s.name()
	case "schema":
		m.schema, err = s.name()
	case "table":
		if m.table, err = s.name(); err == nil {
			m.named = w.tables.named(m.schema, m.table)
			m.of = w.valuesOf(m.named)
		}
	case "columns":
		m.columns, err = w.columns(m.columns, m.named, m.of, &m.now)
	case "identity":
		m.identity, err = w.columns(m.identity, m.named, m.of, &m.was)
	case "pk":
		m.pk, err = w.names(m.pk)
	default:
		err = s.skip()
	}
	return err
}

// columns reads [{"name":..,"value":..},..], and keeps those of the table's key. If values are wanted, it keeps those of
// all columns, too.
func (w *wal2json) columns(to []column, table, of *Table, values *[]column) ([]column, error) {
	s := &w.scan
	if table == nil || len(table.Key) == 0 {
		return to, s.skip()
	}
	if !s.is('[') {
		return to, errForm
	}
	for !s.is(']') {
		s.is(',')
		if !s.is('{') {
			return to, errForm
		}
		var one column
		isKey, wanted := false, true
		for !s.is('}') {
			s.is(',')
			field, err := s.name()
			if err != nil || !s.is(':') {
				return to, errForm
			}
			switch {
			case string(field) == "name":
				if one.name, err = s.name(); err == nil {
					isKey = table.hasKey(one.name)
				}
			case string(field) == "value" && isKey:
				one.value, one.null, err = s.scalar()
			case string(field) == "value" && of != nil:
				wanted, err = s.readable(&one)
			default:
				err = s.skip()
			}
			if err != nil {
				return to, err
			}
		}
		if isKey {
			to = append(to, one)
		}
		if of != nil && wanted {
			*values = append(*values, one)
		}
	}
	return to, nil
}

// names reads [{"name":..},..].
func (w *wal2json) names(to [][]byte) ([][]byte, error) {
	s := &w.scan
	if !s.is('[') {
		return to, errForm
	}
	for !s.is(']') {
		s.is(',')
		if !s.is('{') {
			return to, errForm
		}
		for !s.is('}') {
			s.is(',')
			field, err := s.name()
			if err != nil || !s.is(':') {
				return to, errForm
			}
			if string(field) != "name" {
				if err := s.skip(); err != nil {
					return to, err
				}
				continue
			}
			name, err := s.name()
			if err != nil {
				return to, err
			}
			to = append(to, name)
		}
	}
	return to, nil
}

// change handles a message's change of a row. If the key can't be determined, as for a table without one or with a
// replica identity that omits it, the change is left out.
func (w *wal2json) change(m *message) {
	t := m.named
	switch {
	case t == nil:
		w.tables.unknown(m.schema, m.table)
		w.lacks(m)
		return
	case m.action == 'T' && !t.unasked:
		w.open.empty(t)
		w.tables.without(t, truncated)
		return
	case w.tables.leaves(t):
		if m.action != 'T' {
			w.open.keyless++
		}
		if len(t.Key) > 0 { // it may be asked for by a condition
			w.open.gap(t.Root)
		}
		return
	case !t.sameKey(m.pk):
		w.tables.unknown(m.schema, m.table)
		w.lacks(m)
		return
	}
	its := w.values(m)
	now, hasNow := w.key(t, m.columns)
	was, hasWas := w.key(t, m.identity)
	if m.action != 'I' && !hasWas || m.action != 'D' && !hasNow { // an update that changes the key has to be known as one
		w.tables.without(t, noKeyLog)
		w.lacks(m)
		return
	}
	if m.action == 'D' || m.action == 'U' && was != now {
		w.open.write(t.Root, was, false, true, values{was: its.was})
	}
	if m.action != 'D' {
		if was != now {
			its.was, its.moved = nil, m.action == 'U' // of another key
		}
		w.open.write(t.Root, now, m.action == 'I' || was != now, false, its)
	}
}

// lacks counts a row that is left out, in its transaction.
func (w *wal2json) lacks(m *message) {
	if m.action != 'T' {
		w.open.keyless++
	}
	if m.named == nil {
		w.open.gap(record.NoRelation)
	} else {
		w.open.gap(m.named.Root)
	}
}

// key returns the row's key as one text.
func (w *wal2json) key(t *Table, its []column) (record.Key, bool) {
	var room [64]byte
	to := room[:0]
	for i, part := range t.Key {
		found := false
		for _, one := range its {
			if string(one.name) != part.Name || one.null {
				continue
			}
			text, ok := w.canonical(part.Type, string(one.value))
			if !ok {
				return "", false
			}
			if i > 0 {
				to = append(to, 0)
			}
			to, found = append(to, text...), true
			break
		}
		if !found {
			return "", false
		}
	}
	return record.Key(to), true
}
