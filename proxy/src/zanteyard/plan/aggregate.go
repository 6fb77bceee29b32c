package plan

import (
	"encoding/binary"
	"fmt"
	"math"
	"strconv"
	"time"

	"zanteyard/keys"
	"zanteyard/record"
)

// An aggregate makes one row of many. One hidden aggregate more lists the rows that it was made of: in the same
// statement, so in its snapshot, of just the rows of each group. Nothing that has a bound of its own in SQL stops an
// aggregate early, so the list has three: it is returned only if there are few rows, it takes no key that is very long,
// and no row after the statement has run for a time, so that the server never holds much more than it can copy in that
// time. How many rows there were is counted, so that a list in which some are missing is known as such.
//
// An aggregate of no rows shows its table all the same: in place of the list there is one record that has nothing but the
// type of the table's rows.

const (
	// MostListed is how many rows of a table an aggregate may be made of to be listed.
	MostListed = 256
	// MostAggregated is how many rows an aggregate may be made of, or a statement looked up in a table though an index has
	// all that it asks for, without the statement being left as it is for a while.
	MostAggregated = 1024
	// longestListed is the longest key that is listed, in bytes.
	longestListed = 128
	// listedFor is how long after its beginning a statement lists rows: about a million of 42 bytes, for an integer's key.
	listedFor = time.Second
)

const countOfRows = "pg_catalog.count(*)"

// lists adds a list of the table's rows, with their type.
func (h *hiding) lists(it *item) {
	row, long := h.record(it)
	condition := "pg_catalog.clock_timestamp() OPERATOR(pg_catalog.<) (pg_catalog.statement_timestamp() " +
		"OPERATOR(pg_catalog.+) '" + strconv.Itoa(int(listedFor.Seconds())) + "s'::pg_catalog.interval)"
	if long != "" {
		condition += " AND " + long
	}
	list := "pg_catalog.string_agg(" + row + ", '') FILTER (WHERE " + condition + ")" + h.over
	if h.one {
		list = "COALESCE(" + list + ", pg_catalog.record_send(ROW((pg_catalog.array_agg(" + h.of(it, rowOf) +
			") FILTER (WHERE false))[1])))"
	}
	h.value("CASE WHEN " + countOfRows + h.all + " OPERATOR(pg_catalog.<=) " + strconv.Itoa(MostListed) +
		" THEN " + list + " END")
}

// Lists reports whether hidden columns list the rows that a row of the result was made of.
func (p *Plan) Lists() bool { return p.Counts || p.Copied }

// Aggregated returns how many rows a row of the result was made of, if the plan counts them.
func (p *Plan) Aggregated(values [][]byte, isBinary bool) (uint64, bool) {
	if p.Copied && len(values) == 1 {
		all, ok := p.copiedIn(values[0], isBinary)
		rows := uint64(0)
		for _, one := range all {
			rows += one.rows
		}
		return rows, ok
	}
	if !p.Counts || len(values) != p.Hidden() || values[0] == nil {
		return 0, false
	}
	if isBinary {
		if len(values[0]) != 8 {
			return 0, false
		}
		return binary.BigEndian.Uint64(values[0]), true
	}
	number, err := strconv.ParseUint(string(values[0]), 10, 64)
	return number, err == nil
}

// Complete reports whether the lists of a row have all rows that it was made of.
func (p *Plan) Complete(values [][]byte, isBinary bool) bool {
	if p.Copied {
		all, ok := p.copiedIn(values[0], isBinary)
		for _, one := range all {
			for _, list := range one.lists {
				ok = ok && records(list) == one.rows
			}
		}
		return ok
	}
	if !p.Counts {
		return !p.looksUp || p.looked(values, isBinary)
	}
	rows, ok := p.Aggregated(values, isBinary)
	at := 1
	for i := range p.Sources {
		group := values[at : at+p.Sources[i].Hidden()]
		at += len(group)
		if !p.Sources[i].Listed {
			continue
		}
		list, readable := raw(group[0], isBinary)
		ok = ok && readable && records(list) == rows
	}
	return ok
}

// ShowsTables reports whether a row that was made of no rows shows all the same of which tables.
func (p *Plan) ShowsTables(values [][]byte, isBinary bool) bool {
	if !p.Counts || len(values) != p.Hidden() {
		return false
	}
	at := 1
	for i := range p.Sources {
		list, ok := raw(values[at], isBinary)
		if !p.Sources[i].Listed || !ok || len(list) == 0 {
			return false
		}
		fields, last, _, ok := cutRecord(list, nil)
		if !ok || len(fields) != 1 || last != p.Sources[i].RowType {
			return false
		}
		at += p.Sources[i].Hidden()
	}
	return len(p.Sources) > 0
}

// records counts the records of rows in a list.
func records(list []byte) (count uint64) {
	for readable := true; len(list) > 0; {
		var fields [][]byte
		if fields, _, list, readable = cutRecord(list, nil); !readable {
			return math.MaxUint64
		}
		if len(fields) > 1 {
			count++
		}
	}
	return count
}

// appendList returns the rows of a list.
func (s *Source) appendList(to []record.Read, list []byte) ([]record.Read, error) {
	ok := true
	fields, last := make([][]byte, 0, 3+len(s.Types)), uint32(0)
	var failed error
	for ok && len(list) > 0 {
		fields, last, list, ok = cutRecord(list, fields[:0])
		ofNothing := len(fields) == 1 // it shows the type alone
		if !ok || !ofNothing && len(fields) != 3+len(s.Types) {
			return to, fmt.Errorf("a list of rows of relation %d can't be read", s.Relation)
		}
		if last != s.RowType {
			return to, ErrOtherRelation
		}
		if ofNothing || fields[0] == nil { // an outer join left it NULL
			continue
		}
		read, err := s.decode(fields, true)
		if err != nil {
			failed = err
			continue
		}
		to = append(to, read)
	}
	if !ok {
		failed = fmt.Errorf("a list of rows of relation %d can't be read", s.Relation)
	}
	return to, failed
}

// raw returns the bytes of a bytea.
func raw(value []byte, isBinary bool) ([]byte, bool) {
	if isBinary || value == nil {
		return value, true
	}
	return keys.Raw(value)
}

// cutRecord cuts the first record in its binary form off a list: how many columns it has, and the type, the length and
// the value of each, which it appends to fields; nil stands for NULL. last is the last one's type.
func cutRecord(list []byte, fields [][]byte) (its [][]byte, last uint32, rest []byte, ok bool) {
	const number = 4
	if len(list) < number {
		return fields, 0, nil, false
	}
	columns := binary.BigEndian.Uint32(list)
	list = list[number:]
	for ; columns > 0; columns-- {
		if len(list) < 2*number {
			return fields, 0, nil, false
		}
		last = binary.BigEndian.Uint32(list)
		length := int32(binary.BigEndian.Uint32(list[number:]))
		list = list[2*number:]
		switch {
		case length == -1:
			fields = append(fields, nil)
		case length < 0 || int64(length) > int64(len(list)):
			return fields, 0, nil, false
		default:
			fields = append(fields, list[:length:length])
			list = list[length:]
		}
	}
	return fields, last, list, true
}
