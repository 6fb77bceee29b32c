package join

import "strconv"

// name is an offered transaction: its session in the upper 16 bits, its number in the lower 48, as the auditor has
// them. Names are ordered as their ids are.
type name uint64

// initial stands for no transaction: a row as it was before everything that was offered of it.
const initial name = 1 << 63

const (
	numberBits = 48
	lastNumber = 1<<numberBits - 2
)

func named(session int, number uint64) name { return name(uint64(session)<<numberBits | number) }

func (n name) session() int   { return int(n >> numberBits) }
func (n name) number() uint64 { return uint64(n) & (1<<numberBits - 1) }

// appendSource appends the transaction as a read names it.
func (n name) appendSource(to []byte) []byte {
	if n == initial {
		return append(to, `"init"`...)
	}
	to = strconv.AppendUint(to, uint64(n.session()), 10)
	to = append(to, ',')
	return strconv.AppendUint(to, n.number(), 10)
}

// source is a read of a row from a transaction. at is the index of the read among the transaction's reads, counted from
// 1; below 0, that among the absent rows; 0 if it is in neither list.
type source struct {
	row  *row
	from name
	at   int32
	is   found
}

// found says which version a read found.
type found uint8

const (
	isOffered  found = iota
	fromBefore       // written before the audit
	notOffered       // by a transaction that isn't offered
)

// same reports whether the auditor is given the same for both.
func (s source) same(o source) bool { return s.row == o.row && s.from == o.from }

// below orders reads as the auditor expects them: by key, then "init" before every transaction, then by id.
func (s source) below(o source) bool {
	if s.row.number != o.row.number {
		return s.row.number < o.row.number
	}
	if s.from == o.from { // the first read stays
		return s.at > 0 && (o.at <= 0 || s.at < o.at) || s.at < 0 && o.at == 0
	}
	if s.from == initial || o.from == initial {
		return s.from == initial
	}
	return s.from < o.from
}
