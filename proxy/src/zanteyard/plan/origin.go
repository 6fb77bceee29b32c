package plan

import (
	"errors"
	"strconv"

	"zanteyard/wire"
)

// A name may come to mean another relation at any time: somebody makes a view in a schema that comes first in the search
// path, and the view may have columns with the names of the hidden ones. The server itself says what a statement was run
// over. The description of a result has the origin of each column that is taken as it is: a system column has a negative
// number, which no column of a view has. Where there is no such description of just this run, or the columns are computed,
// the type of the relation's rows is asked for, too.

// ErrOtherRelation says that a statement was run over another relation than the one that its plan was made for.
var ErrOtherRelation = errors.New("another relation has the name of a table")

// Described reports whether a description has to show over which relations a statement is run.
func (p *Plan) Described() bool {
	if p.TellsVersion {
		return true
	}
	for i := range p.Sources {
		if p.Sources[i].RowType == 0 || p.Sources[i].Looked {
			return true
		}
	}
	return false
}

// IsOver reports whether a statement is run over the relations that its plan was made for, by how the server describes the
// hidden columns.
func (p *Plan) IsOver(hidden []wire.Column) bool {
	if len(hidden) != p.Hidden() {
		return false
	}
	if p.Copied { // its lists have the types of the tables' rows
		return true
	}
	at := 0
	if p.TellsNumber {
		at++
	}
	if p.TellsVersion {
		if !isFrom(hidden[at], p.target, xminNumber) {
			return false
		}
		at++
	}
	if p.Counts {
		at++
	}
	for i := range p.Sources {
		source := &p.Sources[i]
		if source.RowType == 0 && !isFrom(hidden[at+1], uint32(source.Relation), tableoidNumber) ||
			source.Looked && hidden[at+1].Type != source.RowType {
			return false
		}
		at += source.Hidden()
	}
	return true
}

func isFrom(column wire.Column, relation uint32, number int16) bool {
	return column.Table == relation && column.Number == number
}

// rowType writes the type of the rows of the relation that a statement knows by a name. The planner drops what is in it.
func rowType(name string) string {
	return "pg_catalog.pg_typeof(" + noRow(name) + ")::pg_catalog.oid"
}

// noRow writes a NULL of that type. In its binary form a record has the types of its fields.
func noRow(name string) string { return "CASE WHEN false THEN " + quote(name) + ".* END" }

// hasType reports whether a hidden column has the type of the source's rows.
func (s *Source) hasType(value []byte, isBinary bool) bool {
	number, ok := number32(value, isBinary)
	return ok && number == s.RowType
}

// mayReadAll writes the condition that all columns of a relation may be read.
func (r relation) mayReadAll() string {
	return " AND pg_catalog.has_table_privilege(" + strconv.FormatUint(uint64(r.oid), 10) + "::pg_catalog.oid, 'SELECT')"
}
