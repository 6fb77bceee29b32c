package plan

import (
	"strconv"
	"strings"

	"zanteyard/keys"
)

// Hidden columns are written so that none of their names can come to mean a function. If a table has no column c any
// more, the server takes t.c for a call of the function c(t), which anybody may have put into the search path, and which
// then runs with the client's rights. It doesn't do so for a name without a table. So a statement's only table isn't
// named.
//
// Where there are several, each column is also looked up by its name alone, in a query of this table alone: if it isn't
// there, the server goes on outwards, to two tables that both have a column of this name, and so refuses the whole
// statement before it runs any of it. The planner drops these queries, since they come after false.

// hiding writes a statement's hidden columns.
type hiding struct {
	sole   bool // the statement has no other table
	values []string
	proofs []string // queries that are refused if a column isn't there; they are put in front of the first value
	names  []string // of the columns that are looked up, except for the system's
	one    bool     // the statement has one row, even if it is made of none
	// If rows that share columns are listed by a window: these, that window, and that of all rows.
	by        []shared
	over, all string
}

// value adds a hidden column that depends on no table.
func (h *hiding) value(text string) { h.values = append(h.values, text) }

// version adds which transaction wrote a row.
func (h *hiding) version(it *item) { h.system(it, nil) }

// reads adds a row's version, its table and its key, and the type of the table's rows if nothing else shows it.
func (h *hiding) reads(it *item) {
	var names []string
	for _, column := range it.table.Key {
		names = append(names, quote(column.Name))
	}
	for _, column := range it.more {
		names = append(names, quote(column.Name))
	}
	h.system(it, names)
	h.value(h.of(it, "tableoid"))
	for i, column := range it.table.Key {
		h.value(keys.Expression(column.Type, h.of(it, names[i]), it.converts))
	}
	for i, column := range it.more {
		its := h.of(it, names[len(it.table.Key)+i])
		h.value("CASE WHEN " + its + " IS NOT NULL THEN " + keys.Expression(column.Type, its, it.converts) + " END")
	}
	if it.typed {
		h.value(rowType(it.name))
	}
}

func (h *hiding) system(it *item, names []string) {
	h.isSure(it, names)
	h.value(h.of(it, "xmin"))
}

// isSure adds the query that is refused if a table that is named hasn't these columns.
func (h *hiding) isSure(it *item, names []string) {
	if it.passed != nil && it.named || it.passed == nil && !h.sole {
		h.proves(it.written, names)
	}
}

// rowOf stands for a NULL of the type of a table's rows.
const rowOf = "*"

// of names a column of a table, or the one by which a subquery passes it on.
func (h *hiding) of(it *item, column string) string {
	switch {
	case it.passed != nil:
		column = it.passed[column]
	case column == rowOf:
		return noRow(it.name)
	}
	if h.sole {
		return column
	}
	return quote(it.name) + "." + column
}

// proves adds the query of one table.
func (h *hiding) proves(table string, columns []string) {
	proof := "EXISTS (SELECT " + strings.Join(append([]string{"xmin, tableoid"}, columns...), ", ") + " FROM " + table +
		" AS " + alias + ")"
	if !contains(h.proofs, proof) {
		h.proofs = append(h.proofs, proof)
	}
	for _, column := range columns {
		if !contains(h.names, column) {
			h.names = append(h.names, column)
		}
	}
}

func contains(all []string, one string) bool {
	for _, other := range all {
		if other == one {
			return true
		}
	}
	return false
}

// wall is a list of the server's own tables in which each column has two: by their own names, or by these.
func (h *hiding) wall() string {
	const table, columns = "pg_catalog.pg_am AS " + alias, 4
	var its []string
	for at := 0; at == 0 || at < len(h.names); at += columns {
		names := h.names[at:]
		if len(names) > columns {
			names = names[:columns]
		}
		as := ""
		if len(names) > 0 {
			as = " (" + strings.Join(names, ", ") + ")"
		}
		for range [2]int{} {
			its = append(its, table+strconv.Itoa(len(its))+as)
		}
	}
	return strings.Join(its, ", ")
}

// text returns all hidden columns.
func (h *hiding) text() string {
	all := h.texts()
	for i := range all {
		all[i] += " AS " + alias
	}
	return strings.Join(all, ", ")
}

// texts returns them without their names.
func (h *hiding) texts() []string {
	if len(h.proofs) > 0 {
		h.values[0] = "CASE WHEN false AND EXISTS (SELECT FROM " + h.wall() + " WHERE " + strings.Join(h.proofs, " AND ") +
			") THEN NULL ELSE " + h.values[0] + " END"
	}
	return h.values
}
