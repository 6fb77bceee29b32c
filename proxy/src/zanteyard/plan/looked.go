package plan

import (
	"strings"

	"zanteyard/catalog"
	"zanteyard/keys"
)

// An index that has all that a statement asks of a table may answer it alone, and a hidden xmin would prevent that: then the
// server may choose another plan, which has rows in another order. But if the index has the table's key, too, or the columns of
// a unique index, the row can be looked up by these, for each row of the result: that is one more query among the result's
// columns, whose cost is the same for all plans of the statement. So the server chooses the same one.
//
// A snapshot may show two rows with one key: one that somebody has deleted since, and one that the transaction itself has
// inserted. Then it isn't known which of them is in the result, and neither is told.

// looksUp reports whether a table's rows can be looked up by its key, or by other columns of which no two rows have the same
// values, with the columns that the statement asks of it.
func (f *fromClause) looksUp(it *item, columns map[int16]bool) bool {
	t, m := it.table, f.maker
	if !f.outermost || f.lists || f.plan.Kind != Select || m.cursor || m.prepared || m.catalog.Foreign || it.sampled ||
		t.RowSecurity || t.Planned || !t.Alone() { // of a table in parts each would be locked, also those that the server leaves out
		return false
	}
	for _, by := range append([][]int16{keyNumbers(t)}, t.Unique...) {
		if it.by = numbered(t, by); it.by != nil && t.CoveredWith(columns, by) {
			return true
		}
	}
	return false
}

// numbered returns columns by their numbers, nil if a row can't be looked up by one of them.
func numbered(t *catalog.Table, numbers []int16) (all []catalog.Column) {
	for _, number := range numbers {
		for _, column := range t.Columns {
			if column.Number == number && isLookedUpBy(column) {
				all = append(all, column)
			}
		}
	}
	if len(all) != len(numbers) {
		return nil
	}
	return all
}

// isLookedUpBy reports whether the server has an operator of its own that compares such columns as their index does.
func isLookedUpBy(column catalog.Column) bool {
	switch column.Base {
	case keys.Int2, keys.Int4, keys.Int8, keys.UUID, keys.Date, keys.Timestamp, keys.Timestamptz, keys.Oid, keys.Text, keys.Varchar,
		keys.Bpchar, keys.Name, keys.Bool:
		return true
	}
	return column.Type == keys.Enum
}

// equalities are the functions of these operators.
var equalities = []string{"int2eq", "int4eq", "int8eq", "uuid_eq", "date_eq", "timestamp_eq", "timestamptz_eq", "oideq", "texteq",
	"bpchareq", "nameeq", "booleq", "enum_eq"}

// looksUp adds a query for the row of a table that has the key of the one in the result, and a column that has nothing but the
// type of the table's rows: the description of a result shows it, of one without rows, too.
func (h *hiding) looksUp(it *item) {
	var names, conditions []string
	row := []string{alias + ".xmin", alias + ".tableoid"}
	for _, column := range it.table.Key {
		name := quote(column.Name)
		names = append(names, name)
		row = append(row, keys.Expression(column.Type, alias+"."+name, it.converts))
	}
	for _, column := range it.by {
		name := quote(column.Name)
		if !contains(names, name) {
			names = append(names, name)
		}
		conditions = append(conditions, alias+"."+name+" OPERATOR(pg_catalog.=) "+quote(it.name)+"."+name)
	}
	h.proves(it.written, names)
	found := "pg_catalog.string_agg(pg_catalog.record_send(ROW(" + strings.Join(append(row, noRow(alias)), ", ") + ")), '')"
	h.value("CASE WHEN " + belowSerializable + " THEN (SELECT CASE WHEN " + countOfRows + " OPERATOR(pg_catalog.<=) 1 THEN " + found +
		" ELSE ''::pg_catalog.bytea END FROM " + it.written + " AS " + alias + " WHERE " + strings.Join(conditions, " AND ") +
		") ELSE ''::pg_catalog.bytea END")
	h.value(noRow(it.name))
}

// belowSerializable is a condition of what reads more than the statement itself does: another row, or the same one by another
// index. At serializable that would be locked, and somebody's transaction might fail that wouldn't have failed.
const belowSerializable = "pg_catalog.current_setting('transaction_isolation') OPERATOR(pg_catalog.<>) 'serializable'"

// ReadsMore reports whether a statement's hidden columns read more than it does: then they are empty at serializable.
func (p *Plan) ReadsMore() bool { return p.Copied || p.looksUp }

// LooksUp reports whether rows of the result are looked up by their key.
func (p *Plan) LooksUp() bool { return p.looksUp }

// looked reports whether the rows of a result's row were looked up.
func (p *Plan) looked(values [][]byte, isBinary bool) bool {
	at := p.Hidden()
	for i := range p.Sources {
		at -= p.Sources[i].Hidden()
	}
	for i := range p.Sources {
		source := &p.Sources[i]
		value := values[at]
		at += source.Hidden()
		if list, ok := raw(value, isBinary); source.Listed && value != nil && ok && len(list) == 0 {
			return false
		}
	}
	return true
}

// isLookup reports whether a part of a plan looks up rows of a result.
func (n *planned) isLookup() bool { return n.Place == "SubPlan" && n.isOfHidden() }

func (n *planned) isOfHidden() bool {
	if n.Relation != "" && baseName(n.Alias) == alias {
		return true
	}
	for i := range n.Plans {
		if n.Plans[i].isOfHidden() {
			return true
		}
	}
	return false
}

// withoutLookups takes these parts off a plan. It reports whether one of them reads a table whole that the statement doesn't.
func (n *planned) withoutLookups() (further bool) {
	var taken []planned
	n.take(&taken)
	its := map[string]bool{}
	for _, table := range n.whole(nil) {
		name, _, _ := strings.Cut(table, " ")
		its[name] = true
	}
	for i := range taken {
		for _, table := range taken[i].whole(nil) {
			name, _, _ := strings.Cut(table, " ")
			further = further || !its[name]
		}
	}
	return further
}

func (n *planned) take(to *[]planned) {
	var left []planned
	for i := range n.Plans {
		if n.Plans[i].isLookup() {
			*to = append(*to, n.Plans[i])
		} else {
			n.Plans[i].take(to)
			left = append(left, n.Plans[i])
		}
	}
	n.Plans = left
}
