package main

import (
	"fmt"
	"math/rand"
	"strconv"
	"strings"
)

// phantomShape is a SELECT of another form that asks by a condition: over subqueries in FROM, or with a LIMIT.
type phantomShape struct {
	text  string
	by    phantomCondition
	limit int    // how many rows it returns at most, 0 for any number
	order int    // 1 for ORDER BY id, -1 for DESC, 0 for none
	reads string // a SELECT of a parent beside which it asks, "" for none
}

const phantomShapes = 11

// shapesOf are those of one table, with conditions of these kinds: the proxy tries a thousand statements at once, and others
// when it has time.
func shapesOf(table string, do func(number, kind int)) {
	group, _ := strconv.Atoi(strings.TrimPrefix(table, "r"))
	for _, number := range []int{group, group + 3, group + 7} {
		for _, kind := range []int{0, 3, 5} {
			do(number%phantomShapes, kind)
		}
	}
}

// someShape is one of them.
func someShape(r *rand.Rand, table string) phantomShape {
	var all [][2]int
	shapesOf(table, func(number, kind int) { all = append(all, [2]int{number, kind}) })
	its := all[r.Intn(len(all))]
	return conditionOf(its[1], r.Intn(3), r.Intn(4)).shape(its[0], table)
}

func (c phantomCondition) shape(number int, table string) phantomShape {
	const columns = "id, tag, pg_current_snapshot() "
	from := "FROM " + table + " WHERE " + c.text
	and := func(text string, more func(phantomRow) bool) phantomCondition {
		return phantomCondition{c.text + " AND " + text, func(v phantomRow) bool { return c.holds(v) && more(v) }}
	}
	switch number {
	case 0:
		return phantomShape{text: "SELECT s.id, s.tag, pg_current_snapshot() FROM (SELECT * " + from + ") AS s", by: c}
	case 1:
		return phantomShape{text: "SELECT s.k, s.tag, pg_current_snapshot() FROM (SELECT b AS c, id AS k, tag " + from + ") AS s WHERE s.c < 3",
			by: and("b < 3", func(v phantomRow) bool { return v.b < 3 })}
	case 2:
		return phantomShape{text: "WITH s AS (SELECT * " + from + ") SELECT s.id, s.tag, pg_current_snapshot() FROM s WHERE s.b > 0",
			by: and("b > 0", func(v phantomRow) bool { return v.b > 0 })}
	case 3, 4:
		return phantomShape{text: fmt.Sprintf("SELECT id, tag, pg_current_snapshot(), p.pid FROM (SELECT pid FROM parents WHERE pid = %d) AS p "+
			"JOIN %s ON p.pid = a WHERE %s", number-3, table, c.text), by: and("with its parent", func(v phantomRow) bool { return v.a == number-3 }),
			reads: fmt.Sprintf("SELECT name FROM parents WHERE pid = %d", number-3)}
	case 5:
		return phantomShape{text: "SELECT s.id, s.tag, pg_current_snapshot(), pid FROM (SELECT * " + from + ") AS s LEFT JOIN parents ON pid = s.a", by: c}
	case 6:
		return phantomShape{text: "SELECT " + columns + from + " AND id > 0 ORDER BY id LIMIT 2", by: c, limit: 2, order: 1}
	case 7:
		return phantomShape{text: "SELECT " + columns + from + " ORDER BY " + table + ".id DESC LIMIT 1 OFFSET 0", by: c, limit: 1, order: -1}
	case 10:
		return phantomShape{text: "SELECT " + columns + from + " AND a IN (SELECT pid FROM parents WHERE name <> 'two')",
			by: and("of a parent", func(v phantomRow) bool { return v.a >= 0 && v.a < phantomParents })}
	case 8:
		return phantomShape{text: "SELECT s.id, s.tag, pg_current_snapshot() FROM (SELECT * " + from + ") AS s ORDER BY s.id DESC LIMIT 2", by: c, limit: 2, order: -1}
	}
	return phantomShape{text: "SELECT " + columns + from + " LIMIT 1", by: c, limit: 1}
}

// asked says what it asked for, by the rows that it returned: what LIMIT cut off it didn't ask for, unless it comes before the
// last one that is returned.
func (s phantomShape) asked(rows [][]string) (by phantomCondition, alone bool) {
	if s.limit == 0 || len(rows) < s.limit {
		return s.by, false
	}
	last, _ := strconv.Atoi(rows[len(rows)-1][0])
	return phantomCondition{fmt.Sprintf("%s up to %d", s.by.text, last), func(v phantomRow) bool {
		return s.by.holds(v) && (last-v.id)*s.order > 0
	}}, s.order == 0
}
