package main

import (
	"fmt"
	"strconv"
)

// Subqueries that find nothing: whoever gets a row of a statement with NOT EXISTS has read that no row satisfies its
// condition, as by a SELECT that returned none.

// nones are SELECTs that return a row only if no row of a table satisfies the condition, or none beside theirs. Each row
// has the parent beside which there is none, and the snapshot.
func (c phantomCondition) nones(table string) []string {
	return []string{
		"SELECT -1, pg_current_snapshot(), name FROM parents WHERE pid = 0 AND NOT EXISTS (SELECT 1 FROM " + table + " WHERE " + c.text + ")",
		"SELECT pid, pg_current_snapshot(), name FROM parents WHERE NOT EXISTS (SELECT id FROM " + table + " AS r WHERE r.a = pid AND " + c.text + ")",
		"SELECT pid, pg_current_snapshot(), name FROM parents WHERE pid NOT IN (SELECT a FROM " + table + " WHERE " + c.text + " AND a IS NOT NULL)",
		"SELECT -1, pg_current_snapshot() WHERE NOT EXISTS (SELECT 1 FROM " + table + " WHERE " + c.text + " LIMIT 1)",
	}
}

// beside is the condition with a parent.
func (c phantomCondition) beside(parent int) phantomCondition {
	if parent < 0 {
		return c
	}
	return phantomCondition{fmt.Sprintf("%s beside %d", c.text, parent), func(v phantomRow) bool { return v.a == parent && c.holds(v) }}
}

func ownKeys(own map[int]bool) map[int]bool {
	its := map[int]bool{}
	for k := range own {
		its[k] = true
	}
	return its
}

// none asks for rows beside which there is none.
func (c *phantomClient) none(t *phantomTxn, own map[int]bool) error {
	by := someCondition(c.r)
	texts := by.nones(c.table)
	text := texts[c.r.Intn(len(texts))]
	rows, err := c.ask(text)
	if err != nil {
		return err
	}
	for _, row := range rows {
		parent, _ := strconv.Atoi(row[0])
		its := snapOf(row[1])
		t.asks = append(t.asks, phantomAsk{text: text, by: by.beside(parent), found: map[int]string{}, own: ownKeys(own), before: its, after: its})
	}
	return nil
}

// unless are statements that write a row only if no row satisfies a condition.
func (c *phantomClient) unless(by phantomCondition, key int, a string, b int, tag string) []string {
	none := fmt.Sprintf("NOT EXISTS (SELECT 1 FROM %s AS o WHERE %s)", c.table, by.text)
	return []string{
		fmt.Sprintf("INSERT INTO %s SELECT %d, %s, %d, '%s', %s::mood WHERE %s ON CONFLICT DO NOTHING", c.table, key, a, b, tag, moodOf(a), none),
		fmt.Sprintf("UPDATE %s SET b = %d, tag = '%s' WHERE id = %d AND %s", c.table, b, tag, key, none),
		fmt.Sprintf("DELETE FROM %s WHERE id = %d AND %s", c.table, key, none),
	}
}

// writesUnless runs one of them.
func (c *phantomClient) writesUnless(t *phantomTxn, own map[int]bool, which int, by phantomCondition, key int, a string, b int) ([][]string, error) {
	text := c.unless(by, key, a, b, t.tag)[which]
	rows, err := c.ask(text + " RETURNING id, tag, pg_current_snapshot()")
	if err != nil || len(rows) == 0 {
		return rows, err
	}
	its := snapOf(rows[0][2]) // which has nothing of what the statement itself writes: a row that it inserts may have gone before
	t.asks = append(t.asks, phantomAsk{text: text, by: by, found: map[int]string{}, own: ownKeys(own), before: its, after: its})
	return rows, nil
}
