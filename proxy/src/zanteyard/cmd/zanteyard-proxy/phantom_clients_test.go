package main

import (
	"context"
	"errors"
	"fmt"
	"math/rand"
	"strconv"
	"strings"
	"time"

	"github.com/jackc/pgconn"
)

// phantomRow is a row's values; a is -1 for NULL.
type phantomRow struct{ id, a, b int }

// phantomCondition is one that is asked by.
type phantomCondition struct {
	text  string
	holds func(phantomRow) bool // NULL is no
}

const phantomKinds = 8

func someCondition(r *rand.Rand) phantomCondition {
	return conditionOf(r.Intn(phantomKinds), r.Intn(3), r.Intn(4))
}

// moods are the labels of an enumeration for the values of a.
var moods = []string{"none", "one", "two"}

// moodOf is the label for a value of a, as SQL has it.
func moodOf(a string) string {
	if n, err := strconv.Atoi(a); err == nil {
		return "'" + moods[n] + "'"
	}
	return "NULL"
}

func conditionOf(kind, c, d int) phantomCondition {
	switch kind {
	case 0:
		return phantomCondition{fmt.Sprintf("a = %d", c), func(v phantomRow) bool { return v.a == c }}
	case 1:
		return phantomCondition{fmt.Sprintf("m = '%s'", moods[c]), func(v phantomRow) bool { return v.a == c }}
	case 2:
		return phantomCondition{fmt.Sprintf("b >= %d", d), func(v phantomRow) bool { return v.b >= d }}
	case 3:
		return phantomCondition{fmt.Sprintf("a = %d AND b < %d", c, d), func(v phantomRow) bool { return v.a == c && v.b < d }}
	case 4:
		return phantomCondition{fmt.Sprintf("a IN (%d, %d)", c, d), func(v phantomRow) bool { return v.a == c || v.a == d }}
	case 5:
		return phantomCondition{fmt.Sprintf("b BETWEEN %d AND %d", d, d+1), func(v phantomRow) bool { return v.b >= d && v.b <= d+1 }}
	case 6:
		return phantomCondition{fmt.Sprintf("NOT a = %d", c), func(v phantomRow) bool { return v.a != -1 && v.a != c }}
	}
	return phantomCondition{fmt.Sprintf("(a IS NULL OR b = %d)", d), func(v phantomRow) bool { return v.a == -1 || v.b == d }}
}

// asks are the SELECT's texts for a condition.
func (c phantomCondition) asks(table string) (texts []string) {
	for _, text := range []string{c.text, "(" + c.text + ") OR id = 0"} {
		for _, more := range []string{"", " ORDER BY id LIMIT 100", " FOR UPDATE"} {
			texts = append(texts, "SELECT id, tag, pg_current_snapshot() FROM "+table+" WHERE "+text+more)
		}
	}
	texts = append(texts, "SELECT id, tag, pg_current_snapshot() FROM "+table+" WHERE "+c.text+" AND EXISTS (SELECT 1 FROM parents WHERE pid = 1)")
	// Only what has a parent is in the join. Row 0 has none.
	return append(texts, "SELECT id, tag, pg_current_snapshot(), name FROM "+table+" JOIN parents ON pid = a WHERE "+c.text)
}

// inJoin is what the last of these texts asks for.
func (c phantomCondition) inJoin() phantomCondition {
	return phantomCondition{c.text + " with a parent", func(v phantomRow) bool {
		return v.a >= 0 && v.a < phantomParents && c.holds(v)
	}}
}

// phantomAsk is a SELECT with what it returned: the tags of versions, by key.
type phantomAsk struct {
	text          string // the statement
	by            phantomCondition
	found         map[int]string
	also          map[int][]string // further rows with the same key: one that the transaction inserted, and one in its snapshot
	own           map[int]bool     // keys that the transaction had written before
	before, after snap             // its snapshot is one of those between
	locks         bool             // FOR UPDATE
	alone         bool             // it read these rows, and asked for nothing
}

type phantomTxn struct {
	client, place int
	tag           string
	xid           uint64 // 0 if it has none
	asks          []phantomAsk
}

// snap is a server's snapshot.
type snap struct {
	most uint64
	open map[uint64]bool
}

func snapOf(text string) snap {
	parts := strings.Split(text, ":")
	its := snap{open: map[uint64]bool{}}
	its.most, _ = strconv.ParseUint(parts[1], 10, 64)
	for _, one := range strings.Split(parts[2], ",") {
		if n, err := strconv.ParseUint(one, 10, 64); err == nil {
			its.open[n] = true
		}
	}
	return its
}

func (s snap) has(xid uint64) bool { return xid < s.most && !s.open[xid] }

// phantomClient runs the transactions of one connection.
type phantomClient struct {
	conn   *pgconn.PgConn
	r      *rand.Rand
	number int
	level  string
	table  string
	done   []*phantomTxn
	err    error
}

func (c *phantomClient) ask(text string) ([][]string, error) {
	ctx, cancel := context.WithTimeout(context.Background(), time.Minute)
	defer cancel()
	var result *pgconn.Result
	if c.r.Intn(3) == 0 {
		result = c.conn.ExecParams(ctx, text, nil, nil, nil, nil).Read()
	} else if results, err := c.conn.Exec(ctx, text).ReadAll(); err != nil || len(results) == 0 {
		return nil, err
	} else {
		result = results[len(results)-1]
	}
	var rows [][]string
	for _, row := range result.Rows {
		var texts []string
		for _, value := range row {
			texts = append(texts, string(value))
		}
		rows = append(rows, texts)
	}
	return rows, result.Err
}

func (c *phantomClient) run(history string, count int) {
	for i := 0; i < count && c.err == nil; i++ {
		t := &phantomTxn{client: c.number, place: i, tag: fmt.Sprintf("%s.%d.%d", history, c.number, i)}
		err := c.transaction(t)
		var told *pgconn.PgError
		switch {
		case err == nil:
			c.done = append(c.done, t)
		case errors.As(err, &told) && (strings.HasPrefix(told.Code, "40") || told.Code == "23505"):
			_, c.err = c.ask("ROLLBACK")
		default:
			c.err = err
		}
	}
}

func (c *phantomClient) transaction(t *phantomTxn) error {
	if _, err := c.ask("BEGIN ISOLATION LEVEL " + c.level); err != nil {
		return err
	}
	own := map[int]bool{}
	if err := c.select_(t, own); err != nil {
		return err
	}
	for n := c.r.Intn(3); n >= 0; n-- {
		time.Sleep(time.Duration(c.r.Intn(3000)) * time.Microsecond)
		var err error
		if c.r.Intn(5) < 2 {
			err = c.select_(t, own)
		} else {
			err = c.write(t, own)
		}
		if err != nil {
			return err
		}
	}
	rows, err := c.ask("SELECT pg_current_xact_id_if_assigned()")
	if err == nil {
		t.xid, _ = strconv.ParseUint(rows[0][0], 10, 64)
		_, err = c.ask("COMMIT")
	}
	return err
}

func (c *phantomClient) select_(t *phantomTxn, own map[int]bool) error {
	if c.r.Intn(6) == 0 {
		return c.none(t, own)
	}
	it := phantomAsk{by: someCondition(c.r), found: map[int]string{}, also: map[int][]string{}, own: ownKeys(own)}
	rows, err := c.ask("SELECT pg_current_snapshot()")
	if err != nil {
		return err
	}
	it.before = snapOf(rows[0][0])
	texts, which := it.by.asks(c.table), 3*c.r.Intn(2)
	switch c.r.Intn(8) {
	case 0:
		which++
	case 1:
		which, it.locks = which+2, true
	}
	switch c.r.Intn(10) {
	case 0, 1:
		which, it.locks, it.by = len(texts)-1, false, it.by.inJoin()
	case 2:
		which, it.locks = len(texts)-2, false
	}
	text := texts[which]
	var shape *phantomShape
	if c.r.Intn(3) == 0 {
		its := someShape(c.r, c.table)
		shape, text, it.locks = &its, its.text, false
		if its.reads != "" {
			if _, err := c.ask(its.reads); err != nil {
				return err
			}
			if rows, err = c.ask("SELECT pg_current_snapshot()"); err != nil {
				return err
			}
			it.before = snapOf(rows[0][0])
		}
	}
	if rows, err = c.ask(text); err != nil {
		return err
	}
	if it.text = text; shape != nil {
		it.by, it.alone = shape.asked(rows)
	}
	if len(rows) == 0 || it.locks {
		its, err := c.ask("SELECT pg_current_snapshot()")
		if err != nil {
			return err
		}
		it.after = snapOf(its[0][0])
	}
	for _, row := range rows {
		if it.before = snapOf(row[2]); !it.locks {
			it.after = it.before
		}
		key, _ := strconv.Atoi(row[0])
		switch before, is := it.found[key]; {
		case !is:
			it.found[key] = row[1]
		case row[1] == t.tag: // its own one counts as the key's
			it.found[key], it.also[key] = row[1], append(it.also[key], before)
		default:
			it.also[key] = append(it.also[key], row[1])
		}
	}
	t.asks = append(t.asks, it)
	return nil
}

// changes runs a statement that writes. What it passed over it has read, as SELECT .. FOR UPDATE does. The proxy learns what
// it got from the log.
func (c *phantomClient) changes(t *phantomTxn, own map[int]bool, text string, by *phantomCondition) ([][]string, error) {
	if by == nil {
		return c.ask(text + " RETURNING id, tag")
	}
	before, err := c.ask("SELECT pg_current_snapshot()")
	if err != nil {
		return nil, err
	}
	rows, err := c.ask(text + " RETURNING id, tag")
	if err != nil {
		return nil, err
	}
	after, err := c.ask("SELECT pg_current_snapshot()")
	if err != nil {
		return nil, err
	}
	it := phantomAsk{text: text, by: *by, found: map[int]string{}, own: ownKeys(own), locks: true, before: snapOf(before[0][0]), after: snapOf(after[0][0])}
	for _, row := range rows {
		k, _ := strconv.Atoi(row[0])
		it.own[k] = true
	}
	t.asks = append(t.asks, it)
	return rows, nil
}

func (c *phantomClient) write(t *phantomTxn, own map[int]bool) error {
	key, a, b := 1+c.r.Intn(phantomKeys), strconv.Itoa(c.r.Intn(3)), c.r.Intn(4)
	if c.r.Intn(8) == 0 {
		a = "NULL"
	}
	undone, deletes, unless := c.r.Intn(8) == 0, false, -1
	text, none := "", someCondition(c.r)
	var by *phantomCondition // what it asks by
	itself := &phantomCondition{fmt.Sprintf("id = %d", key), func(v phantomRow) bool { return v.id == key }}
	switch c.r.Intn(9) {
	case 0, 1:
		text = fmt.Sprintf("INSERT INTO %s VALUES (%d, %s, %d, '%s', %s) ON CONFLICT DO NOTHING", c.table, key, a, b, t.tag, moodOf(a))
	case 2:
		text, by = fmt.Sprintf("UPDATE "+c.table+" SET a = %s, tag = '%s', m = %s WHERE id = %d", a, t.tag, moodOf(a), key), itself
	case 3:
		text, by = fmt.Sprintf("UPDATE "+c.table+" SET b = %d, tag = '%s' WHERE id = %d", b, t.tag, key), itself
	case 4:
		its := someCondition(c.r)
		text, by = fmt.Sprintf("UPDATE "+c.table+" SET b = %d, tag = '%s' WHERE %s AND id > 0", b, t.tag, its.text), &its
	case 5:
		its := conditionOf(3, c.r.Intn(3), c.r.Intn(3))
		deletes = true
		text, by = fmt.Sprintf("DELETE FROM %s WHERE %s AND id > 0", c.table, its.text), &its
	case 6:
		deletes = true
		text, by = fmt.Sprintf("DELETE FROM %s WHERE id = %d", c.table, key), itself
	default:
		unless = c.r.Intn(3)
		deletes = unless == 2
	}
	if undone {
		if _, err := c.ask("SAVEPOINT a"); err != nil {
			return err
		}
	}
	rows, err := [][]string(nil), error(nil)
	if unless >= 0 {
		rows, err = c.writesUnless(t, own, unless, none, key, a, b)
	} else {
		rows, err = c.changes(t, own, text, by)
	}
	if err != nil {
		return err
	}
	if undone {
		if deletes { // what it removed it has read, though that is undone
			for _, row := range rows {
				k, _ := strconv.Atoi(row[0])
				t.asks = append(t.asks, phantomAsk{found: map[int]string{k: row[1]}, alone: true})
			}
		}
		seen := map[int]bool{}
		for k := range own {
			seen[k] = true
		}
		for _, row := range rows {
			k, _ := strconv.Atoi(row[0])
			seen[k] = true
		}
		if err := c.select_(t, seen); err != nil {
			return err
		}
		// What it wrote isn't in the log, so nobody knows what this SELECT saw but by its snapshot.
		_, err := c.ask("ROLLBACK TO a")
		return err
	}
	for _, row := range rows {
		k, _ := strconv.Atoi(row[0])
		own[k] = true
	}
	return nil
}
