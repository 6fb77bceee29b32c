package main

import (
	"context"
	"errors"
	"flag"
	"fmt"
	"math/rand"
	"strings"
	"testing"
	"time"

	"github.com/jackc/pgconn"
)

var (
	serials    = flag.Int("serials", 500, "how many transactions of serial histories are tried")
	serialSeed = flag.Int64("serial-seed", time.Now().UnixNano(), "of these")
)

// Writers run one after another, and readers keep one snapshot while writers run. So each history is serial, by the writers'
// order and with each reader where its snapshot was taken: nothing may be told, whatever statements it has.

const serialSchema = `CREATE TYPE mood AS ENUM ('m3', 'm0', 'm2', 'm1');
	CREATE TABLE a (id int PRIMARY KEY, x int, t text NOT NULL, m mood); CREATE INDEX ON a (x);
	CREATE TABLE b (id int PRIMARY KEY, a_id int, z int); CREATE INDEX ON b (a_id);
	CREATE TABLE c (id int, n int, z int, PRIMARY KEY (id, n)); CREATE TABLE own (id int PRIMARY KEY, n int NOT NULL);
	INSERT INTO a SELECT i, i % 4, 'x', 'm1' FROM generate_series(0, 4) i; INSERT INTO b SELECT i, i % 5, i % 4 FROM generate_series(0, 6) i;
	INSERT INTO c SELECT i / 3, i % 3, i % 4 FROM generate_series(0, 6) i; INSERT INTO own SELECT i, 0 FROM generate_series(0, 9) i`

// serialRun is one such history.
type serialRun struct {
	t       *testing.T
	r       *rand.Rand
	asks    []string // in which each # stands for a number
	writes  []string
	conns   []*pgconn.PgConn // of readers, and then of writers
	reading []int            // how many more statements each reader has, 0 if none is open
	failed  map[string]int
	done    int
}

const (
	serialReaders = 5
	serialWriters = 3
)

// mayFail are errors of serial histories, and of statements that say too little.
var mayFail = map[string]bool{"23505": true, "21000": true, "40001": true, "42702": true, "42P10": true, "42601": true}

// run runs a text with numbers for its marks. An error that a serial history may have, too, is none.
func (s *serialRun) run(conn *pgconn.PgConn, text string) bool {
	s.t.Helper()
	ctx, cancel := context.WithTimeout(context.Background(), time.Minute)
	defer cancel()
	text = filled(s.r, text)
	var err error
	if s.r.Intn(3) == 0 {
		err = conn.ExecParams(ctx, text, nil, nil, nil, nil).Read().Err
	} else {
		_, err = conn.Exec(ctx, text).ReadAll()
	}
	var told *pgconn.PgError
	switch {
	case err == nil:
		return true
	case errors.As(err, &told) && mayFail[told.Code]:
		s.failed[told.Code]++
	default:
		s.t.Fatalf("%s: %v", text, err)
	}
	return false
}

func filled(r *rand.Rand, text string) string {
	out := make([]byte, 0, len(text))
	for i := range text {
		if text[i] == '#' {
			out = append(out, byte('0'+r.Intn(4)))
		} else {
			out = append(out, text[i])
		}
	}
	return string(out)
}

// read lets a reader begin, ask, or end.
func (s *serialRun) read(i int) {
	conn := s.conns[i]
	if s.reading[i] == 0 {
		s.run(conn, "BEGIN ISOLATION LEVEL "+[]string{"REPEATABLE READ", "SERIALIZABLE READ ONLY"}[s.r.Intn(2)])
		s.reading[i] = 2 + s.r.Intn(6)
	}
	if s.reading[i]--; s.run(conn, s.asks[s.r.Intn(len(s.asks))]) && s.reading[i] > 0 {
		return
	}
	s.run(conn, "COMMIT")
	s.reading[i], s.done = 0, s.done+1
}

// write runs a whole transaction that writes.
func (s *serialRun) write() {
	conn := s.conns[serialReaders+s.r.Intn(serialWriters)]
	pick := func() string {
		if s.r.Intn(3) == 0 {
			return s.asks[s.r.Intn(len(s.asks))]
		}
		return s.writes[s.r.Intn(len(s.writes))]
	}
	s.done++
	if s.r.Intn(4) == 0 {
		s.run(conn, pick())
		return
	}
	s.run(conn, "BEGIN ISOLATION LEVEL "+[]string{"READ COMMITTED", "REPEATABLE READ", "SERIALIZABLE"}[s.r.Intn(3)])
	for n, undoes := 1+s.r.Intn(4), false; n > 0; n-- {
		if s.r.Intn(8) == 0 {
			s.run(conn, "SAVEPOINT s")
			undoes = true
		}
		if !s.run(conn, pick()) {
			break
		}
		if undoes && s.r.Intn(2) == 0 {
			s.run(conn, "ROLLBACK TO s")
		}
	}
	s.run(conn, "COMMIT")
}

// TestSerialHistories: of what is serial nothing is told. If what a reader saw were told as of another version, that would
// be told in many cases, so the histories leave few other orders.
func TestSerialHistories(t *testing.T) {
	c := start(t, "max_connections=100")
	direct, err := pgconn.Connect(context.Background(), sourceOf(c, "postgres"))
	if err != nil {
		t.Fatal(err)
	}
	defer direct.Close(context.Background())
	sql(t, direct, serialSchema)
	t.Logf("-serial-seed %d", *serialSeed)
	s := &serialRun{t: t, r: rand.New(rand.NewSource(*serialSeed)), failed: map[string]int{}, reading: make([]int, serialReaders)}
	shapes := &serialShapes{s.r}
	for len(s.asks) < 90 {
		s.asks = append(s.asks, shapes.ask())
	}
	for len(s.writes) < 30 {
		s.writes = append(s.writes, shapes.write())
	}
	p := begin(t, c, "--between", "10h", "--first-sessions", "24")
	p.until(`["open"`)
	h := &hearing{p: p, g: newGraph()}
	for len(s.conns) < serialReaders+serialWriters {
		s.conns = append(s.conns, p.connect())
	}
	for i := 0; i < 3; i++ { // until all is tried
		for n, text := range append(append([]string(nil), s.asks...), s.writes...) {
			conn := s.conns[n%len(s.conns)]
			s.run(conn, "BEGIN")
			s.run(conn, text)
			s.run(conn, "ROLLBACK")
		}
	}
	for s.done = 0; s.done < *serials; {
		if i := s.r.Intn(serialReaders + 3); i < serialReaders {
			s.read(i)
		} else {
			s.write()
		}
	}
	for i := range s.reading {
		if s.reading[i] > 0 {
			s.run(s.conns[i], "COMMIT")
		}
	}
	h.settle()
	h.stop()
	all := func(int) bool { return true }
	h.g.part(0, all).check(t, false)
	its := h.said.Conditions
	found, tried := s.shifted(h.g, all)
	t.Logf("%d transactions, %v failed; %d conditions, %d followed, %d rows passed over; of %d reads of another version %d are told\n%v",
		s.done, s.failed, its.Seen, its.Followed, its.PassedOver, tried, found, its.LeftOut)
	if its.PassedOver < uint64(*serials) || found*3 < tried || tried < 20 {
		t.Error("that is too little to find anything")
	}
}

// shifted tries reads that readers might have made instead: of the version behind, or before, the one that they saw. It counts
// those that are told.
func (s *serialRun) shifted(g *graph, all func(int) bool) (found, tried int) {
	next, before := map[[3]int][3]int{}, map[[3]int][3]int{}
	for id, reads := range g.reads {
		for _, read := range reads {
			for _, key := range g.writes[id] {
				if written := [3]int{key, g.names[id][0], g.names[id][1]}; key == read[0] {
					next[read], before[written] = written, read
				}
			}
		}
	}
	for n := 0; n < 5000 && tried < 100; n++ {
		id := s.r.Intn(len(g.names))
		if len(g.writes[id]) > 0 || len(g.reads[id]) == 0 {
			continue
		}
		at := s.r.Intn(len(g.reads[id]))
		read := g.reads[id][at]
		to, is := next[read]
		if n%2 == 0 {
			to, is = before[read]
		}
		if !is {
			continue
		}
		tried++
		g.reads[id][at] = to
		if cycle, _ := g.part(0, all).violation(false); cycle != "" {
			found++
		}
		g.reads[id][at] = read
	}
	return found, tried
}

func (s *serialShapes) pick(from ...string) string { return from[s.r.Intn(len(from))] }

// serialShapes draws statements.
type serialShapes struct{ r *rand.Rand }

var serialColumns = map[string][]string{"a": {"id", "x"}, "b": {"id", "a_id", "z"}, "c": {"id", "n", "z"}}

// column is one of a table's, by the name by which the statement knows the table: its own, or with an o in front.
func (s *serialShapes) column(name string) string {
	return name + "." + s.pick(serialColumns[name[len(name)-1:]]...)
}

// test is a condition on some of the tables.
func (s *serialShapes) test(names ...string) string {
	one := s.column(s.pick(names...))
	switch s.r.Intn(12) {
	case 0:
		return one + s.pick(" IS NULL", " IS NOT NULL")
	case 1:
		return one + s.pick(" IN (#, #)", " NOT IN (#, #)", " BETWEEN # AND #")
	case 2:
		return "(" + s.test(names...) + " OR " + s.test(names...) + ")"
	case 3:
		return "NOT (" + s.test(names...) + ")"
	case 4:
		return "(abs(" + one + ") = # OR " + s.test(names...) + ")"
	case 5:
		return one + s.pick(" = ", " <> ", " < ") + s.column(s.pick(names...))
	case 6, 7:
		for _, name := range names {
			if strings.HasSuffix(name, "a") {
				return name + ".m" + s.pick(" = 'm#'", " = 'm#'", " <> 'm#'", " IN ('m#')", " > 'm#'", " BETWEEN 'm#' AND 'm#'")
			}
		}
	}
	return one + s.pick(" = #", " = #", " > #", " <> #", " IS DISTINCT FROM #")
}

// within is a condition with a subquery.
func (s *serialShapes) within(names ...string) string {
	table := s.pick("a", "b", "c")
	inner := "o" + table
	where := s.test(inner)
	if s.r.Intn(2) == 0 {
		where += " AND " + s.test(inner)
	}
	if s.r.Intn(2) == 0 && len(names) > 0 {
		where += " AND " + s.column(inner) + " = " + s.column(s.pick(names...))
	}
	from := " FROM " + table + " AS " + inner + " WHERE " + where
	outer := "#"
	if len(names) > 0 && s.r.Intn(3) > 0 {
		outer = s.column(s.pick(names...))
	}
	switch s.r.Intn(8) {
	case 0:
		return outer + s.pick(" IN", " = ANY") + " (SELECT " + s.column(inner) + from + ")"
	case 1, 2:
		return outer + s.pick(" NOT IN", " <> ALL") + " (SELECT " + s.column(inner) + from + ")"
	case 3:
		return outer + s.pick(" = ", " > ", " <> ") + "(SELECT " + s.pick("max", "min", "count") + "(" + s.column(inner) + ")" + from + ")"
	case 4:
		return "EXISTS (SELECT 1" + from + ")"
	}
	return "NOT EXISTS (SELECT 1" + from + s.pick("", "", " LIMIT 1") + ")"
}

// from is a FROM with its tables' names.
func (s *serialShapes) from() (text string, names []string) {
	names = []string{"a", "b", "c"}
	s.r.Shuffle(3, func(i, k int) { names[i], names[k] = names[k], names[i] })
	names = names[:[]int{1, 1, 1, 2, 2, 3}[s.r.Intn(6)]]
	text = names[0]
	for i := 1; i < len(names); i++ {
		text += s.pick(" JOIN ", " JOIN ", " LEFT JOIN ") + names[i] + " ON " + s.column(names[i]) + " = " + s.column(s.pick(names[:i]...))
		if s.r.Intn(3) == 0 {
			text += " AND " + s.test(names[:i+1]...)
		}
	}
	return text, names
}

func (s *serialShapes) where(names ...string) string {
	text, word := "", " WHERE "
	for n := s.r.Intn(3); n > 0; n-- {
		text, word = text+word+s.test(names...), " AND "
	}
	if s.r.Intn(2) == 0 || text == "" {
		text += word + s.within(names...)
	}
	return text
}

// ask is a SELECT.
func (s *serialShapes) ask() string {
	if s.r.Intn(2) == 0 {
		return s.dropping()
	}
	from, names := s.from()
	where, first := s.where(names...), s.column(names[0])
	switch s.r.Intn(16) {
	case 0, 1:
		return "SELECT count(*) FROM " + from + where
	case 2:
		return "SELECT sum(" + first + "), max(" + first + ") FROM " + from + where
	case 3:
		return "SELECT DISTINCT " + first + " FROM " + from + where + s.pick("", " ORDER BY 1")
	case 4:
		return "SELECT " + first + ", count(*) FROM " + from + where + " GROUP BY " + first + s.pick("", " HAVING count(*) > #")
	case 5:
		return "SELECT " + names[0] + ".* FROM " + from + where + " ORDER BY " + first + s.pick(" LIMIT 2", " LIMIT 40")
	case 6:
		return "SELECT 1 WHERE " + s.within()
	case 7:
		return "SELECT s.* FROM (SELECT " + names[0] + ".* FROM " + from + where + ") AS s WHERE s.id > #"
	case 8:
		return "WITH s AS (SELECT " + names[0] + ".* FROM " + from + where + ") SELECT id FROM s"
	case 9:
		return "SELECT " + names[0] + ".id FROM " + from + where + " UNION ALL SELECT id FROM a WHERE x = #"
	case 10:
		return "SELECT EXISTS (SELECT 1 FROM " + from + where + ")"
	}
	return "SELECT " + s.pick("*", names[0]+".*", first) + " FROM " + from + where
}

// write is a statement that writes.
func (s *serialShapes) write() string {
	table := s.pick("a", "b", "c")
	columns := serialColumns[table]
	last := columns[len(columns)-1]
	values := map[string]string{"a": "#, #, 'x', 'm#'", "b": "#, #, #", "c": "#, #, #"}[table]
	by := " WHERE " + s.test(table)
	if s.r.Intn(3) == 0 {
		by += " AND " + s.within(table)
	}
	switch s.r.Intn(9) {
	case 0:
		return "INSERT INTO " + table + " VALUES (" + values + ") ON CONFLICT DO NOTHING"
	case 1:
		key := map[string]string{"a": "id", "b": "id", "c": "id, n"}[table]
		return "INSERT INTO " + table + " VALUES (" + values + ") ON CONFLICT (" + key + ") DO UPDATE SET " + last + " = #"
	case 2, 3:
		return "INSERT INTO " + table + " SELECT " + values + " WHERE " + s.within() + " ON CONFLICT DO NOTHING"
	case 4:
		return "DELETE FROM " + table + by
	case 5:
		return "DELETE FROM " + table + " WHERE id = #"
	case 6:
		return "UPDATE " + table + " SET id = id + 4" + " WHERE id = #"
	case 7:
		if table == "a" {
			return "UPDATE a SET m = 'm#'" + by
		}
		return fmt.Sprintf("UPDATE own SET n = n + 1 WHERE id = %d AND %s", s.r.Intn(10), s.within())
	}
	return "UPDATE " + table + " SET " + last + " = #" + by
}
