// Package statements makes random statements for tests, of all shapes that a plan distinguishes, over tables whose names are
// hard to quote.
package statements

import (
	"fmt"
	"math/rand"
	"strings"
)

// tables are those of Schema, and some ways to write them.
var tables = []string{"a", `"A"`, `"select"`, `"a ""q"" b"`, `"Ünï-çödé"`, `"returning"`, `"x.y"."t'k\b"`, "link",
	"parts", "typed", "bare", "look", "public.a", `public."select"`, "parts_low", "A"}

// Schema is a schema whose names are hard to quote.
const Schema = `
CREATE TABLE a (id int PRIMARY KEY, n int, s text);
CREATE TABLE "A" (id int PRIMARY KEY, n int, s text);
CREATE TABLE "select" (id int PRIMARY KEY, n int, "from" text, "Where" int);
CREATE TABLE "a ""q"" b" (id int, "x,y" int, n int, s text, PRIMARY KEY ("x,y", id));
CREATE TABLE "Ünï-çödé" ("id" int PRIMARY KEY, n int, s text, "π" int);
CREATE TABLE "returning" (id int, n int PRIMARY KEY, s text, "returning" int);
CREATE SCHEMA "x.y";
CREATE TABLE "x.y"."t'k\b" (id int PRIMARY KEY, n int, s text);
CREATE TABLE link (id int, n int, PRIMARY KEY (id, n));
CREATE TABLE parts (id int, n int, s text, PRIMARY KEY (n, id)) PARTITION BY RANGE (n);
CREATE TABLE parts_low PARTITION OF parts FOR VALUES FROM (MINVALUE) TO (3);
CREATE TABLE parts_high PARTITION OF parts FOR VALUES FROM (3) TO (MAXVALUE);
CREATE TABLE typed (id int, n int, at timestamptz, u uuid, d numeric, s text, PRIMARY KEY (at, u, d));
CREATE TABLE bare (id int, n int, s text);
CREATE VIEW look AS SELECT * FROM a;
CREATE INDEX ON a (n, s);
CREATE FUNCTION filled(VARIADIC names text[]) RETURNS void LANGUAGE plpgsql AS $$
DECLARE name text;
BEGIN
  FOREACH name IN ARRAY names LOOP
    EXECUTE format('INSERT INTO %s (id, n) SELECT i, i %% 4 FROM generate_series(1, 6) i', name);
  END LOOP;
END$$;
SELECT filled('a', '"A"', '"select"', '"Ünï-çödé"', '"x.y"."t''k\b"', 'link', 'parts', 'bare');
INSERT INTO "a ""q"" b" SELECT i, i % 3, i % 4, 's' || i FROM generate_series(1, 6) i;
INSERT INTO "returning" SELECT i % 4, i, 's' || i, i FROM generate_series(1, 6) i;
INSERT INTO typed SELECT i, i % 4, 'epoch'::timestamptz + i * interval '1 day',
  ('00000000-0000-0000-0000-00000000000' || i)::uuid, i / 4.0, 's' || i FROM generate_series(1, 6) i;
UPDATE a SET s = 's' || id; DELETE FROM "A" WHERE id = 2; UPDATE parts SET n = n + 1 WHERE id = 1;
DROP FUNCTION filled;
`

// New returns a Writer that draws from these random numbers.
func New(r *rand.Rand) *Writer { return &Writer{Rand: r} }

// Statement writes one of any shape.
func (w *Writer) Statement() string {
	switch w.Intn(7) {
	case 6:
		if w.once(3) {
			return w.SetOperation()
		}
		return w.Merged()
	case 0:
		return w.Insert()
	case 1:
		return w.Change()
	}
	return w.Query()
}

// Writer makes random statements. Each word is followed by a random space or comment.
type Writer struct {
	*rand.Rand
	words []string
	names []string // of the tables in FROM, as they are referred to
	with  []string // of the parts of WITH
}

func (w *Writer) say(words ...string) {
	w.words = append(w.words, words...)
}

func (w *Writer) pick(words ...string) string { return words[w.Intn(len(words))] }
func (w *Writer) once(in int) bool            { return w.Intn(in) == 0 }

// text joins the words.
func (w *Writer) text() string {
	var out strings.Builder
	if w.once(4) {
		out.WriteString(w.pick("/* SELECT 'x FROM y */", "-- RETURNING\n", "\t"))
	}
	for i, word := range w.words {
		if w.once(6) && strings.ToUpper(word) == word && !strings.ContainsAny(word, `"'$`) {
			word = strings.ToLower(word)
		}
		out.WriteString(word)
		switch {
		case i == len(w.words)-1:
		case w.once(12):
			out.WriteString(w.pick("\n", "\t ", " -- , FROM 'x' $$\n", "/* , * */", " /* /* ; */ */ ", "  ", "\r\n"))
		default:
			out.WriteString(" ")
		}
	}
	out.WriteString(w.pick("", "", ";", " -- end", "/* x='y' */", " ;; "))
	return out.String()
}

// column returns a reference to a column of the tables in FROM.
func (w *Writer) column() []string {
	if len(w.names) == 0 {
		return []string{"1"}
	}
	column := w.pick("id", "n", "id", "n", "ID", `"id"`)
	if len(w.names) == 1 && w.once(3) {
		return []string{column}
	}
	return []string{w.pick(w.names...), ".", column}
}

func (w *Writer) number() string {
	return w.pick("0", "1", "2", "3", "4", "5", "6", "'3'", "-1", "2.5", "$$4$$::int", "1::int8", "$1::int")
}

func (w *Writer) expression(depth int) {
	if depth <= 0 {
		if w.once(3) {
			w.say(w.number())
		} else {
			w.say(w.column()...)
		}
		return
	}
	switch w.Intn(12) {
	case 0:
		w.say("(")
		w.expression(depth - 1)
		w.say(w.pick("+", "-", "*"))
		w.expression(depth - 1)
		w.say(")")
	case 1:
		w.say("coalesce", "(")
		w.expression(depth - 1)
		w.say(",", w.number(), ")")
	case 2:
		w.say("CASE", "WHEN")
		w.condition(depth - 1)
		w.say("THEN")
		w.expression(depth - 1)
		w.say("ELSE", "0", "END")
	case 3:
		w.say("substring", "(", w.pick("'from'", "E'a\\'b'", `U&'\0041'`), "from", "1", "for", "2", ")", "::", "text", "=", "'f'")
	case 4:
		w.say("(", "SELECT", w.pick("count(*)", "max(id)", "min(n)"), "FROM", w.pick(tables[:8]...), "q", "WHERE", "q", ".", "id", "=")
		w.expression(0)
		w.say(")")
	case 5:
		w.say("extract", "(", "year", "FROM", "timestamp", "'2020-01-01'", ")")
	case 6:
		w.say("rank", "(", ")", "OVER", "(", "ORDER", "BY")
		w.expression(0)
		w.say(",", "1", ")")
	default:
		w.expression(0)
	}
}

func (w *Writer) condition(depth int) {
	if depth <= 0 {
		w.expression(0)
		w.say(w.pick("=", "<", ">=", "<>", "IS DISTINCT FROM", "IS NOT DISTINCT FROM", "="))
		w.expression(0)
		return
	}
	switch w.Intn(8) {
	case 0:
		w.condition(depth - 1)
		w.say(w.pick("AND", "OR"))
		w.condition(depth - 1)
	case 1:
		w.say("NOT", "(")
		w.condition(depth - 1)
		w.say(")")
	case 2:
		w.expression(0)
		w.say("IN", "(", w.number(), ",", w.number(), ",", "NULL", ")")
	case 3:
		w.say("EXISTS", "(", "SELECT", "1", "FROM", w.pick(tables...), "e", "WHERE", "e", ".", "id", "=")
		w.expression(0)
		w.say(")")
	case 4:
		w.expression(0)
		w.say("BETWEEN", "1", "AND", "4")
	default:
		w.condition(0)
	}
}

// table writes a table of FROM, and its name.
func (w *Writer) table() {
	if w.once(8) {
		w.say(w.pick("LATERAL", ""))
		w.subquery(2)
		w.alias()
		return
	}
	if len(w.with) > 0 && w.once(2) {
		w.say(w.pick(w.with...))
		w.alias()
		return
	}
	if w.once(25) {
		w.say("(", "VALUES", "(", "1", ",", "2", ")", ",", "(", "3", ",", "4", ")", ")", "AS", fmt.Sprintf("v%d", len(w.names)),
			"(", "id", ",", "n", ")")
		w.names = append(w.names, fmt.Sprintf("v%d", len(w.names)))
		return
	}
	table := w.pick(tables...)
	if w.once(10) {
		w.say("ONLY")
	}
	w.say(table)
	if w.once(3) {
		name := strings.TrimPrefix(strings.TrimPrefix(table, `"x.y".`), "public.")
		w.names = append(w.names, name)
		return
	}
	w.alias()
}

// subquery writes a SELECT in parentheses that has the columns id and n, and maybe more.
func (w *Writer) subquery(depth int) {
	table := w.pick(tables...)
	w.say("(", "SELECT")
	if w.once(8) {
		w.say(w.pick("DISTINCT", "DISTINCT ON (q.id)", "ALL"))
	}
	w.say(w.pick("id, n", "q.*", "*", "id, n, n AS from", "n, id", "q . id, q . n, count(*) OVER () AS c", "q.id, q.n, q.id AS n",
		"id, extract(year FROM now()), n", "id, n, (SELECT 1 FROM link LIMIT 1) AS one"))
	w.say("FROM")
	switch {
	case depth > 0 && w.once(3):
		w.subquery(depth - 1)
		w.say("q")
	case w.once(6):
		w.say(table, "q", "JOIN", w.pick(tables...), "r", "USING", "(", "id", ",", "n", ")")
	case w.once(6):
		w.say(table, "q", "LEFT JOIN", w.pick(tables...), "r", "ON", "r.id = q.n", "AND", "q.id > 2")
	default:
		w.say(table, "q")
	}
	if w.once(3) {
		w.say("WHERE", w.pick("q.id > 2", "q.n = 1 OR q.id = 3", "q.id IS DISTINCT FROM 4"))
	}
	switch w.Intn(5) {
	case 0, 1:
		w.say("ORDER BY", "q.id", ",", "q.n")
		w.say(w.pick("", "LIMIT 3", "OFFSET 1"))
	case 2:
		w.say(w.pick("FOR UPDATE", "FOR SHARE", "GROUP BY q.id, q.n", "UNION ALL SELECT 1, 2", "ORDER BY 1, 2"))
	}
	w.say(")")
}

func (w *Writer) alias() {
	name := w.pick("x", `"X"`, `"from"`, `"a ""b"`, `"ü"`, "é") + ""
	if n := len(w.names); n > 0 && w.Intn(8) > 0 {
		name = w.pick("y", `"Y z"`, `"1"`) + ""
		if n > 1 {
			name = fmt.Sprintf("z%d", n)
		}
	}
	w.say(w.pick("AS", ""), name)
	w.names = append(w.names, name)
}

func (w *Writer) from() {
	w.say("FROM")
	w.table()
	for n := w.Intn(5) - 2; n > 0; n-- {
		switch w.Intn(8) {
		case 0:
			w.say(",")
			w.table()
		case 1:
			w.say("CROSS", "JOIN")
			w.table()
		case 2:
			w.say("NATURAL", w.pick("", "LEFT"), "JOIN")
			w.table()
		case 3:
			w.say(w.pick("", "LEFT", "FULL"), "JOIN")
			w.table()
			w.say("USING", "(", w.pick("id", "n"), ")")
		default:
			w.say(w.pick("", "INNER", "LEFT", "LEFT OUTER", "RIGHT", "FULL"), "JOIN")
			left := w.pick(w.names...)
			w.table()
			w.say("ON", left, ".", w.pick("id", "n"), "=", w.names[len(w.names)-1], ".", w.pick("id", "n"))
		}
	}
}

// aggregate writes a SELECT whose aggregates have the same result in any order of the rows.
func (w *Writer) aggregate() string {
	w.say("SELECT")
	head := w.words
	w.words = nil
	w.from()
	from := w.words
	w.words = head
	for i := w.Intn(3); i >= 0; i-- {
		column := w.pick(w.names...) + "." + w.pick("id", "n")
		w.say(w.pick("count(*)", "count("+column+")", "sum("+column+")", "min("+column+")", "max("+column+")",
			"count(DISTINCT "+column+")", "sum("+column+") FILTER (WHERE "+column+" > 2)", "array_agg("+column+" ORDER BY "+column+")",
			"bool_or("+column+" = 3) AS from", "coalesce(max("+column+"), 0) + count(*)", "'x' AS from"))
		if i > 0 {
			w.say(",")
		}
	}
	w.say(from...)
	if w.once(2) {
		w.say("WHERE")
		w.condition(w.Intn(3))
	}
	if w.once(2) {
		name, column := w.pick(w.names...), w.pick("n", "id")
		w.say("GROUP", "BY", name, ".", column, "ORDER", "BY", name, ".", column)
		return w.text()
	}
	if w.once(4) {
		w.say("HAVING", w.pick("count(*) > 2", "max("+w.pick(w.names...)+".id) > 3", "true"))
	}
	w.say(w.pick("", "", "ORDER BY 1", "ORDER BY count(*)"), w.pick("", "", "LIMIT 1", "OFFSET 1"))
	return w.text()
}

// union writes a UNION ALL.
func (w *Writer) union() string {
	for i, parts := 0, 2+w.Intn(3); i < parts; i++ {
		inside := w.once(6)
		if i > 0 {
			w.say("UNION", w.pick("ALL", "ALL", "ALL", "ALL", "all", "ALL", "ALL", ""))
		}
		if inside {
			w.say("(")
		}
		w.names = nil
		w.say("SELECT")
		switch w.Intn(8) {
		case 0:
			w.say("1", ",", "2", "AS", w.pick("union", "x", "order"), w.pick("", "WHERE true"))
		case 1:
			w.say("count(*)", ",", "max(n)", "FROM", w.pick(tables...))
		default:
			head := w.words
			w.words = nil
			w.from()
			from := w.words
			w.words = head
			w.expression(1)
			w.say(w.pick("", "AS from", "label"), ",")
			w.say(w.pick(w.names...), ".", "n")
			w.say(from...)
			if w.once(2) {
				w.say("WHERE")
				w.condition(1)
			}
		}
		if inside {
			w.say(w.pick("ORDER BY 1, 2 LIMIT 2", "ORDER BY 2", ""), ")")
		}
	}
	w.say(w.pick("", "ORDER BY 1, 2", "ORDER BY 2, 1 LIMIT 5", "ORDER BY label", "ORDER BY 3"))
	return w.text()
}

// Query writes one.
func (w *Writer) Query() string {
	switch w.Intn(12) {
	case 0, 1:
		return w.aggregate()
	case 2:
		return w.union()
	}
	if w.once(6) {
		w.say("WITH", "w", "AS", w.pick("", "", "MATERIALIZED", "NOT MATERIALIZED"))
		w.subquery(1)
		if w.with = []string{"w"}; w.once(2) {
			w.say(",", "v", "AS", "(", "SELECT", w.pick("*", "id, n", "w.n, w.id"), "FROM", "w", w.pick("", "WHERE id > 2", "ORDER BY 1"), ")")
			w.with = append(w.with, "v")
		}
	}
	distinct := w.pick("", "", "", "", "", "", "", "ALL", "DISTINCT", "DISTINCT ON (1)", "DISTINCT ON (2)")
	w.say("SELECT", distinct)
	head := w.words
	w.words = nil
	w.from()
	from := w.words
	w.words = head
	targets := w.Intn(4) + 1
	for i := 0; i < targets; i++ {
		if i > 0 {
			w.say(",")
		}
		switch w.Intn(8) {
		case 0:
			w.say("*")
		case 1:
			w.say(w.pick(w.names...), ".", "*")
		case 2:
			w.say(w.pick(w.names...))
		case 3:
			w.say(w.pick("count(*)", "max(1)", "generate_series(1, 2)", "'x'", "NULL"))
		default:
			w.expression(w.Intn(3))
			w.say(w.pick("", "", "AS from", `AS "x y"`, "label", "AS order", "AS distinct"))
		}
	}
	w.say(from...)
	if w.once(2) {
		w.say("WHERE")
		w.condition(w.Intn(3))
	}
	if w.once(20) {
		w.say("GROUP", "BY", "1")
	} else if w.once(10) {
		for i, name := range w.names {
			if i > 0 {
				w.say(",")
			} else {
				w.say("GROUP", "BY")
			}
			w.say(name, ".", "id", ",", name, ".", "n")
		}
		w.say(w.pick("", "", ", 1", ", 2"))
	}
	if w.once(12) {
		w.say(w.pick("UNION", "UNION ALL", "EXCEPT"), "SELECT", "1", "FROM", w.pick(tables...))
	}
	limit := w.pick("", "", "", "LIMIT 2", "OFFSET 1", "LIMIT 3 OFFSET 1", "FETCH FIRST 2 ROWS ONLY", "FETCH NEXT ROW WITH TIES")
	total := limit != "" || strings.HasPrefix(distinct, "DISTINCT ON") // it must be certain which rows these are
	if w.once(2) || total {
		w.say("ORDER", "BY", w.pick("1", "2", "1 DESC, 2", "3", "label", "1 NULLS FIRST"))
		if w.once(2) {
			w.say(",")
			w.expression(0)
		}
	}
	if total {
		for _, name := range w.names {
			w.say(",", name, "::", "text")
		}
	}
	w.say(limit)
	w.say(w.pick("", "", "", "", "FOR UPDATE", "FOR NO KEY UPDATE", "FOR SHARE SKIP LOCKED", "FOR UPDATE OF "+w.pick(w.names...)))
	return w.text()
}

func (w *Writer) returning() {
	if w.once(2) {
		w.say("RETURNING", w.pick("id", "n AS from", "id + n, 'x'", "n -- x\n", w.names[0]+".*"))
	}
}

// Insert writes one.
func (w *Writer) Insert() string {
	table := w.pick(tables...)
	w.names = []string{"x"}
	w.say("INSERT", "INTO", table, "AS", "x", "(", "id", ",", "n", ")")
	switch w.Intn(4) {
	case 0:
		w.say("SELECT", "id", "+", "100", ",", "n", "FROM", w.pick(tables...))
	default:
		w.say("VALUES")
		for i := w.Intn(4); i >= 0; i-- {
			w.say("(", w.pick("100", "200", "1", "id"), "+", fmt.Sprint(i), ",", w.pick("DEFAULT", "1", "7"), ")")
			if i > 0 {
				w.say(",")
			}
		}
	}
	w.say(w.pick("", "", "ON CONFLICT DO NOTHING", "ON CONFLICT (id) DO UPDATE SET n = excluded.n + x.n"))
	w.returning()
	return w.text()
}

// Change writes one.
func (w *Writer) Change() string {
	update := w.once(2)
	if update {
		w.say("UPDATE")
	} else {
		w.say("DELETE", "FROM")
	}
	w.table()
	target := w.names[0]
	if update {
		w.say("SET", "n", "=", w.pick("n + 1", "DEFAULT", "5", target+".id"))
	}
	if w.once(3) {
		if w.say("USING"); update {
			w.words[len(w.words)-1] = "FROM"
		}
		w.table()
	}
	w.say("WHERE")
	switch w.Intn(3) {
	case 0:
		w.say(target, ".", "id", "=", w.number())
	case 1:
		w.say(target, ".", "id", "=", w.number(), "AND", target, ".", "n", "=", w.number())
	default:
		w.condition(w.Intn(3))
	}
	w.returning()
	return w.text()
}
