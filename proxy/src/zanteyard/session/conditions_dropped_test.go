package session

import (
	"context"
	"strings"
	"testing"
	"time"

	"zanteyard/catalog"
	"zanteyard/definitions"
)

const droppedSchema = `DROP TABLE IF EXISTS whole, less CASCADE; DROP FUNCTION IF EXISTS few(int, int) CASCADE;
	CREATE TABLE whole (id int PRIMARY KEY, v int); CREATE TABLE less (id int PRIMARY KEY, v int);
	INSERT INTO whole SELECT i, i FROM generate_series(1, 6) i; INSERT INTO less SELECT i, i FROM generate_series(4, 8) i;
	CREATE FUNCTION few(whole) RETURNS SETOF int LANGUAGE sql IMMUTABLE AS 'SELECT 1 WHERE $1.v > 3';
	CREATE FUNCTION few(less) RETURNS SETOF int LANGUAGE sql IMMUTABLE AS 'SELECT 1 WHERE $1.v > 99';
	CREATE FUNCTION few(int, int) RETURNS SETOF int LANGUAGE sql IMMUTABLE AS 'SELECT 1 WHERE $1 > 3';
	CREATE OPERATOR @#@ (LEFTARG = int, RIGHTARG = int, FUNCTION = few)`

// TestAsksOfDropped: rows that a statement drops by what looks like a column, or an operator, are none that it passed over.
func TestAsksOfDropped(t *testing.T) {
	needServer(t)
	alone(t)
	sql(t, droppedSchema)
	defer sql(t, "DROP TABLE whole, less CASCADE; DROP FUNCTION few CASCADE")
	its, err := definitions.Open(context.Background(), config(), time.Hour, func(string) {}, catalog.WithColumns)
	if err != nil {
		t.Fatal(err)
	}
	const several = "not: a function that returns any number of rows"
	for _, x := range []struct{ text, want string }{
		// ORDER BY id means the result's column, which an outer join leaves NULL.
		{"SELECT less.id FROM whole LEFT JOIN less USING (id) WHERE whole.v > 0 ORDER BY id LIMIT 2", "not: LIMIT"},
		{"SELECT less.* FROM whole LEFT JOIN less USING (id) WHERE whole.v > 0 ORDER BY id LIMIT 2", "not: LIMIT"},
		{"SELECT less.id FROM (SELECT * FROM whole WHERE v > 0) AS s LEFT JOIN less USING (id) ORDER BY id LIMIT 2", "not: LIMIT"},
		{"SELECT whole.id FROM whole LEFT JOIN less USING (id) WHERE whole.v > 0 ORDER BY whole.id LIMIT 2", "whole WHERE v > 0 AND id < 2: 1,2"},
		// Functions that return no row for some.
		{"SELECT whole.v, whole.few FROM whole WHERE v > 1", several},
		{"SELECT whole.v, (whole).few FROM whole WHERE v > 1", several},
		{"SELECT v, v @#@ v FROM whole WHERE v > 1", several},
		{"SELECT s.v FROM (SELECT whole.v, whole.few FROM whole WHERE v > 1) AS s", several},
		{"SELECT s.v FROM (SELECT v, v OPERATOR(public.@#@) v AS y FROM whole WHERE v > 1) AS s", several},
		{"SELECT v FROM whole WHERE v > 1 AND NOT EXISTS (SELECT less.few FROM less WHERE v > 5)", several},
		{"SELECT v FROM whole WHERE v > 1 AND NOT EXISTS (SELECT 2 @#@ 1 FROM less WHERE v > 5)", several},
		{"SELECT whole.few FROM whole WHERE id = 1", several},
		// An aggregate has a row in any case.
		{"INSERT INTO whole SELECT whole.count + 90 FROM whole WHERE NOT EXISTS (SELECT 1 FROM less WHERE v > 5)", ""},
	} {
		p := through(t, "postgres", func(o *Options) {
			o.Plans, o.Generation, o.Shared = its, its.Generation, NewShared()
		})
		for i := 0; i < 2; i++ {
			p.warm(x.text)
			p.settle()
		}
		p.query("DELETE FROM whole WHERE id > 90")
		p.sink.take()
		p.query(x.text)
		var got []string
		for _, it := range p.sink.take() {
			if len(it.Absent) > 0 {
				t.Errorf("%s: %+v", x.text, it.Absent)
			}
			for _, one := range it.Asks {
				got = append(got, shownAsk(one))
			}
		}
		if text := strings.Join(got, "; "); text != x.want {
			t.Errorf("%s: %q, wanted %q", x.text, text, x.want)
		}
	}
}
