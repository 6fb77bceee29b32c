package condition_test

import (
	"testing"

	"zanteyard/condition"
)

const refusalsSchema = schema + `
CREATE COLLATION loose (provider = icu, locale = 'und-u-ks-level2', deterministic = false);
CREATE EXTENSION citext; CREATE EXTENSION hstore;
CREATE TYPE pair AS (x int, y int); CREATE DOMAIN pairs AS pair; CREATE TYPE mood AS ENUM ('a', 'b');
CREATE TABLE w (id int PRIMARY KEY, a int, td text, tc text COLLATE "C", tl text COLLATE loose, ci citext, c char(4), d date,
  ts timestamp, tz timestamptz, iv interval, j jsonb, f float8, p pair, dp pairs, g int GENERATED ALWAYS AS (id * 2) STORED, m mood,
  r int4range, arr int[], h hstore, u uuid, n numeric, b bool, y bytea, inet inet, rl int8range);
CREATE TABLE secured (id int PRIMARY KEY, a int); ALTER TABLE secured ENABLE ROW LEVEL SECURITY;
CREATE TABLE parent (id int PRIMARY KEY, a int); CREATE TABLE child (n int) INHERITS (parent);
CREATE TABLE parts (id int PRIMARY KEY, a int) PARTITION BY RANGE (id); CREATE TABLE leaf PARTITION OF parts FOR VALUES FROM (0) TO (9);
CREATE VIEW look AS SELECT * FROM w; CREATE TABLE keyless (a int);
CREATE SCHEMA odd; CREATE FUNCTION odd.never(int, text) RETURNS bool LANGUAGE sql IMMUTABLE AS 'SELECT false';
CREATE OPERATOR odd.= (LEFTARG = int, RIGHTARG = text, FUNCTION = odd.never);
CREATE FUNCTION odd.never(mood, mood) RETURNS bool LANGUAGE sql IMMUTABLE AS 'SELECT false';
CREATE OPERATOR odd.= (LEFTARG = mood, RIGHTARG = mood, FUNCTION = odd.never);
CREATE FUNCTION odd.int4range(int, int) RETURNS int4range LANGUAGE sql AS 'SELECT ''empty''::int4range';
CREATE DOMAIN odd.text AS pg_catalog.text COLLATE loose;
CREATE TABLE t2 (id int PRIMARY KEY, a int);`

// TestRefusals: what looks as if rows were passed over, and isn't, or can't be evaluated here, is refused by its name.
func TestRefusals(t *testing.T) {
	_, all := open(t, "refusals", refusalsSchema)
	types := func(oids ...uint32) condition.Arguments {
		with := condition.Arguments{Types: oids}
		for range oids {
			with.Parameters = append(with.Parameters, []byte("1"))
		}
		return with
	}
	none := condition.Arguments{}
	const odd, late = `["odd", "public"]`, `["odd", "pg_catalog", "public"]`
	for _, one := range []struct {
		path, text string
		with       condition.Arguments
		want       string
	}{
		// Which rows a statement looks at.
		{"", "SELECT * FROM w WHERE a = 1 FOR UPDATE SKIP LOCKED", none, "SKIP LOCKED"},
		{"", "SELECT * FROM w TABLESAMPLE BERNOULLI (50) WHERE a = 1", none, "TABLESAMPLE"},
		{"", "SELECT * FROM secured WHERE a = 1", none, "row security"},
		{"", "DELETE FROM secured WHERE a = 1", none, "row security"},
		{"", "SELECT * FROM ONLY w WHERE a = 1", none, "ONLY"},
		{"", "UPDATE ONLY w SET a = 2 WHERE a = 1", none, "ONLY"},
		{"", "SELECT * FROM parent WHERE a = 1", none, "other tables inherit from it"},
		{"", "SELECT * FROM leaf WHERE a = 1", none, "a partition by its own name"},
		{"", "SELECT * FROM look WHERE a = 1", none, "a view"},
		{"", "SELECT * FROM keyless WHERE a = 1", none, "no primary key"},
		{"", "SELECT * FROM nowhere WHERE a = 1", none, "unknown table"},
		{"", "SELECT * FROM w AS w (a, b) WHERE a = 1", none, "a table alias that renames columns"},
		{"", "WITH w AS (SELECT 1 AS a) SELECT * FROM w WHERE a = 1", none, "WITH"},
		{"", "SELECT * FROM (SELECT * FROM w) AS s WHERE a = 1", none, "several tables, or none"},
		{"", "SELECT 1", none, "several tables, or none"},
		{"", "SELECT a FROM w WHERE a = 1 UNION SELECT a FROM w", none, "several tables, or none"},
		{"", "INSERT INTO w (id) VALUES (1)", none, "neither SELECT, UPDATE nor DELETE"},
		{"", "DELETE FROM w WHERE CURRENT OF c", none, "WHERE CURRENT OF"},
		// What isn't evaluated.
		{"", "SELECT * FROM w WHERE a = (SELECT 1)", none, "a subquery"},
		{"", "SELECT * FROM w WHERE EXISTS (SELECT 1)", none, "a subquery"},
		{"", "SELECT * FROM w WHERE a = ANY (SELECT 1)", none, "a subquery"},
		{"", "SELECT * FROM w WHERE tz < now()", none, "now(), or another clock"},
		{"", "SELECT * FROM w WHERE tz < current_timestamp", none, "now(), or another clock"},
		{"", "SELECT * FROM w WHERE d = current_date", none, "now(), or another clock"},
		{"", "SELECT * FROM w WHERE tz < clock_timestamp()", none, "now(), or another clock"},
		{"", "SELECT * FROM w WHERE d = 'today'", none, badValue},
		{"", "SELECT * FROM w WHERE tz < 'now'", none, badValue},
		{"", "SELECT * FROM w WHERE f < random()", none, "a function"},
		{"", "SELECT * FROM w WHERE tc = current_user", none, "a function"},
		{"", "SELECT * FROM w WHERE lower(tc) = 'x'", none, "a function"},
		{"", "SELECT * FROM w WHERE coalesce(a, 0) = 1", none, "a function"},
		{"", "SELECT * FROM w WHERE a + 1 = 2", none, "an expression over a column"},
		{"", "SELECT * FROM w WHERE a::text = '1'", none, "an expression over a column"},
		{"", "SELECT * FROM w WHERE a = 1 + 1", none, "a computed value"},
		{"", "SELECT * FROM w WHERE a = id", none, "a comparison of two columns"},
		{"", "SELECT * FROM w WHERE 'a' = 'b'", none, "a comparison without a column"},
		{"", "SELECT * FROM w WHERE xmin = '1'", none, "a system column"},
		{"", "SELECT * FROM w WHERE ctid = '(0,1)'", none, "a system column"},
		{"", "SELECT * FROM w WHERE g = 1", none, "a generated column"},
		{"", "SELECT * FROM w WHERE g IS NULL", none, "a generated column"},
		{"", "SELECT * FROM w WHERE p IS NULL", none, "a column of a composite type"},
		{"", "SELECT * FROM w WHERE dp IS NOT NULL", none, "a column of a composite type"},
		{"", "SELECT * FROM w WHERE w IS NULL", none, "an unknown column"},
		{"", "SELECT * FROM w WHERE (a, id) = (1, 2)", none, "an expression in an unknown form"},
		{"", "SELECT * FROM w WHERE (a, id) IN ((1, 2))", none, "a comparison of rows"},
		{"", "SELECT * FROM w WHERE f = 1", none, "a type that isn't followed"},
		{"", "SELECT * FROM w WHERE j = '1'", none, "a type that isn't followed"},
		{"", "SELECT * FROM w WHERE arr = '{1}'", none, "a type that isn't followed"},
		{"", "SELECT * FROM w WHERE h = ''", none, "a type that isn't followed"},
		{"", "SELECT * FROM w WHERE ci = 'x'", none, "a type that isn't followed"},
		{"", "SELECT * FROM w WHERE inet = '1.2.3.4'", none, "a type that isn't followed"},
		{"", "SELECT * FROM w WHERE r < '[1,2)'", none, "an operator that isn't followed"},
		{"", "SELECT * FROM w WHERE tc ILIKE 'x'", none, "an operator that isn't followed"},
		{"", "SELECT * FROM w WHERE tc ~ 'x'", none, "an operator that isn't followed"},
		{"", "SELECT * FROM w WHERE tc SIMILAR TO 'x'", none, "an operator that isn't followed"},
		{"", "SELECT * FROM w WHERE tc LIKE 'x!%' ESCAPE '!'", none, "LIKE .. ESCAPE"},
		{"", `SELECT * FROM w WHERE tc LIKE 'x\'`, none, "a pattern that ends in a backslash"},
		{"", "SELECT * FROM w WHERE a = 1.5::float8", none, "a cast that isn't followed"},
		{"", "SELECT * FROM w WHERE b = 1::bool", none, "a cast that isn't followed"},
		{"", "SELECT * FROM w WHERE a = 1.5::int", none, "a cast that isn't followed"},
		{"", "SELECT * FROM w WHERE c = 'abcdef'::char(2)", none, "a cast that isn't followed"},
		{"", "SELECT * FROM w WHERE n = '1.55'::numeric(2,1)", none, "a cast that isn't followed"},
		{"", "SELECT * FROM w WHERE a = B'1'::int", none, "a constant in an unknown form"},
		{"", `SELECT * FROM w WHERE tc = U&'\0061'`, none, "a constant in an unknown form"},
		{"", `SELECT * FROM w WHERE tc = E'\x61'`, none, "a constant in an unknown form"},
		{"", "SELECT * FROM w WHERE tc = 'a'\n'b'", none, "a constant in an unknown form"},
		{"", "SELECT * FROM w WHERE tc = 'x' COLLATE loose", none, "COLLATE"},
		// A language's rules.
		{"", "SELECT * FROM w WHERE tl = 'x'", none, "a collation that isn't deterministic"},
		{"", "SELECT * FROM w WHERE tl IN ('x')", none, "a collation that isn't deterministic"},
		{"", "SELECT * FROM w WHERE tl LIKE 'x'", none, "a collation that isn't deterministic"},
		{"", "SELECT * FROM w WHERE td < 'x'", none, "an order of texts by a language's rules"},
		{"", "SELECT * FROM w WHERE td BETWEEN 'x' AND 'y'", none, "an order of texts by a language's rules"},
		{"", "SELECT * FROM w WHERE c >= 'x'", none, "an order of texts by a language's rules"},
		// Settings.
		{"", "SELECT * FROM w WHERE d = '01/02/2024'", none, badValue},
		{"", "SELECT * FROM w WHERE d = '24-01-02'", none, badValue},
		{"", "SELECT * FROM w WHERE ts > '1 February 2024'", none, badValue},
		{"", "SELECT * FROM w WHERE tz > '2024-01-01 10:00'", none, badValue},
		{"", "SELECT * FROM w WHERE tz > '2024-01-01 10:00 Europe/Berlin'", none, badValue},
		{"", "SELECT * FROM w WHERE ts > '2024-01-01 10:00+02'", none, badValue},
		{"", "SELECT * FROM w WHERE iv > '-1 2:03'", none, badValue},
		{"", "SELECT * FROM w WHERE iv > '-1 day 02:03:00'", none, badValue},
		{"", "SELECT * FROM w WHERE iv > 'P1D'", none, badValue},
		{"", "SELECT * FROM w WHERE iv > '1'", none, badValue},
		{"", "SELECT * FROM w WHERE iv > INTERVAL '1' DAY", none, "a cast that isn't followed"},
		{"", "SELECT * FROM w WHERE a = NULL", none, "= NULL, whose meaning depends on transform_null_equals"},
		{"", "SELECT * FROM w WHERE NULL = a", none, "= NULL, whose meaning depends on transform_null_equals"},
		{"", "SELECT * FROM w WHERE tc = ANY ('{NULL}')", none, "NULL in an array's text, whose meaning depends on array_nulls"},
		{"", `SELECT * FROM w WHERE tc = 'a\b'`, condition.Arguments{Escapes: true},
			"a backslash in a constant, with standard_conforming_strings off"},
		{"", "SELECT * FROM w WHERE d = '2024-01-02'::date", condition.Arguments{Temporary: true},
			"a type that the search path finds elsewhere"},
		{"", "SELECT * FROM w WHERE u = ANY (ARRAY['a0eebc99-9c0b-4ef8-bb6d-6bb9bd380a11']::uuid[])", condition.Arguments{Temporary: true},
			"a type that the search path finds elsewhere"},
		{"", "SELECT * FROM w WHERE tc = 'é'", condition.Arguments{Converts: true},
			"a text beyond ASCII, in another encoding than the server's"},
		{"", "SELECT * FROM w WHERE m IN ('é', 'a')", condition.Arguments{Converts: true},
			"a text beyond ASCII, in another encoding than the server's"},
		// Types.
		{"", "SELECT * FROM w WHERE a = $1", types(701), "a comparison of two types that isn't followed"},
		{"", "SELECT * FROM w WHERE a = $1", condition.Arguments{Types: []uint32{701}, Formats: []int16{1},
			Parameters: [][]byte{{63, 240, 0, 0, 0, 0, 0, 0}}}, "a comparison of two types that isn't followed"},
		{"", "SELECT * FROM w WHERE ts < $1", types(1184), "a comparison of two types that isn't followed"},
		{"", "SELECT * FROM w WHERE d < $1", types(1114), "a comparison of two types that isn't followed"},
		{"", "SELECT * FROM w WHERE a = ANY ($1)", types(1022), "a comparison of two types that isn't followed"},
		{"", "SELECT * FROM w WHERE m = $1", types(25), "a comparison of two types that isn't followed"},
		{"", "SELECT * FROM w WHERE td = $1", types(1042), "a comparison of two types that isn't followed"},
		{"", "SELECT * FROM w WHERE c IN ('a', 'b'::text)", none, "a comparison of two types that isn't followed"},
		{"", "SELECT * FROM w WHERE c IN ('a'::text, 'b'::text)", none, "a comparison of two types that isn't followed"},
		{"", "SELECT * FROM w WHERE c = $1", types(19), "a comparison of two types that isn't followed"},
		{"", "SELECT * FROM w WHERE r @> $1", types(20), "a comparison of two types that isn't followed"},
		{"", "SELECT * FROM w WHERE a <@ $1", types(0), "a comparison of two types that isn't followed"},
		{"", "SELECT * FROM w WHERE a = $1", none, "a parameter that isn't known"},
		{"", "SELECT * FROM w WHERE a = $1", condition.Arguments{Parameters: [][]byte{{1, 2, 3}}, Formats: []int16{1}}, badValue},
		{"", "SELECT * FROM w WHERE a = ANY ('{{1,2}}')", none, badValue},
		{"", "SELECT * FROM w WHERE a = ANY ('')", none, badValue},
		{"", "SELECT * FROM w WHERE a = ANY ('x1,2}')", none, badValue},
		{"", "SELECT * FROM w WHERE a = ANY ('{1')", none, badValue},
		{"", "SELECT * FROM w WHERE r = '[1,2147483647]'", none, badValue},
		{"", "SELECT * FROM w WHERE rl = '[1,9223372036854775807]'", none, badValue},
		{"", "SELECT * FROM w WHERE a = 1", condition.Arguments{Constants: []string{"$"}}, "a constant in an unknown form"},
		{"", "SELECT * FROM w WHERE m IN ('a', 'c')", none, badValue},
		{"", "SELECT $1, * FROM w WHERE a = $1", types(0), severalPlaces},
		{"", "SELECT * FROM w WHERE a = $1 OR n = $1", types(0), severalPlaces},
		{"", "SELECT * FROM w WHERE c = $1 OR tc = $1", types(0), severalPlaces},
		// What a cast or a function may change that somebody makes and drops.
		{"", "SELECT * FROM w WHERE m = 'a'", none, untypedLabel},
		{"", "SELECT * FROM w WHERE m < 'a'", none, untypedLabel},
		{"", "SELECT * FROM w WHERE m IN ('a')", none, untypedLabel},
		{"", "SELECT * FROM w WHERE m OPERATOR(pg_catalog.=) 'a'", none, untypedLabel},
		{"", "SELECT * FROM w WHERE m = ANY ('{a,b}')", none, untypedLabel},
		{"", "SELECT * FROM w WHERE m IS DISTINCT FROM 'a'", none, untypedLabel},
		{"", "SELECT * FROM w WHERE m BETWEEN 'a' AND 'b'", none, untypedLabel},
		{"", "SELECT * FROM w WHERE m = $1", types(0), untypedLabel},
		{"", "SELECT * FROM w WHERE r && int4range(1, $1)", types(0), untypedBound},
		{"", "SELECT * FROM w WHERE r && int4range('1', 2)", none, untypedBound},
		{"", "SELECT * FROM w WHERE r && int4range(NULL, 2)", none, untypedBound},
		{"", "SELECT * FROM w WHERE n <@ numrange(1, 2)", none, untypedBound},
		// Names.
		{odd, "SELECT * FROM w WHERE a = '1'", none, "an operator that the search path finds elsewhere"},
		{odd, "SELECT * FROM w WHERE a IN ('1', '2')", none, "an operator that the search path finds elsewhere"},
		{odd, "SELECT * FROM w WHERE a = ANY ('{1}')", none, "an operator that the search path finds elsewhere"},
		{odd, "SELECT * FROM w WHERE a IS DISTINCT FROM '1'", none, "an operator that the search path finds elsewhere"},
		{odd, "SELECT * FROM w WHERE m = 'a'", none, "an operator that the search path finds elsewhere"},
		{odd, "SELECT * FROM w WHERE 'a' = m", none, "an operator that the search path finds elsewhere"},
		{odd, "SELECT * FROM w WHERE 1 = 1", none, "an operator that the search path finds elsewhere"},
		{"", "SELECT * FROM w WHERE a OPERATOR(odd.=) '1'", none, "an operator that the search path finds elsewhere"},
		{odd, "SELECT * FROM w WHERE r && int4range(1, 2)", none, "a function that the search path finds elsewhere"},
		{"", "SELECT * FROM w WHERE r && odd.int4range(1, 2)", none, "a function that the search path finds elsewhere"},
		{odd, "UPDATE w SET a = 1 WHERE td IS NULL", none, "a table's name that may come to mean one in another schema of the search path"},
		{odd, "DELETE FROM w WHERE td IS NULL", none, "a table's name that may come to mean one in another schema of the search path"},
		{late, "SELECT * FROM w WHERE d = '2024-01-01'", none, "the search path names pg_catalog after other schemas"},
		{"", "SELECT * FROM w WHERE tc = 'x'::odd.text", none, "a type that the search path finds elsewhere"},
	} {
		path := one.path
		if path == "" {
			path = `["public"]`
		}
		_, err := made(t, in(t, all, path), one.text, one.with)
		if err == nil || err.Error() != one.want {
			t.Errorf("%s: %v in place of %s", one.text, err, one.want)
		}
	}
}

const (
	badValue      = "a value whose meaning depends on settings, or that isn't one of its type"
	severalPlaces = "a parameter without a type, which may get it in several places"
	untypedLabel  = "an enumeration's label without a type, of which a cast may make a text"
	untypedBound  = "a bound of a range without the range's own type, which may choose another function"
)

// TestCasts: with a cast from an enumeration, the server compares its labels as texts; with one from a range type, ranges.
func TestCasts(t *testing.T) {
	conn, all := open(t, "casts", `CREATE TYPE mood AS ENUM ('sad', 'happy'); CREATE TABLE w (id int PRIMARY KEY, m mood, r int4range, a int);`)
	const label, span = "SELECT * FROM w WHERE m IN ('sad', 'happy')", "SELECT * FROM w WHERE r = '[1,2]'"
	const among, number = "SELECT * FROM w WHERE a <@ '[1,2]'::int4range", "SELECT * FROM w WHERE a = 1"
	for _, one := range []struct {
		made    string
		refuses map[string]bool
	}{
		{"", map[string]bool{}},
		{"CREATE CAST (mood AS text) WITH INOUT AS IMPLICIT", map[string]bool{label: true}},
		{"CREATE CAST (int4range AS text) WITH INOUT AS IMPLICIT", map[string]bool{label: true, span: true, among: true}},
	} {
		if one.made != "" {
			rows(t, conn, one.made)
		}
		all = load(t, conn)
		for _, text := range []string{label, span, among, number} {
			if _, err := made(t, in(t, all, `["public"]`), text, condition.Arguments{}); (err != nil) != one.refuses[text] {
				t.Errorf("after %s: %s: %v", one.made, text, err)
			}
		}
	}
}

// TestTaken: what is like something that is refused, and isn't.
func TestTaken(t *testing.T) {
	_, all := open(t, "taken", refusalsSchema)
	for _, one := range []struct {
		path, text string
		with       condition.Arguments
		want       string
	}{
		{"", "SELECT * FROM w WHERE a = 1 FOR UPDATE NOWAIT", condition.Arguments{}, "w WHERE a = 1"},
		{"", "SELECT * FROM parts p WHERE p.a = 1", condition.Arguments{}, "parts WHERE a = 1"},
		{"", "SELECT * FROM child WHERE a = 1", condition.Arguments{}, "no primary key"},
		{"", "SELECT * FROM w", condition.Arguments{}, "w"},
		{"", "SELECT * FROM w WHERE f IS NULL AND j IS NOT NULL", condition.Arguments{}, "w WHERE f IS NULL AND j IS NOT NULL"},
		{"", "SELECT * FROM w WHERE td = 'x' AND ci IS NULL", condition.Arguments{}, "w WHERE td = 'x' AND ci IS NULL"},
		{"", "SELECT * FROM w WHERE d = '2024-01-02' AND a <> -1", condition.Arguments{}, "w WHERE d = '2024-01-02' AND a <> -1"},
		{"", "SELECT * FROM w WHERE (a = 1 OR b) AND NOT (b AND a = 2)", condition.Arguments{},
			"w WHERE (a = 1 OR b) AND NOT (b AND a = 2)"},
		{"", "SELECT * FROM w WHERE a IN (1, 2) AND a = ANY ('{3,4}')", condition.Arguments{},
			"w WHERE a IN (1, 2) AND a = ANY (ARRAY[3, 4])"},
		{"", "SELECT * FROM w WHERE a = ANY ($1)", condition.Arguments{Formats: []int16{1}, Parameters: [][]byte{{
			0, 0, 0, 1, 0, 0, 0, 1, 0, 0, 0, 23, 0, 0, 0, 2, 0, 0, 0, 1, 0, 0, 0, 4, 0, 0, 0, 7, 255, 255, 255, 255}}},
			"w WHERE a = ANY (ARRAY[7, NULL])"},
		{"", "SELECT * FROM w WHERE a = ANY ('{}') AND tc = $$x$$", condition.Arguments{}, "w WHERE a = ANY (ARRAY[]) AND tc = 'x'"},
		{"", "SELECT * FROM w WHERE a = 5-- five\nAND n = 1e2", condition.Arguments{}, "w WHERE a = 5 AND n = 100"},
		{"", "SELECT * FROM w WHERE rl = '[1,2147483647]'", condition.Arguments{}, "w WHERE rl = '[1,2147483647]'"},
		{"", "SELECT * FROM w WHERE a IN (1)", condition.Arguments{Constants: []string{"5, -6 , /* x */ NULL"}}, "w WHERE a IN (5, -6, NULL)"},
		{"", "SELECT * FROM w WHERE a = 1", condition.Arguments{Constants: []string{"5, 6"}}, "a constant in an unknown form"},
		{"", "SELECT * FROM w WHERE a IN (1::int8)", condition.Arguments{Constants: []string{"5, 6"}}, "a constant in an unknown form"},
		{"", "SELECT * FROM w WHERE tc IN ('x')", condition.Arguments{Constants: []string{`$1, E'\'', $q$d$q$`},
			Parameters: [][]byte{[]byte("p")}}, "w WHERE tc IN ('p', '''', 'd')"},
		{"", "SELECT * FROM w WHERE r && int4range(1, $1, '[]')", condition.Arguments{Parameters: [][]byte{[]byte("5")}, Types: []uint32{23}},
			"w WHERE r && '[1,6)'"},
		{"", "SELECT * FROM w WHERE a = $1 AND id = $1", condition.Arguments{Parameters: [][]byte{[]byte("5")}}, "w WHERE a = 5 AND id = 5"},
		{"", "SELECT $1::int, * FROM w WHERE a = $1", condition.Arguments{Parameters: [][]byte{[]byte("5")}, Types: []uint32{23}},
			"w WHERE a = 5"},
		{`["odd", "public"]`, "DELETE FROM public.w WHERE td IS NULL", condition.Arguments{}, "w WHERE td IS NULL"},
		{`["pg_catalog", "public"]`, "DELETE FROM w WHERE td IS NULL", condition.Arguments{}, "w WHERE td IS NULL"},
		{`["odd", "public"]`, "SELECT * FROM w WHERE td = 'x'", condition.Arguments{}, "w WHERE td = 'x'"},
		{`["odd", "public"]`, "SELECT * FROM w WHERE 'x' = td", condition.Arguments{}, "an operator that the search path finds elsewhere"},
		{`["odd", "public"]`, "SELECT * FROM w WHERE '1' = a", condition.Arguments{}, "w WHERE a = 1"},
		{`["odd", "public"]`, "SELECT * FROM w WHERE b = true AND u = 'A0EEBC99-9C0B-4EF8-BB6D-6BB9BD380A11'", condition.Arguments{},
			"w WHERE b = true AND u = 'a0eebc99-9c0b-4ef8-bb6d-6bb9bd380a11'"},
		{`["odd", "public"]`, "SELECT * FROM w WHERE a OPERATOR(pg_catalog.=) 1", condition.Arguments{}, "w WHERE a = 1"},
		{`["odd", "public"]`, "SELECT * FROM w WHERE r && pg_catalog.int4range(1, 2)", condition.Arguments{}, "w WHERE r && '[1,2)'"},
		{`["pg_catalog", "public"]`, "SELECT * FROM w WHERE a = 1", condition.Arguments{}, "w WHERE a = 1"},
		{"", "SELECT * FROM w WHERE 1 = 1 AND NOT false AND a = 1", condition.Arguments{}, "w WHERE 1 = 1 AND NOT false AND a = 1"},
		{"", "SELECT * FROM w WHERE y = '\\x61' AND iv = '1 day'", condition.Arguments{}, `w WHERE y = '\x61' AND iv = '1 day'`},
		{"", "SELECT * FROM w WHERE tz >= '2024-01-01 10:00+02' AND m IN ('a', 'b')", condition.Arguments{},
			"w WHERE tz >= '2024-01-01 08:00:00+00' AND m IN ('a', 'b')"},
	} {
		path := one.path
		if path == "" {
			path = `["public"]`
		}
		its, err := made(t, in(t, all, path), one.text, one.with)
		got := ""
		if err != nil {
			got = err.Error()
		} else {
			got = its.String()
		}
		if got != one.want {
			t.Errorf("%s: %s in place of %s", one.text, got, one.want)
		}
	}
}

// TestDrops: a row that satisfies the condition may still not be in the result.
func TestDrops(t *testing.T) {
	_, all := open(t, "drops", schema+`CREATE TABLE hooked (id int PRIMARY KEY);
		CREATE FUNCTION hook() RETURNS trigger LANGUAGE plpgsql AS 'BEGIN RETURN NULL; END';
		CREATE TRIGGER h BEFORE UPDATE ON hooked FOR EACH ROW EXECUTE FUNCTION hook();
		CREATE TABLE ruled (id int PRIMARY KEY); CREATE RULE never AS ON DELETE TO ruled DO INSTEAD NOTHING;`)
	for text, want := range map[string]string{
		"SELECT a FROM r WHERE id = 1":                        "",
		"SELECT a FROM r WHERE id > 1 LIMIT 5":                "LIMIT or OFFSET",
		"SELECT a FROM r WHERE id > 1 OFFSET 5":               "LIMIT or OFFSET",
		"SELECT a FROM r FETCH FIRST ROW ONLY":                "LIMIT or OFFSET",
		"SELECT DISTINCT a FROM r":                            "",
		"SELECT DISTINCT ON (a) b FROM r":                     "DISTINCT ON",
		"SELECT a FROM r GROUP BY a HAVING count(*) > 1":      "",
		"SELECT sum(a) FROM r WHERE b = 'x'":                  "",
		"SELECT generate_series(1, a) FROM r":                 "a function that returns any number of rows",
		"SELECT a FROM r ORDER BY generate_series(1, a)":      "a function that returns any number of rows",
		"UPDATE r SET a = 1 WHERE a = 2":                      "",
		"UPDATE hooked SET id = 1 WHERE id = 2":               "a trigger may keep a row from being written",
		"DELETE FROM ruled WHERE id = 2":                      "a rule",
		"SELECT * FROM hooked WHERE id = 2 FOR NO KEY UPDATE": "",
	} {
		its, err := form(t, all, text)
		if err != nil || its.Drops != want {
			t.Errorf("%s: %v %q in place of %q", text, err, its.Drops, want)
		}
	}
}
