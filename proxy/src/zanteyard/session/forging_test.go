package session

import (
	"context"
	"testing"
	"time"

	"github.com/jackc/pgproto3/v2"

	"zanteyard/definitions"
)

// forging is what somebody has made whose function runs as a part of others' statements, in many places: it puts other
// statements in the place of the proxy's own.
const forging = `DROP SCHEMA IF EXISTS m CASCADE; CREATE SCHEMA m; SET search_path TO m, public;
CREATE FUNCTION forge() RETURNS void LANGUAGE plpgsql AS $$DECLARE it record; BEGIN
	FOR it IN SELECT name, statement FROM pg_prepared_statements WHERE name LIKE 'zanteyard%' LOOP
		EXECUTE 'DEALLOCATE "' || it.name || '"';
		IF it.name = 'zanteyard.ask' THEN
			EXECUTE 'PREPARE "zanteyard.ask" AS SELECT ''77''::xid8, pg_current_snapshot(), ''serializable''';
		ELSE
			EXECUTE 'PREPARE "' || it.name || '" AS ' ||
				replace(regexp_replace(it.statement, '^PREPARE .* AS SELECT', 'SELECT'), 'id = 1', 'id = 2');
		END IF;
	END LOOP;
	IF EXISTS (SELECT FROM pg_cursors WHERE name = 'other') THEN
		EXECUTE 'CLOSE other';
		EXECUTE 'DECLARE other CURSOR FOR SELECT v, xmin AS zanteyard, tableoid AS zanteyard, concat(id) AS zanteyard FROM public.t WHERE id = 2';
	END IF;
END$$;
CREATE FUNCTION fires() RETURNS trigger LANGUAGE plpgsql AS $$BEGIN PERFORM m.forge(); RETURN COALESCE(NEW, OLD); END$$;
CREATE FUNCTION one(x anyelement) RETURNS int LANGUAGE plpgsql AS $$BEGIN PERFORM m.forge(); RETURN 1; END$$;
CREATE FUNCTION always(x anyelement) RETURNS bool LANGUAGE plpgsql IMMUTABLE AS $$BEGIN RETURN m.one(1) = 1; END$$;
CREATE FUNCTION same(a int, b int) RETURNS bool LANGUAGE plpgsql IMMUTABLE AS $$BEGIN RETURN m.one(1) = 1; END$$;
CREATE TABLE triggers (id int PRIMARY KEY, v int); INSERT INTO triggers VALUES (1, 1);
CREATE TRIGGER fires AFTER UPDATE ON triggers FOR EACH ROW EXECUTE FUNCTION fires();
CREATE TABLE defers (id int PRIMARY KEY, v int); INSERT INTO defers VALUES (1, 1);
CREATE CONSTRAINT TRIGGER fires AFTER UPDATE ON defers DEFERRABLE INITIALLY DEFERRED FOR EACH ROW EXECUTE FUNCTION fires();
CREATE TABLE defaults (id int PRIMARY KEY, v int DEFAULT one(1));
CREATE TABLE checks (id int PRIMARY KEY, v int CHECK (always(v)));
CREATE TABLE indexed (id int PRIMARY KEY, v int); CREATE INDEX ON indexed (always(v));
CREATE TABLE planned (id int PRIMARY KEY, v int); CREATE INDEX ON planned ((v + CASE WHEN always(1) THEN 1 ELSE 0 END));
CREATE TABLE roots (id int PRIMARY KEY, v int) PARTITION BY RANGE (id); CREATE TABLE roots1 PARTITION OF roots FOR VALUES FROM (0) TO (9);
CREATE INDEX ON roots1 (v) WHERE always(2);
CREATE TABLE estimated (id int PRIMARY KEY, v int); CREATE STATISTICS s ON (v + CASE WHEN always(3) THEN 1 ELSE 0 END), v FROM estimated;
CREATE FUNCTION away(a float8, b float8) RETURNS float8 LANGUAGE plpgsql IMMUTABLE AS $$BEGIN PERFORM m.one(1); RETURN a - b; END$$;
CREATE TYPE span AS RANGE (subtype = float8, subtype_diff = away);
CREATE TABLE ranged (id int PRIMARY KEY, r span); INSERT INTO ranged SELECT i, span(i, i + 10) FROM generate_series(1, 200) i; ANALYZE ranged;
CREATE TABLE parents (id int PRIMARY KEY); INSERT INTO parents SELECT generate_series(1, 9);
CREATE TABLE children (id int PRIMARY KEY, parent int REFERENCES parents ON DELETE CASCADE);
INSERT INTO children SELECT i, i FROM generate_series(1, 9) i;
CREATE TRIGGER fires BEFORE DELETE ON children FOR EACH ROW EXECUTE FUNCTION fires();
CREATE TABLE parted (id int PRIMARY KEY, v int) PARTITION BY RANGE (id); CREATE TABLE parted1 PARTITION OF parted FOR VALUES FROM (0) TO (9);
CREATE TRIGGER fires AFTER INSERT ON parted1 FOR EACH ROW EXECUTE FUNCTION fires();
CREATE VIEW views AS SELECT one(v) FROM public.t;
CREATE TABLE policies (id int PRIMARY KEY, v int); INSERT INTO policies VALUES (1, 1);
ALTER TABLE policies ENABLE ROW LEVEL SECURITY; CREATE POLICY p ON policies USING (always(v));
`

// forged drops and makes the role that runs them.
const forged = `DO $$BEGIN IF EXISTS (SELECT FROM pg_roles WHERE rolname = 'forged') THEN DROP OWNED BY forged; DROP ROLE forged; END IF; END$$;
CREATE ROLE forged LOGIN; GRANT ALL ON SCHEMA m TO forged; GRANT ALL ON ALL TABLES IN SCHEMA m, public TO forged`

// TestOthersForge: what runs as a part of a client's statement has nothing else reported of the statements after it than
// what they do: neither of prepared ones, nor of cursors, nor another transaction's number.
func TestOthersForge(t *testing.T) {
	needServer(t)
	run := messages('Z', &pgproto3.Bind{PreparedStatement: "s"}, &pgproto3.Execute{}, &pgproto3.Sync{})
	for name, x := range map[string]struct {
		does    []string
		after   string
		settles bool
	}{
		"nothing":                    {does: []string{"SELECT 1"}},
		"a trigger":                  {does: []string{"UPDATE triggers SET v = 2 WHERE id = 1"}},
		"a trigger, in a block":      {does: []string{"BEGIN", "UPDATE triggers SET v = 2 WHERE id = 1"}},
		"a deferred one":             {does: []string{"UPDATE defers SET v = 2 WHERE id = 1"}},
		"a deferred one, in a block": {does: []string{"BEGIN", "UPDATE defers SET v = 2 WHERE id = 1", "COMMIT"}},
		"one that is set":            {does: []string{"BEGIN", "UPDATE defers SET v = 2 WHERE id = 1", "SET CONSTRAINTS ALL IMMEDIATE"}},
		"a default":                  {does: []string{"INSERT INTO defaults (id) VALUES (1)"}},
		"a check":                    {does: []string{"INSERT INTO checks VALUES (1, 1)"}},
		"an index":                   {does: []string{"INSERT INTO indexed VALUES (1, 1)"}},
		"an index, at planning":      {does: []string{"SELECT v FROM planned WHERE id = 1"}},
		"an index, when compared":    {does: []string{"SELECT v FROM planned ORDER BY v", "SELECT v FROM planned ORDER BY v"}, settles: true},
		"a partition's, at planning": {does: []string{"SELECT v FROM roots WHERE id = 1"}},
		"statistics, at planning":    {does: []string{"SELECT v FROM estimated WHERE id = 1"}},
		"a range, at planning":       {does: []string{"SELECT id FROM ranged WHERE r && m.span(1, 50)"}},
		"a cascade":                  {does: []string{"DELETE FROM parents WHERE id = 1"}},
		"a partition":                {does: []string{"INSERT INTO parted VALUES (1, 1)"}},
		"a view":                     {does: []string{"SELECT * FROM views"}},
		"a policy":                   {does: []string{"SELECT v FROM policies WHERE id = 1"}},
		"a function":                 {does: []string{"SELECT one(1)"}},
		"a function like a column":   {does: []string{"SELECT triggers.one FROM triggers WHERE id = 1"}},
		"of a subquery's rows":       {does: []string{"SELECT s.one FROM (SELECT 1 AS x) s"}},
		"of a whole row":             {does: []string{"SELECT (s).one FROM (SELECT 1 AS x) s"}},
		"an immutable one":           {does: []string{"SELECT v FROM t WHERE id = 3 AND always(v)"}},
		"a COPY":                     {does: []string{"COPY (SELECT one(1)) TO STDOUT"}},
		"EXPLAIN":                    {does: []string{"EXPLAIN ANALYZE SELECT one(1)"}},
		"a cursor":                   {does: []string{"BEGIN", "DECLARE c CURSOR FOR SELECT one(1)", "FETCH c"}},
		"a cursor WITH HOLD":         {does: []string{"BEGIN", "DECLARE c CURSOR WITH HOLD FOR SELECT one(1)", "COMMIT", "BEGIN"}},
		"EXECUTE":                    {does: []string{"PREPARE x AS SELECT one(1)", "EXECUTE x"}},
		"several":                    {does: []string{"SELECT 1; SELECT one(1); SELECT 2"}},
		"an operator":                {does: []string{"SELECT v FROM t WHERE id = 1 AND v @@@@ 3"}, after: "CREATE OPERATOR m.@@@@ (LEFTARG = int, RIGHTARG = int, FUNCTION = m.same);"},
		"a domain":                   {does: []string{"SELECT 1::m.one"}, after: "CREATE DOMAIN m.one AS int CHECK (m.always(VALUE));"},
		"another cursor":             {does: []string{"BEGIN", "DECLARE other CURSOR FOR SELECT v FROM t WHERE id = 1", "SELECT always(1)", "FETCH other"}},
		"and all at once":            {does: []string{"BEGIN", "DECLARE other CURSOR FOR SELECT v FROM t WHERE id = 1; SELECT always(1); FETCH other"}},
	} {
		x := x
		t.Run(name, func(t *testing.T) {
			sql(t, fill)
			sql(t, forging+x.after+forged)
			d, err := definitions.Open(context.Background(), config(), time.Hour, func(string) {})
			if err != nil {
				t.Fatal(err)
			}
			p := through(t, "forged", func(o *Options) { o.Plans, o.Generation, o.Shared = d, d.Generation, nil })
			p.query("SET search_path TO m, public")
			p.query("PREPARE q AS SELECT v FROM t WHERE id = 1")
			p.do(messages('Z', &pgproto3.Parse{Name: "s", Query: "SELECT v FROM t WHERE id = 1"}, &pgproto3.Sync{}))
			p.warm("SELECT v FROM t WHERE id = 1", "EXECUTE q", "BEGIN", "DECLARE other CURSOR FOR SELECT v FROM t WHERE id = 1",
				"UPDATE t SET v = v + 1 WHERE id > 3", "COMMIT")
			p.do(run)
			p.settle()
			p.sink.take()
			p.do(run)
			want := p.sink.take()
			if len(want) != 1 || len(want[0].Reads) != 1 {
				t.Fatalf("not seen before: %+v", want)
			}
			is := want[0].Reads[0]
			for _, text := range x.does {
				p.query(text)
			}
			if x.settles {
				p.settle()
			}
			p.do(run)
			p.query("EXECUTE q")
			p.query("COMMIT")
			p.query("BEGIN")
			p.query("UPDATE t SET v = v + 1 WHERE id > 3")
			p.query("COMMIT")
			for _, it := range p.sink.take() {
				if it.Number == 77 {
					t.Errorf("another transaction is claimed: %+v", it)
				}
				for _, one := range it.Reads {
					if one.Relation == is.Relation && one.Key == "2" {
						t.Errorf("told %+v, and the client asked for %+v", one, is)
					}
				}
			}
		})
	}
}

// TestPlantedCursor: what somebody has put in the place of a client's cursor may run anything as the client fetches from it: what
// the proxy had prepared before isn't used afterwards.
func TestPlantedCursor(t *testing.T) {
	needServer(t)
	run := messages('Z', &pgproto3.Bind{PreparedStatement: "s"}, &pgproto3.Execute{}, &pgproto3.Sync{})
	for name, before := range map[string][]string{
		"of the transaction": {"BEGIN", "DECLARE planted CURSOR FOR SELECT v FROM t WHERE id = 1"},
		"WITH HOLD":          {"DECLARE planted CURSOR WITH HOLD FOR SELECT v FROM t WHERE id = 1", "BEGIN"},
	} {
		t.Run(name, func(t *testing.T) {
			sql(t, fill)
			sql(t, forging+`CREATE FUNCTION m.plants() RETURNS int LANGUAGE plpgsql AS $$BEGIN EXECUTE 'CLOSE planted';
				EXECUTE 'DECLARE planted CURSOR FOR SELECT v, xmin AS zanteyard, tableoid AS zanteyard, concat(id, left(m.forge()::text, 0)) AS zanteyard
				FROM public.t WHERE id > 2'; RETURN 1; END$$;`+forged)
			d, err := definitions.Open(context.Background(), config(), time.Hour, func(string) {})
			if err != nil {
				t.Fatal(err)
			}
			p := through(t, "forged", func(o *Options) { o.Plans, o.Generation, o.Shared = d, d.Generation, nil })
			p.query("SET search_path TO m, public")
			p.do(messages('Z', &pgproto3.Parse{Name: "s", Query: "SELECT v FROM t WHERE id = 1"}, &pgproto3.Sync{}))
			p.warm(append(append([]string{"SELECT v FROM t WHERE id = 1"}, before...), "COMMIT", "CLOSE ALL")...)
			for _, text := range append(before, "SELECT plants()") {
				p.query(text)
			}
			for i := 0; i < 3; i++ {
				p.do(run)
			}
			p.settle()
			p.do(run)
			p.query("FETCH planted")
			for i := 0; i < 3; i++ {
				p.do(run)
			}
			p.query("COMMIT")
			p.do(run)
			p.settle()
			p.do(run)
			reads := 0
			for _, it := range p.sink.take() {
				for _, one := range it.Reads {
					if reads++; one.Key != "1" {
						t.Errorf("told %+v, and the client asked for 1", one)
					}
				}
			}
			if reads < 2 {
				t.Errorf("%d reads were told", reads)
			}
		})
	}
}
