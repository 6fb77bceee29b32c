package catalog_test

import (
	"context"
	"errors"
	"fmt"
	"os"
	"sort"
	"strings"
	"testing"

	"github.com/jackc/pgconn"

	"zanteyard/catalog"
	"zanteyard/cluster"
	"zanteyard/keys"
	"zanteyard/own"
	"zanteyard/record"
)

const schema = `
CREATE DOMAIN small AS int CHECK (VALUE < 100);
CREATE DOMAIN smaller AS small;
CREATE TYPE mood AS ENUM ('a', 'b');
CREATE DOMAIN moody AS mood;
CREATE EXTENSION citext;
CREATE TABLE plain (x text, gone int, b smaller, a moody, c citext, PRIMARY KEY (a, b, c));
ALTER TABLE plain DROP COLUMN gone;
CREATE INDEX ON plain (x) INCLUDE (b);
CREATE INDEX ON plain USING hash (x);
CREATE TABLE "no key" (v int);
CREATE UNLOGGED TABLE fast (id int PRIMARY KEY);
CREATE TABLE json_key (id jsonb PRIMARY KEY);
CREATE TABLE nothing (id int PRIMARY KEY); ALTER TABLE nothing REPLICA IDENTITY NOTHING;
CREATE TABLE whole (id int PRIMARY KEY); ALTER TABLE whole REPLICA IDENTITY FULL;
CREATE TABLE indexed (id int PRIMARY KEY, u int NOT NULL UNIQUE); ALTER TABLE indexed REPLICA IDENTITY USING INDEX indexed_u_key;
CREATE TABLE indexed2 (id int PRIMARY KEY); ALTER TABLE indexed2 REPLICA IDENTITY USING INDEX indexed2_pkey;
CREATE TABLE parent (id int PRIMARY KEY); CREATE TABLE child (n int) INHERITS (parent);
CREATE VIEW look AS SELECT 1; CREATE MATERIALIZED VIEW kept AS SELECT 1;
CREATE TABLE parts (id int PRIMARY KEY) PARTITION BY RANGE (id);
CREATE TABLE mid PARTITION OF parts FOR VALUES FROM (0) TO (10) PARTITION BY RANGE (id);
CREATE TABLE leaf PARTITION OF mid FOR VALUES FROM (0) TO (5);
CREATE TABLE bad (id int PRIMARY KEY) PARTITION BY RANGE (id);
CREATE TABLE bad_mid PARTITION OF bad FOR VALUES FROM (0) TO (10) PARTITION BY RANGE (id);
CREATE UNLOGGED TABLE bad_leaf PARTITION OF bad_mid FOR VALUES FROM (0) TO (5);
CREATE TABLE secured (id int PRIMARY KEY); ALTER TABLE secured ENABLE ROW LEVEL SECURITY;
CREATE RULE r AS ON DELETE TO whole DO INSTEAD NOTHING;
CREATE FUNCTION hook() RETURNS trigger LANGUAGE plpgsql AS $$BEGIN RETURN NEW; END$$;
CREATE TRIGGER h BEFORE INSERT ON leaf FOR EACH ROW EXECUTE FUNCTION hook();
CREATE SCHEMA other; CREATE TABLE other.plain (id int PRIMARY KEY);
CREATE FUNCTION abs(mood) RETURNS int LANGUAGE sql AS 'SELECT 1';
CREATE FUNCTION certain(int) RETURNS int IMMUTABLE LANGUAGE sql AS 'SELECT 1';
CREATE FUNCTION other.role() RETURNS void LANGUAGE plpgsql AS $$BEGIN SET ROLE joe; END$$;
CREATE FUNCTION many() RETURNS SETOF int LANGUAGE sql AS 'SELECT 1';
CREATE AGGREGATE total (int) (SFUNC = int4pl, STYPE = int);
CREATE FUNCTION op(mood, mood) RETURNS bool LANGUAGE sql AS 'SELECT true';
CREATE OPERATOR === (LEFTARG = mood, RIGHTARG = mood, FUNCTION = op);
`

// server is shared by this package's tests; nil if PostgreSQL isn't installed.
var server *cluster.Cluster

func TestMain(m *testing.M) {
	started, err := cluster.Start([]string{"autovacuum=off"}, nil)
	if err != nil && !errors.Is(err, cluster.ErrMissing) {
		fmt.Fprintln(os.Stderr, err)
		os.Exit(1)
	}
	server = started
	status := m.Run()
	if server != nil {
		server.Stop()
	}
	os.Exit(status)
}

// open returns a connection to a new database with the schema.
func open(t *testing.T, database string) *pgconn.PgConn {
	t.Helper()
	if server == nil {
		t.Skip(cluster.ErrMissing)
	}
	ctx := context.Background()
	first, err := server.Connect(ctx)
	if err != nil {
		t.Fatal(err)
	}
	run(t, first, "CREATE DATABASE "+database)
	first.Close(ctx)
	connection, err := pgconn.Connect(ctx, server.DSN("postgres", database))
	if err != nil {
		t.Fatal(err)
	}
	t.Cleanup(func() { connection.Close(ctx) })
	run(t, connection, schema)
	return connection
}

func run(t *testing.T, connection *pgconn.PgConn, sql string) [][]string {
	t.Helper()
	rows, err := cluster.Rows(context.Background(), connection, sql)
	if err != nil {
		t.Fatalf("%s: %v", sql, err)
	}
	return rows
}

func load(t *testing.T, connection *pgconn.PgConn) *catalog.Catalog {
	t.Helper()
	c, err := catalog.Load(context.Background(), cluster.Query(context.Background(), connection))
	if err != nil {
		t.Fatal(err)
	}
	if len(c.Path) != 0 {
		t.Errorf("it has the search path %v", c.Path)
	}
	if c, err = c.In(run(t, connection, catalog.PathSQL)[0][0]); err != nil {
		t.Fatal(err)
	}
	return c
}

func TestLoad(t *testing.T) {
	connection := open(t, "loaded")
	c := load(t, connection)
	if fmt.Sprint(c.Path) != "[public]" || c.Encoding != "UTF8" {
		t.Errorf("path %v, encoding %s", c.Path, c.Encoding)
	}
	tables(t, c)
	plain, _ := c.Find("", "plain")
	key := plain.Key
	if len(key) != 3 || key[0].Name != "a" || key[0].Type != keys.Enum || key[1].Type != keys.Int4 || key[2].Type != keys.Text {
		t.Errorf("the key is %+v", key)
	}
	x, _ := plain.Column("x")
	b, _ := plain.Column("b")
	a, _ := plain.Column("a")
	if _, ok := plain.Column("gone"); ok {
		t.Error("a dropped column is there")
	}
	for _, covered := range []struct {
		columns []int16
		want    bool
	}{{nil, true}, {[]int16{x.Number}, true}, {[]int16{x.Number, b.Number}, true}, {[]int16{a.Number, b.Number}, true},
		{[]int16{x.Number, a.Number}, false}} {
		set := map[int16]bool{}
		for _, number := range covered.columns {
			set[number] = true
		}
		if plain.Covered(set) != covered.want {
			t.Errorf("columns %v are covered: %v", covered.columns, !covered.want)
		}
	}
	if other, ok := c.Find("other", "plain"); !ok || other == plain {
		t.Error("other.plain isn't found")
	}
	if same, ok := c.Table(plain.OID); !ok || same != plain || c.Root(plain.OID) != plain.OID || c.Root(7) != 7 {
		t.Error("a table isn't found by its identifier")
	}
	root, _ := c.Find("", "parts")
	leaf, _ := c.Find("", "leaf")
	if c.Root(leaf.OID) != root.OID || !root.Triggers || !root.Partitioned() || leaf.Partitioned() {
		t.Errorf("the root of %+v is %+v", leaf, root)
	}
	if len(c.Tables()) < 20 {
		t.Errorf("%d tables", len(c.Tables()))
	}
}

// tables compares the result for each table.
func tables(t *testing.T, c *catalog.Catalog) {
	t.Helper()
	for name, want := range map[string]string{
		"plain": "", "no key": "no primary key", "fast": "an unlogged table", "look": "a view", "kept": "a materialized view",
		"json_key": "the type of key column id has no canonical text", "whole": " rules",
		"nothing": "its replica identity leaves out the primary key", "indexed": "its replica identity leaves out the primary key",
		"indexed2": "", "parent": "other tables inherit from it", "child": "no primary key", "parts": " triggers",
		"mid": " triggers", "leaf": " triggers", "bad": "a partition can't be seen: an unlogged table",
		"bad_mid": "a partition can't be seen: an unlogged table", "bad_leaf": "an unlogged table", "secured": " security",
	} {
		table, ok := c.Find("", name)
		if !ok {
			t.Errorf("%s isn't found", name)
			continue
		}
		got := table.Hidden
		for flag, set := range map[string]bool{" rules": table.Rules, " triggers": table.Triggers, " security": table.RowSecurity} {
			if set {
				got += flag
			}
		}
		if got != want {
			t.Errorf("%s: %q, not %q", name, got, want)
		}
	}
}

// replaced puts something else in the place of what the server has in SQL.
const replaced = `
CREATE OR REPLACE FUNCTION pg_catalog.shobj_description(oid, name) RETURNS text STABLE LANGUAGE sql
    AS 'SELECT max(v)::text FROM public."no key"';
CREATE OR REPLACE FUNCTION pg_catalog.obj_description(oid, name) RETURNS text STABLE LANGUAGE sql
    BEGIN ATOMIC SELECT max(v)::text FROM public."no key"; END;
`

func TestFunctions(t *testing.T) {
	connection := open(t, "functions")
	run(t, connection, replaced)
	c := load(t, connection)
	for name, want := range map[string]string{
		"lower": "", "now": "", "random": "", "nextval": "", "pg_advisory_lock": "", "gen_random_uuid": "", "certain": "",
		"pg_catalog.abs": "", "abs": "reads writes", "public.abs": "reads writes", "pg_catalog.hook": "names reads set writes",
		"count": "aggregate", "total": "aggregate", "rank": "aggregate window", "sum": "aggregate",
		"generate_series": "set", "many": "reads set writes", "other.role": "names reads writes", "set_config": "names",
		"query_to_xml": "reads writes", "lo_create": "writes", "missing": "names reads set writes", "citext": "",
		"pg_logical_emit_message": "writes", "other.abs": "reads writes",
		"age": "", "overlaps": "", "col_description": "", "ts_debug": "set", // in SQL
		"shobj_description": "writes", "obj_description": "writes",
	} {
		schema, function, ok := strings.Cut(name, ".")
		if !ok {
			schema, function = "", name
		}
		f := c.Function(schema, function)
		var got []string
		for flag, set := range map[string]bool{"aggregate": f.Aggregate, "window": f.Window, "set": f.Set, "reads": f.Reads,
			"writes": f.Writes, "names": f.Names} {
			if set {
				got = append(got, flag)
			}
		}
		sort.Strings(got)
		if strings.Join(got, " ") != want {
			t.Errorf("%s: %q, not %q", name, got, want)
		}
	}
	if c.PureOperator("===") || !c.PureOperator("=") {
		t.Error("operators that call a function aren't told from others")
	}
}

func TestLoadFails(t *testing.T) {
	lost := errors.New("lost")
	_, err := catalog.Load(context.Background(), func(own.Text) ([][]string, error) { return nil, lost })
	if !errors.Is(err, lost) {
		t.Errorf("%v", err)
	}
	if _, err := catalog.Load(context.Background(), func(own.Text) ([][]string, error) { return [][]string{{"1"}}, nil }); err == nil {
		t.Error("rows that aren't wide enough are taken")
	}
	ended, cancel := context.WithCancel(context.Background())
	cancel()
	if _, err := catalog.Load(ended, func(own.Text) ([][]string, error) { return nil, nil }); !errors.Is(err, context.Canceled) {
		t.Errorf("%v", err)
	}
}

// TestKeyIdentity: a table by another name has another identity, since a statement may mean another table by it.
func TestKeyIdentity(t *testing.T) {
	seen := map[record.Identity]bool{}
	for _, it := range [][3]string{{"a", "b", "c"}, {"a", "bc", ""}, {"ab", "", "c"}, {"a", "b", "d"}, {"b", "a", "c"}, {`a"`, `b`, "c"}} {
		identity := catalog.KeyIdentity(it[0], it[1], it[2])
		if identity == 0 || seen[identity] || identity != catalog.KeyIdentity(it[0], it[1], it[2]) {
			t.Errorf("%q: %d", it, identity)
		}
		seen[identity] = true
	}
}
