package plan

import (
	"encoding/binary"
	"fmt"
	"strings"
	"testing"

	"zanteyard/catalog"
	"zanteyard/keys"
	"zanteyard/record"
)

// TestTrial tries plans on connections with other names or rights.
func TestTrial(t *testing.T) {
	connection := connect(t, "trial", schema+`
		CREATE ROLE narrow LOGIN; CREATE ROLE wide LOGIN;
		GRANT SELECT (id, v) ON t TO narrow; GRANT INSERT, UPDATE ON t TO narrow; GRANT ALL ON ALL TABLES IN SCHEMA public TO wide;
		GRANT USAGE ON SCHEMA other TO wide`)
	cache := NewCache(load(t, connection))
	read, _ := cache.Plan("SELECT v FROM t WHERE id = 1")
	write, _ := cache.Plan("INSERT INTO t VALUES (1000)")
	odd, _ := cache.Plan(`SELECT "from" FROM "Über ""x"""`)
	for _, p := range []*Plan{read, write, odd} {
		tried(t, again(t, "wide", "trial"), p, true)
	}
	for _, c := range []struct {
		user, sql   string
		read, write bool
	}{
		{"narrow", "SELECT 1", false, false},
		{"wide", "CREATE TEMP TABLE t (id int PRIMARY KEY, v int, s text)", false, false},
		{"wide", "CREATE TEMP TABLE t (x int)", false, false},
		{"wide", "SET search_path TO other, public", false, false},
		{"wide", "SET search_path TO ''", false, false},
		{"wide", "SET standard_conforming_strings TO off", true, true},
		{"wide", "SET ROLE wide", true, true},
		{"postgres", "SET ROLE narrow", false, false},
		{"postgres", "REVOKE SELECT ON t FROM wide; SET SESSION AUTHORIZATION wide", false, false},
		{"postgres", "RESET SESSION AUTHORIZATION; GRANT SELECT ON t TO wide; ALTER TABLE t RENAME id TO i", false, true},
		{"postgres", "ALTER TABLE t RENAME i TO id; ALTER TABLE t RENAME TO other_name; CREATE TABLE t (LIKE other_name)", false, false},
	} {
		other := again(t, c.user, "trial")
		run(t, other, c.sql)
		tried(t, other, read, c.read)
		tried(t, other, write, c.write)
		if t.Failed() {
			t.Fatalf("%s: %s", c.user, c.sql)
		}
	}
	if trial := cache.state.Load().unknown.Trial(); trial.Privileges != "" || trial.Statements != nil {
		t.Errorf("a plan that adds nothing is tried by %+v", trial)
	}
}

func TestPartsOfSeveral(t *testing.T) {
	connection := connect(t, "several", schema)
	cache := NewCache(load(t, connection))
	for _, text := range []string{
		"BEGIN; SELECT v FROM t WHERE id = 1; INSERT INTO t VALUES (77, 7), (78, 8), (79, 9) /* x */; COMMIT",
		"BEGIN;SELECT v FROM t WHERE id = 2; INSERT INTO t VALUES (87, 7);;-- end\nCOMMIT;",
	} {
		p, tokens := cache.Plan(text)
		if p.Kind != Several || len(tokens.Parts()) != 4 {
			t.Fatalf("%q has the plan %+v", text, p)
		}
		rewritten, shift := text, 0
		for _, part := range tokens.Parts() {
			own := text[part.From:part.To]
			changed, inserted := part.Plan.Rewrite(own, part.Tokens)
			rewritten = rewritten[:part.From+shift] + changed + rewritten[part.To+shift:]
			shift += len(changed) - len(own)
			if (len(inserted) > 0) != (part.Plan.Kind == Select || part.Plan.Kind == Write) {
				t.Errorf("%q became %q", own, changed)
			}
		}
		if want := strings.Count(text, "(") - 0; strings.Count(rewritten, "zanteyard") != 5 || want == 0 {
			t.Errorf("%q became %q", text, rewritten)
		}
		results := run(t, connection, rewritten)
		if len(results) != 4 || len(results[1].Rows[0]) != 4 || len(results[2].Rows[0]) != 2 {
			t.Errorf("%q gave %+v", rewritten, results)
		}
	}
}

func TestCursorsAndPrepared(t *testing.T) {
	connection := connect(t, "cursors", schema)
	known := load(t, connection)
	cache := NewCache(known)
	for _, c := range []struct{ before, text, fetch string }{
		{"BEGIN", "DECLARE c CURSOR FOR SELECT v FROM t WHERE id < 3 AND v > 0 ORDER BY 1", "FETCH ALL FROM c"},
		{"BEGIN", "DECLARE c NO SCROLL CURSOR WITH HOLD FOR (SELECT v FROM t ORDER BY v)", "FETCH 3 FROM c"},
		{"BEGIN", "PREPARE p (int) AS SELECT v FROM t WHERE id = $1", "EXECUTE p (2)"},
		{"BEGIN", "PREPARE q AS DELETE FROM t WHERE id = $1 RETURNING v", "EXECUTE q (2)"},
		{"BEGIN", "PREPARE r AS UPDATE t SET v = 1 WHERE id = $1", "EXECUTE r (2)"},
	} {
		p, tokens := cache.Plan(c.text)
		if p.Inner == nil || p.Inner.Hidden() == 0 || p.Hidden() != 0 || p.Inner.Asked {
			t.Fatalf("%q has the plan %+v", c.text, p)
		}
		untouched(t, c.text, p, tokens)
		tried(t, connection, p, true)
		rewritten, _ := p.Rewrite(c.text, tokens)
		run(t, connection, c.before)
		versions := stored(t, connection, known, p.Inner)
		run(t, connection, rewritten)
		result := run(t, connection, c.fetch)[0]
		number := run(t, connection, "SELECT coalesce(pg_current_xact_id_if_assigned()::text, ''); ROLLBACK")[0].Rows[0][0]
		if len(result.Rows) == 0 {
			t.Errorf("%q gives nothing", c.fetch)
		}
		for _, row := range result.Rows {
			told(t, p.Inner, row[len(row)-p.Inner.Hidden():], false, string(number), versions)
		}
	}
	p, tokens := cache.Plan("DECLARE c CURSOR FOR SELECT v FROM t ORDER BY 2")
	if _, inserted := p.Rewrite("DECLARE c CURSOR FOR SELECT v FROM t ORDER BY 2", tokens); inserted != nil || p.Kind != Declare ||
		p.Inner.Hidden() != 0 {
		t.Errorf("a place that isn't there: %+v", p)
	}
}

func TestAskedKey(t *testing.T) {
	connection := connect(t, "asked", schema+`;
		CREATE TABLE texts (id text PRIMARY KEY, v int); CREATE TABLE numbers (id numeric PRIMARY KEY, v int);
		CREATE TABLE chars (id char(4) PRIMARY KEY, v int); CREATE TABLE times (id timestamptz PRIMARY KEY, v int);
		CREATE TABLE moods (id mood PRIMARY KEY, v int); CREATE TABLE amounts (id amount PRIMARY KEY, v int);
		CREATE TABLE floats (id float8 PRIMARY KEY, v int)`)
	cache := NewCache(load(t, connection))
	int4 := func(n uint32) []byte { return binary.BigEndian.AppendUint32(nil, n) }
	for _, c := range []struct {
		text       string
		parameters [][]byte
		formats    []int16
		types      []uint32
		want       string // "no" if no key is known
	}{
		{text: "SELECT v FROM t WHERE id = 12", want: "12"},
		{text: "SELECT v FROM t WHERE id = -12", want: "-12"},
		{text: "SELECT v FROM t WHERE id = - 12 LIMIT 1", want: "-12"},
		{text: "SELECT v FROM t WHERE id = 012", want: "12"},
		{text: "SELECT v FROM t WHERE id = '12'", want: "12"},
		{text: "SELECT v FROM t WHERE id = ' 12 '::int LIMIT 21", want: "12"},
		{text: "SELECT v FROM t WHERE id = 12 LIMIT 0", want: "no"},
		{text: "SELECT v FROM t WHERE id = 12 LIMIT $1", parameters: [][]byte{[]byte("1")}, want: "no"},
		{text: "SELECT v FROM t WHERE id = 12 LIMIT 1.5", want: "no"},
		{text: "SELECT v FROM t WHERE id = NULL", want: "no"},
		{text: "SELECT v FROM t WHERE id = 1.5", want: "no"},
		{text: "SELECT v FROM t WHERE id = 1 OR id = 2", want: "no"},
		{text: "SELECT v FROM t WHERE NOT id = 1", want: "no"},
		{text: "SELECT v FROM t WHERE id <> 1", want: "no"},
		{text: "SELECT generate_series(1, 0) FROM t WHERE id = 1", want: "no"},
		{text: "SELECT v FROM ONLY t WHERE id = 1", want: "no"},
		{text: "SELECT v FROM secured WHERE id = 1", want: "no"},
		{text: "SELECT v FROM t WHERE id = $1", parameters: [][]byte{[]byte("7")}, want: "7"},
		{text: "SELECT v FROM t WHERE id = $1", parameters: [][]byte{int4(7)}, formats: []int16{1}, want: "7"},
		{text: "SELECT v FROM t WHERE id = $2 AND $1 = $1", parameters: [][]byte{nil, int4(7)}, want: "no"},
		{text: "SELECT $1, v FROM t WHERE id = $2", parameters: [][]byte{nil, int4(7)}, formats: []int16{0, 1}, want: "7"},
		{text: "SELECT v FROM t WHERE id = $1", parameters: [][]byte{nil}, want: "no"},
		{text: "SELECT v FROM t WHERE id = $1", want: "no"},
		{text: "SELECT v FROM t WHERE id = $1", parameters: [][]byte{binary.BigEndian.AppendUint64(nil, 7)},
			formats: []int16{1}, types: []uint32{keys.Int8}, want: "7"},
		{text: "SELECT v FROM t WHERE id = $1", parameters: [][]byte{binary.BigEndian.AppendUint64(nil, 7)},
			formats: []int16{1}, types: []uint32{keys.Float8}, want: "no"},
		{text: "SELECT c FROM two WHERE b = 'it''s' AND a = 5", want: "it's\x005"},
		{text: "SELECT c FROM two WHERE a = $1 AND b = $2", parameters: [][]byte{int4(5), []byte("x")},
			formats: []int16{1, 0}, want: "x\x005"},
		{text: "SELECT c FROM two WHERE a = 1 AND a = 2", want: "no"},
		{text: `SELECT "from" FROM "Über ""x""" WHERE "Select" = 1`, want: "1"},
		{text: "SELECT v FROM texts WHERE id = $$it's$$", want: "it's"},
		{text: "SELECT v FROM texts WHERE id = $a$it's$a$", want: "it's"},
		{text: "SELECT v FROM texts WHERE id = E'plain'", want: "plain"},
		{text: `SELECT v FROM texts WHERE id = E'a\'b'`, want: "no"},
		{text: `SELECT v FROM texts WHERE id = 'a\b'`, want: `a\b`},
		{text: "SELECT v FROM texts WHERE id = 'a'\n'b'", want: "no"},
		{text: `SELECT v FROM texts WHERE id = U&'a!0062' UESCAPE '!'`, want: "no"},
		{text: "SELECT v FROM texts WHERE id = 'ü '", want: "ü "},
		{text: "SELECT v FROM texts WHERE id = $1", parameters: [][]byte{[]byte("x")}, types: []uint32{keys.Varchar}, want: "x"},
		{text: "SELECT v FROM texts WHERE id = $1::varchar(2)", parameters: [][]byte{[]byte("xyz")}, want: "no"},
		{text: "SELECT v FROM numbers WHERE id = 1.50", want: "1.5"},
		{text: "SELECT v FROM numbers WHERE id = -1e2", want: "-100"},
		{text: "SELECT v FROM amounts WHERE id = 1.50", want: "1.5"},
		{text: "SELECT v FROM chars WHERE id = 'a '", want: "a"},
		{text: "SELECT v FROM chars WHERE id = $1", parameters: [][]byte{[]byte("a ")}, types: []uint32{keys.Varchar}, want: "no"},
		{text: "SELECT v FROM times WHERE id = '2000-01-01 00:00:01+00'", want: "1000000"},
		{text: "SELECT v FROM times WHERE id = '2000-01-01 00:00:01'", want: "no"},
		{text: "SELECT v FROM times WHERE id = '01/01/2000'", want: "no"},
		{text: "SELECT v FROM moods WHERE id = 'sad'", want: "no"}, // but by a condition, with the label's type
		{text: "SELECT v FROM floats WHERE id = 0.1", want: "no"},
		{text: "SELECT o FROM other.z WHERE id = 'A0EEBC99-9C0B-4EF8-BB6D-6BB9BD380A11'",
			want: "a0eebc99-9c0b-4ef8-bb6d-6bb9bd380a11"},
	} {
		for _, text := range []string{c.text, "/* x */  " + strings.ReplaceAll(c.text, " WHERE ", "\n\tWHERE ")} {
			p, tokens := cache.Plan(text)
			key, ok := p.AskedKey(text, tokens, c.parameters, c.formats, c.types)
			if ok != (c.want != "no") || ok && key != record.Key(c.want) {
				t.Errorf("%q asks for %q, %v, not %q", text, key, ok, c.want)
			}
		}
	}
}

// TestLockedRow reads a row FOR UPDATE that another transaction changes meanwhile: at read committed the new version is
// returned, and the hidden columns are those of that version.
func TestLockedRow(t *testing.T) {
	connection := connect(t, "locked", schema)
	cache := NewCache(load(t, connection))
	other := again(t, "postgres", "locked")
	for _, text := range []string{
		"SELECT v FROM t WHERE id = 1 FOR UPDATE",
		"SELECT t.v, u.w FROM t JOIN u ON u.t = t.id WHERE t.id = 1 AND u.id = 1 FOR UPDATE OF t",
		"UPDATE t SET v = t.v FROM u WHERE t.id = 1 AND u.id = 1 AND u.t = t.id RETURNING t.v",
		"DELETE FROM t WHERE id = 1",
	} {
		p, tokens := cache.Plan(text)
		rewritten, _ := p.Rewrite(text, tokens)
		run(t, other, "BEGIN; UPDATE t SET v = v + 1 WHERE id = 1")
		want := string(run(t, other, "SELECT xmin::text FROM t WHERE id = 1")[0].Rows[0][0])
		blocked := make(chan answer, 1)
		go func() { blocked <- ask(connection, rewritten, 0) }()
		for string(run(t, other, "SELECT count(*) FROM pg_locks WHERE NOT granted")[0].Rows[0][0]) == "0" {
			if len(blocked) > 0 {
				t.Fatalf("%q isn't blocked: %+v", rewritten, <-blocked)
			}
			run(t, other, "SELECT pg_sleep(0.001)")
		}
		run(t, other, "COMMIT")
		got := <-blocked
		if got.err != "" || len(got.rows) != 1 {
			t.Fatalf("%q: %+v", rewritten, got)
		}
		row := got.rows[0]
		reads, err := p.Decode(row[len(row)-p.Hidden():], false)
		if err != nil || len(reads) == 0 {
			t.Fatalf("%q: %v, %v", rewritten, reads, err)
		}
		if p.Kind == Write && p.TellsVersion { // what it wrote is its own
			continue
		}
		if fmt.Sprint(reads[0].Version) != want {
			t.Errorf("%q read version %d, not %s", text, reads[0].Version, want)
		}
	}
}

// TestPreparedOutlivesNewType changes a key's type while a statement is prepared: the client's own statement would keep
// working, so the rewritten one has to.
func TestPreparedOutlivesNewType(t *testing.T) {
	connection := connect(t, "newtype", schema)
	cache := NewCache(load(t, connection))
	const text = "SELECT v FROM t WHERE id = $1"
	p, tokens := cache.Plan(text)
	rewritten, _ := p.Rewrite(text, tokens)
	if _, err := connection.Prepare(ctx(), "p", rewritten, nil); err != nil {
		t.Fatal(err)
	}
	for _, sql := range []string{"DROP VIEW seen; ALTER TABLE t ALTER id TYPE bigint", "ALTER TABLE t RENAME TO t2; ALTER TABLE t2 RENAME TO t"} {
		run(t, again(t, "postgres", "newtype"), sql)
		result := connection.ExecPrepared(ctx(), "p", [][]byte{[]byte("1")}, nil, []int16{1}).Read()
		if result.Err != nil || len(result.Rows) != 1 {
			t.Fatalf("after %s: %v", sql, result.Err)
		}
		if reads, err := p.Decode(result.Rows[0][1:], true); err != nil || reads[0].Key != "1" {
			t.Errorf("after %s: %v, %v", sql, reads, err)
		}
	}
}

// TestLongTexts tries plans whose lists are too long to be kept.
func TestLongTexts(t *testing.T) {
	connection := connect(t, "long", schema)
	known := load(t, connection)
	cache := NewCache(known)
	for _, text := range []string{
		"SELECT v FROM t WHERE id IN (" + strings.Repeat("1, ", 10000) + "2) ORDER BY 1",
		"DELETE FROM t WHERE v = 7 OR id IN (" + strings.Repeat("7, ", 10000) + "2) RETURNING s -- end",
		"INSERT INTO t (id, v, s) VALUES (100, 1, '" + strings.Repeat("x", 20000) + "')",
	} {
		p, tokens := cache.Plan(text)
		if len(p.sample) > 300 && p.Kind != Write || p.Hidden() == 0 {
			t.Errorf("%.40q has the plan %+v", text, p)
		}
		untouched(t, text, p, tokens)
		tried(t, connection, p, !strings.HasPrefix(text, "INSERT")) // its shortened text has more columns than values
		compare(t, connection, known, text, p, tokens, 0, true)
	}
}

// TestSearchPaths plans the same text for connections on which its names mean other tables.
func TestSearchPaths(t *testing.T) {
	connection := connect(t, "paths", `CREATE SCHEMA one; CREATE TABLE one.t (id int PRIMARY KEY, v int);
		CREATE SCHEMA "Two"; CREATE TABLE "Two".t (k text PRIMARY KEY, v int); CREATE TABLE "Two".sole (id int PRIMARY KEY, v int)`)
	known := load(t, connection)
	cache := NewCache(known)
	path := func() string { return string(run(t, connection, catalog.PathSQL)[0].Rows[0][0]) }
	if p, _ := cache.PlanIn(path(), "SELECT v FROM t"); seen(known, p) != "" || reasons(p) != "unknown table" {
		t.Errorf("in the path %s: %+v", path(), p)
	}
	for set, want := range map[string]string{"one, public": "one", `"Two"`: "Two", `one, "Two"`: "one"} {
		run(t, connection, "SET search_path TO "+set)
		p, _ := cache.PlanIn(path(), "SELECT v FROM t")
		if len(p.Sources) != 1 {
			t.Fatalf("in %s: %+v", set, p)
		}
		if table, _ := known.Table(uint32(p.Sources[0].Relation)); table.Schema != want {
			t.Errorf("in %s it is %s", set, table.Schema)
		}
		tried(t, connection, p, true)
		if again, _ := cache.PlanIn(path(), "SELECT v FROM t"); again != p {
			t.Error("it is planned twice")
		}
	}
	// A name that only one schema has is taken to mean that one.
	p, _ := cache.Plan("SELECT v FROM sole")
	run(t, connection, `SET search_path TO "Two"`)
	tried(t, connection, p, true)
	run(t, connection, "SET search_path TO one")
	tried(t, connection, p, false)
	for i := 0; i < 2*mostPaths; i++ {
		cache.PlanIn(fmt.Sprintf(`["x%d"]`, i), "SELECT 1")
	}
	if n := len(cache.state.Load().paths); n > mostPaths+1 {
		t.Errorf("%d paths are kept", n)
	}
	for _, path := range []string{`["y"]`, Converting + `["y"]`} {
		beyond := cache.state.Load().in(path).catalog
		if beyond.First("public") || beyond.Converts != strings.HasPrefix(path, Converting) {
			t.Errorf("names of the path %s are certain, or its texts are another's: %v", path, beyond.Path)
		}
	}
	if p, _ := cache.PlanIn("no JSON", "SELECT 1"); p.Kind != Select {
		t.Errorf("%+v", p)
	}
}
