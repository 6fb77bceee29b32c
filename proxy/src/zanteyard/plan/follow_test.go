package plan

import (
	"context"
	"fmt"
	"math"
	"strings"
	"testing"
	"time"

	"zanteyard/catalog"
	"zanteyard/cluster"
	"zanteyard/condition"
	"zanteyard/record"
)

// TestFollowed: what each SELECT asks for, from the constants of its own text, though its plan was made for another one.
func TestFollowed(t *testing.T) {
	connection := connect(t, fmt.Sprint("followed_", time.Now().UnixNano()), `CREATE TABLE r (id int PRIMARY KEY, a int, b text COLLATE "C", free bool, during int4range);
		CREATE TABLE other (id int PRIMARY KEY, a int); CREATE TABLE hidden (a int);
		CREATE TABLE secret (id int PRIMARY KEY, a int); ALTER TABLE secret ENABLE ROW LEVEL SECURITY;
		CREATE TABLE triggered (id int PRIMARY KEY, a int); CREATE FUNCTION nothing() RETURNS trigger LANGUAGE plpgsql AS 'BEGIN RETURN NULL; END';
		CREATE TRIGGER no BEFORE UPDATE ON triggered FOR EACH ROW EXECUTE FUNCTION nothing();
		CREATE TABLE ruled (id int PRIMARY KEY, a int); CREATE RULE no AS ON UPDATE TO ruled DO INSTEAD NOTHING`)
	known, err := catalog.Load(ctx(), cluster.Query(context.Background(), connection), catalog.WithColumns)
	if err == nil {
		known, err = known.In(`["public"]`)
	}
	if err != nil {
		t.Fatal(err)
	}
	cache := NewCache(known)
	table, _ := known.Find("", "r")
	if cache.FollowsTable(record.Relation(table.OID)) {
		t.Error("nothing was planned yet")
	}
	byKey, _ := cache.Plan("UPDATE r SET a = 1 WHERE id = 2")
	if !byKey.Follows() || cache.FollowsTable(record.Relation(table.OID)) {
		t.Error("values are wanted of a table of which nobody has asked for a row that isn't there")
	}
	if byKey.HasAsked(); !cache.FollowsTable(record.Relation(table.OID)) {
		t.Error("its values aren't wanted")
	}
	cache = NewCache(known)
	for _, x := range []struct {
		texts string // one with the same plan, made first; "" for none
		text  string
		want  string // the condition, and the most rows; or why not
	}{
		{"SELECT * FROM r WHERE a = -1", "SELECT * FROM r WHERE a = - 7", "r WHERE a = -7"},
		{"SELECT * FROM r WHERE a = 1", "SELECT id FROM r WHERE a=5 -- no more", "r WHERE a = 5"},
		{"SELECT * FROM r WHERE a IN (1, 2)", "SELECT * FROM r WHERE a IN (-3, 4 , 5)", "r WHERE a IN (-3, 4, 5)"},
		{"SELECT * FROM r WHERE a IN (1)", "SELECT * FROM r WHERE a IN (1, NULL)", "r WHERE a IN (1, NULL)"},
		{"", "SELECT * FROM r WHERE a IN ($1, $2)", "r WHERE a IN (11, 12)"},
		{"SELECT * FROM r WHERE a IN ($1)", "SELECT * FROM r WHERE a IN ($1, $2)", "r WHERE a IN (11, 12)"},
		{"SELECT * FROM r WHERE a IN (1)", "SELECT * FROM r WHERE a IN (1, $2)", "r WHERE a IN (1, 12)"},
		{"SELECT * FROM r WHERE during && int4range(1, 2)", "SELECT * FROM r WHERE during && int4range(3, 5, '[]')", "r WHERE during && '[3,6)'"},
		{"", "SELECT * FROM r WHERE during && int4range($1::int, $2::int)", "r WHERE during && '[11,12)'"},
		{"", "SELECT * FROM r WHERE during && int4range($1, $2)", "a bound of a range without the range's own type, which may choose another function"},
		{"", "SELECT * FROM r WHERE during && int4range(0, $1::int)", "a function"},
		{"", "SELECT * FROM r WHERE during && int4range(1)", "a constant in an unknown form"},
		{"SELECT * FROM r WHERE b = 'x'", "SELECT * FROM r WHERE b = 'it''s'", "r WHERE b = 'it''s'"},
		{"SELECT * FROM r WHERE b = 'x'", `SELECT * FROM r WHERE b = U&'\0061'`, "a constant in an unknown form"},
		{"SELECT * FROM r WHERE b = 'x'", "SELECT * FROM r WHERE b = X'1F'", "a constant in an unknown form"},
		{"", "SELECT * FROM r WHERE b = 'x'\n'y'", "a constant in an unknown form"},
		{"", "SELECT * FROM r WHERE free", "r WHERE free"},
		{"", "SELECT * FROM r", "r"},
		{"", "SELECT id FROM r WHERE NOT free OR a BETWEEN 1 AND 3 FOR UPDATE", "r WHERE NOT free OR a >= 1 AND a <= 3"},
		{"SELECT * FROM r WHERE a = 1 LIMIT 5", "SELECT * FROM r WHERE a = 2 ORDER BY id LIMIT 3", "r WHERE a = 2, most 3"},
		{"", "SELECT * FROM r WHERE a = $1 LIMIT $2", "r WHERE a = 11, most 12"},
		{"", "SELECT * FROM r WHERE id = 1 AND a = 2", "r WHERE id = 1 AND a = 2"},
		{"", "SELECT * FROM r WHERE id = 1", ""}, // if there is no such row, it is reported as absent
		{"", "SELECT * FROM r LIMIT 1 + 1", "a LIMIT that isn't a number"},
		{"", "SELECT * FROM r OFFSET 1", "OFFSET"}, {"", "SELECT * FROM r WHERE a = 1 OFFSET 0", "r WHERE a = 1"},
		{"SELECT * FROM r WHERE a = 1 LIMIT 8 OFFSET 9", "SELECT * FROM r WHERE a = 1 LIMIT 2 OFFSET 0", "r WHERE a = 1, most 2"},
		{"", "SELECT * FROM r WHERE a = 1 OFFSET 0 LIMIT 3", "r WHERE a = 1, most 3"}, {"", "SELECT * FROM r LIMIT 3 OFFSET $1", "OFFSET"},
		{"", "SELECT * FROM r LIMIT 3 OFFSET 1 - 1", "OFFSET"}, {"", "SELECT * FROM r WHERE a = 1 LIMIT $2 OFFSET $3", "r WHERE a = 1, most 12"}, {"", "SELECT DISTINCT ON (a) id FROM r LIMIT 3", "DISTINCT"},
		{"", "SELECT a, count(*) FROM r GROUP BY a ORDER BY a LIMIT 3", "r, most 3"},
		{"", "SELECT a FROM r GROUP BY a HAVING count(*) > 1 ORDER BY a", "HAVING"}, {"", "SELECT a FROM r GROUP BY id LIMIT 3", "GROUP BY"}, {"", "SELECT generate_series(1, a) FROM r LIMIT 3", aSetFunction},
		{"", "SELECT count(*) FROM r", "r"}, {"", "SELECT sum(a) FROM r WHERE a > 5", "r WHERE a > 5"}, {"", "SELECT DISTINCT a FROM r", "r"},
		{"", "SELECT r.id FROM r, other WHERE r.a = other.a", "a join of no rows, beside which others could stand"}, {"", "SELECT * FROM hidden", "no primary key"},
		{"", "SELECT * FROM secret", "row security"}, {"", "SELECT * FROM ONLY r", "ONLY"},
		{"", "SELECT * FROM r TABLESAMPLE system (10)", "TABLESAMPLE"}, {"", "SELECT * FROM r FOR UPDATE SKIP LOCKED", "SKIP LOCKED"},
		{"", "SELECT * FROM r WHERE a IN (SELECT a FROM other)", "a join of no rows, beside which others could stand"}, {"", "SELECT id FROM r UNION SELECT id FROM other", "UNION, INTERSECT or EXCEPT"},
		{"", "SELECT id FROM r UNION ALL SELECT id FROM other", "UNION, INTERSECT or EXCEPT"}, {"", "VALUES (1)", ""},
		{"", "UPDATE r SET a = 1 WHERE free", "r WHERE free"}, {"", "DELETE FROM r WHERE a IN (1, $2)", "r WHERE a IN (1, 12)"},
		{"", "UPDATE r SET a = 1 WHERE id = 1", "r WHERE id = 1"}, {"", "UPDATE r SET a = 1 WHERE id = 1 AND free", "r WHERE id = 1 AND free"},
		{"", "UPDATE r SET a = 1 FROM other WHERE r.a = 1", "several tables"}, {"", "DELETE FROM secret WHERE a = 1", "row security"},
		{"", "UPDATE triggered SET a = 1 WHERE a = 2", "a trigger may keep a row from being written"},
		{"", "UPDATE ruled SET a = 1 WHERE a = 2", ""}, {"", "DELETE FROM r USING other WHERE r.a = other.a", "several tables"}, {"", "SELECT 1", ""}, {"", "SELECT now()", ""},
		{"", "SELECT EXISTS (SELECT FROM r WHERE a = 1)", aSubquery}, {"", "SELECT (SELECT count(*) FROM r WHERE a = 1) + 1", aSubquery},
		{"", "SELECT EXISTS (SELECT FROM pg_class)", ""}, {"", "SELECT ARRAY(SELECT 1)", ""},
	} {
		if x.texts != "" {
			cache.Plan(x.texts)
		}
		p, tokens := cache.Plan(x.text)
		got := p.NotFollowed
		if p.Follows() {
			q, its := asked(p, x.text, tokens, condition.Arguments{Parameters: [][]byte{[]byte("11"), []byte("12"), nil}})
			if got = its; q.Why == "" && (q.Columns == 0 || q.Columns != table.ColumnsIdentity || q.Identity != table.Identity) {
				t.Errorf("%s: %+v", x.text, q)
			}
		}
		if got != x.want {
			t.Errorf("%s: %q, wanted %q", x.text, got, x.want)
		}
	}
	if !cache.FollowsTable(record.Relation(table.OID)) {
		t.Error("the table's values aren't wanted")
	}
	// Without the columns' identities nothing is followed, and nothing is counted.
	cache = NewCache(load(t, connection))
	for _, text := range []string{"SELECT * FROM r WHERE a = 1", "SELECT * FROM r OFFSET 1"} {
		if p, _ := cache.Plan(text); p.Follows() || p.NotFollowed != "" {
			t.Errorf("%s: %+v", text, p)
		}
	}
}

// asked returns what a statement asks its only table for, also in words.
func asked(p *Plan, text string, tokens Tokens, with condition.Arguments) (Question, string) {
	most, err := p.Most(text, tokens, with)
	if err == nil && p.Skips(text, tokens, with) {
		err = condition.Refusal(skipsRows)
	}
	if err != nil {
		return Question{Why: err.Error()}, err.Error()
	}
	q := p.Asks(text, tokens, with)
	switch {
	case q.Why != "":
		return q, q.Why
	case most != math.MaxUint64:
		return q, fmt.Sprintf("%v, most %d", q.By, most)
	}
	return q, q.By.String()
}

// TestFollowsJoins: each table of a join is asked for what could stand beside the others' rows in the result.
func TestFollowsJoins(t *testing.T) {
	connection := connect(t, fmt.Sprint("follows_joins_", time.Now().UnixNano()), `CREATE TABLE project (id int PRIMARY KEY, open bool);
		CREATE TABLE person (id int PRIMARY KEY, name text); CREATE TABLE secret (id int PRIMARY KEY);
		ALTER TABLE secret ENABLE ROW LEVEL SECURITY; CREATE TABLE keyless (id int);
		CREATE TABLE issue (id int PRIMARY KEY, project_id int, author_id int, n int)`)
	known, err := catalog.Load(ctx(), cluster.Query(context.Background(), connection), catalog.WithColumns)
	if err != nil {
		t.Fatal(err)
	}
	cache := NewCache(known)
	const issues, notKey = "FROM issue i JOIN project p ON p.id = i.project_id ", "not: a column of another table that isn't in its key"
	for _, x := range []struct{ text, want string }{
		{"SELECT i.n " + issues + "WHERE i.n > 5 AND p.open", "issue WHERE n > 5 AND project_id IN (7, 8): 1,2"},
		{"SELECT i.n " + issues + "WHERE i.n > $1 LIMIT $2", "issue WHERE n > 11 AND project_id IN (7, 8): 1,2, most 12"},
		{"SELECT i.n " + issues + "JOIN person a ON a.id = i.author_id WHERE i.n IN ($1, 3)",
			"issue WHERE n IN (11, 3) AND project_id IN (7, 8) AND author_id IN (9): 1,2"},
		{"SELECT i.n " + issues + "LEFT JOIN person a ON a.id = i.author_id WHERE i.n > 5 AND p.open",
			"issue WHERE n > 5 AND project_id IN (7, 8): 1,2"},
		{"SELECT i.n, a.name " + issues + "LEFT JOIN person a ON a.id = i.author_id", "issue WHERE project_id IN (7, 8): 1,2"},
		{"SELECT p.open, i.n FROM project p LEFT JOIN issue i ON i.project_id = p.id WHERE p.open",
			"project WHERE open: 7,8; issue WHERE project_id IN (7, 8): 1,2"},
		{"SELECT i.n FROM issue i, project p WHERE p.open AND i.n > 3", "issue WHERE n > 3: 1,2; project WHERE open: 7,8"},
		{"SELECT count(*) FROM issue i JOIN project p ON p.id = i.project_id WHERE i.n > 5", "issue WHERE n > 5 AND project_id IN (7, 8): 1,2"},
		{"SELECT i.n " + issues + "WHERE i.n = i.author_id", "issue WHERE project_id IN (7, 8) AND author_id = 5 AND n = 5: 1,2"},
		{"SELECT a.name, i.n FROM issue i JOIN person a ON a.id = i.author_id WHERE a.id + i.project_id > 3",
			"issue WHERE author_id IN (9) AND project_id = 5 AND author_id = 5: 1,2"},
		{"SELECT i.n " + issues + "FOR UPDATE", "FOR UPDATE of several tables"},
		{"SELECT i.n " + issues + "WHERE lower(p.id::text) = 'x'", "not: a function or subquery over other tables"},
		{"SELECT i.n FROM issue i JOIN secret s ON s.id = i.project_id", "row security"},
		{"SELECT i.n FROM issue i JOIN keyless k ON k.id = i.project_id", "no primary key"},
		{"SELECT p.open FROM project p JOIN issue i ON p.id < i.n", "project WHERE id < 5: 7,8; issue WHERE n > 7 OR n > 8: 1,2"},
		{"SELECT p.open, a.name FROM project p LEFT JOIN person a ON a.name = 'x' AND p.open = (a.id > 2)", "project: 7,8; not: an expression over a column"},
		{"SELECT count(*) FROM project p JOIN issue i ON p.id < i.n", notKey + "; issue WHERE n > 7 OR n > 8: 1,2"},
		{"SELECT i.n FROM issue i NATURAL JOIN project p", "a join that isn't followed"},
		{"SELECT i.n FROM issue i, (SELECT 1) AS s", "a subquery in FROM that isn't followed"},
		{"SELECT DISTINCT i.n " + issues, "issue WHERE project_id IN (7, 8): 1,2"}, {"SELECT i.n " + issues + "OFFSET 3", "OFFSET"},
		{"SELECT s.n FROM (SELECT * FROM issue WHERE n > 5) AS s", "issue WHERE n > 5: 1,2"},
		{"SELECT * FROM (SELECT * FROM issue WHERE n > 5) AS s", "issue WHERE n > 5: 1,2"},
		{"SELECT s.n, p.open FROM (SELECT n, project_id AS of FROM issue WHERE n > 5) AS s JOIN project p ON p.id = s.of AND p.open",
			"issue WHERE n > 5 AND project_id IN (7, 8): 1,2"},
		{"WITH s AS (SELECT * FROM issue WHERE n > 5) SELECT s.n FROM s WHERE s.project_id = 3", "issue WHERE n > 5 AND project_id = 3: 1,2"},
		{"SELECT p.open, s.n FROM project p LEFT JOIN (SELECT * FROM issue WHERE n > 5) AS s ON s.project_id = p.id",
			"project: 7,8; issue WHERE n > 5 AND project_id IN (7, 8): 1,2"},
		{"SELECT s.n FROM (SELECT * FROM (SELECT * FROM issue WHERE n > 5) AS t WHERE n < 9) AS s", "issue WHERE n > 5 AND n < 9: 1,2"},
		{"SELECT s.n FROM (SELECT * FROM issue WHERE n > 5 LIMIT 3) AS s", "a LIMIT or OFFSET in a subquery in FROM"},
		{"SELECT s.n FROM (SELECT n + 1 AS n FROM issue) AS s WHERE s.n > 5", "a function or subquery over other tables"},
		{"SELECT count(*) FROM (SELECT * FROM issue WHERE n > 5) AS s", "issue WHERE n > 5: 1,2"},
	} {
		p, tokens := cache.Plan(x.text)
		got := p.NotFollowed
		if p.Follows() {
			got = joinAsked(t, p, x.text, tokens)
		}
		if got != x.want {
			t.Errorf("%s: %q, wanted %q", x.text, got, x.want)
		}
	}
}

// noneBefore: no earlier statement has read anything.
func noneBefore(record.Relation, record.Identity, record.Key) (record.Read, bool) {
	return record.Read{}, false
}

// joinAsked says what a join asks each of its tables for, if some rows are in its result.
func joinAsked(t *testing.T, p *Plan, text string, tokens Tokens) string {
	t.Helper()
	if !p.Joins() {
		t.Fatalf("%s: one table", text)
	}
	rows := map[string][]record.Key{"i": {"1", "2"}, "issue": {"1", "2"}, "p": {"7", "8"}, "a": {"9"}, "s": {"5"}}
	with := condition.Arguments{Parameters: [][]byte{[]byte("11"), []byte("12")}}
	if p.Skips(text, tokens, with) {
		return skipsRows
	}
	found := make([]Found, len(p.Sources))
	for i := range found {
		name := p.Sources[i].Name
		found[i].Keys = rows[name[strings.LastIndex(name, condition.Within)+1:]]
		five, more := "5", make([]*string, len(p.Sources[i].More))
		for k := range more {
			more[k] = &five
		}
		for _, key := range found[i].Keys {
			found[i].Beside = append(found[i].Beside, condition.Beside(key, more))
		}
	}
	var all []string
	for _, q := range p.AsksJoined(text, tokens, with, found, noneBefore, false) {
		if q.Why != "" {
			all = append(all, "not: "+q.Why)
			continue
		}
		its := q.By.String() + ": "
		for i, key := range found[q.Source].Keys {
			if i > 0 {
				its += ","
			}
			its += string(key)
		}
		all = append(all, its)
	}
	if most, err := p.Most(text, tokens, with); err != nil {
		t.Error(err)
	} else if most != math.MaxUint64 {
		all = append(all, fmt.Sprint("most ", most))
	}
	return strings.ReplaceAll(strings.Join(all, "; "), "; most", ", most")
}

// TestFollowedParameters: a parameter has the type that the server gives it, or the condition isn't followed: also if the
// place that decides it is in a list of which the plan has only the first.
func TestFollowedParameters(t *testing.T) {
	connection := connect(t, fmt.Sprint("parameters_", time.Now().UnixNano()), "CREATE TABLE r (id int PRIMARY KEY, a int, ts timestamp)")
	known, err := catalog.Load(ctx(), cluster.Query(context.Background(), connection), catalog.WithColumns)
	if err != nil {
		t.Fatal(err)
	}
	cache := NewCache(known)
	two := []byte{0, 0, 0, 0, 0, 0, 0, 2}
	const ts, several = "2024-01-01 10:00:00", "a parameter without a type, which may get it in several places"
	for _, x := range []struct {
		text   string
		values []string
		binary bool
		types  []uint32
		want   string
	}{
		{text: "SELECT id FROM r LIMIT $1", values: []string{"2"}, want: "r, most 2"},
		{text: "SELECT id FROM r LIMIT $1", values: []string{string(two)}, binary: true, types: []uint32{20}, want: "r, most 2"},
		{text: "SELECT id FROM r LIMIT $1", values: []string{string(two[4:])}, binary: true, types: []uint32{23}, want: "r, most 2"},
		{text: "SELECT id FROM r LIMIT $1", values: []string{string(two)}, binary: true, types: []uint32{701}, want: unclearLimit},
		{text: "SELECT id FROM r LIMIT $1", values: []string{string(two)}, binary: true, want: unclearLimit},
		{text: "SELECT id FROM r WHERE ts = $1", values: []string{ts}, want: "r WHERE ts = '" + ts + "'"},
		{text: "SELECT id, greatest($1, $2, now()) FROM r WHERE ts = $2", values: []string{ts, ts}, want: several},
		{text: "SELECT id, greatest($1, $2, now()) FROM r WHERE ts = $1", values: []string{ts, ts}, want: several},
		{text: "SELECT id, greatest($1, $2, now()) FROM r WHERE ts = $2", values: []string{ts, ts}, types: []uint32{1114, 1114},
			want: "r WHERE ts = '" + ts + "'"},
		{text: "SELECT id FROM r WHERE a IN (1, $1, $2) AND id IN ($3, $4)", values: []string{"2", "3", "4", "5"},
			want: "r WHERE a IN (1, 2, 3) AND id IN (4, 5)"},
	} {
		with := condition.Arguments{Types: x.types}
		for _, one := range x.values {
			with.Parameters = append(with.Parameters, []byte(one))
		}
		if x.binary {
			with.Formats = []int16{1}
		}
		p, tokens := cache.Plan(x.text)
		got := p.NotFollowed
		if p.Follows() {
			_, got = asked(p, x.text, tokens, with)
		}
		if got != x.want {
			t.Errorf("%s with %q: %q, wanted %q", x.text, x.values, got, x.want)
		}
	}
}

// TestColumnsIdentity: each change of what a table's columns mean gives them another identity, and nothing else does.
func TestColumnsIdentity(t *testing.T) {
	connection := connect(t, fmt.Sprint("columns_", time.Now().UnixNano()), `CREATE TYPE mood AS ENUM ('a', 'b'); CREATE DOMAIN d AS mood;
		CREATE TABLE r (id int PRIMARY KEY, a int, e d)`)
	now := func() record.Identity {
		known, err := catalog.Load(ctx(), cluster.Query(context.Background(), connection), catalog.WithColumns)
		if err != nil {
			t.Fatal(err)
		}
		table, _ := known.Find("public", "r")
		return table.ColumnsIdentity
	}
	before := now()
	for _, x := range []struct {
		sql  string
		same bool
	}{
		{"INSERT INTO r VALUES (1, 1, 'a')", true}, {"ANALYZE r", true}, {"CREATE INDEX ON r (a)", true}, {"VACUUM FREEZE r", true},
		{"ALTER TABLE r RENAME a TO b", false}, {"ALTER TABLE r RENAME b TO a", false}, {"ALTER TABLE r ALTER a TYPE bigint", false},
		{"ALTER TYPE mood ADD VALUE 'c' BEFORE 'a'", false}, {"ALTER TABLE r ENABLE ROW LEVEL SECURITY", false},
		{"ALTER TABLE r ADD z int", false}, {"ALTER TABLE r DROP z", false},
	} {
		run(t, connection, x.sql)
		after := now()
		if after == 0 || (after == before) != x.same {
			t.Errorf("%s: %v and %v", x.sql, before, after)
		}
		before = after
	}
	run(t, connection, `DROP TABLE r; CREATE TABLE r (id int, a int, PRIMARY KEY (id, a)) PARTITION BY LIST (a);
		CREATE TABLE r1 PARTITION OF r FOR VALUES IN (1) PARTITION BY LIST (id); CREATE TABLE r2 PARTITION OF r FOR VALUES IN (2)`)
	before = now()
	for _, text := range []string{"CREATE TABLE r11 PARTITION OF r1 FOR VALUES IN (1)", "ALTER TABLE r DETACH PARTITION r2",
		"ALTER TABLE r ATTACH PARTITION r2 FOR VALUES IN (2)", "ALTER TABLE r1 DETACH PARTITION r11", "DROP TABLE r2"} {
		run(t, connection, text)
		after := now()
		if after == before {
			t.Errorf("%s: the same rows", text)
		}
		before = after
	}
}
