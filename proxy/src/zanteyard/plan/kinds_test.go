package plan

import (
	"fmt"
	"strings"
	"testing"

	"zanteyard/catalog"
	"zanteyard/own"
	"zanteyard/record"
)

// none is a catalog without tables.
func none(t testing.TB) *catalog.Catalog {
	t.Helper()
	c, err := catalog.Load(ctx(), func(text own.Text) ([][]string, error) {
		sql := text.String()
		if strings.Contains(sql, "pg_proc p JOIN") && strings.Contains(sql, "provolatile") && strings.Contains(sql, "prokind") {
			return [][]string{{"set_config", "pg_catalog", "false", "false", "false", "false", "false", "false", "false", "false",
				"false"}}, nil
		}
		return nil, nil
	})
	if err != nil {
		t.Fatal(err)
	}
	return c
}

func TestKinds(t *testing.T) {
	cache := NewCache(none(t))
	for text, want := range map[string]string{
		"":                         "Empty",
		"-- nothing\n ;; ":         "Empty",
		"SELECT 1":                 "Select",
		"insert into x values (1)": "Write writes",
		"MERGE INTO x USING y ON a WHEN MATCHED THEN DELETE":    "Write writes",
		"WITH x AS (DELETE FROM y RETURNING 1) SELECT * FROM x": "Write writes",
		"BEGIN": "Begin",
		"BEGIN ISOLATION LEVEL SERIALIZABLE, READ ONLY":      "Begin serializable",
		"START TRANSACTION ISOLATION LEVEL REPEATABLE READ":  "Begin repeatable",
		"begin transaction isolation level read uncommitted": "Begin committed",
		"COMMIT":                        "Commit",
		"END WORK":                      "Commit",
		"COMMIT AND CHAIN":              "Commit chain",
		"ROLLBACK AND CHAIN":            "Rollback chain",
		"ABORT":                         "Rollback",
		"PREPARE TRANSACTION 'x'":       "PrepareTransaction",
		"COMMIT PREPARED 'x'":           "Other",
		"SAVEPOINT \"A b\"":             "Savepoint A b",
		"ROLLBACK TO SAVEPOINT a":       "RollbackTo a",
		"RELEASE a":                     "Release a",
		"SET search_path TO a, b":       "Set names",
		"SET LOCAL ROLE joe":            "Set names",
		"SET SESSION AUTHORIZATION joe": "Set names",
		"RESET ALL":                     "Set names",
		"RESET search_path":             "Set names",
		"SET statement_timeout = 5":     "Other",
		"SET TRANSACTION ISOLATION LEVEL REPEATABLE READ":        "Other repeatable",
		"SELECT set_config('search_path', 'a', false)":           "Set names",
		"SELECT pg_catalog.set_config('search_path', 'a', true)": "Set names",
		"DISCARD ALL":                                   "DiscardAll names",
		"DEALLOCATE ALL":                                "DiscardAll",
		"DEALLOCATE PREPARE Joe":                        "Deallocate joe",
		"DISCARD PLANS":                                 "Other",
		"DISCARD TEMP":                                  "TemporaryDefinition names",
		"CREATE TABLE x (a int)":                        "Definition writes names",
		"CREATE TEMP TABLE x (a int)":                   "TemporaryDefinition writes names",
		"CREATE TEMP TABLE x AS SELECT 1":               "TemporaryDefinition writes names",
		"CREATE TEMP TABLE x AS SELECT y()":             "Definition writes names",
		"CREATE TEMP TABLE x () INHERITS (y)":           "Definition writes names",
		"DROP TABLE x":                                  "Definition writes names",
		"ALTER TABLE x ADD COLUMN b int":                "Definition writes names",
		"GRANT SELECT ON x TO y":                        "Definition writes names",
		"CREATE TABLE x AS SELECT 1":                    "Definition writes names",
		"DECLARE c CURSOR FOR SELECT 1":                 "Declare c(Select)",
		"PREPARE p (int) AS SELECT $1":                  "Prepare p(Select)",
		"PREPARE p AS INSERT INTO x VALUES ($1)":        "Prepare p(Write writes)",
		"EXECUTE p (1)":                                 "Execute p",
		"FETCH 10 FROM c":                               "Fetch c",
		"MOVE c":                                        "Fetch c",
		"CLOSE c":                                       "CloseCursor c",
		"CLOSE ALL":                                     "CloseCursor all",
		"COPY x FROM STDIN":                             "Copy writes",
		"COPY x TO STDOUT":                              "Copy",
		"TRUNCATE x":                                    "Write writes",
		"LOCK x":                                        "Other",
		"EXPLAIN SELECT 1":                              "Other",
		"EXPLAIN ANALYZE DELETE FROM x":                 "Other writes",
		"CALL x()":                                      "Other writes names",
		"DO 'x'":                                        "Other writes names",
		"SHOW x":                                        "Other",
		"BEGIN; SELECT 1; COMMIT":                       "Several[Begin,Select,Commit]",
		"SELECT FROM FROM":                              "Other writes names unknown",
		"SELECT 'open":                                  "Other writes names unknown",
		"SELECT " + strings.Repeat("(", 5000):           "Other writes names unknown",
		"SELECT '" + strings.Repeat("x", 300000) + "'":  "Select",
		"SELECT '" + strings.Repeat("x", maxText) + "'": "Other writes names unknown",
	} {
		p, tokens := cache.Plan(text)
		if got := kind(p); got != want {
			t.Errorf("%.100q is %q, not %q", text, got, want)
		}
		if rewritten, inserted := p.Rewrite(text, tokens); rewritten != text || inserted != nil {
			t.Errorf("%.100q became %.100q", text, rewritten)
		}
	}
}

func kind(p *Plan) string {
	kinds := []string{"Other", "Select", "Write", "Begin", "Commit", "Rollback", "PrepareTransaction", "Savepoint",
		"RollbackTo", "Release", "Set", "DiscardAll", "Definition", "TemporaryDefinition", "Declare", "Fetch", "CloseCursor", "Prepare", "Execute",
		"Deallocate", "Copy", "Several", "Empty"}
	text := kinds[p.Kind]
	if p.Kind == Several {
		var parts []string
		for _, part := range p.Parts {
			parts = append(parts, kind(part))
		}
		return fmt.Sprintf("%s[%s]", text, strings.Join(parts, ","))
	}
	if p.Name != "" {
		text += " " + p.Name
	}
	if p.Inner != nil {
		text += "(" + kind(p.Inner) + ")"
	}
	for _, flag := range []struct {
		set  bool
		name string
	}{
		{p.Chain, "chain"}, {p.All, "all"}, {p.Level == record.Serializable, "serializable"},
		{p.Level == record.RepeatableRead, "repeatable"}, {p.Level == record.ReadCommitted, "committed"},
		{p.MayWriteUnseen, "writes"}, {p.ChangesNames, "names"}, {p.Unknown, "unknown"},
	} {
		if flag.set {
			text += " " + flag.name
		}
	}
	return text
}

func TestScanner(t *testing.T) {
	for _, c := range []struct{ text, key string }{
		{"SELECT 1", "SELECT 0 "},
		{"SELECT 1.5e-3, .5, 1., 1..2", "SELECT 0 , 0 , 0 , 0 .. 0 "},
		{"a--x\n+/*y /* z */*/b", "a + b "},
		{"a+--x\n1", "a + 0 "},
		{"a <>-1, b @-1, c>=-1", "a <> - 0 , b @- 0 , c >= - 0 "},
		{"E'a\\'b' 'a\\' N'x' x'1f' U&'d' U&\"q\" e", "' ' ' ' ' U&\"q\" e "},
		{"$1+$tag$ $x$ ' $tag$ $$;$$", "$1 + ' ' "},
		{"a$1 x::int y:=1 z[1:2]", "a$1 x :: int y := 0 z [ 0 : 0 ] "},
		{"\"a \"\"b\" 'it''s'", "\"a \"\"b\" ' "},
		{"x IN (1, 2, -3, NULL)", "x IN ( 0 ) "},
		{"x IN ($1, $2, $3)", "x IN ( $1 ) "},
		{"x IN (-1, 2)", "x IN ( - 0 ) "},
		{"f(1, a, 2)", "f ( 0 , a , 0 ) "},
		{"VALUES (1, 'x')", "VALUES ( 0 ) "},
		{"VALUES (1, 'x'), (2, 'y')", "VALUES ( 0 ) , ( 0 ) "},
		{"VALUES (1), (2), (3), (4) ON", "VALUES ( 0 ) , ( 0 ) ON "},
		{"VALUES ($1, $2), ($3, $4), ($5, $6)", "VALUES ( $1 ) , ( $3 ) "},
		{"VALUES (f(1), 2), (f(2), 3), (f(3), 4), (g(3), 4)", "VALUES ( f ( 0 ) , 0 ) , ( f ( 0 ) , 0 ) , ( g ( 0 ) , 0 ) "},
		{"VALUES " + strings.Repeat("(1, 2), ", 100) + "(1, 2)", "VALUES ( 0 ) , ( 0 )  many rows"},
		{"ORDER BY 1, 2, 3", "ORDER BY 0 , 0 , 0 "},
	} {
		s := &scanner{}
		if !s.scan(c.text) || string(s.key) != c.key {
			t.Errorf("%q has the key %q, not %q", c.text, s.key, c.key)
		}
	}
	for _, text := range []string{"'x", "\"x", "/* x", "/* /* */", "$$x", "$a$x$b$", "E'\\'", "$", "x\x00y", "'\x00'", "$x"} {
		if s := (&scanner{}); s.scan(text) {
			t.Errorf("%q has the key %q", text, s.key)
		}
	}
}

func TestComment(t *testing.T) {
	for text, want := range map[string]string{
		"SELECT 1":                                      "map[]",
		"SELECT 1 /*a='b',c%20d='e%27f%2Fg'*/":          "map[a:b c d:e'f/g]",
		"/* hello */ SELECT 1 /*file='x.py:3'*/":        "map[file:x.py:3]",
		"SELECT '/*a=''b''*/' -- /*a='c'*/\n":           "map[]",
		"SELECT \"/*a='b'*/\", $$/*a='b'*/$$":           "map[]",
		"/*a='b',c='d'*/ SELECT /*a='e'*/ 1":            "map[a:e c:d]",
		"/*a='it\\'s'*/ SELECT":                         "map[a:it's]",
		"/*a='b' c='d'*/ SELECT /*='x'*/ /*a=b*/ /*a='": "map[]",
	} {
		if got := fmt.Sprint(Comment(text)); got != want {
			t.Errorf("%q has %s, not %s", text, got, want)
		}
	}
}

func TestMoveBack(t *testing.T) {
	const rewritten = "SELECT ü, \"ü\".x FROM t WHERE ü"
	inserted := []Inserted{{strings.Index(rewritten, `"ü"`), len(`"ü".x `)}}
	for position, want := range map[int]int{1: 1, 10: 10, 11: 11, 15: 11, 16: 11, 17: 11, 18: 12, 32: 26} {
		if got := MoveBack(rewritten, inserted, position); got != want {
			t.Errorf("position %d becomes %d, not %d", position, got, want)
		}
	}
	inserted = append(inserted, Inserted{strings.Index(rewritten, " WHERE"), len(" WHERE")}) // and another one
	for position, want := range map[int]int{1: 1, 10: 10, 11: 11, 17: 11, 18: 12, 22: 16, 23: 17, 28: 17, 29: 17, 30: 18, 31: 19} {
		if got := MoveBack(rewritten, inserted, position); got != want {
			t.Errorf("position %d becomes %d, not %d, by two insertions", position, got, want)
		}
	}
}
