package plan

import (
	"math/rand"
	"os"
	"path/filepath"
	"strings"
	"testing"

	"zanteyard/statements"
)

// corpus has texts to mutate: those of the driver's scripts, deep ones, and generated ones.
func corpus(t *testing.T, r *rand.Rand) []string {
	t.Helper()
	var all []string
	files, err := filepath.Glob("../../../drivers/*.sql")
	if err != nil || len(files) == 0 {
		t.Fatal("no scripts", err)
	}
	for _, file := range files {
		text, err := os.ReadFile(file)
		if err != nil {
			t.Fatal(err)
		}
		for _, one := range strings.Split(string(text), ";") {
			if one = strings.TrimSpace(one); one != "" && len(one) < 2000 {
				all = append(all, one)
			}
		}
	}
	for _, text := range deep(30) {
		all = append(all, text)
	}
	for i := 0; i < 200; i++ {
		w := statements.New(r)
		all = append(all, w.Query(), w.Change(), w.Insert())
	}
	return append(all, "CREATE FUNCTION f() RETURNS int BEGIN ATOMIC SELECT 1; SELECT 2; END",
		"MERGE INTO a USING b ON a.id = b.id WHEN MATCHED AND a.n > 1 THEN UPDATE SET n = 2 WHEN NOT MATCHED THEN INSERT VALUES (1)",
		"WITH RECURSIVE x(a, b) AS (SELECT 1, E'\\u00e9' UNION ALL SELECT a + 1, b FROM x) SEARCH DEPTH FIRST BY a SET c "+
			"CYCLE a SET d USING e SELECT * FROM x", "SELECT U&'d\\0061t\\+000061' UESCAPE '!', $1::int, $$a$$, $b$c$b$, 1e10, 0x1, B'01', X'1f'",
		"COPY a (b) FROM STDIN WITH (FORMAT csv, HEADER true)", "GRANT SELECT (a, b) ON TABLE c TO d WITH GRANT OPTION",
		"ALTER TABLE a ADD CONSTRAINT b FOREIGN KEY (c) REFERENCES d (e) ON DELETE CASCADE DEFERRABLE INITIALLY DEFERRED",
		"SELECT xmlelement(name a, xmlattributes(b AS c), d), json_object('a': 1), a OPERATOR(pg_catalog.+) b FROM x TABLESAMPLE y (3)",
		"SELECT sum(a) FILTER (WHERE b) OVER (PARTITION BY c ORDER BY d ROWS BETWEEN 1 PRECEDING AND CURRENT ROW EXCLUDE TIES) FROM e")
}

// mutate changes a text at some places: bytes, words, pieces of another text.
func mutate(r *rand.Rand, texts []string) string {
	text := []byte(texts[r.Intn(len(texts))])
	for n := 1 + r.Intn(4); n > 0 && len(text) > 0; n-- {
		from := r.Intn(len(text))
		to := from + r.Intn(1+len(text)-from)
		if to > from+40 {
			to = from + 40
		}
		piece := append([]byte(nil), text[from:to]...)
		other := texts[r.Intn(len(texts))]
		at := r.Intn(len(other))
		end := at + r.Intn(1+len(other)-at)
		rest := append([]byte(nil), text[to:]...)
		switch r.Intn(8) {
		case 0: // a byte is another one
			text[from] = byte(r.Intn(256))
		case 1: // a piece is gone
			text = append(text[:from], rest...)
		case 2: // or is there several times
			for i := r.Intn(20); i >= 0; i-- {
				piece = append(piece, text[from:to]...)
			}
			text = append(append(text[:from], piece...), rest...)
		case 3: // another text's
			text = append(append(text[:from], other[at:end]...), rest...)
		case 4:
			const marks = `'"$()[]{};:,.-+*/\<>=@#%^&|?!` + "`~ \n\t\x00\x80\xff"
			text = append(append(text[:from], marks[r.Intn(len(marks))]), append(piece, rest...)...)
		case 5: // two places change places
			text = append(append(text[:from], rest...), piece...)
		case 6: // the text ends here
			text = text[:to]
		case 7:
			words := []string{"NULL", "SELECT", "(SELECT 1)", "::", "$1", "$99999", "E'\\x", "U&\"", "1e999", "99999999999999999999", "LATERAL",
				"VALUES", "WITH x AS (", "/*", "*/", "--", "\\'", "''", "$$", "OPERATOR(", "INTERVAL '1' DAY TO SECOND(3)", "BEGIN ATOMIC"}
			text = append(append(append(text[:from], ' '), words[r.Intn(len(words))]...), append([]byte{' '}, rest...)...)
		}
	}
	return string(text)
}

// TestMutations: no text ends the process, neither in the parser, which is in C, nor in the planner.
func TestMutations(t *testing.T) {
	r := rand.New(rand.NewSource(int64(wanted(20000))))
	cache := NewCache(none(t))
	texts := corpus(t, r)
	count, parsed := wanted(20000), 0
	for i := 0; i < count; i++ {
		text := mutate(r, texts)
		if len(text) < maxText {
			stmts, err := parse(strings.ReplaceAll(text, "\x00", " "))
			if err == nil && len(stmts) > 0 {
				parsed++
			}
		}
		if i%4 == 0 {
			cache.Plan(text)
		}
		if i%1000000 == 999999 {
			t.Logf("%d texts, %d of them understood", i+1, parsed)
		}
	}
	t.Logf("%d texts, %d of them understood", count, parsed)
	if parsed < count/20 {
		t.Errorf("only %d of %d texts were understood", parsed, count)
	}
}
