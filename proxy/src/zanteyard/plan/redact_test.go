package plan

import "testing"

func TestRedacted(t *testing.T) {
	for text, want := range map[string]string{
		"SELECT qty FROM stock WHERE id = 8 AND name='it''s' -- 5":     "SELECT qty FROM stock WHERE id = ? AND name=?",
		`UPDATE "t 1" SET a=E'x\'y', b=$1, c = $$5$$ /* b='secret' */`: `UPDATE "t 1" SET a=?, b=$1, c = ?`,
		"SELECT -1.5e3, B'01', U&'d\\0061'":                            "SELECT -?, ?, ?",
		"SET a.b TO secret, 'secret'":                                  "SET a.b TO ?, ?",
		"alter role r set a.b = secret":                                "alter role r set a.b = ?",
		`SET a.b TO "somebody@x", two`:                                 "SET a.b TO ?, ?",
		"BEGIN; SET LOCAL a.b TO secret; SELEC a = b":                  "BEGIN; SET LOCAL a.b TO ?; SELEC a = b",
		"CREATE FUNCTION f() RETURNS int SET a.b TO secret AS $$1$$":   "CREATE FUNCTION f() RETURNS int SET a.b TO ? ? ?",
		"CREATE TABLE t (a int CHECK (a = b))":                         "CREATE TABLE t (a int CHECK (a = b))",
		"SET SESSION TIME ZONE secret":                                 "SET SESSION TIME ZONE ?",
		"UPDATE t SET a = b":                                           "UPDATE t SET a = b",
		"SELECT 0xDEADBEEF, 0o17, 1_000_000, 4_929.5_1e1_0, 0b1":       "SELECT ?, ?, ?, ??, ?",
		"":                   "",
		"SELECT 'unfinished": "(a very long or incomplete statement)",
	} {
		if got := Redacted(text); got != want {
			t.Errorf("%s: %s, and not %s", text, got, want)
		}
	}
}

// TestShapesOfNumbers: the shape of a statement has no constant, either.
func TestShapesOfNumbers(t *testing.T) {
	var s scanner
	if s.scan("SELECT v FROM t WHERE id = 4_929_123 OR id = 0xFF"); len(s.tokens) == 0 {
		t.Fatal("it isn't read")
	}
	if shape := newMaker(nil, &s).shape; shape != "SELECT v FROM t WHERE id = ? OR id = ?" {
		t.Errorf("its shape is %q", shape)
	}
}
