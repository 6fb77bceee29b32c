package slot

import (
	"fmt"
	"strings"
	"testing"

	"zanteyard/record"
)

func plain(typeOID uint32, text string) (string, bool) { return text, true }

func someTables() *Tables {
	t := newTables(nil)
	t.set([]*Table{
		{Relation: 1, Root: 1, Schema: "public", Name: "t", Key: []Column{{"id", 23}}},
		{Relation: 2, Root: 9, Schema: "public", Name: "part1", Key: []Column{{"a", 23}, {"b", 25}}},
		{Relation: 3, Root: 3, Schema: "public", Name: "keyless"},
		{Relation: 5, Root: 5, Schema: "an \"odd\" one", Name: "wei.rd", Key: []Column{{"the [key]", 25}}},
		{Relation: 6, Root: 6, Schema: "public", Name: "other", Key: []Column{{"id", 23}}, noOldKeys: true},
		{Relation: 9, Root: 9, Schema: "public", Name: "part", Key: []Column{{"a", 23}, {"b", 25}}},
	})
	return t
}

// show writes a commit as a line that can be compared.
func show(it record.Commit) string {
	text := fmt.Sprintf("%d at %s:", it.Number, placeText(it.LSN))
	for _, one := range it.Writes {
		sign := ""
		if one.Inserted {
			sign = "+"
		}
		if one.Deleted {
			sign += "-"
		}
		text += fmt.Sprintf(" %s%d(%s)", sign, one.Relation, strings.ReplaceAll(string(one.Key), "\x00", ","))
	}
	for _, one := range it.Emptied {
		text += fmt.Sprint(" emptied ", one)
	}
	if it.Bare {
		text += " bare"
	}
	return text
}

// Messages as the plugins of PostgreSQL 15 wrote them (pg_logical_slot_get_changes).
func TestDecoders(t *testing.T) {
	begin := `{"action":"B","xid":725,"lsn":"0/15527B8","nextlsn":"0/15527F0"}`
	end := `{"action":"C","xid":725,"lsn":"0/15527B8","nextlsn":"0/15527F0"}`
	for _, one := range []struct {
		name       string
		json, text []string
		want       string
	}{
		{"insert", []string{`{"action":"I","xid":725,"lsn":"0/15524D0","schema":"public","table":"t","columns":[{"name":"id","value":1},` +
			`{"name":"v","value":"a'\"b\\c é"},{"name":"n","value":null}],"pk":[{"name":"id"}]}`},
			[]string{`table public.t: INSERT: id[integer]:1 v[text]:'a''"b\c é' n[numeric]:null`}, " +1(1)"},
		{"update", []string{`{"action":"U","xid":725,"lsn":"0/1","schema":"public","table":"t","columns":[{"name":"id","value":1},` +
			`{"name":"v","value":"c"}],"identity":[{"name":"id","value":1}],"pk":[{"name":"id"}]}`},
			[]string{`table public.t: UPDATE: id[integer]:1 v[text]:'c'`}, " 1(1)"},
		{"a change of the key", []string{`{"action":"U","xid":725,"lsn":"0/1","schema":"public","table":"t","columns":[{"name":"id","value":2}],` +
			`"identity":[{"name":"id","value":1}],"pk":[{"name":"id"}]}`},
			[]string{`table public.t: UPDATE: old-key: id[integer]:1 new-tuple: id[integer]:2 v[text]:'it is a new-tuple: x'`}, " -1(1) +1(2)"},
		{"delete and insert again", []string{`{"action":"D","xid":725,"lsn":"0/1","schema":"public","table":"t","identity":[{"name":"id","value":1}],` +
			`"pk":[{"name":"id"}]}`, `{"action":"I","xid":725,"schema":"public","table":"t","columns":[{"name":"id","value":1}],"pk":[{"name":"id"}]}`},
			[]string{`table public.t: DELETE: id[integer]:1`, `table public.t: INSERT: id[integer]:1`}, " 1(1)"},
		{"a partition's row, by two columns", []string{`{"action":"D","xid":725,"schema":"public","table":"part1","identity":[{"name":"b","value":"x"},` +
			`{"name":"a","value":1}],"pk":[{"name":"a"},{"name":"b"}]}`},
			[]string{`table public.part1: DELETE: b[text]:'x' a[integer]:1`}, " -9(1,x)"},
		{"another replica identity", []string{`{"action":"U","xid":725,"lsn":"0/1","schema":"public","table":"other","columns":[{"name":"id","value":2},` +
			`{"name":"u","value":1}],"identity":[{"name":"u","value":1}],"pk":[{"name":"id"}]}`},
			[]string{`table public.other: UPDATE: id[integer]:2 u[integer]:1`}, ""},
		{"another replica identity, not known yet", []string{`{"action":"U","xid":725,"lsn":"0/1","schema":"public","table":"t","columns":[{"name":"id","value":2},` +
			`{"name":"u","value":1}],"identity":[{"name":"u","value":1}],"pk":[{"name":"id"}]}`}, nil, ""},
		{"types with odd names", []string{`{"action":"I","xid":725,"schema":"public","table":"t","columns":[{"name":"e","value":"b"},{"name":"id","value":1}],"pk":[{"name":"id"}]}`},
			[]string{`table public.t: INSERT: e["x]:1 id[integer]:2 y[z"]:'b' "f]:"["a]:'"[]]:'{}' g[public."q""]:"(1,2)[]]:'{}' h[time(3) without time zone]:'1' id[integer]:1`}, " +1(1)"},
		{"no key", []string{`{"action":"I","xid":725,"schema":"public","table":"keyless","columns":[{"name":"id","value":1}],"pk":[]}`},
			[]string{`table public.keyless: INSERT: id[integer]:1`}, ""},
		{"no old key", []string{`{"action":"D","xid":725,"schema":"public","table":"t","pk":[{"name":"id"}]}`},
			[]string{`table public.t: DELETE: (no-tuple-data)`}, ""},
		{"a null key", []string{`{"action":"I","xid":725,"schema":"public","table":"t","columns":[{"name":"id","value":null}],"pk":[{"name":"id"}]}`},
			[]string{`table public.t: INSERT: id[integer]:null`}, ""},
		{"an unknown table", []string{`{"action":"I","xid":725,"schema":"public","table":"new","columns":[{"name":"id","value":1}],"pk":[{"name":"id"}]}`},
			[]string{`table public.new: INSERT: id[integer]:1`}, ""},
		{"odd names", []string{`{"action":"I","xid":725,"schema":"an \"odd\" one","table":"wei.rd","columns":[{"name":"a","value":true},` +
			`{"name":"the [key]","value":"\u00e9\ud83d\ude00\n"}],"pk":[{"name":"the [key]"}]}`},
			[]string{`table "an ""odd"" one"."wei.rd": INSERT: a[boolean]:true "the [key]"[text]:'é😀` + "\n'"}, " +5(é😀\n)"},
		{"truncate, after an insert", []string{`{"action":"I","xid":725,"schema":"public","table":"t","columns":[{"name":"id","value":1}],"pk":[{"name":"id"}]}`,
			`{"action":"T","xid":725,"lsn":"0/1","schema":"public","table":"t"}`, `{"action":"T","xid":725,"schema":"public","table":"part"}`},
			[]string{`table public.t: INSERT: id[integer]:1`, `table public.t, public.part: TRUNCATE: (no-flags)`},
			" +-1(1) emptied 1 emptied 9"},
		{"truncate of a partition", []string{`{"action":"I","xid":725,"schema":"public","table":"t","columns":[{"name":"id","value":1}],"pk":[{"name":"id"}]}`,
			`{"action":"T","xid":725,"lsn":"0/1","schema":"public","table":"part1"}`},
			[]string{`table public.t: INSERT: id[integer]:1`, `table public.part1: TRUNCATE: (no-flags)`}, " +1(1)"},
		{"arrays and other types", []string{`{"action":"I","xid":725,"schema":"public","table":"t","columns":[{"name":"x","value":"{1,2}"},` +
			`{"name":"id","value":-7},{"name":"b","value":"00ff"}],"pk":[{"name":"id"}]}`},
			[]string{`table public.t: INSERT: x[integer[]]:'{1,2}' id[integer]:-7 b[bytea]:'\x00ff' c[timestamp with time zone]:'2026-01-01 00:00:00+00'`},
			" +1(-7)"},
		{"an application's message", []string{`{"action":"M","transactional":true,"prefix":"p","content":"[{\"x"}`},
			[]string{`message: transactional: 1 prefix: p, sz: 1 content:x`}, " bare"},
		{"nothing, as from ANALYZE", nil, nil, " bare"},
	} {
		t.Run(one.name, func(t *testing.T) {
			want := "725 at 0/15527F0:" + one.want
			got := decodeAll(t, &wal2json{tables: someTables(), canonical: plain}, append(append([]string{begin}, one.json...), end))
			if got != want {
				t.Errorf("wal2json: %q, wanted %q", got, want)
			}
			if one.text == nil && one.json != nil {
				return // test_decoding doesn't tell it
			}
			got = decodeAll(t, &testDecoding{tables: someTables(), canonical: plain},
				append(append([]string{"BEGIN 725"}, one.text...), "COMMIT 725"))
			if got != want {
				t.Errorf("test_decoding: %q, wanted %q", got, want)
			}
		})
	}
}

func decodeAll(t *testing.T, d decoder, texts []string) string {
	t.Helper()
	for i, text := range texts {
		it, is, err := d.decode([]byte(text), 0x15527F0)
		if err != nil {
			t.Fatalf("%s: %v", text, err)
		}
		if is != (i == len(texts)-1) {
			t.Fatalf("%s: it is a commit: %v", text, is)
		}
		if is {
			return show(it)
		}
	}
	return ""
}

// Whatever arrives, a decoder never panics, but returns an error.
func TestTornMessages(t *testing.T) {
	for _, text := range []string{
		`{"action":"I","xid":725,"schema":"public","table":"t","columns":[{"name":"id","value":"a\u00e9\n"}],"pk":[{"name":"id"}]}`,
		`{"action":"B","xid":725,"lsn":"0/15527B8","nextlsn":"0/15527F0"}`,
		`table public.t: UPDATE: old-key: id[integer]:1 new-tuple: id[integer]:2 v[text]:'a''b'`,
		`table "a""b".t, public.u: TRUNCATE: (no-flags)`,
	} {
		for end := 0; end <= len(text); end++ {
			for _, d := range []decoder{&wal2json{tables: someTables(), canonical: plain}, &testDecoding{tables: someTables(), canonical: plain}} {
				d.decode([]byte(text[:end]), 1)
			}
		}
	}
}

func TestManyWritesOfOneTransaction(t *testing.T) {
	var it transaction
	it.begin(1, 0, 0)
	for round := 0; round < 2; round++ {
		for n := 0; n < mostWrites+10; n++ {
			it.write(1, record.Key(fmt.Sprint(n)), round == 0, round == 1, values{})
		}
	}
	if commit := it.commit(1, 0); len(commit.Writes) != mostWrites || !commit.Writes[5].Deleted || commit.Dropped != 20 {
		t.Errorf("%d writes, %d dropped", len(commit.Writes), commit.Dropped)
	}
	it.begin(2, 0, 0)
	if commit := it.commit(2, 0); commit.Dropped != 0 {
		t.Errorf("the next one: %d dropped", commit.Dropped)
	}
}

func BenchmarkWal2json(b *testing.B) {
	d := &wal2json{tables: someTables(), canonical: plain}
	texts := []string{`{"action":"B","xid":725,"lsn":"0/15527B8","nextlsn":"0/15527F0"}`,
		`{"action":"U","xid":725,"lsn":"0/1","schema":"public","table":"t","columns":[{"name":"id","value":1},{"name":"v","value":"c"},` +
			`{"name":"filler","value":"` + strings.Repeat(" ", 84) + `"}],"identity":[{"name":"id","value":1}],"pk":[{"name":"id"}]}`,
		`{"action":"I","xid":725,"lsn":"0/15524D0","schema":"public","table":"keyless","columns":[{"name":"tid","value":1},{"name":"bid","value":1},` +
			`{"name":"aid","value":1},{"name":"mtime","value":"2026-01-01 00:00:00"}],"pk":[]}`,
		`{"action":"C","xid":725,"lsn":"0/15527B8","nextlsn":"0/15527F0"}`}
	b.ReportAllocs()
	for i := 0; i < b.N; i++ {
		for _, text := range texts {
			if _, _, err := d.decode([]byte(text), 1); err != nil {
				b.Fatal(err)
			}
		}
	}
}
