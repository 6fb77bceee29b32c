package slot

import (
	"fmt"
	"strings"
	"testing"

	"zanteyard/catalog"
	"zanteyard/condition"
	"zanteyard/keys"
	"zanteyard/record"
)

// TestValues: what the log has of rows' columns is handed on, by the columns' numbers in the topmost partitioned table,
// if somebody wants it.
func TestValues(t *testing.T) {
	column := func(name string, number int16, kind uint32) *catalog.Column {
		return &catalog.Column{Name: name, Number: number, Type: kind, Meaning: catalog.Meaning{Declared: kind, Base: kind}}
	}
	tables := func() *Tables {
		its := someTables()
		its.by[1].columns = map[string]*catalog.Column{"id": column("id", 1, keys.Int4), "v": column("v", 3, keys.Text),
			"n": column("n", 4, keys.Numeric)}
		its.by[9].columns = map[string]*catalog.Column{"a": column("a", 2, keys.Int4), "b": column("b", 1, keys.Text)}
		return its
	}
	begin := `{"action":"B","xid":725,"lsn":"0/15527B8","nextlsn":"0/15527F0"}`
	end := `{"action":"C","xid":725,"lsn":"0/15527B8","nextlsn":"0/15527F0"}`
	on := func(action, table, rest string) string {
		return `{"action":"` + action + `","xid":725,"schema":"public","table":"` + table + `",` + rest + `}`
	}
	id, ab := `,"pk":[{"name":"id"}]`, `,"pk":[{"name":"a"},{"name":"b"}]`
	long := strings.Repeat("x", mostValue+1)
	for _, x := range []struct {
		name  string
		texts []string
		want  string
	}{
		{"insert", []string{on("I", "t", `"columns":[{"name":"id","value":1},{"name":"v","value":"a"},{"name":"n","value":1.50}]`+id)},
			"1 now{[{1 2} { 0} {a 2} {1.50 2}] []}"},
		{"a null is known of a text, not of a numeric", []string{on("I", "t",
			`"columns":[{"name":"id","value":1},{"name":"v","value":null},{"name":"n","value":null}]`+id)}, "1 now{[{1 2} { 0} { 1} { 0}] []}"},
		{"unchanged and stored apart", []string{on("U", "t", `"columns":[{"name":"id","value":1},{"name":"n","value":2}],`+
			`"identity":[{"name":"id","value":1}]`+id)}, "1 now{[{1 2} { 0} { 0} {2 2}] []} was{[{1 2}] []}"},
		{"the old row", []string{on("U", "t", `"columns":[{"name":"id","value":1},{"name":"v","value":"b"}],`+
			`"identity":[{"name":"id","value":1},{"name":"v","value":"a"}]`+id)}, "1 now{[{1 2} { 0} {b 2}] []} was{[{1 2} { 0} {a 2}] []}"},
		{"the last new row, and the first old one", []string{
			on("U", "t", `"columns":[{"name":"id","value":1},{"name":"v","value":"b"}],"identity":[{"name":"id","value":1},{"name":"v","value":"a"}]`+id),
			on("U", "t", `"columns":[{"name":"id","value":1},{"name":"v","value":"c"}],"identity":[{"name":"id","value":1},{"name":"v","value":"b"}]`+id),
		}, "1 now{[{1 2} { 0} {c 2}] []} was{[{1 2} { 0} {a 2}] []}"},
		{"deleted", []string{on("D", "t", `"identity":[{"name":"id","value":1}]`+id)}, "1 was{[{1 2}] []}"},
		{"another key", []string{on("U", "t", `"columns":[{"name":"id","value":2},{"name":"v","value":"b"}],"identity":[{"name":"id","value":1}]`+id)},
			"1 was{[{1 2}] []}; 2 now{[{2 2} { 0} {b 2}] []}"},
		{"a partition", []string{on("I", "part1", `"columns":[{"name":"a","value":1},{"name":"b","value":"x"}]`+ab)}, "1,x now{[{x 2} {1 2}] []}"},
		{"a form that isn't known, a long value, an unknown column", []string{on("I", "t", `"columns":[{"name":"id","value":1},`+
			`{"name":"v","value":{"a":[1]}},{"name":"n","value":"`+long+`"},{"name":"z","value":1}]`+id)}, "1 now{[{1 2}] []}"},
		{"an unknown table", []string{on("I", "new", `"columns":[{"name":"id","value":1}]`+id)}, "gap 0"},
		{"another key than is known", []string{on("I", "t", `"columns":[{"name":"id","value":1}],"pk":[{"name":"v"}]`)}, "gap 1"},
		{"no key in the log", []string{on("D", "part1", `"identity":[{"name":"a","value":1}]`+ab)}, "gap 9"},
		{"a table that nobody can ask", []string{on("I", "keyless", `"columns":[{"name":"id","value":1}],"pk":[]`)}, ""},
		{"truncate", []string{on("T", "t", `"lsn":"0/1"`)}, "gap 1"},
	} {
		t.Run(x.name, func(t *testing.T) {
			for _, wanted := range []bool{true, false} {
				d := &wal2json{tables: tables(), canonical: plain, wanted: func(record.Relation) bool { return wanted }}
				var got []string
				for _, text := range append(append([]string{begin}, x.texts...), end) {
					it, is, err := d.decode([]byte(text), 1)
					if err != nil {
						t.Fatal(err)
					}
					if is {
						got = shownValues(it)
					}
				}
				text := strings.Join(got, "; ")
				if wanted && text != x.want {
					t.Errorf("%s, wanted %s", text, x.want)
				}
				if !wanted && (strings.Contains(text, "now") || strings.Contains(text, "was")) {
					t.Errorf("nobody wants %s", text)
				}
			}
		})
	}
}

func shownValues(it record.Commit) (all []string) {
	for _, one := range it.Writes {
		text := strings.ReplaceAll(string(one.Key), "\x00", ",")
		for _, part := range []struct {
			name string
			its  record.Row
		}{{" now", one.New}, {" was", one.Old}} {
			row, is := part.its.(*condition.Row)
			if !is {
				continue
			}
			text += part.name + fmt.Sprint(*row)
		}
		all = append(all, text)
	}
	for _, one := range it.Gaps {
		all = append(all, fmt.Sprint("gap ", one))
	}
	return all
}

// TestWarningsAreGaps: wal2json warns of a changed row in place of reporting it. Of a table that may be asked for by a
// condition a change is missing then.
func TestWarningsAreGaps(t *testing.T) {
	for _, x := range []struct{ text, want string }{
		{`no tuple identifier for UPDATE in table "public"."t"`, "gap 1"},
		{`no tuple identifier for DELETE in table "public"."part1"`, "gap 9"},
		{`no tuple identifier for UPDATE in table "public"."keyless"`, ""},
		{`no tuple identifier for UPDATE in table "public"."new"`, "gap 0"},
	} {
		d := &wal2json{tables: someTables(), canonical: plain}
		d.decode([]byte(`{"action":"B","xid":725,"lsn":"0/15527B8","nextlsn":"0/15527F0"}`), 1)
		d.warned([]byte("SWARNING\x00M" + x.text + "\x00\x00"))
		it, is, err := d.decode([]byte(`{"action":"C","xid":725,"lsn":"0/15527B8","nextlsn":"0/15527F0"}`), 1)
		if err != nil || !is || it.Keyless != 1 {
			t.Fatalf("%s: %+v %v", x.text, it, err)
		}
		if got := strings.Join(shownValues(it), "; "); got != x.want {
			t.Errorf("%s: %q, wanted %q", x.text, got, x.want)
		}
	}
}
