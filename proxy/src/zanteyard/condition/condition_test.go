package condition_test

import (
	"testing"

	"zanteyard/condition"
	"zanteyard/record"
)

const schema = `CREATE TABLE r (id int PRIMARY KEY, a int, b text, n numeric);`

// row makes a row of texts as the slot has them: NULL, ? for a value that is missing.
func row(texts ...string) *condition.Row {
	values := make([]condition.Value, len(texts))
	for i, text := range texts {
		switch text {
		case "NULL":
			values[i].State = condition.IsNull
		case "?":
		default:
			values[i] = condition.Value{Text: text, State: condition.Present}
		}
	}
	return condition.NewRow(values)
}

func TestThreeValued(t *testing.T) {
	_, c := open(t, "three_valued", schema)
	for _, one := range []struct {
		where string
		row   *condition.Row
		want  condition.Truth
	}{
		{"a = 1", row("1", "1", "x"), condition.Yes},
		{"a = 1", row("1", "2", "x"), condition.No},
		{"a = 1", row("1", "NULL", "x"), condition.Null},
		{"a = 1", row("1", "?", "x"), condition.Unknown},
		{"a = 1", row("1"), condition.Unknown},
		{"a = NULL::int", row("1", "1", "x"), condition.Null},
		{"NOT a = 1", row("1", "NULL", "x"), condition.Null},
		{"NOT a = 1", row("1", "1", "x"), condition.No},
		{"a = 1 AND b = 'x'", row("1", "NULL", "x"), condition.Null},
		{"a = 1 AND b = 'x'", row("1", "NULL", "y"), condition.No},
		{"a = 1 AND b = 'x'", row("1", "?", "y"), condition.No},
		{"a = 1 AND b = 'x'", row("1", "?", "x"), condition.Unknown},
		{"a = 1 AND b = 'x'", row("1", "?", "NULL"), condition.No}, // or null: it isn't returned
		{"a = 1 OR b = 'x'", row("1", "?", "x"), condition.Yes},
		{"a = 1 OR b = 'x'", row("1", "NULL", "x"), condition.Yes},
		{"a = 1 OR b = 'x'", row("1", "NULL", "y"), condition.Null},
		{"a = 1 OR b <> 'x'", row("1", "2", "x"), condition.No},
		{"1 < a", row("1", "2", "x"), condition.Yes},
		{"a >= 1.5", row("1", "1", "x"), condition.No},
		{"a >= 1.5", row("1", "2", "x"), condition.Yes},
	} {
		its, err := made(t, c, "SELECT * FROM r WHERE "+one.where, condition.Arguments{})
		if err != nil {
			t.Errorf("%s: %v", one.where, err)
		} else if got := its.Holds(one.row); got != one.want {
			t.Errorf("%s is %v, not %v", one.where, got, one.want)
		}
	}
}

func TestIdentity(t *testing.T) {
	_, c := open(t, "identity", schema+"CREATE TABLE s (id int PRIMARY KEY, a int, b text)")
	const first = "SELECT * FROM r WHERE a = 1 AND b = 'x'"
	want, err := made(t, c, first, condition.Arguments{})
	if err != nil {
		t.Fatal(err)
	}
	if got := want.String(); got != "r WHERE a = 1 AND b = 'x'" {
		t.Error(got)
	}
	if got := want.Shape(); got != "r WHERE a = ? AND b = ?" {
		t.Error(got)
	}
	parameters := condition.Arguments{Parameters: [][]byte{{0, 0, 0, 1}, []byte("x")}, Formats: []int16{1, 0}}
	for text, with := range map[string]condition.Arguments{
		"SELECT id FROM public.r AS r WHERE r.b = 'x' AND 1 = r.a": {},
		"DELETE FROM r WHERE a = 7 AND b = 'y'":                    {Constants: []string{"1", "'x'"}},
		"UPDATE r SET a = 2 WHERE a = $1 AND b = $2":               parameters,
	} {
		if its, err := made(t, c, text, with); err != nil || its.Key() != want.Key() {
			t.Errorf("%s: %v %v", text, its, err)
		}
	}
	for _, text := range []string{
		"SELECT * FROM r WHERE a = 2 AND b = 'x'", "SELECT * FROM r WHERE a = 1 OR b = 'x'", "SELECT * FROM r WHERE a = 1",
		"SELECT * FROM s WHERE a = 1 AND b = 'x'", "SELECT * FROM r WHERE NOT (a = 1 AND b = 'x')", "SELECT * FROM r",
		"SELECT * FROM r WHERE a < 1 AND b = 'x'", "SELECT * FROM r WHERE id = 1 AND b = 'x'",
	} {
		if its, err := made(t, c, text, condition.Arguments{}); err != nil || its.Key() == want.Key() {
			t.Errorf("%s: %v %v", text, its, err)
		}
	}
}

func TestIndexFindsWhatCouldHold(t *testing.T) {
	_, c := open(t, "indexed", schema)
	var lost []string
	index := condition.NewIndex(condition.Limits{Conditions: 5, Bytes: 1 << 20, Scanned: 1}, func(its *condition.Condition) {
		lost = append(lost, its.String())
	})
	for _, where := range []string{
		"a = 1 AND b = 'x'", "a = 2 OR b = 'y'", "a > 5", "a = NULL::int", "b = 'z'", "a > 6", "b = 'w'",
	} {
		its, err := made(t, c, "SELECT * FROM r WHERE "+where, condition.Arguments{})
		if err != nil {
			t.Fatal(err)
		}
		index.Add(its)
	}
	if len(lost) != 2 || lost[0] != "r WHERE a > 5" || lost[1] != "r WHERE a = 1 AND b = 'x'" || index.Dropped() != 2 {
		t.Error(lost, index.Dropped())
	}
	table, _ := c.Find("", "r")
	for _, one := range []struct {
		rows []*condition.Row
		want string
	}{
		{[]*condition.Row{row("1", "1", "x")}, "a > 6"},
		{[]*condition.Row{row("1", "2", "y")}, "a = 2 OR b = 'y', a > 6"},
		{[]*condition.Row{row("1", "2", "z"), row("1", "1", "w")}, "a = 2 OR b = 'y', a > 6, b = 'w', b = 'z'"},
		{[]*condition.Row{row("1", "?", "v")}, "a > 6"}, // what isn't known makes none hold that asks for it
		{[]*condition.Row{row("1", "1", "?")}, "a > 6"},
		{[]*condition.Row{row("1", "?", "w"), row("1", "2", "?")}, "a = 2 OR b = 'y', a > 6, b = 'w'"},
	} {
		if got := found(index, table.OID, one.rows...); got != one.want {
			t.Errorf("%s in place of %s", got, one.want)
		}
	}
	if index.Len() != 5 {
		t.Error(index.Len())
	}
	for want, one := range map[int]*condition.Row{0: row("1", "1", "x"), 1: row("1", "?", "v"), 3: row("1", "1", "?"), 4: row("1", "?", "?")} {
		if n := index.Unread(record.Relation(table.OID), one); n != want {
			t.Errorf("%d conditions in place of %d ask for what isn't known", n, want)
		}
	}
}

func TestIndexIsBounded(t *testing.T) {
	_, c := open(t, "bounded", schema)
	make := func(where string) *condition.Condition {
		its, err := made(t, c, "SELECT * FROM r WHERE "+where, condition.Arguments{})
		if err != nil {
			t.Fatal(err)
		}
		return its
	}
	one, other, third := make("a = 1"), make("a = 2"), make("a = 3")
	limits := condition.Limits{Conditions: 100, Bytes: one.Size() + other.Size(), Scanned: 100}
	var lost []string
	index := condition.NewIndex(limits, func(its *condition.Condition) { lost = append(lost, its.String()) })
	index.Add(one)
	index.Add(other)
	if same, added := index.Add(make("1 = a")); added || same != one { // it counts as used
		t.Error(same, added)
	}
	index.Add(third)
	if len(lost) != 1 || lost[0] != "r WHERE a = 2" || index.Len() != 2 || index.Bytes() > limits.Bytes || index.Dropped() != 1 {
		t.Error(lost, index.Len(), index.Bytes(), index.Dropped())
	}
	if its, ok := index.Find(one.Key()); !ok || its != one {
		t.Error(its, ok)
	}
	index.Drop(one.Key())
	index.Drop("no such key")
	if _, ok := index.Find(one.Key()); ok || index.Len() != 1 || index.Bytes() != third.Size() || index.Dropped() != 1 {
		t.Error(ok, index.Len(), index.Bytes())
	}
	table, _ := c.Find("", "r")
	if got := found(index, table.OID, row("1", "1", "x"), row("1", "3", "x")); got != "a = 3" {
		t.Error(got)
	}
	index.Add(make("a = ALL ('{}')")) // true of all rows
	if got := found(index, table.OID, row("1", "1", "x")); got != "a = ALL (ARRAY[])" {
		t.Error(got)
	}
}

// TestIndexOfWhatNeverHolds: what holds of no row is found for none, and is dropped in any order.
func TestIndexOfWhatNeverHolds(t *testing.T) {
	_, all := open(t, "never", schema)
	index := condition.NewIndex(condition.Limits{Conditions: 9, Bytes: 1 << 20, Scanned: 9}, nil)
	var its []*condition.Condition
	for _, where := range []string{"a = ANY ('{}')", "a = 1", "a IN (1) AND a IS NULL"} {
		one, err := made(t, all, "SELECT * FROM r WHERE "+where, condition.Arguments{})
		if err != nil {
			t.Fatal(err)
		}
		index.Add(one)
		its = append(its, one)
	}
	for _, one := range []*condition.Condition{its[1], its[2], its[0]} {
		index.Drop(one.Key())
	}
	if index.Len() != 0 || index.Bytes() != 0 {
		t.Errorf("%d conditions of %d bytes are left", index.Len(), index.Bytes())
	}
}

// TestIndexOfRangesAndTexts: a range is found by IN though it was made of another text, and a text by what it is equal to.
func TestIndexOfRangesAndTexts(t *testing.T) {
	_, all := open(t, "spans", oracleSchema)
	index := condition.NewIndex(condition.Limits{Conditions: 9, Bytes: 1 << 20, Scanned: 9}, nil)
	table, _ := all.Find("", "r")
	const ofRanges, ofNumbers = "r4 IN ('[1,2]', '[7,8)')", "i4 IN (1, 2)"
	const always = ofRanges + ", r4 IS NOT DISTINCT FROM '[7,7]'"
	for _, where := range []string{ofRanges, ofNumbers, "r4 IS NOT DISTINCT FROM '[7,7]'", "i4 IS NOT DISTINCT FROM 7"} {
		one, err := made(t, all, "SELECT * FROM r WHERE "+where, condition.Arguments{})
		if err != nil {
			t.Fatal(err)
		}
		index.Add(one)
	}
	of := func(column, text string) *condition.Row {
		values := make([]condition.Value, len(table.Columns))
		for i := range values {
			values[i].State = condition.IsNull
		}
		its, _ := table.Column(column)
		values[its.Number-1] = condition.Value{Text: text, State: condition.Present}
		return condition.NewRow(values)
	}
	for _, one := range []struct{ column, text, want string }{ // what asks for a range is tried on all rows
		{"r4", "[1,3)", always}, {"i4", "2", ofNumbers + ", " + always}, {"i4", "3", always},
		{"i4", "7", "i4 IS NOT DISTINCT FROM 7, " + always},
	} {
		if got := found(index, table.OID, of(one.column, one.text)); got != one.want {
			t.Errorf("%s %s: %s in place of %s", one.column, one.text, got, one.want)
		}
	}
}
