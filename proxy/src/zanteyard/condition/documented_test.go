package condition_test

import (
	"fmt"
	"testing"

	"zanteyard/condition"
)

const (
	yes  = condition.Yes
	no   = condition.No
	null = condition.Null
)

// documented has what PostgreSQL's documents say of comparisons: a column, its value, a condition, and whether it holds.
var documented = []struct {
	column, value, where string
	want                 condition.Truth
}{
	// Truth tables of AND, OR and NOT, and tests of truth values.
	{"b", "true", "b AND NULL", null}, {"b", "false", "b AND NULL", no}, {"b", "NULL", "b AND NULL", null},
	{"b", "true", "b OR NULL", yes}, {"b", "false", "b OR NULL", null}, {"b", "NULL", "b OR NULL", null},
	{"b", "NULL", "NOT b", null}, {"b", "false", "NOT b", yes}, {"b", "NULL", "b IS UNKNOWN", yes}, {"b", "NULL", "b IS NOT TRUE", yes},
	{"b", "NULL", "b IS FALSE", no}, {"b", "true", "b > false", yes},
	// NULL is no value, and isn't equal to itself.
	{"i4", "NULL", "i4 = NULL::int", null}, {"i4", "NULL", "i4 IS NULL", yes}, {"i4", "NULL", "i4 IS NOT DISTINCT FROM NULL", yes},
	{"i4", "1", "i4 IS DISTINCT FROM NULL", yes}, {"i4", "NULL", "i4 IS DISTINCT FROM 1", yes}, {"i4", "1", "i4 <> NULL", null},
	// IN, ANY and ALL.
	{"i4", "1", "i4 IN (1, NULL)", yes}, {"i4", "2", "i4 IN (1, NULL)", null}, {"i4", "2", "i4 NOT IN (1, NULL)", null},
	{"i4", "1", "i4 NOT IN (1, NULL)", no}, {"i4", "NULL", "i4 = ANY ('{}')", no}, {"i4", "NULL", "i4 <> ALL ('{}')", yes},
	{"i4", "NULL", "i4 IN (1)", null}, {"i4", "5", "i4 > ALL ('{1,NULL}')", null}, {"i4", "0", "i4 > ALL ('{1,NULL}')", no},
	{"i4", "5", "i4 > ANY ('{1,NULL}')", yes}, {"i4", "3", "i4 = ANY (NULL::int[])", null}, {"i4", "2", "i4 IN (1, 2.0)", yes},
	{"i4", "5", "i4 > ALL (ARRAY[1, 3])", yes}, {"i4", "2", "i4 = ANY (ARRAY[1, 3, NULL])", null},
	// BETWEEN includes its ends, and SYMMETRIC swaps them.
	{"i4", "5", "i4 BETWEEN 5 AND 6", yes}, {"i4", "5", "i4 BETWEEN 6 AND 5", no}, {"i4", "5", "i4 BETWEEN SYMMETRIC 6 AND 5", yes},
	{"i4", "7", "i4 NOT BETWEEN SYMMETRIC 6 AND 5", yes}, {"i4", "5", "i4 BETWEEN NULL AND 4", no}, {"i4", "5", "i4 BETWEEN NULL AND 6", null},
	// Numbers: scale doesn't matter, NaN equals itself and is greater than all.
	{"n", "1.00", "n = 1", yes}, {"n", "-0.0", "n = 0", yes}, {"n", "NaN", "n = 'NaN'", yes}, {"n", "NaN", "n > 'Infinity'", yes},
	{"n", "Infinity", "n > 1e300", yes}, {"n", "-Infinity", "n < -1e300", yes}, {"n", "-1.5", "n < -1.49", yes},
	{"n", "-1.5", "n < -1", yes}, {"n", "-1", "n < -1.5", no}, {"n", "-15", "n < -1.5", yes}, {"n", "0.1", "n > 0.0999999999999999999999", yes}, {"n", "9223372036854775808", "n > 9223372036854775807", yes},
	{"i8", "9223372036854775807", "i8 < 9223372036854775808", yes}, {"i8", "9007199254740993", "i8 = 9007199254740993.0", yes},
	{"i2", "7", "i2 = 7::bigint", yes}, {"i4", "-1", "i4 < -0.5", yes},
	// char(n): the spaces at the end don't count in comparisons, and do for LIKE.
	{"c", "ab", "c = 'ab'", yes}, {"c", "ab", "c = 'ab     '", yes}, {"c", "ab", "c = ' ab'", no}, {"c", "ab", "c = 'ab '::text", no},
	{"c", "ab", "c = 'ab'::text", yes}, {"c", "ab", "c LIKE 'ab'", no}, {"c", "ab", "c LIKE 'ab   '", yes}, {"c", "ab", "c LIKE 'ab%'", yes},
	{"c", "ab", "c = ANY (ARRAY['ab '])", no}, {"c", "ab", "c = ANY ('{ab ,x}')", yes}, {"c", "ab", "c > 'aa'", yes}, {"v", "ab ", "v = 'ab'", no},
	// Texts.
	{"t", "abc", "t LIKE 'a%c'", yes}, {"t", "abc", "t LIKE '_b_'", yes}, {"t", "abc", "t LIKE 'c'", no}, {"t", "a%c", `t LIKE 'a\%c'`, yes},
	{"t", "abc", `t LIKE 'a\%c'`, no}, {"t", "日本", "t LIKE '__'", yes}, {"t", "", "t LIKE '%'", yes}, {"t", "abab", "t LIKE '%ab'", yes}, {"t", "aba", "t LIKE '%ab'", no},
	{"t", "B", "t < 'a'", yes}, {"t", "é", "t > 'z'", yes}, {"t", "NULL", "t NOT LIKE 'x'", null}, {"t", "a", "t < 'a '", yes},
	{"y", `\x00ff`, `y < '\x01'`, yes}, {"y", `\x61`, "y = 'a'", yes},
	// Dates and times have infinities, and intervals months of 30 days.
	{"d", "infinity", "d > '5874897-12-31'", yes}, {"d", "-infinity", "d < '4713-01-01 BC'", yes}, {"d", "2024-02-29", "d < '2024-03-01'", yes},
	{"ts", "2024-01-01 24:00:00", "ts = '2024-01-02 00:00:00'", yes}, {"ts", "-infinity", "ts < '4713-11-24 00:00:00 BC'", yes},
	{"tz", "2024-01-01 12:00:00+02", "tz = '2024-01-01 10:00:00Z'", yes}, {"tz", "2024-01-01 12:00:00+02", "tz < '2024-01-01 05:00:00-05:30'", yes},
	{"tm", "24:00:00", "tm > '23:59:59.999999'", yes}, {"iv", "1 mon", "iv = '30 days'", yes}, {"iv", "24:00:00", "iv = '1 day'", yes},
	{"iv", "-00:00:01", "iv < '00:00:00'", yes}, {"iv", "1 year", "iv = '12 mons'", yes}, {"iv", "1 year", "iv = '360 days'", yes}, {"iv", "-1 days +24:00:00", "iv = '00:00:00'", yes},
	// Labels of enumerations (TestLabels has their order).
	{"e", "ok", "e IN ('ok', 'sad')", yes}, {"e", "Z", "e NOT IN ('ok', 'sad')", yes}, {"e", "NULL", "e IN ('ok', 'sad')", null},
	// Ranges.
	{"r4", "[1,5)", "r4 && '[5,9)'", no}, {"r4", "[1,5]", "r4 && '[5,9)'", yes}, {"r4", "empty", "r4 && '(,)'", no}, {"r4", "(1,2)", "r4 = 'empty'", yes},
	{"r4", "[1,5]", "r4 = '[1,6)'", yes}, {"r4", "empty", "r4 = '(1,2)'", yes}, {"r4", "[3,4)", "r4 @> '(1,2)'", yes}, {"r4", "[1,5)", "r4 @> 5", no}, {"r4", "[1,5)", "r4 @> 1", yes}, {"r4", "[1,5)", "r4 @> 'empty'", yes},
	{"r4", "(,5)", "r4 @> -2147483648", yes}, {"r4", "[1,5)", "r4 <@ int4range(1, 4, '[]')", yes}, {"r4", "[1,5)", "r4 <@ int4range(NULL::int, 4)", no},
	{"rn", "[1.0,2.0)", "rn && numrange(2.0, 3.0)", no}, {"rn", "[1.0,2.0]", "rn && numrange(2.0, 3.0)", yes}, {"rn", "(1,2)", "rn @> 1.0", no},
	{"rd", "[2024-01-01,2024-01-02]", "rd @> '2024-01-02'::date", yes}, {"rd", "[2024-01-01,infinity]", "rd @> 'infinity'::date", yes},
	{"rd", "[2024-01-01,infinity)", "rd @> 'infinity'::date", no}, {"rd", "[2024-01-01,)", "rd @> 'infinity'::date", yes},
	{"rz", "[2024-01-01 10:00:00+00,2024-01-01 11:00:00+00)", "rz && '[2024-01-01 11:00:00+00,2024-01-01 12:00:00+00)'", no},
	{"rz", "[2024-01-01 10:00:00+00,2024-01-01 11:00:00+00)", "rz && '[2024-01-01 12:30:00+02,2024-01-01 13:00:00+02)'", yes},
	{"rt", "[2024-01-01 10:00:00,2024-01-01 11:00:00)", "rt && tsrange('2024-01-01 10:30:00'::timestamp, NULL::timestamp)", yes},
	{"i4", "3", "i4 <@ '[1,5)'::int4range", yes}, {"d", "2024-01-05", "d <@ daterange('2024-01-01'::date, '2024-01-05'::date)", no},
}

// TestAsDocumented: the server says so, and so does the evaluation.
func TestAsDocumented(t *testing.T) {
	conn, all := open(t, "documented", oracleSchema)
	rows(t, conn, "SET TimeZone = 'UTC'; SET DateStyle = 'ISO, YMD'; SET extra_float_digits = 3")
	table, _ := all.Find("", "r")
	for i, one := range documented {
		value := literal(one.value)
		if one.value == "NULL" {
			value = "NULL"
		}
		rows(t, conn, fmt.Sprintf("INSERT INTO r (id, %s) VALUES (%d, %s)", one.column, i, value))
		its := rows(t, conn, fmt.Sprintf("SELECT coalesce((%s)::text, 'null'), concat(%s) FROM r WHERE id = %d",
			one.where, one.column, i))[0]
		if want := map[string]condition.Truth{"true": yes, "false": no, "null": null}[its[0]]; want != one.want {
			t.Errorf("%s of %s is %v by the server, not %v", one.where, one.value, want, one.want)
		}
		made, err := made(t, all, "SELECT * FROM r WHERE "+one.where, condition.Arguments{})
		if err != nil {
			t.Errorf("%s: %v", one.where, err)
			continue
		}
		values := make([]condition.Value, len(table.Columns))
		for j := range values {
			values[j].State = condition.IsNull
		}
		column, _ := table.Column(one.column)
		if one.value != "NULL" {
			values[column.Number-1] = condition.Value{Text: its[1], State: condition.Present}
		}
		if got := made.Holds(condition.NewRow(values)); got != one.want {
			t.Errorf("%s of %s is %v, not %v", one.where, one.value, got, one.want)
		}
	}
}

// TestUnknown: what isn't known of a row isn't made up.
func TestUnknown(t *testing.T) {
	_, all := open(t, "unknown", oracleSchema)
	table, _ := all.Find("", "r")
	column := func(name string) int {
		its, ok := table.Column(name)
		if !ok {
			t.Fatal(name)
		}
		return int(its.Number) - 1
	}
	present := func(text string) condition.Value { return condition.Value{Text: text, State: condition.Present} }
	number, _ := table.Column("n")
	whole, _ := table.Column("i4")
	for _, one := range []struct {
		column string
		value  condition.Value
		where  string
		want   condition.Truth
	}{
		{"t", condition.Value{}, "t = 'x'", condition.Unknown},
		{"t", condition.Value{}, "t IS NULL", condition.Unknown},
		{"t", condition.Value{}, "t IS NOT NULL OR t IS NULL", condition.Unknown},
		{"t", condition.Value{}, "(t = 'x') IS UNKNOWN", condition.Unknown},
		{"t", condition.Value{}, "t IN ('x')", condition.Unknown},
		{"t", condition.Value{}, "t = ANY ('{}')", no},
		{"t", condition.Value{}, "t IS DISTINCT FROM 'x'", condition.Unknown},
		{"t", condition.Value{}, "t LIKE '%'", condition.Unknown},
		{"b", condition.Value{}, "b", condition.Unknown},
		{"b", condition.Value{}, "b AND false", no},
		{"b", condition.Value{}, "b OR true", yes},
		{"r4", condition.Value{}, "r4 && '[1,2)'", condition.Unknown},
		{"e", present("gone"), "e IN ('ok', 'sad')", condition.Unknown}, // a label that the catalog doesn't have
		{"e", present("gone"), "e IS NULL", no},
		{"iv", present("P1D"), "iv = '1 day'", condition.Unknown}, // another IntervalStyle
		{"iv", present("@ 1 day ago"), "iv = '1 day'", condition.Unknown},
		{"iv", present("1 2:03:04"), "iv = '1 day'", condition.Unknown},
		{"d", present("01/02/2024"), "d = '2024-01-02'", condition.Unknown}, // another DateStyle
		{"r4", present("[1"), "r4 && '[1,2)'", condition.Unknown},
		{"n", condition.ValueOf(&number, "null", true, true), "n = 'NaN'", condition.Unknown}, // so wal2json writes NaN
		{"n", condition.ValueOf(&number, "null", true, true), "n IS NULL", condition.Unknown},
		{"n", condition.ValueOf(&number, "null", true, false), "n IS NULL", yes},
		{"i4", condition.ValueOf(&whole, "null", true, true), "i4 IS NULL", yes},
	} {
		values := make([]condition.Value, len(table.Columns))
		values[column(one.column)] = one.value
		its, err := made(t, all, "SELECT * FROM r WHERE "+one.where, condition.Arguments{})
		if err != nil {
			t.Errorf("%s: %v", one.where, err)
		} else if got := its.Holds(condition.NewRow(values)); got != one.want {
			t.Errorf("%s of %v is %v, not %v", one.where, one.value, got, one.want)
		}
	}
}

// TestLabels: an enumeration has the order of its labels. A label has to have the enumeration's type.
func TestLabels(t *testing.T) {
	_, all := open(t, "labels", oracleSchema)
	table, _ := all.Find("", "r")
	e, _ := table.Column("e")
	for _, one := range []struct {
		value, where, with string
		want               condition.Truth
	}{
		{"ok", "e > $1", "sad", yes}, {"ok", "e < $1", "happy", yes}, {"Z", "e < $1", "sad", yes}, {"happy", "e <= $1", "ok", no},
		{"ok", "$1 = e", "ok", yes}, {"ok", "e IS DISTINCT FROM $1", "ok", no}, {"ok", "e BETWEEN $1 AND $1", "Z", no},
	} {
		its, err := made(t, all, "SELECT * FROM r WHERE "+one.where, condition.Arguments{Parameters: [][]byte{[]byte(one.with)},
			Types: []uint32{e.Declared}})
		if err != nil {
			t.Errorf("%s: %v", one.where, err)
			continue
		}
		values := make([]condition.Value, len(table.Columns))
		values[e.Number-1] = condition.Value{Text: one.value, State: condition.Present}
		if got := its.Holds(condition.NewRow(values)); got != one.want {
			t.Errorf("%s of %s with %s is %v, not %v", one.where, one.value, one.with, got, one.want)
		}
	}
}
