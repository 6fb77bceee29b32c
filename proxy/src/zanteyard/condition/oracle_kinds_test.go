package condition_test

import (
	"fmt"
	"strings"
)

// kind is a column of the oracle's table, with values of its type.
type kind struct {
	column, typ string
	oid, array  uint32
	values      []string
	ordered     bool   // by an order that is followed
	element     string // of a range: the kind of its bounds
	binary      map[string][]byte
}

func list(text string) []string { return strings.Split(text, "|") }

func kinds() []*kind {
	texts := []string{
		"", "a", "A", "a ", " a", "ab", "abc", "b", "é", "aé", "日本", "a_b", "a%b", `a\b`, "NULL", "null", "x'y", `"`, "{}",
		",", "(", "aXb", "abab", "zz", "\t", "a\nb",
	}
	chars := []string{"", "a", "a ", "ab", " a", "abcde", "é", "A", "_", "%"}
	ranges := func(a, b, c, d string) []string {
		var all []string
		for _, form := range []string{"[%s,%s)", "[%s,%s]", "(%s,%s]", "(%s,%s)"} {
			for _, ends := range [][2]string{{a, b}, {b, c}, {a, c}, {c, d}, {a, d}, {b, b}, {b, d}, {"", b}, {c, ""}, {"", ""}} {
				all = append(all, fmt.Sprintf(form, ends[0], ends[1]))
			}
		}
		return append(all, "empty", "empty")
	}
	times := list("2024-01-01 10:00:00|2024-01-01 10:00:00.000001|2024-01-01 09:59:59.999999|infinity|-infinity|" +
		"4713-11-24 00:00:00 BC|294276-12-31 23:59:59.999999|2024-01-01|2024-01-01 24:00:00|2024-01-02 00:00:00|" +
		"2000-02-29 12:34:56.7|1999-12-31T23:59")
	zoned := list("2024-01-01 10:00:00+00|2024-01-01 12:00:00+02|2024-01-01 10:00:00Z|2024-01-01 10:00:00.000001+00|infinity|" +
		"-infinity|4713-11-24 00:00:00+00 BC|294276-12-31 23:59:59.999999+00|2024-06-30 23:30:00-03:30|2000-02-29 12:00:00+05:45")
	return []*kind{
		{column: "b", typ: "bool", oid: 16, array: 1000, values: list("true|false|t|f"), ordered: true},
		{column: "i2", typ: "int2", oid: 21, array: 1005, values: list("0|1|-1|2|7|32767|-32768"), ordered: true},
		{column: "i4", typ: "int4", oid: 23, array: 1007, values: list("0|1|-1|2|7|100|2147483647|-2147483648"), ordered: true},
		{column: "i8", typ: "int8", oid: 20, array: 1016, ordered: true,
			values: list("0|1|-1|2|7|2147483648|9223372036854775807|-9223372036854775808")},
		{column: "n", typ: "numeric", oid: 1700, array: 1231, ordered: true, values: list("0|0.00|-0.0|1|1.0|1.00|-1|-1.5|-1.05|" +
			"-15|0.001|0.0010|1e10|10000000000|123456789012345678901234567890.123|-123456789012345678901234567890.123|NaN|" +
			"Infinity|-Infinity|9223372036854775807|9223372036854775808|0.1|10|100|-10|-100|-0.001|-0.0011|2|7")},
		{column: "n2", typ: "numeric", oid: 1700, array: 1231, ordered: true, values: list("0|1|1.10|-1.10|7|NaN|99.99")},
		{column: "t", typ: "text", oid: 25, array: 1009, ordered: true, values: texts},
		{column: "v", typ: "varchar", oid: 1043, array: 1015, ordered: true, values: texts},
		{column: "td", typ: "text", oid: 25, array: 1009, values: texts},
		{column: "c", typ: "bpchar", oid: 1042, array: 1014, ordered: true, values: chars},
		{column: "cd", typ: "bpchar", oid: 1042, array: 1014, values: chars},
		{column: "y", typ: "bytea", oid: 17, array: 1001, ordered: true, values: list(`\x|\x00|\x61|\xff|\x6162|\xFF00|a|ab`)},
		{column: "u", typ: "uuid", oid: 2950, array: 2951, ordered: true, values: list("00000000-0000-0000-0000-000000000000|" +
			"ffffffff-ffff-ffff-ffff-ffffffffffff|A0EEBC99-9C0B-4EF8-BB6D-6BB9BD380A11|a0eebc99-9c0b-4ef8-bb6d-6bb9bd380a11|" +
			"{a0eebc99-9c0b-4ef8-bb6d-6bb9bd380a12}")},
		{column: "d", typ: "date", oid: 1082, array: 1182, ordered: true, values: list("2024-01-01|2024-02-29|1999-12-31|infinity|" +
			"-infinity|0001-01-01|4713-01-01 BC|5874897-12-31|2000-01-01|2024-01-02")},
		{column: "tm", typ: "time", oid: 1083, array: 1183, ordered: true,
			values: list("00:00:00|24:00:00|12:34:56.789|23:59:59.999999|10:00|10:00:00")},
		{column: "ts", typ: "timestamp", oid: 1114, array: 1115, ordered: true, values: times},
		{column: "tz", typ: "timestamptz", oid: 1184, array: 1185, ordered: true, values: zoned},
		{column: "iv", typ: "interval", oid: 1186, array: 1187, ordered: true, values: list("00:00:00|1 day|24:00:00|1 mon|30 days|" +
			"-1 days|1 year|12 mons|365 days|1 year 2 mons 3 days 04:05:06.789|-00:00:01|720:00:00|1 week|36 hours|-24:00:00")},
		{column: "e", typ: "mood", values: list("sad|ok|happy|a'b|Z"), ordered: true},
		{column: "di", typ: "int4", oid: 23, array: 1007, values: list("0|1|-1|2|7"), ordered: true},
		{column: "dt", typ: "text", oid: 25, array: 1009, values: texts},
		{column: "r4", typ: "int4range", oid: 3904, values: ranges("1", "2", "5", "9"), element: "i4"},
		{column: "r8", typ: "int8range", oid: 3926, values: ranges("-5", "0", "7", "9223372036854775806"), element: "i8"},
		{column: "rn", typ: "numrange", oid: 3906, values: ranges("-1.5", "0", "0.10", "7"), element: "n"},
		{column: "rd", typ: "daterange", oid: 3912, values: ranges("-infinity", "2024-01-01", "2024-01-02", "infinity"), element: "d"},
		{column: "rt", typ: "tsrange", oid: 3908, element: "ts",
			values: ranges("-infinity", `"2024-01-01 10:00:00"`, `"2024-01-01 10:00:00.000001"`, "infinity")},
		{column: "rz", typ: "tstzrange", oid: 3910, element: "tz",
			values: ranges(`"2000-01-01 00:00:00+00"`, `"2024-01-01 10:00:00+00"`, `"2024-01-01 13:00:00+02"`, "infinity")},
	}
}

const oracleSchema = `
CREATE TYPE mood AS ENUM ('sad', 'happy', 'a''b'); ALTER TYPE mood ADD VALUE 'ok' BEFORE 'happy'; ALTER TYPE mood ADD VALUE 'Z' BEFORE 'sad';
CREATE DOMAIN whole AS int; CREATE DOMAIN named AS text COLLATE "C";
CREATE TABLE r (id int PRIMARY KEY, b bool, i2 int2, i4 int, i8 bigint, n numeric, n2 numeric(8,2), t text COLLATE "C",
  v varchar(20) COLLATE "POSIX", td text, c char(5) COLLATE "C", cd char(5), y bytea, u uuid, d date, tm time, ts timestamp,
  tz timestamptz, iv interval, e mood, di whole, dt named, r4 int4range, r8 int8range, rn numrange, rd daterange, rt tsrange,
  rz tstzrange, j jsonb);`
