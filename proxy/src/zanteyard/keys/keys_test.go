package keys_test

import (
	"context"
	"encoding/json"
	"errors"
	"fmt"
	"os"
	"strings"
	"testing"

	"github.com/jackc/pgconn"

	"zanteyard/cluster"
	"zanteyard/keys"
)

// kind is a type with values of it, as SQL writes them; values on one line are equal, and must have one canonical text.
type kind struct {
	oid    uint32
	name   string
	values [][]string
}

var kinds = []kind{
	{keys.Bool, "bool", [][]string{{"true", "'on'"}, {"false"}}},
	{keys.Int2, "int2", [][]string{{"0", "'-0'"}, {"-32768"}, {"32767", "' 032767 '"}}},
	{keys.Int4, "int4", [][]string{{"0"}, {"1", "'+1'", "'01'"}, {"-2147483648"}, {"2147483647"}}},
	{keys.Int8, "int8", [][]string{{"0"}, {"-9223372036854775808"}, {"9223372036854775807"}, {"1000000000000000000"}}},
	{keys.Oid, "oid", [][]string{{"0"}, {"4294967295"}}},
	{keys.Numeric, "numeric", [][]string{
		{"0", "0.000", "-0", "'-0.0'", "0e10"}, {"1", "1.0", "1.000000000000", "'01'", "1e0", "10e-1"},
		{"10000", "1e4", "10000.0"}, {"100000000"}, {"0.0001", "1e-4", "0.00010"}, {"0.00001"}, {"-12345.6789", "-12345.67890"},
		{"1e400", "10e399"}, {"1e-400"}, {"123456789012345678901234567890.12345678901234567890"}, {"'NaN'"},
		{"'Infinity'"}, {"'-Infinity'"}, {"99999999.00000001"}, {"-1"}, {"10.01"}, {"1000000000000000000000000000000000001"},
	}},
	{keys.Float8, "float8", [][]string{{"0", "'-0'"}, {"0.1", "1e-1"}, {"1e300"}, {"'NaN'"}, {"'Infinity'"},
		{"'-Infinity'"}, {"123456789.123456789"}, {"5e-324"}, {"-2.5"}}},
	{keys.Float4, "float4", [][]string{{"0", "'-0'"}, {"0.1"}, {"1e30"}, {"'NaN'"}, {"'Infinity'"}, {"16777216"}, {"1e-45"}}},
	{keys.Text, "text", [][]string{{"''"}, {"' '"}, {"'a'"}, {"' a '"}, {"'A'"}, {"'it''s \"q\" \\ \\x41'"}, {"E'tab\\tnl\\n'"},
		{"'ü€𝄞'"}, {"'null'"}, {"E'u\\u0301'"}, {"'{\"a\": 1}'"}, {"repeat('x', 3000)"}}},
	{keys.Varchar, "varchar(9)", [][]string{{"''"}, {"'a'"}, {"'a  '"}, {"'it''s'"}}},
	{keys.Name, "name", [][]string{{"''"}, {"'a b'"}}},
	{keys.Bpchar, "char(6)", [][]string{{"''", "' '"}, {"'a'", "'a  '", "'a     '"}, {"' a'"}, {"'ü'''"}, {"'\\'"}}},
	{keys.Enum, "mood", [][]string{{"'sad'"}, {"'it''s \"ok\"'"}, {"'ü '"}}},
	{keys.UUID, "uuid", [][]string{{"'00000000-0000-0000-0000-000000000000'"},
		{"'a0eebc99-9c0b-4ef8-bb6d-6bb9bd380a11'", "'{A0EEBC99-9C0B-4EF8-BB6D-6BB9BD380A11}'",
			"'a0eebc999c0b4ef8bb6d6bb9bd380a11'"}}},
	{keys.Bytea, "bytea", [][]string{{"''"}, {`'\x00'`}, {`'\x00ff5c27'`, `'\000\377\\'''`}, {"'abc'", `'\x616263'`},
		{`'\x5c78'`}}},
	{keys.Date, "date", [][]string{{"'2000-01-01'"}, {"'1999-12-31'"}, {"'2020-02-29'"}, {"'0001-01-01'"}, {"'0001-12-31 BC'"},
		{"'4714-11-24 BC'"}, {"'5874897-12-31'"}, {"'infinity'"}, {"'-infinity'"}, {"'0044-03-15 BC'"}, {"'1900-03-01'"}}},
	{keys.Time, "time", [][]string{{"'00:00'"}, {"'23:59:59.999999'"}, {"'24:00:00'"}, {"'12:34:56.7'", "'12:34:56.700'"}}},
	{keys.Timestamp, "timestamp", [][]string{{"'2000-01-01 00:00'"}, {"'2020-02-29 12:34:56.789'"}, {"'infinity'"},
		{"'-infinity'"}, {"'0044-03-15 01:02:03 BC'"}, {"'294276-12-31 23:59:59.999999'"}, {"'1999-12-31 23:59:59.999999'"},
		{"'4714-11-24 00:00:00 BC'"}}},
	{keys.Timestamptz, "timestamptz", [][]string{{"'2000-01-01 00:00+00'", "'2000-01-01 02:00+02'"},
		{"'2020-02-29 12:34:56.789-03:30'"}, {"'infinity'"}, {"'-infinity'"}, {"'0044-03-15 01:02:03+00 BC'"},
		{"'1883-11-18 12:00+00'"}, {"'2021-10-31 02:30+02'"}, {"'2021-10-31 02:30+01'"}}},
	{keys.Bit, "bit(5)", [][]string{{"B'00000'"}, {"B'10101'"}}},
	{keys.Varbit, "varbit", [][]string{{"B''"}, {"B'1'"}, {"B'000000001'"}, {"B'11111111'"}}},
	{keys.Inet, "inet", [][]string{{"'10.0.0.1'", "'10.0.0.1/32'"}, {"'10.0.0.1/8'"}, {"'::1'"}, {"'2001:DB8::8/64'"},
		{"'::ffff:1.2.3.4'"}, {"'0.0.0.0/0'"}, {"'1:0:0:2:0:0:0:3'"}}},
	{keys.Cidr, "cidr", [][]string{{"'10.0.0.0/8'"}, {"'10.0.0.1/32'"}, {"'2001:db8::/32'"}}},
	{keys.Macaddr, "macaddr", [][]string{{"'08:00:2B:01:02:03'", "'08002b010203'"}}},
}

// sessions are the settings under which values are read as text.
var sessions = []string{
	"SET DateStyle = 'ISO, MDY'; SET TimeZone = 'UTC'; SET bytea_output = 'hex'",
	"SET DateStyle = 'SQL, DMY'; SET TimeZone = 'America/St_Johns'; SET bytea_output = 'escape'; SET extra_float_digits = -3",
	"SET DateStyle = 'German'; SET TimeZone = 'Europe/Amsterdam'; SET extra_float_digits = 0",
	"SET DateStyle = 'Postgres, MDY'; SET TimeZone = 'Asia/Kathmandu'",
}

var server *cluster.Cluster

func TestMain(m *testing.M) {
	started, err := cluster.Start([]string{"autovacuum=off"}, nil)
	if err != nil && !errors.Is(err, cluster.ErrMissing) {
		fmt.Fprintln(os.Stderr, err)
		os.Exit(1)
	}
	server = started
	status := m.Run()
	if server != nil {
		server.Stop()
	}
	os.Exit(status)
}

func connect(t *testing.T) *pgconn.PgConn {
	t.Helper()
	if server == nil {
		t.Skip(cluster.ErrMissing)
	}
	connection, err := server.Connect(context.Background())
	if err != nil {
		t.Fatal(err)
	}
	t.Cleanup(func() { connection.Close(context.Background()) })
	return connection
}

func run(t *testing.T, connection *pgconn.PgConn, sql string) []*pgconn.Result {
	t.Helper()
	results, err := connection.Exec(context.Background(), sql).ReadAll()
	if err != nil {
		t.Fatalf("%s: %v", sql, err)
	}
	return results
}

// TestCanonical reads values back from a server, in both formats and under several settings, and from its log by two
// plugins: all of them have the same text, and different values have different texts.
func TestCanonical(t *testing.T) {
	connection := connect(t)
	run(t, connection, `CREATE TYPE mood AS ENUM ('sad', 'it''s "ok"', 'ü ')`)
	run(t, connection, "SELECT pg_create_logical_replication_slot('wal2json', 'wal2json')")
	run(t, connection, "SELECT pg_create_logical_replication_slot('test_decoding', 'test_decoding')")
	var all []string // the canonical texts, in the order of insertion
	for _, k := range kinds {
		run(t, connection, fmt.Sprintf("CREATE TABLE %s (n int PRIMARY KEY, v %s)", table(k), k.name))
		distinct := map[string]int{}
		n := 0
		for i, equal := range k.values {
			for _, value := range equal {
				run(t, connection, fmt.Sprintf("INSERT INTO %s VALUES (%d, CAST(%s AS %s))", table(k), n, value, k.name))
				canonical := fromServer(t, connection, k, n)
				if before, ok := distinct[canonical]; ok && before != i {
					t.Errorf("%s: %s has the text %q of another value", k.name, value, canonical)
				}
				if distinct[canonical] = i; len(distinct) != i+1 {
					t.Errorf("%s: %s has the text %q, unlike %s", k.name, value, canonical, equal[0])
				}
				all = append(all, canonical)
				n++
			}
		}
	}
	fromSlots(t, connection, all)
}

func table(k kind) string { return "of_" + strings.NewReplacer("(", "_", ")", "").Replace(k.name) }

// fromServer reads a value in all ways, which have to agree.
func fromServer(t *testing.T, connection *pgconn.PgConn, k kind, n int) string {
	t.Helper()
	found := map[string]string{}
	sql := fmt.Sprintf("SELECT v, %s FROM %s x WHERE n = %d", keys.Expression(k.oid, `x."v"`, false), table(k), n)
	for i, session := range sessions {
		run(t, connection, session)
		for _, format := range []int16{0, 1} {
			result := connection.ExecParams(context.Background(), sql, nil, nil, nil, []int16{format}).Read()
			if result.Err != nil {
				t.Fatalf("%s: %v", sql, result.Err)
			}
			way := fmt.Sprintf("session %d, format %d", i, format)
			row := result.Rows[0]
			if canonical, ok := keys.FromHidden(k.oid, row[1], format == 1, false); ok {
				found[canonical] = way
			} else {
				t.Errorf("%s: the hidden value %q has no text in %s", k.name, row[1], way)
			}
			// Texts that depend on settings may be left out, but must not be misread.
			if k.oid == keys.Float4 || k.oid == keys.Float8 {
				continue
			}
			if canonical, ok := keys.Canonical(k.oid, row[0], format == 1); ok {
				found[canonical] = way
			} else if format == 1 || i == 0 {
				t.Errorf("%s: the value %q has no text in %s", k.name, row[0], way)
			}
		}
	}
	if len(found) != 1 {
		t.Errorf("%s: row %d has the texts %q", k.name, n, found)
	}
	for canonical := range found {
		return canonical
	}
	return ""
}

// fromSlots reads the values of all rows as the plugins report them.
func fromSlots(t *testing.T, connection *pgconn.PgConn, want []string) {
	t.Helper()
	for name, value := range keys.SlotSettings() {
		run(t, connection, fmt.Sprintf("SET %s = '%s'", name, value))
	}
	types := map[string]uint32{}
	for _, k := range kinds {
		types[table(k)] = k.oid
	}
	for plugin, read := range map[string]func(line string) (table, value string, ok bool){
		"wal2json": fromWal2json, "test_decoding": fromTestDecoding,
	} {
		options := ""
		if plugin == "wal2json" {
			options = ", 'format-version', '2'"
		}
		n := 0
		for _, row := range run(t, connection, fmt.Sprintf(
			"SELECT data FROM pg_logical_slot_get_changes('%s', NULL, NULL%s)", plugin, options))[0].Rows {
			table, value, ok := read(string(row[0]))
			if !ok {
				continue
			}
			canonical, ok := keys.FromSlot(types[table], value)
			special := want[n] == "NaN" || strings.HasSuffix(want[n], "Infinity")
			if (!ok || canonical != want[n]) && !(plugin == "wal2json" && special) { // JSON has no such numbers
				t.Errorf("%s: %s gives %q, which has the text %q (%v), not %q", table, plugin, value, canonical, ok, want[n])
			}
			n++
		}
		if n != len(want) {
			t.Errorf("%s gave %d values of %d", plugin, n, len(want))
		}
		run(t, connection, fmt.Sprintf("SELECT pg_drop_replication_slot('%s')", plugin))
	}
}

func fromWal2json(line string) (string, string, bool) {
	var change struct {
		Action, Table string
		Columns       []struct {
			Name  string
			Value any
		}
	}
	decoder := json.NewDecoder(strings.NewReader(line))
	decoder.UseNumber()
	if decoder.Decode(&change) != nil || change.Action != "I" || !strings.HasPrefix(change.Table, "of_") {
		return "", "", false
	}
	return change.Table, fmt.Sprint(change.Columns[1].Value), true
}

// fromTestDecoding reads: table public.of_text: INSERT: n[integer]:1 v[text]:'x'
func fromTestDecoding(line string) (string, string, bool) {
	rest := strings.TrimPrefix(line, "table public.")
	table, rest, ok := strings.Cut(rest, ": INSERT: ")
	if rest == line || !ok || !strings.HasPrefix(table, "of_") {
		return "", "", false
	}
	_, rest, _ = strings.Cut(rest, " v[")
	_, value, _ := strings.Cut(rest, "]:")
	if strings.HasPrefix(value, "'") {
		value = strings.ReplaceAll(value[1:len(value)-1], "''", "'")
	}
	return table, value, true
}

func TestRefused(t *testing.T) {
	for _, c := range []struct {
		oid    uint32
		value  string
		binary bool
	}{
		{keys.Int4, "", false}, {keys.Int4, "x", false}, {keys.Int4, "1.5", false}, {keys.Int4, "99999999999999999999", false},
		{keys.Int4, "1_000", false}, {keys.Int4, "0x10", false}, {keys.Int4, "123", true}, {keys.Int2, "1a", false},
		{keys.Numeric, "", false}, {keys.Numeric, ".", false}, {keys.Numeric, "1e", false}, {keys.Numeric, "1e999999", false},
		{keys.Numeric, "1 2", false}, {keys.Numeric, "\x00\x01\x00\x00\x00\x00\x00\x00", true}, {keys.Numeric, "", true},
		{keys.UUID, "x", false}, {keys.UUID, "a0eebc99-9c0b-4ef8-bb6d-6bb9bd380a1", false}, {keys.UUID, "123", true},
		{keys.Date, "01-02-2003", false}, {keys.Date, "2003-13-01", false}, {keys.Date, "2003-02-29", false},
		{keys.Date, "today", false}, {keys.Date, "1/2/2003", false}, {keys.Date, "2003-02-01x", false},
		{keys.Timestamptz, "2003-02-01 00:00", false}, {keys.Timestamptz, "2003-02-01 00:00 CET", false},
		{keys.Timestamptz, "2003-02-01", false}, {keys.Timestamp, "2003-02-01 00:00:00.1234567", false},
		{keys.Time, "25:00", false}, {keys.Time, "12", false}, {keys.Timestamp, "x", true}, {keys.Bytea, `\x0`, false},
		{keys.Bytea, `\9`, false}, {keys.Bool, "\x02", true}, {keys.Inet, "x", false}, {keys.Float8, "0x1p3", false},
		{114, "{}", false}, {1186, "1 day", false}, {keys.Varbit, "\x00\x00\x00\x09\x00", true}, {keys.Macaddr, "x", false},
	} {
		if canonical, ok := keys.Canonical(c.oid, []byte(c.value), c.binary); ok {
			t.Errorf("%q of type %d has the text %q", c.value, c.oid, canonical)
		}
	}
}

func TestShow(t *testing.T) {
	for _, c := range []struct {
		oid        uint32
		text, want string
	}{
		{keys.Date, "2020-02-29", "2020-02-29"}, {keys.Date, "0044-03-15 BC", "0044-03-15 BC"}, {keys.Date, "infinity", "infinity"},
		{keys.Date, "1600-02-29", "1600-02-29"}, {keys.Date, "5874897-12-31", "5874897-12-31"},
		{keys.Timestamptz, "2020-02-29 12:34:56.78+02", "2020-02-29 10:34:56.78+00"},
		{keys.Timestamp, "1999-12-31 23:59:59.999999", "1999-12-31 23:59:59.999999"},
		{keys.Timestamp, "0001-01-01 00:00:00 BC", "0001-01-01 00:00:00 BC"}, {keys.Time, "24:00:00", "24:00:00"},
		{keys.Time, "12:34:56", "12:34:56"}, {keys.Bytea, `\x00ff`, `\x00ff`}, {keys.Text, "a\xff", "a\uFFFD"}, {keys.Int4, "5", "5"},
	} {
		canonical, ok := keys.Canonical(c.oid, []byte(c.text), false)
		if got := keys.Show(c.oid, canonical); !ok || got != c.want {
			t.Errorf("%q is shown as %q, not %q", c.text, got, c.want)
		}
	}
}
