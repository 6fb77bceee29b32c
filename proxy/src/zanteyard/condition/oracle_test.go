package condition_test

import (
	"context"
	"encoding/json"
	"fmt"
	"math/rand"
	"os"
	"regexp"
	"sort"
	"strconv"
	"strings"
	"testing"

	"github.com/jackc/pgconn"

	"zanteyard/catalog"
	"zanteyard/condition"
	"zanteyard/record"
)

// oracle compares conditions with what the server says.
type oracle struct {
	t      *testing.T
	r      *rand.Rand
	conn   *pgconn.PgConn
	all    *catalog.Catalog
	table  *catalog.Table
	kinds  []*kind
	by     map[string]*kind
	rows   []*variant
	index  *condition.Index
	made   []*condition.Condition
	counts map[string]int // by what was compared or refused

	// Of the condition that is being made:
	with condition.Arguments
	tags map[string]bool
}

// variant is a row as each of the plugins writes it, by the order of ids.
type variant struct{ wal2json, testDecoding *condition.Row }

func (o *oracle) pick(from []string) string { return from[o.r.Intn(len(from))] }

func (o *oracle) one() *kind { return o.kinds[o.r.Intn(len(o.kinds))] }

func literal(text string) string { return "'" + strings.ReplaceAll(text, "'", "''") + "'" }

// TestAsTheServerDoes: random rows and conditions have the truth value that the server gives them.
// ZANTEYARD_CONDITIONS is how many evaluations are compared.
func TestAsTheServerDoes(t *testing.T) {
	want := 20000
	if text := os.Getenv("ZANTEYARD_CONDITIONS"); text != "" {
		var err error
		if want, err = strconv.Atoi(text); err != nil {
			t.Fatal(err)
		}
	}
	seed := int64(1)
	if text := os.Getenv("ZANTEYARD_SEED"); text != "" {
		seed, _ = strconv.ParseInt(text, 10, 64)
	}
	conn, all := open(t, "oracle", oracleSchema)
	o := &oracle{t: t, r: rand.New(rand.NewSource(seed)), conn: conn, all: all, kinds: kinds(), by: map[string]*kind{}, counts: map[string]int{}}
	o.table, _ = all.Find("", "r")
	o.index = condition.NewIndex(condition.Limits{Conditions: 1000, Bytes: 1 << 30, Scanned: 1000}, nil)
	o.prepare()
	for compared := 0; compared < want && !t.Failed(); {
		o.fill(25)
		for i := 0; i < 150 && compared < want; i++ {
			compared += o.compare()
		}
		o.search()
	}
	o.summary()
}

// prepare asks the server for the binary forms of all values.
func (o *oracle) prepare() {
	rows(o.t, o.conn, "SET DateStyle = 'ISO, YMD'; SET TimeZone = 'UTC'; SET IntervalStyle = postgres")
	for _, k := range o.kinds {
		if k.typ == "mood" {
			number, err := strconv.ParseUint(rows(o.t, o.conn, "SELECT 'mood'::regtype::oid")[0][0], 10, 32)
			if k.oid = uint32(number); err != nil {
				o.t.Fatal(err)
			}
		}
	}
	for _, k := range o.kinds {
		o.by[k.column] = k
		k.binary = map[string][]byte{}
		for _, text := range k.values {
			k.binary[text] = o.binary(literal(text) + "::" + k.typ)
		}
	}
}

// binary returns the binary form of an expression's value; nil if the server refuses it.
func (o *oracle) binary(expression string) []byte {
	its := o.conn.ExecParams(context.Background(), "SELECT "+expression, nil, nil, nil, []int16{1}).Read()
	if its.Err != nil || len(its.Rows) != 1 {
		return nil
	}
	return append([]byte(nil), its.Rows[0][0]...)
}

// fill replaces the table's rows, and reads them from the slots of both plugins.
func (o *oracle) fill(count int) {
	rows(o.t, o.conn, "TRUNCATE r")
	rows(o.t, o.conn, "SELECT pg_create_logical_replication_slot('a', 'test_decoding')")
	hasOther := true
	if _, err := o.conn.Exec(context.Background(), "SELECT pg_create_logical_replication_slot('b', 'wal2json')").ReadAll(); err != nil {
		o.t.Logf("without wal2json: %v", err)
		hasOther = false
	}
	for id := 0; id < count; id++ {
		names, values := []string{"id"}, []string{strconv.Itoa(id)}
		for _, k := range o.kinds {
			if o.r.Intn(6) == 0 {
				continue
			}
			names = append(names, k.column)
			text := o.pick(k.values)
			for k.column == "n2" && text == "Infinity" {
				text = o.pick(k.values)
			}
			values = append(values, literal(text)+"::"+k.typ)
		}
		rows(o.t, o.conn, "INSERT INTO r ("+strings.Join(names, ", ")+") VALUES ("+strings.Join(values, ", ")+") ON CONFLICT DO NOTHING")
	}
	o.rows = make([]*variant, count)
	for i := range o.rows {
		o.rows[i] = &variant{}
	}
	for _, row := range rows(o.t, o.conn, "SELECT data FROM pg_logical_slot_get_changes('a', NULL, NULL)") {
		if strings.HasPrefix(row[0], "table public.r: INSERT:") {
			id, its := o.fromTestDecoding(row[0][len("table public.r: INSERT:"):])
			o.rows[id].testDecoding = its
		}
	}
	if hasOther {
		for _, row := range rows(o.t, o.conn, "SELECT data FROM pg_logical_slot_get_changes('b', NULL, NULL, 'format-version', '2')") {
			if strings.Contains(row[0], `"action":"I"`) {
				id, its := o.fromWal2json(row[0])
				o.rows[id].wal2json = its
			}
		}
		rows(o.t, o.conn, "SELECT pg_drop_replication_slot('b')")
	}
	rows(o.t, o.conn, "SELECT pg_drop_replication_slot('a')")
	for id, its := range o.rows {
		if its.testDecoding == nil || hasOther && its.wal2json == nil {
			o.t.Fatalf("row %d isn't in the slot", id)
		}
	}
}

func (o *oracle) row(values map[string]condition.Value) *condition.Row {
	all := make([]condition.Value, len(o.table.Columns))
	for name, value := range values {
		column, ok := o.table.Column(name)
		if !ok {
			o.t.Fatal(name)
		}
		all[column.Number-1] = value
	}
	return condition.NewRow(all)
}

func (o *oracle) value(name, text string, null, wal2json bool) condition.Value {
	column, _ := o.table.Column(name)
	return condition.ValueOf(&column, text, null, wal2json)
}

func (o *oracle) fromWal2json(line string) (int, *condition.Row) {
	var message struct {
		Columns []struct {
			Name  string
			Value any
		}
	}
	reader := json.NewDecoder(strings.NewReader(line))
	reader.UseNumber()
	if err := reader.Decode(&message); err != nil {
		o.t.Fatal(err)
	}
	values, id := map[string]condition.Value{}, 0
	for _, one := range message.Columns {
		values[one.Name] = o.value(one.Name, fmt.Sprint(one.Value), one.Value == nil, true)
		if one.Name == "id" {
			id, _ = strconv.Atoi(fmt.Sprint(one.Value))
		}
	}
	return id, o.row(values)
}

// fromTestDecoding reads ` id[integer]:1 v[text]:'x'`.
func (o *oracle) fromTestDecoding(rest string) (int, *condition.Row) {
	values, id := map[string]condition.Value{}, 0
	for rest != "" {
		name, after, _ := strings.Cut(rest[1:], "[")
		_, rest, _ = strings.Cut(after, "]:")
		text := ""
		null := false
		if rest[0] == '\'' {
			at := 1
			for ; ; at++ {
				if rest[at] != '\'' {
					text += rest[at : at+1]
				} else if at+1 < len(rest) && rest[at+1] == '\'' {
					text += "'"
					at++
				} else {
					break
				}
			}
			rest = rest[at+1:]
		} else {
			at := strings.IndexByte(rest, ' ')
			if at < 0 {
				at = len(rest)
			}
			text, rest = rest[:at], rest[at:]
			null = text == "null"
		}
		if name == "id" {
			id, _ = strconv.Atoi(text)
		}
		values[name] = o.value(name, text, null, false)
	}
	return id, o.row(values)
}

// numbers finds the columns that wal2json writes as null if they are NaN or an infinity.
var numbers = regexp.MustCompile(`\bn2?\b`)

// compare makes a condition, and compares its truth values for all rows. It returns how many there were.
func (o *oracle) compare() int {
	o.with, o.tags = condition.Arguments{}, map[string]bool{}
	text := o.clause(o.r.Intn(3))
	formats := o.with.Formats
	its := o.conn.ExecParams(context.Background(), "SELECT id, ("+text+") FROM r ORDER BY id", o.with.Parameters, o.with.Types, formats, nil).Read()
	if its.Err != nil {
		o.counts["the server refuses it"]++
		return 0
	}
	form, err := form(o.t, o.all, "SELECT * FROM r WHERE "+text)
	var made *condition.Condition
	if err == nil {
		made, err = form.Bind(o.with)
	}
	if err != nil {
		o.counts["refused: "+err.Error()]++
		o.counts["refused"]++
		if os.Getenv("ZANTEYARD_SHOW") != "" {
			o.t.Logf("%v: %s %q %v", err, text, o.with.Parameters, o.with.Types)
		}
		return 0
	}
	for tag := range o.tags {
		o.counts["has "+tag]++
	}
	if _, added := o.index.Add(made); added {
		o.made = append(o.made, made)
	}
	o.counts["conditions"]++
	compared := 0
	for i, row := range its.Rows {
		want := condition.Null
		if row[1] != nil {
			want = map[string]condition.Truth{"t": condition.Yes, "f": condition.No}[string(row[1])]
		}
		o.counts["is "+want.String()]++
		for plugin, version := range map[string]*condition.Row{"test_decoding": o.rows[i].testDecoding, "wal2json": o.rows[i].wal2json} {
			if version == nil {
				continue
			}
			compared++
			got := made.Holds(version)
			if form.Partly != nil { // where the rest of it holds, all of it does
				if o.counts["partly"]++; got == condition.Yes && want != condition.Yes {
					o.t.Errorf("%s of row %d is %v, but %v, a part of it, holds", text, i, want, made)
				}
				continue
			}
			if got == condition.Unknown && plugin == "wal2json" && numbers.MatchString(text) {
				o.counts["unknown: NaN or an infinity"]++
				continue
			}
			if got != want && !(got == condition.No && want == condition.Null && plugin == "wal2json" && numbers.MatchString(text)) {
				o.t.Errorf("%s of row %d by %s is %v, not %v: parameters %q %v %v, taken for %v", text, i, plugin, got, want,
					o.with.Parameters, o.with.Formats, o.with.Types, made)
			}
		}
	}
	return compared
}

// search finds the conditions that were made for these rows by an index: all that may hold, each once.
func (o *oracle) search() {
	for i, version := range o.rows {
		row, other := version.testDecoding, o.rows[(i+1)%len(o.rows)].testDecoding
		found := map[*condition.Condition]int{}
		o.index.Candidates(record.Relation(o.table.OID), func(its *condition.Condition) { found[its]++ }, row, other)
		for _, its := range o.made {
			holds := its.Holds(row) == condition.Yes || its.Holds(other) == condition.Yes
			if found[its] > 1 || holds && found[its] == 0 {
				o.t.Errorf("%v is found %d times for row %d", its, found[its], i)
			}
			if !holds && found[its] == 0 {
				o.counts["not tried by the index"]++
			}
		}
	}
	o.file()
	for _, its := range o.made {
		o.index.Drop(its.Key())
	}
	if o.index.Len() != 0 || o.index.Bytes() != 0 || o.index.Dropped() != 0 {
		o.t.Errorf("%d conditions of %d bytes are left, %d lost", o.index.Len(), o.index.Bytes(), o.index.Dropped())
	}
	o.made = nil
}

func (o *oracle) summary() {
	var all []string
	for name, n := range o.counts {
		all = append(all, fmt.Sprintf("%s: %d", name, n))
	}
	sort.Strings(all)
	o.t.Log(strings.Join(all, "\n"))
	for _, name := range []string{"has a parameter in binary", "has a parameter as text", "has IN", "has ANY", "has LIKE", "has a range",
		"has a column of its own", "has BETWEEN", "has IS NULL", "has DISTINCT", "has IS TRUE", "not tried by the index", "not tried by rows", "has NULL", "is yes", "is no", "is null"} {
		if o.counts[name] < 5 {
			o.t.Errorf("%s: only %d", name, o.counts[name])
		}
	}
	if o.counts["refused"] > o.counts["conditions"]/2 {
		o.t.Error("most conditions are refused")
	}
}

// clause writes a random condition.
func (o *oracle) clause(depth int) string {
	if depth > 0 {
		switch o.r.Intn(6) {
		case 0, 1:
			return "(" + o.clause(depth-1) + " AND " + o.clause(depth-1) + ")"
		case 2, 3:
			return "(" + o.clause(depth-1) + " OR " + o.clause(depth-1) + ")"
		case 4:
			return "NOT (" + o.clause(depth-1) + ")"
		default:
			o.tags["IS TRUE"] = true
			return "(" + o.clause(depth-1) + ") IS " + o.pick(list("TRUE|FALSE|UNKNOWN|NOT TRUE|NOT FALSE|NOT UNKNOWN"))
		}
	}
	k := o.one()
	if k.element != "" && o.r.Intn(5) > 0 {
		return o.rangeTest(k)
	}
	switch o.r.Intn(12) {
	case 0:
		o.tags["IS NULL"] = true
		return o.pick([]string{k.column, "r." + k.column, "j"}) + o.pick(list(" IS NULL| IS NOT NULL"))
	case 1:
		o.tags["DISTINCT"] = true
		return k.column + o.pick(list(" IS DISTINCT FROM | IS NOT DISTINCT FROM ")) + o.operand(k)
	case 2, 3:
		o.tags["IN"] = true
		return k.column + o.pick(list(" IN (| NOT IN (")) + o.several(k, 1) + ")"
	case 4:
		return k.column + " " + o.operator(k) + o.pick(list(" ANY (| ALL (")) + o.array(k) + ")"
	case 5:
		if k.ordered {
			o.tags["BETWEEN"] = true
			return k.column + o.pick(list(" BETWEEN | NOT BETWEEN | BETWEEN SYMMETRIC | NOT BETWEEN SYMMETRIC ")) + o.operand(k) + " AND " + o.operand(k)
		}
	case 6:
		if k.typ != "text" && k.typ != "varchar" && k.typ != "bpchar" {
			k = o.by[o.pick(list("t|v|td|c|cd|dt"))]
		}
		o.tags["LIKE"] = true
		pattern := ""
		for n := o.r.Intn(4); n >= 0; n-- {
			pattern += o.pick([]string{"a", "b", "%", "_", "é", `\%`, `\_`, `\\`, " ", "ab", "A"})
		}
		return k.column + o.pick(list(" LIKE | NOT LIKE | ~~ ")) + literal(pattern)
	case 7:
		o.tags["a column of its own"] = true
		return o.pick([]string{"b", "r.b", "NOT b"})
	case 8:
		return o.operand(k) + " " + o.operator(k) + " " + k.column
	}
	return k.column + " " + o.operator(k) + " " + o.operand(k)
}

func (o *oracle) operator(k *kind) string {
	if k.ordered {
		return o.pick(list("=|=|<>|!=|<|<=|>|>=|OPERATOR(pg_catalog.=)"))
	}
	return o.pick(list("=|<>|="))
}

func (o *oracle) rangeTest(k *kind) string {
	o.tags["a range"] = true
	element := o.by[k.element]
	switch o.r.Intn(6) {
	case 0:
		o.tags["a range's value"] = true
		return k.column + " @> " + o.typed(element)
	case 1:
		o.tags["a range's value"] = true
		return o.typed(element) + " <@ " + k.column
	case 2:
		o.tags["a value in a range"] = true
		return element.column + " <@ " + o.typed(k)
	case 3:
		ends := []string{o.end(element), o.end(element)}
		made := k.typ + "(" + strings.Join(ends, ", ")
		if o.r.Intn(2) == 0 {
			made += ", " + literal(o.pick(list("[)|[]|(]|()")))
		}
		return k.column + o.pick(list(" && | @> | <@ ")) + made + ")"
	}
	if o.r.Intn(3) == 0 {
		return o.typed(k) + o.pick(list(" && | @> | <@ ")) + k.column
	}
	return k.column + o.pick(list(" && | @> | <@ ")) + o.operand(k)
}

func (o *oracle) end(k *kind) string {
	if o.r.Intn(8) == 0 {
		return "NULL"
	}
	return o.typed(k)
}

// typed writes a value whose type is in the text.
func (o *oracle) typed(k *kind) string {
	text := o.pick(k.values)
	if o.r.Intn(3) == 0 {
		return o.parameter(k, text, true) + "::" + k.typ
	}
	return literal(text) + "::" + k.typ
}

// several writes a list of values, perhaps none or NULL.
func (o *oracle) several(k *kind, least int) string {
	var all []string
	plain := o.r.Intn(2) == 0
	for n := least + o.r.Intn(4); n > 0; n-- {
		if plain {
			all = append(all, literal(o.pick(k.values)))
		} else {
			all = append(all, o.operand(k))
		}
	}
	return strings.Join(all, ", ")
}

// array writes an array of values of the kind.
func (o *oracle) array(k *kind) string {
	o.tags["ANY"] = true
	var texts []string
	for n := o.r.Intn(4); n > 0; n-- {
		texts = append(texts, o.pick(k.values))
	}
	quotedTexts := make([]string, len(texts))
	elements := make([]string, len(texts))
	for i, text := range texts {
		quotedTexts[i] = literal(text)
		elements[i] = `"` + strings.ReplaceAll(strings.ReplaceAll(text, `\`, `\\`), `"`, `\"`) + `"`
	}
	if o.r.Intn(5) == 0 {
		quotedTexts, elements = append(quotedTexts, "NULL"), append(elements, "NULL")
	}
	whole := "ARRAY[" + strings.Join(quotedTexts, ", ") + "]::" + k.typ + "[]"
	text := "{" + strings.Join(elements, o.pick([]string{",", " , "})) + "}"
	switch o.r.Intn(5) {
	case 0:
		return whole
	case 1:
		return literal(text) + o.pick([]string{"", "::" + k.typ + "[]"})
	case 2:
		if strings.HasPrefix(k.typ, "int") || k.typ == "text" || k.typ == "bpchar" {
			return "ARRAY[" + strings.Join(quotedTexts, ", ") + "]"
		}
	case 3:
		if raw := o.binary(whole); raw != nil && k.array != 0 {
			return o.bound(raw, 1, k.array*uint32(o.r.Intn(2)))
		}
	}
	return o.bound([]byte(text), 0, k.array*uint32(o.r.Intn(2)))
}

// bound adds a parameter.
func (o *oracle) bound(value []byte, format int16, typ uint32) string {
	if value != nil && format == 1 {
		o.tags["a parameter in binary"] = true
	} else if value != nil {
		o.tags["a parameter as text"] = true
	}
	o.with.Parameters = append(o.with.Parameters, value)
	o.with.Formats = append(o.with.Formats, format)
	o.with.Types = append(o.with.Types, typ)
	return "$" + strconv.Itoa(len(o.with.Parameters))
}

// parameter writes a value as a parameter, in either format, with or without a type.
func (o *oracle) parameter(k *kind, text string, cast bool) string {
	typ := k.oid * uint32(o.r.Intn(2))
	if raw := k.binary[text]; raw != nil && o.r.Intn(2) == 0 {
		return o.bound(raw, 1, typ)
	}
	if cast && o.r.Intn(4) == 0 {
		typ = 25 // its text, as drivers send it that know no more
	}
	return o.bound([]byte(text), 0, typ)
}

// operand writes a value that the kind's column is compared with.
func (o *oracle) operand(k *kind) string {
	text := o.pick(k.values)
	number := k.typ == "int2" || k.typ == "int4" || k.typ == "int8" || k.typ == "numeric"
	switch o.r.Intn(12) {
	case 0:
		o.tags["NULL"] = true
		return o.pick([]string{"NULL", "NULL::" + k.typ})
	case 1:
		o.tags["NULL"] = true
		return o.bound(nil, 0, k.oid*uint32(o.r.Intn(2)))
	case 2, 3:
		return o.parameter(k, text, false)
	case 4:
		return o.parameter(k, text, true) + "::" + k.typ
	case 5:
		return literal(text) + "::" + k.typ
	case 6:
		return "CAST(" + literal(text) + " AS " + k.typ + ")"
	case 7:
		return "E'" + strings.ReplaceAll(strings.ReplaceAll(text, `\`, `\\`), "'", `\'`) + "'"
	case 8:
		if k.typ == "bool" {
			return strings.TrimSuffix(strings.TrimSuffix(text, "rue"), "alse") + "" + map[byte]string{'t': "rue", 'f': "alse"}[text[0]]
		}
		if k.typ == "text" || k.typ == "varchar" {
			other := o.by[o.pick(list("t|v"))]
			return o.parameter(other, text, false)
		}
		fallthrough
	case 9:
		if number {
			other := o.by[o.pick(list("i2|i4|i8|n"))]
			its := o.pick(other.values)
			if strings.ContainsAny(its, "Na") {
				return o.parameter(other, its, false)
			}
			return o.pick([]string{its, its, "(" + its + ")::numeric", "+" + its}[:3])
		}
		return "$q$" + text + "$q$"
	}
	return literal(text)
}
