package plan

import (
	"context"
	"errors"
	"fmt"
	"sort"
	"strings"
	"testing"
	"time"

	"github.com/jackc/pgconn"

	"zanteyard/catalog"
	"zanteyard/keys"
	"zanteyard/record"
)

func TestShapes(t *testing.T) {
	connection := connect(t, "shapes", schema)
	known := load(t, connection)
	cache, certain := NewCache(known), NewCache(load(t, connection, catalog.OnlyCertainLists))
	for _, s := range shapes {
		t.Run(s.sql, func(t *testing.T) {
			p, tokens := cache.Plan(s.sql)
			if got := seen(known, p); got != s.seen {
				t.Errorf("seen %q, not %q", got, s.seen)
			}
			if got := reasons(p); got != strings.Join(s.unseen, "; ") {
				t.Errorf("unseen %q, not %q", got, s.unseen)
			}
			fails := strings.Contains(s.flags, "error")
			if got, want := flags(p), strings.TrimSuffix(strings.TrimSuffix(s.flags, "error"), ", "); got != want {
				t.Errorf("flags %q, not %q", got, want)
			}
			if other, _ := certain.Plan(s.sql); p.Counts || p.Looks {
				if is := (other.Counts || other.Looks) && !other.looksUp; is == (p.Ordered || s.optional) || is && other.added() != p.added() {
					t.Errorf("without lists where order shows it has %q, not %q", other.added(), p.added())
				}
			}
			if !p.adds() {
				return
			}
			untouched(t, s.sql, p, tokens)
			if !fails {
				tried(t, connection, p, true)
			}
			for _, format := range []int16{0, 1} {
				failed := compare(t, connection, known, s.sql, p, tokens, format, true)
				if failed != fails {
					t.Errorf("it fails: %v", failed)
				}
			}
		})
	}
}

// seen returns the names of the tables of a plan's groups.
func seen(known *catalog.Catalog, p *Plan) string {
	var all []string
	for _, source := range p.Sources {
		table, _ := known.Table(uint32(source.Relation))
		name := table.Name
		if source.Nullable {
			name += "?"
		}
		all = append(all, name)
	}
	return strings.Join(all, ",")
}

func reasons(p *Plan) string {
	var all []string
	for _, unseen := range p.Unseen {
		all = append(all, unseen.Reason)
	}
	return strings.Join(all, "; ")
}

func flags(p *Plan) string {
	var all []string
	for _, flag := range []struct {
		set  bool
		name string
	}{
		{p.AddsReturning, "returning"}, {p.TellsNumber, "number"}, {p.TellsVersion, "version"},
		{p.MayWriteUnseen, "unseen writes"}, {p.ChangesNames, "names"}, {p.Asked, "asked"},
		{p.Counts, "counts"}, {p.Looks, "looks"}, {p.Copied, "copied"}, {p.Ordered && !p.Copied, "ordered"},
	} {
		if flag.set {
			all = append(all, flag.name)
		}
	}
	return strings.Join(all, ", ")
}

// untouched checks that only the insertions change the text.
func untouched(t *testing.T, text string, p *Plan, tokens Tokens) {
	t.Helper()
	rewritten, inserted := p.Rewrite(text, tokens)
	rest := rewritten
	for i := len(inserted) - 1; i >= 0; i-- {
		rest = rest[:inserted[i].At] + rest[inserted[i].At+inserted[i].Length:]
	}
	if len(inserted) == 0 || rest != text {
		t.Errorf("%q became %q: %v", text, rewritten, inserted)
	}
}

// tried checks whether a plan's trial succeeds on a connection.
func tried(t *testing.T, connection *pgconn.PgConn, p *Plan, want bool) {
	t.Helper()
	ctx := context.Background()
	trial := p.Trial()
	ok, why := true, error(nil)
	for _, statement := range trial.Statements {
		if _, err := connection.Prepare(ctx, "", statement, nil); err != nil {
			ok, why = false, err
		}
	}
	if trial.Privileges != "" {
		results, err := connection.Exec(ctx, trial.Privileges).ReadAll()
		if err != nil {
			t.Fatalf("%s: %v", trial.Privileges, err)
		}
		ok = ok && string(results[0].Rows[0][0]) == "t"
	}
	if ok != want {
		t.Errorf("the trial %q: %v, not %v: %v", trial, ok, want, why)
	}
}

// answer is what a statement returned.
type answer struct {
	fields []string
	types  []uint32
	rows   [][][]byte
	tag    string
	err    string
	at     int // the error's position
}

func ask(connection *pgconn.PgConn, sql string, format int16) answer {
	var parameters [][]byte
	if strings.Contains(sql, "$1") {
		parameters = [][]byte{[]byte("3")}
	}
	result := connection.ExecParams(context.Background(), sql, parameters, nil, nil, []int16{format})
	var a answer
	for result.NextRow() {
		row := make([][]byte, len(result.Values()))
		for i, value := range result.Values() {
			if value != nil {
				row[i] = append([]byte{}, value...)
			}
		}
		a.rows = append(a.rows, row)
	}
	for _, field := range result.FieldDescriptions() {
		a.types = append(a.types, field.DataTypeOID)
		a.fields = append(a.fields, fmt.Sprintf("%s %d %d", field.Name, field.DataTypeOID, field.TypeModifier))
	}
	tag, err := result.Close()
	a.tag = tag.String()
	var failed *pgconn.PgError
	if errors.As(err, &failed) {
		a.err, a.at = failed.Code+" "+failed.Message, int(failed.Position)
	} else if err != nil {
		a.err = err.Error()
	}
	return a
}

// compare runs a statement unchanged and rewritten, from the same state, and compares the results. It reports whether
// both failed.
func compare(t *testing.T, connection *pgconn.PgConn, known *catalog.Catalog, sql string, p *Plan, tokens Tokens,
	format int16, inOrder bool) bool {
	t.Helper()
	rewritten, inserted := p.Rewrite(sql, tokens)
	begin := "BEGIN ISOLATION LEVEL REPEATABLE READ; SELECT setseed(0.5), pg_catalog.setval(oid, 1000) FROM pg_class " +
		"WHERE relkind = 'S'"
	run(t, connection, begin)
	plain := ask(connection, sql, format)
	run(t, connection, "ROLLBACK; "+begin)
	versions := stored(t, connection, known, p)
	began := time.Now()
	hidden := ask(connection, rewritten, format)
	took := time.Since(began)
	isSlow := took >= listedFor || p.Copied && took >= copiedFor
	number, end := "", "ROLLBACK"
	if hidden.err == "" {
		end = "SELECT coalesce(pg_current_xact_id_if_assigned()::text, ''); ROLLBACK"
	}
	if results := run(t, connection, end); hidden.err == "" {
		number = string(results[0].Rows[0][0])
	}
	if plain.err != hidden.err || plain.at != MoveBack(rewritten, inserted, hidden.at) {
		t.Fatalf("%q fails with %q at %d, %q with %q at %d", sql, plain.err, plain.at, rewritten, hidden.err, hidden.at)
	}
	if plain.err != "" {
		return true
	}
	width := len(plain.fields)
	if len(hidden.fields) != width+p.Hidden() || fmt.Sprint(hidden.fields[:width]) != fmt.Sprint(plain.fields) {
		t.Fatalf("%q has fields %q, %q has %q", sql, plain.fields, rewritten, hidden.fields)
	}
	if fmt.Sprint(hidden.types[width:]) != fmt.Sprint(p.HiddenTypes()) {
		t.Fatalf("%q has hidden types %v, not %v", rewritten, hidden.types[width:], p.HiddenTypes())
	}
	if plain.tag != hidden.tag || !p.AddsReturning && len(plain.rows) != len(hidden.rows) {
		t.Fatalf("%q gives %s and %d rows, %q %s and %d", sql, plain.tag, len(plain.rows), rewritten, hidden.tag,
			len(hidden.rows))
	}
	if one, other := visible(plain.rows, width, inOrder), visible(hidden.rows, width, inOrder); !p.AddsReturning && one != other {
		t.Fatalf("%q gives %s, %q gives %s", sql, one, rewritten, other)
	}
	if p.Lists() && isSlow { // its lists may lack rows
		return false
	}
	for i, row := range hidden.rows {
		if p.Copied && i > 0 {
			if row[width] != nil {
				t.Errorf("row %d of %q has a list, too", i, rewritten)
			}
			continue
		}
		told(t, p, row[width:], format == 1, number, versions)
	}
	return false
}

// visible writes the columns before the hidden ones, in the order of the rows if inOrder.
func visible(rows [][][]byte, width int, inOrder bool) string {
	all := make([]string, len(rows))
	for i, row := range rows {
		all[i] = fmt.Sprintf("%q", row[:width])
	}
	if !inOrder {
		sort.Strings(all)
	}
	return strings.Join(all, "\n")
}

// told compares what a row's hidden columns report with what is stored.
func told(t *testing.T, p *Plan, hidden [][]byte, binary bool, number string, versions map[string]uint32) {
	t.Helper()
	reads, err := p.Decode(hidden, binary)
	if err != nil {
		t.Fatal(err)
	}
	nullable := 0
	for _, source := range p.Sources {
		if source.Nullable {
			nullable++
		}
	}
	if rows, ok := p.Aggregated(hidden, binary); p.Copied && ok && rows > MostListed {
		return
	} else if ok != p.Lists() {
		t.Errorf("it counts no rows: %q", hidden)
	} else if ok {
		want := uint64(0)
		if p.Copied {
			parts, _ := p.copiedIn(hidden[0], binary)
			for _, part := range parts {
				want += part.rows * uint64(len(part.lists))
			}
		}
		for _, source := range p.Sources {
			if p.Copied {
				break
			} else if source.Listed {
				want += rows
			} else {
				want++
			}
		}
		if !p.Complete(hidden, binary) || nullable == 0 && uint64(len(reads)) != want {
			t.Errorf("of %d rows of %d tables %d are listed", rows, len(p.Sources), len(reads))
		}
	} else if len(reads) > len(p.Sources) || len(reads) < len(p.Sources)-nullable {
		t.Errorf("%d reads of %d tables", len(reads), len(p.Sources))
	}
	for _, read := range reads {
		version, ok := versions[name(read.Relation, read.Key)]
		if !ok || version != read.Version {
			t.Errorf("read %+v, but version %d (%v) is stored", read, version, ok)
		}
	}
	if p.TellsNumber {
		if got, ok := p.Number(hidden, binary); !ok || fmt.Sprint(got) != number {
			t.Errorf("number %d, not %s", got, number)
		}
	}
	if p.TellsVersion {
		if got, ok := p.Version(hidden, binary); !ok || fmt.Sprint(got) != number {
			t.Errorf("version %d, not %s", got, number)
		}
	}
}

func name(relation record.Relation, key record.Key) string {
	return fmt.Sprintf("%d %q", relation, key)
}

// stored reads the versions of all rows of a plan's tables.
func stored(t *testing.T, connection *pgconn.PgConn, known *catalog.Catalog, p *Plan) map[string]uint32 {
	t.Helper()
	versions := map[string]uint32{}
	for _, source := range p.Sources {
		table, _ := known.Table(uint32(source.Relation))
		var columns []string
		for _, column := range table.Key {
			columns = append(columns, quote(column.Name))
		}
		sql := fmt.Sprintf("SELECT tableoid, xmin, %s FROM %s.%s", strings.Join(columns, ", "), quote(table.Schema),
			quote(table.Name))
		for _, row := range connection.ExecParams(context.Background(), sql, nil, nil, nil, []int16{1}).Read().Rows {
			relation, _ := number32(row[0], true)
			version, _ := number32(row[1], true)
			var key []string
			for i, column := range table.Key {
				canonical, ok := keys.Canonical(column.Type, row[2+i], true)
				if !ok {
					t.Fatalf("%s: value %q of %s has no canonical text", sql, row[2+i], column.Name)
				}
				key = append(key, canonical)
			}
			versions[name(record.Relation(relation), record.Key(keys.Join(key...)))] = version
		}
	}
	return versions
}
