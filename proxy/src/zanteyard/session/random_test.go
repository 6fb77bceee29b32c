package session

import (
	"context"
	"encoding/binary"
	"flag"
	"fmt"
	"io"
	"math/rand"
	"net"
	"sort"
	"strconv"
	"strings"
	"testing"
	"time"

	"github.com/jackc/pgconn"

	"zanteyard/catalog"
	"zanteyard/definitions"
	"zanteyard/record"
)

var lockstep = flag.Int("lockstep", 400, "transactions of the random programs")

// tagged are tables whose rows have the tag of the transaction that wrote them, so each returned row shows whose
// version it is.
const tagged = `
DROP TABLE IF EXISTS one, two, parts, trail CASCADE;
CREATE TABLE one (id int PRIMARY KEY, tag text NOT NULL, n int);
CREATE TABLE two (a int, b text, tag text NOT NULL, PRIMARY KEY (a, b));
CREATE TABLE parts (id int PRIMARY KEY, tag text NOT NULL) PARTITION BY RANGE (id);
CREATE TABLE parts1 PARTITION OF parts FOR VALUES FROM (0) TO (4);
CREATE TABLE parts2 PARTITION OF parts FOR VALUES FROM (4) TO (100);
CREATE INDEX ON one (id, tag);
INSERT INTO one SELECT i, '-', i FROM generate_series(0, 7) i;
INSERT INTO two SELECT i % 3, 'b' || i, '-' FROM generate_series(0, 8) i;
INSERT INTO parts SELECT i, '-' FROM generate_series(0, 7) i;
CREATE OR REPLACE FUNCTION tag(i int, w text) RETURNS void LANGUAGE plpgsql AS
  'BEGIN BEGIN UPDATE one SET tag = w WHERE id = i; PERFORM 1 / (i % 3); EXCEPTION WHEN division_by_zero THEN
   UPDATE one SET tag = w WHERE id = i + 1; END; END';
`

// seen is a version as a row shows it: its key and the tag of its writer.
type seen struct{ table, key, tag string }

// walker runs transactions of one connection, one statement at a time.
type walker struct {
	conn     *pgconn.PgConn
	sink     *told
	tag      string
	tags     int
	open     bool
	left     int
	level    string
	rows     map[seen]bool // returned by its statements
	prepared map[string]string
	// deleted means that it has run a DELETE, for which the deleted versions are reported.
	deleted bool
}

// forward accepts connections for sessions, until the test ends.
func forward(t *testing.T, change func(*Options)) (dial func() (*pgconn.PgConn, *told)) {
	listener, err := net.Listen("tcp", "127.0.0.1:0")
	if err != nil {
		t.Fatal(err)
	}
	t.Cleanup(func() { listener.Close() })
	return func() (*pgconn.PgConn, *told) {
		sink := &told{}
		go func() {
			near, err := listener.Accept()
			if err != nil {
				return
			}
			far, err := net.Dial("tcp", fmt.Sprintf("127.0.0.1:%d", theCluster.Port))
			if err != nil {
				near.Close()
				return
			}
			head := make([]byte, 4)
			io.ReadFull(near, head)
			rest := make([]byte, binary.BigEndian.Uint32(head)-4)
			io.ReadFull(near, rest)
			far.Write(append(head, rest...))
			options := &Options{Plans: definitions_, Sink: sink, ReadLimit: 10000, Auditing: func() bool { return true },
				Generation: definitions_.Generation, Defined: func() {}, Log: func(s string) { t.Error(s) }, Bound: time.Second}
			if change != nil {
				change(options)
			}
			a, b := taken(near, far)
			New(1, a, b, options).Run()
		}()
		c := config()
		c.Port = uint16(listener.Addr().(*net.TCPAddr).Port)
		conn, err := pgconn.ConnectConfig(context.Background(), c)
		if err != nil {
			t.Fatal(err)
		}
		t.Cleanup(func() { conn.Close(context.Background()) })
		return conn, sink
	}
}

// run runs a statement in one of the protocol's ways, and returns its rows as text, with an error those from before it.
func (w *walker) run(r *rand.Rand, text string, parameters ...string) ([][]string, error) {
	ctx, cancel := context.WithTimeout(context.Background(), 5*time.Minute)
	defer cancel()
	var values [][]byte
	for _, p := range parameters {
		values = append(values, []byte(p))
	}
	var result *pgconn.Result
	switch way := r.Intn(3); {
	case way == 0: // constants in the text
		for i := len(parameters); i > 0; i-- {
			text = strings.ReplaceAll(text, "$"+strconv.Itoa(i), "'"+parameters[i-1]+"'")
		}
		results, err := w.conn.Exec(ctx, text).ReadAll()
		if len(results) == 0 {
			return nil, err
		}
		result = results[len(results)-1]
		if result.Err == nil {
			result.Err = err
		}
	case way == 1:
		result = w.conn.ExecParams(ctx, text, values, nil, nil, nil).Read()
	default:
		name := w.prepared[text]
		if name == "" {
			name = "s" + strconv.Itoa(len(w.prepared))
			if _, err := w.conn.Prepare(ctx, name, text, nil); err != nil {
				return nil, err
			}
			w.prepared[text] = name
		}
		result = w.conn.ExecPrepared(ctx, name, values, nil, nil).Read()
	}
	var rows [][]string
	for _, row := range result.Rows {
		var texts []string
		for _, v := range row {
			texts = append(texts, string(v))
		}
		rows = append(rows, texts)
	}
	return rows, result.Err
}

// shape is a kind of statement.
type shape struct {
	text string
	args func(r *rand.Rand, tag string) []string
	// versions returns the versions that a row of the result shows.
	versions func(row []string) []seen
}

func digit(r *rand.Rand) string { return strconv.Itoa(r.Intn(9)) }

// listed returns the versions in a column that an aggregate made: keys of so many columns, and tags.
func listed(table string, at, columns int) func(row []string) []seen {
	return func(row []string) []seen {
		var all []seen
		for _, one := range strings.Split(row[at], ",") {
			if words := strings.Split(one, " "); len(words) == columns+1 {
				all = append(all, seen{table, strings.Join(words[:columns], "\x00"), words[columns]})
			}
		}
		return all
	}
}

func shapes() []shape {
	key := func(r *rand.Rand, tag string) []string { return []string{digit(r)} }
	tagKey := func(r *rand.Rand, tag string) []string { return []string{tag, digit(r)} }
	one := func(row []string) []seen { return []seen{{"one", row[0], row[1]}} }
	parts := func(row []string) []seen { return []seen{{"parts", row[0], row[1]}} }
	two := func(row []string) []seen { return []seen{{"two", row[0] + "\x00" + row[1], row[2]}} }
	none := func([]string) []seen { return nil }
	both := func(row []string) []seen {
		all := []seen{{"one", row[0], row[1]}}
		if row[2] != "" {
			all = append(all, seen{"two", row[2] + "\x00" + row[3], row[4]})
		}
		return all
	}
	return []shape{
		{"SELECT id, tag FROM one WHERE id = $1", key, one},
		{"SELECT id, tag, n FROM one WHERE id > $1 ORDER BY id", key, one},
		{"SELECT id, tag FROM one WHERE id = $1 FOR UPDATE", key, one},
		{"SELECT id, tag FROM parts WHERE id < $1 ORDER BY id", key, parts},
		{"SELECT a, b, tag FROM two WHERE a = $1", key, two},
		{"SELECT one.id, one.tag, two.a, two.b, two.tag FROM one LEFT JOIN two ON two.a = one.id AND two.b > 'b2' " +
			"WHERE one.n >= $1", key, both},
		{"SELECT x.id, x.tag, y.a, y.b, y.tag FROM one x, two y WHERE x.id = y.a AND x.id < $1", key, both},
		{"SELECT count(*) FROM one WHERE id < $1 AND n < 0", key, none},
		{"SELECT count(*), sum(n), string_agg(id || ' ' || tag, ',') FROM one WHERE id < $1", key, listed("one", 2, 1)},
		{"SELECT n, string_agg(id || ' ' || tag, ',') FROM one WHERE id <> $1 GROUP BY n HAVING count(*) > 1 ORDER BY n", key, listed("one", 1, 1)},
		{"SELECT tag, count(*), string_agg(id || ' ' || tag, ',') FROM parts WHERE id < $1 GROUP BY tag ORDER BY tag", key, listed("parts", 2, 1)},
		{"SELECT string_agg(id || ' ' || tag, ','), max(id) FROM parts WHERE id > $1", key, listed("parts", 0, 1)},
		{"SELECT string_agg(a || ' ' || b || ' ' || tag, ',') FROM two HAVING count(*) > $1", key, listed("two", 0, 2)},
		{"SELECT string_agg(one.id || ' ' || one.tag, ','), count(*), string_agg(two.a || ' ' || two.b || ' ' || two.tag, ',') " +
			"FROM one LEFT JOIN two ON two.a = one.id AND two.b > 'b2' WHERE one.n >= $1", key, func(row []string) []seen {
			return append(listed("one", 0, 1)(row), listed("two", 2, 2)(row)...)
		}},
		{"SELECT tag, id FROM one WHERE id < $1 ORDER BY id LIMIT 4", key, func(row []string) []seen {
			return []seen{{"one", row[1], row[0]}}
		}},
		{"SELECT DISTINCT tag, id FROM one WHERE id < $1", key, func(row []string) []seen {
			return []seen{{"one", row[1], row[0]}}
		}},
		{"SELECT tag, string_agg(id || ' ' || tag, ',') FROM one WHERE id <> $1 GROUP BY tag", key, listed("one", 1, 1)},
		{"SELECT DISTINCT one.id, one.tag, two.a, two.b, two.tag FROM one LEFT JOIN two ON two.a = one.id AND two.b > 'b2' " +
			"WHERE one.n >= $1 AND one.id IN (SELECT id FROM parts)", key, both},
		{"SELECT DISTINCT tag, id FROM one WHERE id < $1 ORDER BY id, tag", key, func(row []string) []seen {
			return []seen{{"one", row[1], row[0]}}
		}},
		{"SELECT DISTINCT one.id, one.tag, two.a, two.b, two.tag FROM one LEFT JOIN two ON two.a = one.id AND two.b > 'b2' " +
			"WHERE one.n >= $1 ORDER BY one.id, one.tag, two.a, two.b, two.tag", key, both},
		{"SELECT s.id, s.tag FROM (SELECT id, n, tag FROM one WHERE n <> $1) AS s ORDER BY s.id", key, one},
		{"SELECT * FROM (SELECT a, b, tag FROM two WHERE a = $1) s", key, two},
		{"SELECT s.id, s.tag, q.a, q.b, q.tag FROM (SELECT * FROM one ORDER BY id LIMIT 4) s " +
			"LEFT JOIN (SELECT r.* FROM (SELECT b, tag, a FROM two) r WHERE r.b > 'b2') q ON q.a = s.id WHERE s.n >= $1", key, both},
		{"WITH w AS (SELECT id, tag FROM parts WHERE id < $1) SELECT * FROM w ORDER BY id", key, parts},
		{"WITH w AS MATERIALIZED (SELECT * FROM one WHERE n >= $1), v AS (SELECT tag, b, a FROM two WHERE b > 'b2') " +
			"SELECT w.id, w.tag, v.a, v.b, v.tag FROM w LEFT JOIN v ON v.a = w.id ORDER BY w.id", key, both},
		{"SELECT id, tag, 'parts' AS t FROM parts WHERE id < $1 UNION ALL SELECT id, tag, 'one' FROM one WHERE n >= $1 ORDER BY 3, 1", key,
			func(row []string) []seen { return []seen{{row[2], row[0], row[1]}} }},
		{"SELECT count(*), string_agg(s.id || ' ' || s.tag, ',') FROM (SELECT n, tag, id FROM one WHERE id < $1) s", key, listed("one", 1, 1)},
		{"UPDATE one SET tag = $1 WHERE id = $2", tagKey, none},
		{"UPDATE one SET tag = $1, n = n + 1 WHERE id = $2 RETURNING n", tagKey, none},
		{"UPDATE two SET tag = $1 WHERE a = $2", tagKey, none},
		{"UPDATE parts SET tag = $1 WHERE id = $2", tagKey, none},
		{"INSERT INTO one VALUES ($2, $1, 5) ON CONFLICT (id) DO UPDATE SET tag = excluded.tag", tagKey, none},
		{"INSERT INTO two VALUES ($2, 'new', $1) ON CONFLICT DO NOTHING", tagKey, none},
		{"INSERT INTO parts VALUES ($2, $1) ON CONFLICT (id) DO UPDATE SET tag = excluded.tag RETURNING id", tagKey, none},
		{"DELETE FROM two WHERE b = 'new' AND a = $1", key, none},
		{"DELETE FROM one WHERE id = $1 AND id > 5", key, none},
		{"SELECT tag($2::int, $1)", tagKey, none},
	}
}

// TestRandomPrograms runs random transactions over some connections in lockstep. Each reported read must be of a row
// that a statement of its transaction returned, with the version that the row shows; each returned row must be
// reported, unless its statement is counted as left out; and each number must be that of the rows' xmin.
func TestRandomPrograms(t *testing.T) { randomPrograms(t) }

// TestRandomProgramsForCertain does the same where rows are looked up and asked for once more in place of what may change an
// order. HAVING leaves out groups whose rows were read, which no row shows.
func TestRandomProgramsForCertain(t *testing.T) { randomPrograms(t, catalog.OnlyCertainLists) }

func randomPrograms(t *testing.T, options ...catalog.Option) {
	needServer(t)
	alone(t)
	r := seeded(t)
	sql(t, tagged)
	ctx := context.Background()
	observer, err := pgconn.ConnectConfig(ctx, config())
	if err != nil {
		t.Fatal(err)
	}
	defer observer.Close(ctx)
	d, err := definitions.Open(ctx, config(), time.Hour, func(string) {}, options...)
	if err != nil {
		t.Fatal(err)
	}
	dial := forward(t, func(o *Options) { o.Plans, o.Generation = d, d.Generation })
	var all []*walker
	for i := 0; i < 3; i++ {
		conn, sink := dial()
		w := &walker{conn: conn, sink: sink, prepared: map[string]string{}}
		if _, err := conn.Exec(ctx, "SET lock_timeout = '10ms'").ReadAll(); err != nil {
			t.Fatal(err)
		}
		all = append(all, w)
	}
	h := &historian{t: t, observer: observer, tags: map[uint32]string{}, left: map[string]uint64{}, below: len(options) > 0}
	for _, one := range shapes() {
		if len(options) == 0 || !strings.Contains(one.text, "HAVING") {
			h.shapes = append(h.shapes, one)
		}
	}
	h.look()
	for h.ended < *lockstep {
		w := all[r.Intn(len(all))]
		h.step(r, w)
	}
	if h.reads < *lockstep/2 || h.numbers < *lockstep/8 {
		t.Errorf("only %d reads and %d numbers were told", h.reads, h.numbers)
	}
	t.Logf("%d transactions, %d reads told, %d of %d rows of statements that are seen, %d numbers", h.ended, h.reads,
		h.met, h.rows, h.numbers)
	if h.met*10 < h.rows*6 { // how many plans are left as they are depends on when they are tried
		t.Errorf("of %d rows only %d were told; left out: %v", h.rows, h.met, h.left)
	}
}

type historian struct {
	t                                *testing.T
	observer                         *pgconn.PgConn
	tags                             map[uint32]string // the tag for each xmin
	ended, reads, rows, met, numbers int
	shapes                           []shape
	left                             map[string]uint64 // rows, by why they weren't told
	below                            bool              // rows are counted below serializable alone
}

// look learns which transaction wrote which rows.
func (h *historian) look() {
	results, err := h.observer.Exec(context.Background(),
		"SELECT xmin, tag FROM one UNION SELECT xmin, tag FROM two UNION SELECT xmin, tag FROM parts").ReadAll()
	if err != nil {
		h.t.Fatal(err)
	}
	for _, row := range results[0].Rows {
		xmin, _ := strconv.ParseUint(string(row[0]), 10, 32)
		h.tags[uint32(xmin)] = string(row[1])
	}
}

func (h *historian) step(r *rand.Rand, w *walker) {
	if !w.open {
		w.tags++
		w.tag, w.open, w.left = fmt.Sprintf("%p.%d", w, w.tags), true, r.Intn(5)
		w.rows, w.deleted = map[seen]bool{}, false
		w.level = []string{"READ COMMITTED", "REPEATABLE READ", "SERIALIZABLE"}[r.Intn(3)]
		if _, err := w.conn.Exec(context.Background(), "BEGIN ISOLATION LEVEL "+w.level).ReadAll(); err != nil {
			h.t.Fatal(err)
		}
		return
	}
	if w.left--; w.left >= 0 {
		if r.Intn(6) == 0 {
			if _, err := w.conn.Exec(context.Background(), "SAVEPOINT s").ReadAll(); err != nil {
				h.t.Fatal(err)
			}
		}
		kinds := h.shapes
		s := kinds[r.Intn(len(kinds))]
		rows, err := w.run(r, s.text, s.args(r, w.tag)...)
		w.deleted = w.deleted || strings.HasPrefix(s.text, "DELETE")
		for _, row := range rows { // a statement that fails may have returned some
			for _, v := range s.versions(row) {
				w.rows[v] = true
			}
		}
		if err == nil {
			return
		}
		h.end(w, "ROLLBACK")
		return
	}
	end := "COMMIT"
	if r.Intn(5) == 0 {
		end = "ROLLBACK"
	}
	h.end(w, end)
}

// end ends a transaction and compares what is reported of it.
func (h *historian) end(w *walker, how string) {
	results, err := w.conn.Exec(context.Background(), how).ReadAll()
	committed := err == nil && results[0].CommandTag.String() == "COMMIT"
	w.open = false
	h.ended++
	h.look()
	told := w.sink.take()
	switch len(told) {
	case 0:
		if len(w.rows) > 0 && !w.sink.left("not tried") && !w.sink.left("may have changed") {
			h.t.Errorf("nothing is told of %s", w.tag)
		}
		return
	case 1:
	default:
		h.t.Fatalf("%d transactions are told of one: %+v", len(told), told)
	}
	tx := told[0]
	if committed != (tx.Outcome == record.Committed) {
		h.t.Errorf("%s: committed %v, told as %v", w.tag, committed, tx.Outcome)
	}
	if tx.Level != record.UnknownLevel && tx.Level != levelNamed(strings.ToLower(w.level)) {
		h.t.Errorf("%s: told at level %v, not %s", w.tag, tx.Level, w.level)
	}
	own := map[uint32]bool{uint32(tx.Number): true}
	for _, v := range tx.Versions {
		own[v] = true
	}
	h.compareReads(w, &tx, own)
	if !committed {
		return
	}
	for xmin, tag := range h.tags {
		if tag != w.tag && own[xmin] {
			h.t.Errorf("version %d is told as %s's, but is %s's", xmin, w.tag, tag)
		}
	}
	if tx.Number != 0 {
		h.numbers++
	} else if h.has(w.tag) && !tx.MayHaveWritten {
		h.t.Errorf("%s has written, and is told as if it had not", w.tag)
	}
}

func (h *historian) has(tag string) bool {
	for _, t := range h.tags {
		if t == tag {
			return true
		}
	}
	return false
}

func (h *historian) compareReads(w *walker, tx *record.Transaction, own map[uint32]bool) {
	is := map[seen]bool{}
	for _, one := range tx.Did.Left {
		h.left[one.Reason] += one.Rows
	}
	for _, read := range tx.Reads {
		h.reads++
		tag, known := h.tags[read.Version]
		if own[read.Version] {
			tag, known = w.tag, true
		}
		if !known {
			continue // a subtransaction's, of a transaction that was rolled back
		}
		for _, table := range []string{"one", "two", "parts"} {
			is[seen{table, string(read.Key), tag}] = true
		}
		found := false
		for _, table := range []string{"one", "two", "parts"} {
			found = found || w.rows[seen{table, string(read.Key), tag}]
		}
		if !found && !w.deleted {
			h.t.Errorf("%s is told to have read %q of %s (version %d), which no statement returned: %v", w.tag, read.Key, tag,
				read.Version, sorted(w.rows))
		}
	}
	for row := range w.rows {
		if h.below && w.level == "SERIALIZABLE" {
			break // where nothing is asked for once more, or looked up
		}
		h.rows++
		if is[row] {
			h.met++
		}
	}
}

func sorted(rows map[seen]bool) []string {
	var all []string
	for row := range rows {
		all = append(all, fmt.Sprintf("%+v", row))
	}
	sort.Strings(all)
	return all
}
