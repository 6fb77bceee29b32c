package main

import (
	"context"
	"errors"
	"flag"
	"fmt"
	"math/rand"
	"regexp"
	"strings"
	"sync"
	"sync/atomic"
	"testing"
	"time"

	"github.com/jackc/pgconn"
)

var (
	enemies = flag.Int("enemies", 300, "how many transactions of random clients are to be offered")
	seed    = flag.Int64("seed", 1, "of the random clients")
)

// The rows of these tables have the tag of their writer. Triggers and procedures pass it on, with something behind it.
const enemySchema = `
CREATE TABLE one (id int PRIMARY KEY, tag text NOT NULL, n int, owner int); CREATE INDEX ON one (owner);
INSERT INTO one SELECT i, '-', 0, i % 5 FROM generate_series(0, 23) i;
CREATE TABLE parent (id int PRIMARY KEY, tag text NOT NULL);
CREATE TABLE child (id int PRIMARY KEY, tag text NOT NULL, parent int REFERENCES parent ON DELETE CASCADE); CREATE INDEX ON child (parent);
INSERT INTO parent SELECT i, '-' FROM generate_series(0, 7) i; INSERT INTO child SELECT i, '-', i % 8 FROM generate_series(0, 23) i;
CREATE TABLE part (a int, b text, tag text NOT NULL, PRIMARY KEY (a, b)) PARTITION BY LIST (a);
CREATE TABLE part0 PARTITION OF part FOR VALUES IN (0, 2); CREATE TABLE part1 PARTITION OF part FOR VALUES IN (1, 3);
INSERT INTO part SELECT i % 4, 'x' || i, '-' FROM generate_series(0, 11) i;
CREATE TABLE word (w text PRIMARY KEY, tag text NOT NULL); INSERT INTO word VALUES ('e', '-'), ('é', '-'), ('Ã©', '-'), ('日', '-');
CREATE TYPE colour AS ENUM ('red', 'green', 'blue'); CREATE TABLE kind (k colour PRIMARY KEY, tag text NOT NULL);
INSERT INTO kind VALUES ('red', '-'), ('green', '-'), ('blue', '-');
CREATE TABLE swapped (a int, b int, tag text NOT NULL, PRIMARY KEY (a, b)); INSERT INTO swapped SELECT i / 3, i % 3, '-' FROM generate_series(0, 8) i;
CREATE TABLE moved (id int PRIMARY KEY, code int UNIQUE NOT NULL, tag text NOT NULL); INSERT INTO moved SELECT i, 7 - i, '-' FROM generate_series(0, 7) i;
CREATE TABLE empties (id int PRIMARY KEY, tag text NOT NULL);
CREATE TABLE tally (id int PRIMARY KEY, tag text NOT NULL); INSERT INTO tally SELECT i, '-' FROM generate_series(0, 3) i;
CREATE FUNCTION counts() RETURNS trigger LANGUAGE plpgsql AS 'BEGIN UPDATE tally SET tag = NEW.tag || ''t'' WHERE id = NEW.id % 4; RETURN NEW; END';
CREATE TRIGGER counted AFTER INSERT ON child FOR EACH ROW EXECUTE FUNCTION counts();
CREATE PROCEDURE halves(i int, w text) LANGUAGE plpgsql AS
  'BEGIN UPDATE one SET tag = w || ''p'' WHERE id = i; COMMIT; UPDATE one SET tag = w || ''q'' WHERE id = i; END';
CREATE FUNCTION bump(i int, w text) RETURNS void LANGUAGE plpgsql AS
  'BEGIN BEGIN UPDATE one SET tag = w || ''f'' WHERE id = i; PERFORM 1 / (i % 3);
   EXCEPTION WHEN division_by_zero THEN UPDATE one SET tag = w || ''f'' WHERE id = (i + 1) % 24; END; END';
`

// deeds is what the answers to a committed transaction show.
type deeds struct {
	read  map[string]map[string]bool // the tags of the versions of each row, or of each table whose keys change
	asked map[string]bool            // tables of which it may have asked for a row that wasn't there
	wrote map[string]bool            // tables whose rows it updated or deleted, by a condition that passed others over
	level string                     // that it ran at, if it asked
	holds bool                       // it has declared a cursor WITH HOLD: more is told of it later
}

// enemy is a client.
type enemy struct {
	t      *testing.T
	conn   *pgconn.PgConn
	r      *rand.Rand
	name   int
	tags   int
	level  string // the default
	mixed  bool   // levels
	latin  bool   // its encoding
	its    *deeds
	held   *deeds // of the transaction that has declared its cursor WITH HOLD, nil if it has none
	shared *battlefield
}

// battlefield is what all clients share.
type battlefield struct {
	lock    sync.Mutex
	deeds   map[string]*deeds // of committed transactions, by tag
	over    atomic.Bool
	commits atomic.Int64
}

func (e *enemy) run(text string, extended bool) ([][]string, error) {
	ctx, cancel := context.WithTimeout(context.Background(), time.Minute)
	defer cancel()
	var result *pgconn.Result
	if extended {
		result = e.conn.ExecParams(ctx, text, nil, nil, nil, nil).Read()
	} else {
		results, err := e.conn.Exec(ctx, text).ReadAll()
		if err != nil || len(results) == 0 {
			return nil, err
		}
		result = results[len(results)-1]
	}
	if result.Err != nil {
		return nil, result.Err
	}
	var rows [][]string
	for _, row := range result.Rows {
		var texts []string
		for _, value := range row {
			texts = append(texts, string(value))
		}
		rows = append(rows, texts)
	}
	return rows, nil
}

// note records rows whose last value is their writer's tag, and whose others are their key.
func (e *enemy) note(table string, rows [][]string) {
	for _, row := range rows {
		at := table
		if !keysChange[table] {
			key := strings.Join(row[:len(row)-1], ", ")
			if e.latin {
				key = fromLatin(key)
			}
			at += " " + key
		}
		if e.its.read[at] == nil {
			e.its.read[at] = map[string]bool{}
		}
		e.its.read[at][row[len(row)-1]] = true
	}
}

// keysChange: what is a key of these tables is changed by others.
var keysChange = map[string]bool{"swapped": true, "moved": true, "kind": true}

func fromLatin(text string) string {
	var to strings.Builder
	for i := 0; i < len(text); i++ {
		to.WriteRune(rune(text[i]))
	}
	return to.String()
}

func (e *enemy) inEncoding(text string) string {
	if !e.latin {
		return text
	}
	var to []byte
	for _, c := range text {
		if c > 0xff {
			c = 'e'
		}
		to = append(to, byte(c))
	}
	return string(to)
}

// read runs a select of a key and a tag.
func (e *enemy) read(table, text string) error {
	rows, err := e.run(e.inEncoding(text), e.r.Intn(2) == 0)
	if err == nil {
		e.note(table, rows)
		e.its.asked[table] = true
	}
	return err
}

var writesTo = regexp.MustCompile(`^(?:UPDATE|DELETE FROM) (\w+)`)

func (e *enemy) write(text string) error {
	if to := writesTo.FindStringSubmatch(text); to != nil {
		e.its.wrote[to[1]] = true
	}
	_, err := e.run(e.inEncoding(text), e.r.Intn(2) == 0)
	return err
}

// statement runs one in a block.
func (e *enemy) statement(tag string) error {
	i, j, f := e.r.Intn(24), e.r.Intn(8), fmt.Sprintf
	if e.held != nil && e.r.Intn(12) == 0 {
		return e.fetch()
	}
	word := []string{"e", "é", "Ã©", "日"}[e.r.Intn(4)]
	colour := []string{"red", "green", "blue"}[e.r.Intn(3)]
	switch e.r.Intn(40) {
	case 0, 1, 2:
		return e.read("one", f("SELECT id, tag FROM one WHERE id = %d", i))
	case 3:
		return e.read("one", f("SELECT id, tag FROM one WHERE owner = %d ORDER BY id", j%5))
	case 4:
		return e.read("one", f("SELECT id, tag FROM one WHERE id BETWEEN %d AND %d FOR UPDATE", i, i+2))
	case 5:
		e.its.asked["parent"] = true // its tag isn't asked for
		return e.read("child", f("SELECT c.id, c.tag FROM parent p JOIN child c ON c.parent = p.id WHERE p.id = %d", j))
	case 6:
		return e.read("child", f("SELECT id, tag FROM child WHERE id = %d", i))
	case 7:
		return e.read("part", f("SELECT a, b, tag FROM part WHERE a = %d AND b = 'x%d'", j%4, i%12))
	case 8:
		return e.read("part", f("SELECT a, b, tag FROM part0 WHERE a = %d", j%4))
	case 9, 10:
		return e.read("word", f("SELECT w, tag FROM word WHERE w = '%s'", word))
	case 11:
		return e.read("kind", f("SELECT k, tag FROM kind WHERE k = '%s'", colour))
	case 12:
		return e.read("swapped", f("SELECT a, b, tag FROM swapped WHERE a = %d AND b = %d", j%3, i%3))
	case 13:
		return e.read("moved", f("SELECT id, code, tag FROM moved WHERE %s = %d", []string{"id", "code"}[i%2], j))
	case 14:
		return e.read("tally", "SELECT id, tag FROM tally")
	case 15:
		return e.cursor(i)
	case 16, 17, 18:
		return e.write(f("UPDATE one SET tag = '%s', n = n + 1 WHERE id = %d", tag, i))
	case 19:
		return e.write(f("UPDATE one SET tag = '%s' WHERE owner = %d", tag, j%5))
	case 20:
		return e.write(f("INSERT INTO one VALUES (%d, '%s', 0, %d) ON CONFLICT (id) DO UPDATE SET tag = EXCLUDED.tag", i, tag, j%5))
	case 21:
		return e.write(f("DELETE FROM one WHERE owner = %d AND id > %d", j%5, i))
	case 22:
		return e.write(f("UPDATE one SET id = %d, tag = '%s' WHERE id = %d", e.r.Intn(24), tag, i))
	case 23:
		return e.write(f("INSERT INTO child VALUES (%d, '%s', %d) ON CONFLICT DO NOTHING", i, tag, j))
	case 24:
		return e.write(f("DELETE FROM parent WHERE id = %d", j))
	case 25:
		return e.write(f("INSERT INTO parent VALUES (%d, '%s') ON CONFLICT DO NOTHING", j, tag))
	case 26:
		return e.write(f("UPDATE part SET a = %d, tag = '%s' WHERE a = %d AND b = 'x%d'", e.r.Intn(4), tag, j%4, i%12))
	case 27:
		return e.write(f("INSERT INTO part VALUES (%d, 'x%d', '%s') ON CONFLICT (a, b) DO UPDATE SET tag = EXCLUDED.tag", j%4, i%12, tag))
	case 28:
		return e.write(f("UPDATE word SET tag = '%s' WHERE w = '%s'", tag, word))
	case 29:
		return e.write(f("UPDATE kind SET tag = '%s' WHERE k = '%s'", tag, colour))
	case 30:
		return e.write(f("UPDATE swapped SET tag = '%s' WHERE a = %d AND b = %d", tag, j%3, i%3))
	case 31:
		return e.write(f("UPDATE moved SET tag = '%s' WHERE %s = %d", tag, []string{"id", "code"}[i%2], j))
	case 32:
		return e.write(f("SELECT bump(%d, '%s')", i, tag))
	case 33:
		for _, text := range []string{"SAVEPOINT a", f("UPDATE one SET tag = '%sx' WHERE id = %d", tag, i), "ROLLBACK TO a"} {
			if err := e.write(text); err != nil {
				return err
			}
		}
		return nil
	case 36:
		return e.read("one", f("SELECT id, tag FROM one WHERE n BETWEEN %d AND %d OR owner IN (%d, %d)", j/2, j, i%5, j%5))
	case 37:
		return e.read("child", f("SELECT id, tag FROM child WHERE parent = %d AND id <> %d", j, i))
	case 38:
		return e.read("part", f("SELECT a, b, tag FROM part WHERE a IN (%d, %d)", j%4, i%4))
	case 39:
		return e.read("empties", f("SELECT id, tag FROM empties WHERE NOT id < %d", i))
	case 34:
		if err := e.write("SAVEPOINT b"); err != nil {
			return err
		}
		return e.write(f("INSERT INTO empties VALUES (%d, '%s') ON CONFLICT (id) DO UPDATE SET tag = EXCLUDED.tag", i, tag))
	default:
		if e.r.Intn(20) == 0 {
			return e.write("TRUNCATE empties")
		}
		return e.read("empties", f("SELECT id, tag FROM empties WHERE id = %d", i))
	}
}

func (e *enemy) cursor(i int) error {
	if err := e.write(fmt.Sprintf("DECLARE c CURSOR FOR SELECT id, tag FROM one WHERE id >= %d ORDER BY id", i%8)); err != nil {
		return err
	}
	for n := 0; n < 2; n++ {
		if err := e.read("one", "FETCH 2 FROM c"); err != nil {
			return err
		}
	}
	return e.write("CLOSE c")
}

// hold declares a cursor WITH HOLD, in the place of the one before.
func (e *enemy) hold(tag string) error {
	if e.held != nil {
		e.held = nil
		if err := e.write("CLOSE held"); err != nil {
			return err
		}
	}
	err := e.write(fmt.Sprintf("DECLARE held CURSOR WITH HOLD FOR SELECT id, tag FROM one WHERE id >= %d ORDER BY id /*tag='%s'*/", e.r.Intn(20), tag))
	if err == nil {
		e.held, e.its.holds = e.its, true
	}
	return err
}

// fetch returns rows of that cursor: its transaction has read them.
func (e *enemy) fetch() error {
	if e.held == nil {
		return nil
	}
	rows, err := e.run(e.inEncoding(fmt.Sprintf("FETCH %d FROM held", 1+e.r.Intn(5))), e.r.Intn(2) == 0)
	if err == nil {
		e.shared.lock.Lock()
		defer e.shared.lock.Unlock()
		was := e.its
		e.its = e.held
		e.note("one", rows)
		e.its = was
	}
	return err
}

var levelNames = []string{"READ COMMITTED", "REPEATABLE READ", "SERIALIZABLE"}

// begin begins a block, at a level that is set in one of many ways.
func (e *enemy) begin(tag string) (err error) {
	comment := " /*tag='" + tag + "'*/"
	if !e.mixed {
		return e.write([]string{"BEGIN", "BEGIN ISOLATION LEVEL " + e.level, "START TRANSACTION"}[e.r.Intn(3)] + comment)
	}
	name := levelNames[e.r.Intn(3)]
	switch e.r.Intn(8) {
	case 0, 1, 2:
		return e.write("BEGIN ISOLATION LEVEL " + name + comment)
	case 3:
		if err = e.write("SET SESSION CHARACTERISTICS AS TRANSACTION ISOLATION LEVEL " + name); err == nil {
			err = e.write("BEGIN" + comment)
		}
	case 4:
		if err = e.write("SET default_transaction_isolation TO '" + strings.ToLower(name) + "'"); err == nil {
			err = e.write("BEGIN" + comment)
		}
	case 5:
		if err = e.write("BEGIN" + comment); err == nil {
			err = e.write("SET TRANSACTION ISOLATION LEVEL " + name)
		}
	case 6:
		if err = e.write("SELECT set_config('default_transaction_isolation', '" + strings.ToLower(name) + "', false)"); err == nil {
			err = e.write("BEGIN" + comment)
		}
	default:
		err = e.write("BEGIN" + comment)
	}
	return err
}

// transaction runs one. An error of the server's ends it.
func (e *enemy) transaction() error {
	e.tags++
	tag := fmt.Sprintf("%d.%d", e.name, e.tags)
	e.its = &deeds{read: map[string]map[string]bool{}, asked: map[string]bool{}, wrote: map[string]bool{}}
	var err error
	switch e.r.Intn(12) {
	case 0:
		err = e.pipeline(tag)
	case 2: // a cursor that outlives it
		err = e.hold(tag)
	case 3:
		err = e.fetch()
	case 1: // by itself
		err = e.read("one", fmt.Sprintf("SELECT id, tag FROM one WHERE id = %d /*tag='%s'*/", e.r.Intn(24), tag))
	default:
		err = e.block(tag)
	}
	if err == nil {
		e.keep(tag)
		e.shared.commits.Add(1)
		return nil
	}
	var told *pgconn.PgError
	if !errors.As(err, &told) {
		return err
	}
	_, err = e.run("ROLLBACK", false)
	return err
}

func (e *enemy) block(tag string) error {
	if err := e.begin(tag); err != nil {
		return err
	}
	if rows, err := e.run("SHOW transaction_isolation", false); err != nil {
		return err
	} else if len(rows) == 1 {
		e.its.level = rows[0][0]
	}
	for n := e.r.Intn(5); n >= 0; n-- {
		if err := e.statement(tag); err != nil {
			return err
		}
	}
	if e.r.Intn(10) > 0 {
		return e.write("COMMIT")
	}
	if err := e.write("COMMIT AND CHAIN"); err != nil {
		return err
	}
	first := e.its
	e.keep(tag)
	e.its = &deeds{read: map[string]map[string]bool{}, asked: map[string]bool{}, wrote: map[string]bool{}, level: first.level}
	err := e.read("one", fmt.Sprintf("SELECT id, tag FROM one WHERE id = %d /*tag='%sc'*/", e.r.Intn(24), tag))
	if err == nil {
		err = e.write("COMMIT")
	}
	if err == nil {
		e.keep(tag + "c")
	}
	e.its = first
	return err
}

// keep records what a transaction did that was committed.
func (e *enemy) keep(tag string) {
	e.shared.lock.Lock()
	defer e.shared.lock.Unlock()
	e.shared.deeds[tag] = e.its
}

// pipeline sends several statements with one Sync: a procedure that commits is among them.
func (e *enemy) pipeline(tag string) error {
	ctx, cancel := context.WithTimeout(context.Background(), time.Minute)
	defer cancel()
	batch, i := &pgconn.Batch{}, e.r.Intn(24)
	read := fmt.Sprintf("SELECT id, tag FROM one WHERE id = %d /*tag='%s'*/", i, tag)
	texts := []string{read, fmt.Sprintf("CALL halves(%d, '%s')", e.r.Intn(24), tag), read, "SELECT id, tag FROM one WHERE id = 3"}
	if e.r.Intn(2) == 0 {
		texts = append([]string{fmt.Sprintf("UPDATE one SET tag = '%s' WHERE id = %d", tag, e.r.Intn(24))}, texts...)
		e.its.wrote["one"] = true
	}
	if e.r.Intn(3) == 0 {
		texts[len(texts)-1] = "SELECT 1 / 0"
	}
	for _, text := range texts {
		batch.ExecParams(text, nil, nil, nil, nil)
	}
	results, err := e.conn.ExecBatch(ctx, batch).ReadAll()
	for _, result := range results {
		if result == nil || len(result.FieldDescriptions) != 2 {
			continue
		}
		var rows [][]string
		for _, row := range result.Rows {
			rows = append(rows, []string{string(row[0]), string(row[1])})
		}
		e.note("one", rows)
	}
	var told *pgconn.PgError
	if errors.As(err, &told) {
		return nil // a part of it may have been committed
	}
	return err
}

// define changes definitions beside the others, until all is over.
func (b *battlefield) define(t *testing.T, conn *pgconn.PgConn, r *rand.Rand, pause time.Duration) {
	ctx := context.Background()
	for !b.over.Load() {
		time.Sleep(pause/2 + time.Duration(r.Int63n(int64(pause))))
		texts := []string{
			"ALTER TABLE swapped RENAME a TO c; ALTER TABLE swapped RENAME b TO a; ALTER TABLE swapped RENAME c TO b",
			"DO $$BEGIN IF EXISTS (SELECT FROM pg_index i JOIN pg_attribute a ON a.attrelid = i.indrelid AND a.attnum = ANY (i.indkey) WHERE " +
				"i.indrelid = 'moved'::regclass AND i.indisprimary AND a.attname = 'id') THEN ALTER TABLE moved DROP CONSTRAINT moved_pkey, ADD PRIMARY KEY (code); " +
				"ELSE ALTER TABLE moved DROP CONSTRAINT moved_pkey, ADD PRIMARY KEY (id); END IF; END$$",
			"ALTER TYPE colour RENAME VALUE 'red' TO 'none'; ALTER TYPE colour RENAME VALUE 'green' TO 'red'; ALTER TYPE colour RENAME VALUE 'none' TO 'green'",
			"ALTER TABLE part DETACH PARTITION part1; ALTER TABLE part ATTACH PARTITION part1 FOR VALUES IN (1, 3)",
			"CREATE TABLE brief (id int PRIMARY KEY); INSERT INTO brief VALUES (1); DROP TABLE brief",
			"ALTER TABLE one ADD more int; ALTER TABLE one DROP more",
			"REINDEX TABLE one",
			"ALTER TABLE one RENAME TO aside; ALTER TABLE tally RENAME TO one; UPDATE one SET tag = tag WHERE id < 2; " +
				"ALTER TABLE one RENAME TO tally; ALTER TABLE aside RENAME TO one",
			"ALTER TABLE part DETACH PARTITION part0",
		}
		conn.Exec(ctx, "SET lock_timeout = '100ms'; BEGIN; "+texts[r.Intn(len(texts))]+"; COMMIT").ReadAll()
		conn.Exec(ctx, "ROLLBACK").ReadAll()
		for isApart := true; isApart; { // for some time
			time.Sleep(time.Duration(r.Int63n(int64(20 * time.Millisecond))))
			results, err := conn.Exec(ctx, "SELECT FROM pg_class WHERE oid = 'part0'::regclass AND NOT relispartition").ReadAll()
			if isApart = err == nil && len(results) == 1 && len(results[0].Rows) == 1; isApart {
				conn.Exec(ctx, "ALTER TABLE part ATTACH PARTITION part0 FOR VALUES IN (0, 2)").ReadAll()
			}
		}
	}
}

// TestEnemies: at serializable no violation is told of what many clients do at once, whatever they do.
func TestEnemies(t *testing.T) { fight(t, "serializable") }

// TestEnemiesWithSnapshots: nor at repeatable read, of what snapshots promise.
func TestEnemiesWithSnapshots(t *testing.T) { fight(t, "repeatable read", "--promise", "snapshot") }

// TestEnemiesAtAllLevels: at all levels each read that is told is of the version that a column of its row shows, at the
// level that the server had.
func TestEnemiesAtAllLevels(t *testing.T) { fight(t, "read committed") }

func fight(t *testing.T, level string, more ...string) {
	mixed := level == "read committed"
	c := start(t, "deadlock_timeout=20ms", "default_transaction_isolation='"+level+"'")
	sql(t, directly(t, c), "SET default_transaction_isolation = 'read committed'; "+enemySchema+"; ANALYZE")
	p := begin(t, c, append([]string{"--parameters=false", "--look", "200ms"}, more...)...)
	p.isJudged.Store(true)
	p.until(`["open"`)
	b := &battlefield{deeds: map[string]*deeds{}}
	var all sync.WaitGroup
	for i := 0; i < 8; i++ {
		e := &enemy{t: t, conn: p.connect(), r: rand.New(rand.NewSource(*seed*1000 + int64(i))), name: i, level: level, mixed: mixed, latin: i == 7, shared: b}
		if e.latin {
			sql(t, e.conn, "SET client_encoding TO 'LATIN1'")
		}
		sql(t, e.conn, "SET lock_timeout = '1s'")
		all.Add(1)
		go func() {
			defer all.Done()
			for !b.over.Load() {
				if err := e.transaction(); err != nil {
					t.Error(err)
					b.over.Store(true)
				}
			}
		}()
	}
	all.Add(1)
	definer := directly(t, c)
	go func() {
		defer all.Done()
		b.define(t, definer, rand.New(rand.NewSource(*seed)), 2*time.Second)
	}()
	defer all.Wait()
	defer b.over.Store(true)
	judge := &referee{t: t, p: p, b: b, g: newGraph(), names: map[string]string{}, wrote: map[string]map[string]bool{}}
	began := time.Now()
	judge.watch(*enemies)
	b.over.Store(true)
	all.Wait()
	judge.finish()
	if !mixed {
		judge.g.check(t, level != "serializable")
	}
	t.Logf("%v: of %d committed %d transactions were told, with %d reads, of which %d were compared and %d are of what was passed over, "+
		"%d of cursors WITH HOLD, and %d levels", time.Since(began), b.commits.Load(), len(judge.g.names)-judge.g.fences, judge.reads,
		judge.compared, judge.passed, judge.held,
		judge.levels)
	if judge.compared < *enemies/4 || judge.passed < *enemies/100 || mixed && judge.levels < *enemies/4 {
		t.Error("too little was compared")
	}
}
