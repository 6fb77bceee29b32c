package audit

import (
	"flag"
	"fmt"
	"math/rand"
	"strconv"
	"strings"
	"testing"
	"time"

	"github.com/jackc/pgconn"

	"zanteyard/record"
)

var lockstep = flag.Int("lockstep", 400, "transactions that are committed in lockstep")

// The rows carry the tag of the transaction that wrote them, so each statement's result says whose version it is.
// Triggers pass the tag on; a cascade leaves nothing.
const oracleSchema = `
CREATE EXTENSION pg_walinspect;
CREATE TABLE t (id int PRIMARY KEY, tag text NOT NULL, long text);
CREATE TABLE parent (id int PRIMARY KEY, tag text NOT NULL);
CREATE TABLE child (id int PRIMARY KEY, parent int REFERENCES parent ON DELETE CASCADE, tag text NOT NULL);
CREATE TABLE tally (id int PRIMARY KEY, tag text NOT NULL, n int);
CREATE TABLE part (a int, b text, tag text NOT NULL, PRIMARY KEY (a, b)) PARTITION BY LIST (a);
CREATE TABLE part0 PARTITION OF part FOR VALUES IN (0, 2);
CREATE TABLE part1 PARTITION OF part FOR VALUES IN (1, 3);
CREATE TABLE whole (id int PRIMARY KEY, tag text NOT NULL);
ALTER TABLE whole REPLICA IDENTITY FULL;
INSERT INTO tally SELECT i, '-', 0 FROM generate_series(0, 3) i;
CREATE FUNCTION counts() RETURNS trigger LANGUAGE plpgsql AS
  'BEGIN UPDATE tally SET n = n + 1, tag = NEW.tag WHERE id = NEW.id % 4; RETURN NEW; END';
CREATE TRIGGER counted AFTER INSERT ON child FOR EACH ROW EXECUTE FUNCTION counts();
CREATE FUNCTION bump(i int, w text) RETURNS void LANGUAGE plpgsql AS
  'BEGIN BEGIN UPDATE t SET tag = w WHERE id = i; PERFORM 1 / (i % 3);
   EXCEPTION WHEN division_by_zero THEN UPDATE t SET tag = w WHERE id = i + 1; END; END';
`

// oracleRows are the first rows, which have no writer.
const oracleRows = `
INSERT INTO t SELECT i, '-' FROM generate_series(0, 11) i;
INSERT INTO parent SELECT i, '-' FROM generate_series(0, 7) i;
INSERT INTO child SELECT i, i, '-' FROM generate_series(0, 5) i;
UPDATE tally SET tag = '-';
INSERT INTO part SELECT i % 4, 'x' || i, '-' FROM generate_series(0, 7) i;
INSERT INTO whole SELECT i, '-' FROM generate_series(0, 5) i;
`

// contents are the tables with their keys, as one row: table, key, tag, xmin.
const contents = `SELECT 't', id::text, tag, xmin FROM t UNION ALL SELECT 'parent', id::text, tag, xmin FROM parent
UNION ALL SELECT 'child', id::text, tag, xmin FROM child UNION ALL SELECT 'tally', id::text, tag, xmin FROM tally
UNION ALL SELECT 'part', a || ', ' || b, tag, xmin FROM part UNION ALL SELECT 'whole', id::text, tag, xmin FROM whole`

// cell is a row of a table by its key, in the joiner's form.
type cell struct{ table, key string }

// lockstepper runs transactions over several connections, one statement at a time, and knows from the rows what the
// joiner has to make of them.
type lockstepper struct {
	t        *testing.T
	r        *rand.Rand
	sink     record.Sink
	observer *pgconn.PgConn
	clients  []*client
	now      map[cell]string // tag and xmin of each row after the last commit
	first    map[cell]bool   // the rows at the beginning
	history  map[cell][]step // versions in order
	commits  int
	alone    *client          // the only client that goes on
	owned    map[string]*done // committed transactions by tag
	oids     map[string]record.Relation
	// identities are those of the tables' keys.
	identities map[string]record.Identity

	leaves        bool // reads of savepoints' versions are left out
	left, counted int
	exact         int // reads of the table that TRUNCATE empties, offered as wanted
}

// step is a version: the number of its commit, and its writer.
type step struct {
	commit  int
	tag     string
	deleted bool
}

// done is a committed transaction and what has to be offered for it.
type done struct {
	tag     string
	offered bool // by the proxy; otherwise it is somebody else's
	client  *client
	place   uint64
	reads   map[cell]map[string]bool // tags
	absent  map[cell]int             // and the number of commits that its snapshot shows
	level   record.Level
	wrote   map[cell]bool
	commit  int
	empties bool          // it ran a TRUNCATE
	kept    map[cell]bool // the rows of that table that it had written before
	upserts map[cell]bool // rows of the table that it empties and that it has written by their keys
	given   map[cell]bool // the rows that were offered as its writes

	number   uint64
	snapshot string
}

// client is a connection.
type client struct {
	conn   *pgconn.PgConn
	number uint64 // of the proxy's connection; 0 if it bypasses the proxy
	place  uint64
	tags   int
	open   *done
	its    record.Transaction
	shows  int // commits before its snapshot
	left   int // statements
	saved  bool
}

func (l *lockstepper) connect(s *server, number uint64) {
	c := &client{conn: s.connect(l.t), number: number}
	must(l.t, c.conn, "SET lock_timeout = '20ms'; SET synchronous_commit = off")
	if number > 0 {
		l.sink.Connection(record.Connection{Number: number, Database: "postgres"})
	}
	l.clients = append(l.clients, c)
}

var levels = []struct {
	name  string
	level record.Level
}{{"READ COMMITTED", record.ReadCommitted}, {"REPEATABLE READ", record.RepeatableRead}, {"SERIALIZABLE", record.Serializable}}

// step runs one statement of one client.
func (l *lockstepper) step() {
	c := l.clients[l.r.Intn(len(l.clients))]
	if l.alone != nil {
		c = l.alone
	}
	if c.open == nil {
		l.begin(c)
		return
	}
	if c.left--; c.left < 0 {
		l.end(c)
		return
	}
	if err := l.statement(c); err != nil {
		must(l.t, c.conn, "ROLLBACK")
		l.ended(c, record.Aborted)
	}
}

func (l *lockstepper) begin(c *client) {
	level := levels[l.r.Intn(len(levels))]
	c.tags++
	c.open = &done{
		tag: fmt.Sprintf("%p.%d", c, c.tags), client: c, place: c.place, offered: c.number > 0, level: level.level,
		reads: map[cell]map[string]bool{}, upserts: map[cell]bool{}, absent: map[cell]int{}, wrote: map[cell]bool{},
		kept: map[cell]bool{},
	}
	c.its = record.Transaction{Connection: c.number, Place: c.place, Began: time.Now(), Level: level.level}
	c.saved, c.left = false, l.r.Intn(5)
	must(l.t, c.conn, "BEGIN ISOLATION LEVEL "+level.name+"; SELECT 1")
	must(l.t, c.conn, "SELECT txid_current_if_assigned()") // takes the snapshot, from repeatable read on
	c.shows = l.commits
}

func (l *lockstepper) end(c *client) {
	rows, err := rowsOf(c.conn, "SELECT pg_current_xact_id_if_assigned(), pg_current_snapshot()")
	if err == nil {
		c.its.Number, _ = strconv.ParseUint(rows[0][0], 10, 64)
		c.its.Snapshot = rows[0][1]
		_, err = rowsOf(c.conn, "COMMIT")
	}
	if err != nil {
		must(l.t, c.conn, "ROLLBACK")
		l.ended(c, record.Aborted)
		return
	}
	l.ended(c, record.Committed)
}

// ended reports the transaction, and looks at what it changed.
func (l *lockstepper) ended(c *client, outcome record.Outcome) {
	it := c.open
	c.open, l.alone = nil, nil
	c.its.Outcome, c.its.Ended = outcome, time.Now()
	c.place++
	l.sink.Transaction(c.its) // the joiner doesn't know a connection 0: that is somebody else's
	if outcome != record.Committed {
		return
	}
	l.commits++
	it.commit, it.number, it.snapshot = l.commits, c.its.Number, c.its.Snapshot
	l.owned[it.tag] = it
	l.look(it)
}

// look compares the tables with their earlier contents; nobody else has committed since.
func (l *lockstepper) look(it *done) {
	after := map[cell]string{}
	for _, row := range must(l.t, l.observer, contents) {
		after[cell{row[0], row[1]}] = row[2] + " " + row[3]
	}
	for at, was := range l.now {
		if is, there := after[at]; !there || is != was {
			it.wrote[at] = true
			l.history[at] = append(l.history[at], step{l.commits, it.tag, !there})
		}
	}
	for at := range after {
		if _, was := l.now[at]; !was {
			it.wrote[at] = true
			l.history[at] = append(l.history[at], step{l.commits, it.tag, false})
		}
	}
	l.now = after
}

// read runs a select, and notes the rows that it returned.
func (l *lockstepper) read(c *client, table, key, rest string) error {
	rows, err := rowsOf(c.conn, fmt.Sprintf("SELECT x.xmin, x.tableoid::oid, %s, x.tag %s", key, rest))
	if err != nil {
		return err
	}
	for _, row := range rows {
		if row[0] == "" {
			continue // of an outer join
		}
		xmin, _ := strconv.ParseUint(row[0], 10, 32)
		oid, _ := strconv.ParseUint(row[1], 10, 32)
		parts := row[2 : len(row)-1]
		c.its.Reads = append(c.its.Reads, record.Read{
			Relation: record.Relation(oid), Key: record.Key(strings.Join(parts, "\x00")), Version: uint32(xmin),
			Identity: l.identities[table],
		})
		at := cell{table, strings.Join(parts, ", ")}
		if c.open.reads[at] == nil {
			c.open.reads[at] = map[string]bool{}
		}
		c.open.reads[at][row[len(row)-1]] = true
	}
	return nil
}

// readOne reads one row by its key; a missing row is reported as absent.
func (l *lockstepper) readOne(c *client, table string, id int) error {
	before := len(c.its.Reads)
	if err := l.read(c, table, "x.id", fmt.Sprintf("FROM %s x WHERE x.id = %d", table, id)); err != nil {
		return err
	}
	if len(c.its.Reads) == before {
		c.its.Absent = append(c.its.Absent, record.Absence{Relation: l.oids[table], Key: record.Key(strconv.Itoa(id)),
			Identity: l.identities[table]})
		c.open.absent[cell{table, strconv.Itoa(id)}] = c.shows
	}
	return nil
}

// write runs a statement that may have RETURNING, from which the proxy learns the versions of rows.
func (l *lockstepper) write(c *client, sql string, returns bool) error {
	if !returns {
		_, err := rowsOf(c.conn, sql)
		return err
	}
	rows, err := rowsOf(c.conn, sql+" RETURNING xmin")
	for _, row := range rows {
		xmin, _ := strconv.ParseUint(row[0], 10, 32)
		c.its.Versions = append(c.its.Versions, uint32(xmin))
	}
	return err
}

func (l *lockstepper) statement(c *client) error {
	i, j, tag := l.r.Intn(14), l.r.Intn(14), c.open.tag
	f := fmt.Sprintf
	switch l.r.Intn(20) {
	case 0, 1:
		return l.read(c, "t", "x.id", f("FROM t x WHERE x.id BETWEEN %d AND %d", i, i+3))
	case 2, 3:
		return l.readOne(c, "t", i)
	case 4:
		return l.read(c, "child", "x.id", f("FROM parent p LEFT JOIN child x ON x.parent = p.id WHERE p.id = %d", i%8))
	case 5:
		return l.read(c, "part", "x.a, x.b", f("FROM part x WHERE x.a = %d", i%4))
	case 6:
		return l.read(c, "tally", "x.id", "FROM tally x")
	case 7:
		return l.write(c, f("UPDATE t SET tag = '%s', long = repeat('x', %d) WHERE id = %d", tag, l.r.Intn(2)*9000, i), true)
	case 8:
		return l.write(c, f("UPDATE t SET tag = '%s' WHERE id BETWEEN %d AND %d", tag, i, i+1), l.r.Intn(2) == 0)
	case 9:
		return l.write(c, f("INSERT INTO t VALUES (%d, '%s') ON CONFLICT (id) DO UPDATE SET tag = '%s'", i, tag, tag), true)
	case 10:
		return l.write(c, f("INSERT INTO child VALUES (%d, %d, '%s') ON CONFLICT DO NOTHING", i, j%8, tag), true)
	case 11:
		return l.write(c, f("DELETE FROM parent WHERE id = %d", i%8), false)
	case 12:
		return l.write(c, f("INSERT INTO parent VALUES (%d, '%s') ON CONFLICT DO NOTHING", i%8, tag), true)
	case 13:
		return l.write(c, f("DELETE FROM t WHERE id = %d", i), false)
	case 14:
		return l.write(c, f("UPDATE t SET id = %d, tag = '%s' WHERE id = %d", j, tag, i), false)
	case 15:
		return l.write(c, f("SELECT bump(%d, '%s')", i, tag), false)
	case 16:
		return l.write(c, f("UPDATE part SET a = %d, tag = '%s' WHERE a = %d AND b = 'x%d'", j%4, tag, i%4, i%8), false)
	case 17:
		return l.write(c, f("INSERT INTO part VALUES (%d, 'x%d', '%s') ON CONFLICT (a, b) DO UPDATE SET tag = '%s'", i%4, j%8, tag, tag), false)
	case 18:
		if !c.saved {
			c.saved = true
			return l.write(c, "SAVEPOINT a", false)
		}
		c.saved = false
		return l.write(c, []string{"ROLLBACK TO a", "RELEASE a"}[l.r.Intn(2)], false)
	default:
		if l.r.Intn(12) == 0 {
			if !c.open.empties {
				for at := range c.open.upserts {
					c.open.kept[at] = true
				}
			}
			c.open.empties = true
			l.alone = c // nobody could look at the table meanwhile
			return l.write(c, "TRUNCATE whole", false)
		}
		if l.r.Intn(3) == 0 {
			return l.readOne(c, "whole", i%6)
		}
		c.open.upserts[cell{"whole", strconv.Itoa(i % 6)}] = true
		return l.write(c, f("INSERT INTO whole VALUES (%d, '%s') ON CONFLICT (id) DO UPDATE SET tag = '%s'", i%6, tag, tag), true)
	}
}
