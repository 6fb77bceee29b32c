package main

import (
	"context"
	"encoding/json"
	"fmt"
	"sort"
	"strings"
	"testing"
	"time"

	"github.com/jackc/pgconn"

	"zanteyard/cluster"
)

// tagged returns what is offered of the transactions in which a statement has the comment /*tag='..'*/. It waits until
// it is decided for everything that these connections have done: until something is offered that they did later.
func (w *watched) tagged(conns ...*pgconn.PgConn) map[string]described {
	w.t.Helper()
	its, waits, later := map[string]described{}, 0, map[string]bool{}
	for end := time.After(5 * time.Minute); ; {
		_, it := w.next(end)
		for _, one := range it.Transactions {
			for _, statement := range one.Statements {
				if tag := statement.Comment["tag"]; tag != "" {
					its[tag] = one
				}
			}
		}
		if it.Event == "transactions" {
			waits--
		}
		missing := 0
		for i := range conns {
			is := false
			for tag := range later {
				_, told := its[tag]
				is = is || told && strings.HasPrefix(tag, fmt.Sprint("later ", i, " "))
			}
			if !is {
				missing++
			}
		}
		if missing == 0 && waits == 0 {
			return its
		}
		if it.Event != "coverage" || waits > 0 {
			continue
		}
		for i, conn := range conns {
			tag := fmt.Sprint("later ", i, " ", len(later))
			later[tag] = true
			sql(w.t, conn, fmt.Sprintf("UPDATE account SET balance = balance WHERE id = 2 /*tag='%s'*/", tag))
		}
		for at := 0; at < len(w.ids); at += 10 { // lines of the feed should not be long here
			upTo := at + 10
			if upTo > len(w.ids) {
				upTo = len(w.ids)
			}
			text, _ := json.Marshal(map[string]any{"command": "describe", "id": at, "transactions": w.ids[at:upTo]})
			fmt.Fprintln(w.say, string(text))
			waits++
		}
	}
}

// mostTries is how often a scenario is run until it is offered: a transaction that spans a meeting is left out.
const mostTries = 20

// reads are what a transaction is offered with, as "table key from its", sorted: its is the tag of the transaction that
// is named as the version's writer, or "init".
func (it described) reads(all map[string]described) string {
	rows := map[int]string{}
	for _, key := range it.Keys {
		rows[key.Key] = strings.TrimPrefix(key.Table, "public.") + " " + key.Row
	}
	var texts []string
	for _, read := range it.Reads {
		from := "init"
		if len(read) == 3 {
			from = fmt.Sprint(read[1], ".", read[2])
			for tag, one := range all {
				if from == fmt.Sprint(one.Session, ".", one.Number) {
					from = tag
				}
			}
		}
		texts = append(texts, rows[int(read[0].(float64))]+" from "+from)
	}
	sort.Strings(texts)
	return strings.Join(texts, ", ")
}

// directly connects to the server, past the proxy.
func directly(t *testing.T, c *cluster.Cluster) *pgconn.PgConn {
	t.Helper()
	conn, err := pgconn.Connect(context.Background(), c.DSN("postgres", "postgres"))
	if err != nil {
		t.Fatal(err)
	}
	t.Cleanup(func() { conn.Close(context.Background()) })
	return conn
}

// TestInsertedOverADeletion: at serializable PostgreSQL commits who inserts what another transaction has deleted
// meanwhile, if that one found the row by another index than the key's, or by none: the locks by which it finds such
// conflicts are those of an index. Nothing is made of it: an insertion is no read of the deletion.
func TestInsertedOverADeletion(t *testing.T) {
	c := start(t)
	sql(t, directly(t, c), `CREATE TABLE x (id int PRIMARY KEY, n int); INSERT INTO x SELECT i, 0 FROM generate_series(1, 3000) i;
		CREATE TABLE k (id int PRIMARY KEY); INSERT INTO k SELECT generate_series(1, 20000);
		CREATE TABLE parent (id int PRIMARY KEY); INSERT INTO parent SELECT generate_series(1, 10000);
		CREATE TABLE child (id int PRIMARY KEY, parent int REFERENCES parent ON DELETE CASCADE);
		INSERT INTO child SELECT i, 1 + i % 10000 FROM generate_series(1, 50000) i; CREATE INDEX ON child (parent); ANALYZE`)
	p := begin(t, c)
	p.until(`["open"`)
	w := &watched{program: p}
	reader, deleter := p.connect(), p.connect()
	for i := 0; i < 4; i++ {
		for _, conn := range []*pgconn.PgConn{reader, deleter} {
			sql(t, conn, "SELECT n FROM x WHERE id = 1")
			sql(t, conn, "UPDATE x SET n = n + 1 WHERE id = 1")
			sql(t, conn, "UPDATE account SET balance = balance WHERE id = 2")
		}
	}
	for _, form := range []struct{ name, deletes, inserts string }{
		{"k", "DELETE FROM k WHERE ctid = '(0,%d)'", "INSERT INTO k VALUES (%d)"},
		{"child", "DELETE FROM parent WHERE id = 1 + %d", "INSERT INTO child VALUES (%d, 5000)"},
	} {
		offered := false
		for try := 1; try <= mostTries && !offered; try++ {
			one, two := fmt.Sprint("inserts ", form.name, try), fmt.Sprint("deletes ", form.name, try)
			sql(t, reader, fmt.Sprintf("BEGIN ISOLATION LEVEL SERIALIZABLE /*tag='%s'*/", one))
			sql(t, reader, "SELECT n FROM x WHERE id = 1")
			sql(t, deleter, fmt.Sprintf("BEGIN ISOLATION LEVEL SERIALIZABLE /*tag='%s'*/", two))
			sql(t, deleter, "UPDATE x SET n = n + 1 WHERE id = 1")
			sql(t, deleter, fmt.Sprintf(form.deletes, try))
			sql(t, deleter, "COMMIT")
			sql(t, reader, fmt.Sprintf(form.inserts, try))
			sql(t, reader, "COMMIT") // the server finds nothing wrong
			its := w.tagged(reader, deleter)
			inserted, there := its[one]
			deleted, there2 := its[two]
			reads := inserted.reads(its)
			offered = there && there2 && len(inserted.Writes) == 1 && len(deleted.Writes) > 1 && strings.Contains(reads, "x 1 from ")
			if offered && !strings.HasPrefix(reads, fmt.Sprint(form.name, " ", try, " from init, x 1 from ")) || strings.Contains(reads, two) {
				t.Errorf("%s: it is offered with reads of %s", form.inserts, reads)
			}
		}
		if !offered {
			t.Errorf("%s: nothing was offered", form.inserts)
		}
	}
}

// TestMovedOntoADeletedKey: at serializable PostgreSQL commits who gives a row the key of one that another transaction
// has deleted meanwhile. The log doesn't say that the key was another one if the table's replica identity leaves it out.
// So such a table's writes are left out, and counted.
func TestMovedOntoADeletedKey(t *testing.T) {
	c := start(t)
	sql(t, directly(t, c), `CREATE TABLE x (id int PRIMARY KEY, n int); INSERT INTO x VALUES (1, 0);
		CREATE TABLE k (id int PRIMARY KEY, u int UNIQUE NOT NULL, v int); ALTER TABLE k REPLICA IDENTITY USING INDEX k_u_key;
		INSERT INTO k SELECT i, i, 0 FROM generate_series(1, 20000) i; ANALYZE`)
	p := begin(t, c)
	p.until(`["open"`)
	w := &watched{program: p}
	mover, deleter := p.connect(), p.connect()
	for i := 0; i < 4; i++ {
		for _, conn := range []*pgconn.PgConn{mover, deleter} {
			sql(t, conn, "SELECT n FROM x WHERE id = 1")
			sql(t, conn, "UPDATE x SET n = n + 1 WHERE id = 1")
		}
	}
	offered := false
	for try := 1; try <= mostTries && !offered; try++ {
		one, two := fmt.Sprint("moves ", try), fmt.Sprint("deletes ", try)
		from, to := 2*try, 2*try+1
		at := sql(t, deleter, fmt.Sprintf("SELECT ctid FROM k WHERE id = %d", to))
		sql(t, mover, fmt.Sprintf("BEGIN ISOLATION LEVEL SERIALIZABLE /*tag='%s'*/", one))
		sql(t, mover, "SELECT n FROM x WHERE id = 1")
		sql(t, deleter, fmt.Sprintf("BEGIN ISOLATION LEVEL SERIALIZABLE /*tag='%s'*/", two))
		sql(t, deleter, "UPDATE x SET n = n + 1 WHERE id = 1")
		at = sql(t, deleter, fmt.Sprintf("UPDATE k SET v = 1 WHERE ctid = '%s' RETURNING ctid", at))
		sql(t, deleter, fmt.Sprintf("DELETE FROM k WHERE ctid = '%s'", at))
		sql(t, deleter, "COMMIT")
		sql(t, mover, fmt.Sprintf("UPDATE k SET id = %d WHERE id = %d", to, from))
		sql(t, mover, "COMMIT") // the server finds nothing wrong
		its := w.tagged(mover, deleter)
		moved, there := its[one]
		deleted, there2 := its[two]
		reads := moved.reads(its)
		offered = there && there2 && len(deleted.Writes) > 0 && strings.Contains(reads, "x 1 from ")
		if strings.Contains(reads, two) {
			t.Errorf("it is offered with reads of %s", reads)
		}
	}
	if !offered {
		t.Error("nothing was offered")
	}
	p.leftOut("public.k: its replica identity leaves out the primary key", 3)
}
