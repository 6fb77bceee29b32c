package main

import (
	"context"
	"flag"
	"fmt"
	"strings"
	"testing"

	"github.com/jackc/pgconn"
)

var (
	phantoms       = flag.Int("histories", 8, "how many random histories with conditions are tried at each level")
	historySeed    = flag.Int64("history-seed", 1, "of the first one")
	phantomsMissed = flag.Bool("phantoms-missed", false, "show violated histories that aren't found")
)

// Four clients ask by conditions and write, through the proxy. Beside what is offered to the auditor there is the truth:
// who saw which version of each row, by the server's snapshots and its log; and which orders these leave.

const (
	phantomClients = 4
	phantomKeys    = 7 // and 0, which nobody writes, and each condition with `OR id = 0` returns
	phantomParents = 2 // for the values 0 and 1 of a
	phantomSchema  = "CREATE TABLE r%d (id int PRIMARY KEY, a int, b int NOT NULL, tag text NOT NULL, m mood)"
)

// TestPhantoms: random histories with conditions, through the proxy. Nothing is violated that the truth doesn't have
// violated, and nothing at serializable; of what the truth has violated, most is found.
func TestPhantoms(t *testing.T) {
	c := start(t, "max_wal_senders=20", "max_replication_slots=20", "max_connections=200",
		"deadlock_timeout=10ms") // a second by default, for which most rounds would wait
	direct, err := pgconn.Connect(context.Background(), sourceOf(c, "postgres"))
	if err != nil {
		t.Fatal(err)
	}
	defer direct.Close(context.Background())
	sql(t, direct, "CREATE TABLE parents (pid int PRIMARY KEY, name text); INSERT INTO parents VALUES (0, 'zero'), (1, 'one'); "+
		"CREATE TYPE mood AS ENUM ('"+strings.Join(moods, "', '")+"')")
	for i := 0; i < phantomGroups; i++ {
		sql(t, direct, fmt.Sprintf(phantomSchema, i))
		sql(t, direct, fmt.Sprintf("INSERT INTO r%d VALUES (0, NULL, -9, 'first')", i))
		if i%6 == 0 { // what asks by a may find all that it needs in this index
			sql(t, direct, fmt.Sprintf("CREATE INDEX ON r%d (a) INCLUDE (id, tag)", i))
		}
	}
	sql(t, direct, "SELECT pg_create_logical_replication_slot('truth', 'test_decoding')")
	for _, level := range []struct {
		name string
		// least: of a hundred histories that the truth has violated, so many are found. Some have shapes that aren't followed: a
		// join that found no row, with a parent that nobody has read before. Without them it is 95 at repeatable read.
		least int
	}{{"READ COMMITTED", 85}, {"REPEATABLE READ", 88}, {"SERIALIZABLE", 0}} {
		t.Run(level.name, func(t *testing.T) {
			all := &phantomSums{}
			for done := 0; done < *phantoms && !t.Failed(); done += phantomRoom {
				n := *phantoms - done
				if n > phantomRoom {
					n = phantomRoom
				}
				b := &phantomRun{t: t, direct: direct, level: level.name, sums: all, p: begin(t, c, "--between", "10h",
					"--first-sessions", "192")}
				b.all(*historySeed+int64(done), n)
				b.p.cancel()
				t.Logf("%+v", *all)
			}
			if all.violated >= 100 && all.found*100 < all.violated*level.least {
				t.Errorf("of %d histories that are violated, %d are found", all.violated, all.found)
			}
		})
	}
}

const (
	phantomRoom   = 500 // histories for which an audit without cuts has room
	phantomGroups = 30  // histories that run at a time, each on a table and connections of its own
)

// phantomSums are what all histories of a level have shown.
type phantomSums struct {
	tried, transactions, lacking                 int
	violated, byRows, found, foundByRows, unsure int
	seen, followed, passedOver, dropped          uint64
	leftOut                                      map[string]uint64
}
