package audit

import (
	"bufio"
	"context"
	"encoding/json"
	"flag"
	"fmt"
	"io"
	"math/rand"
	"os"
	"os/exec"
	"strconv"
	"strings"
	"sync"
	"testing"
	"time"

	"github.com/jackc/pgconn"

	"zanteyard/catalog"
	"zanteyard/join"
	"zanteyard/record"
	"zanteyard/slot"
)

var (
	auditor = flag.String("auditor", "", "the program cobra_audit, for tests that need it")
	keep    = flag.String("keep", "", "a file for the script that the auditor is given")
	soak    = flag.Duration("soak", 3*time.Second, "how long each of these tests runs")
)

// crowd is clients in goroutines of their own, as sessions of a proxy would see them.
type crowd struct {
	sink record.Sink
	runs sync.RWMutex // held for reading while a transaction runs
	lock sync.Mutex
	done int
}

// member is one client.
type member struct {
	conn   *pgconn.PgConn
	number uint64
	place  uint64
	r      *rand.Rand
}

// Meet implements join.Meeter.
func (c *crowd) Meet(_ context.Context, _ []uint64, moment func(time.Duration)) {
	began := time.Now()
	c.runs.Lock()
	defer c.runs.Unlock()
	moment(time.Since(began))
}

// Busy implements join.Meeter.
func (c *crowd) Busy(connections []uint64) (underWay, idle int) { return len(connections), 0 }

// run makes a client work until ctx ends.
func (c *crowd) run(ctx context.Context, m *member, work func(*member) record.Transaction) {
	for ctx.Err() == nil {
		c.runs.RLock()
		it := work(m)
		time.Sleep(time.Duration(m.r.Intn(8)) * time.Millisecond)
		it.Connection, it.Place, it.Ended = m.number, m.place, time.Now()
		m.place++
		c.sink.Transaction(it)
		c.runs.RUnlock()
		c.lock.Lock()
		c.done++
		c.lock.Unlock()
	}
}

// withdraw reads two rows and writes one of them, at this level.
func withdraw(level string, its record.Level, keys int, identity record.Identity) func(*member) record.Transaction {
	return func(m *member) record.Transaction {
		to := record.Transaction{Began: time.Now(), Level: its, Outcome: record.Aborted}
		i, j := m.r.Intn(keys), m.r.Intn(keys)
		rows, err := rowsOf(m.conn, fmt.Sprintf("BEGIN ISOLATION LEVEL %s; "+
			"SELECT xmin, tableoid::oid, id FROM t WHERE id IN (%d, %d)", level, i, j))
		if err == nil {
			for _, row := range rows {
				xmin, _ := strconv.ParseUint(row[0], 10, 32)
				oid, _ := strconv.ParseUint(row[1], 10, 32)
				to.Reads = append(to.Reads, record.Read{Relation: record.Relation(oid), Key: record.Key(row[2]), Version: uint32(xmin),
					Identity: identity})
			}
			rows, err = rowsOf(m.conn, fmt.Sprintf("UPDATE t SET tag = tag || 'x' WHERE id = %d; SELECT pg_current_xact_id()", i))
		}
		if err == nil {
			to.Number, _ = strconv.ParseUint(rows[0][0], 10, 64)
			_, err = rowsOf(m.conn, "COMMIT")
		}
		if err != nil {
			rowsOf(m.conn, "ROLLBACK")
			return to
		}
		to.Outcome = record.Committed
		return to
	}
}

// parent does what zanteyard watch does with the feed.
type parent struct {
	t        *testing.T
	commands io.Writer
	in       io.Writer
	replies  *bufio.Scanner
	marks    []uint64
	verdicts map[string]int
	cuts     int
	coverage map[string]any
	events   map[string]int
	ended    string
	keep     io.Writer // a copy of the script
}

func (p *parent) run(feed io.Reader, stopped chan<- struct{}) {
	lines := bufio.NewScanner(feed)
	lines.Buffer(nil, 16<<20)
	for lines.Scan() {
		line := lines.Text()
		if line[0] == '[' {
			p.give(line)
			continue
		}
		var it map[string]any
		if err := json.Unmarshal([]byte(line), &it); err != nil {
			p.t.Errorf("event %s: %v", line, err)
		}
		p.events[it["event"].(string)]++
		switch it["event"] {
		case "coverage":
			p.coverage = it
		case "stopped":
			close(stopped)
		case "ended":
			p.ended = it["reason"].(string)
		case "warning":
			p.t.Log(line)
		}
	}
}

func (p *parent) give(line string) {
	if p.keep != nil {
		fmt.Fprintln(p.keep, line)
	}
	fmt.Fprintln(p.in, line)
	switch {
	case strings.HasPrefix(line, `["open",`):
		sessions := 0
		fmt.Sscanf(line, `["open",%d`, &sessions)
		p.marks = make([]uint64, sessions)
	case strings.HasPrefix(line, `["join",`):
		p.marks = append(p.marks, 0)
	}
	if !p.replies.Scan() {
		p.t.Fatal("the auditor doesn't answer")
	}
	var it []any
	json.Unmarshal(p.replies.Bytes(), &it)
	switch it[0] {
	case "report":
		p.verdicts[it[2].(string)]++
	case "no":
		if it[2] != "NoCut" {
			p.t.Errorf("%.200s is answered %s", line, p.replies.Text())
		}
	case "cut":
		p.cuts++
		for _, one := range it[2].([]any) {
			id := one.([]any)
			session, number := int(id[0].(float64)), uint64(id[1].(float64))
			if p.marks[session] <= number {
				p.marks[session] = number + 1
			}
		}
	}
	if line == `["truncate"]` {
		text, _ := json.Marshal(map[string]any{"command": "cut", "marks": p.marks})
		fmt.Fprintln(p.commands, string(text))
	}
}

func TestSoak(t *testing.T) {
	if *auditor == "" {
		t.Skip("no auditor was given (-auditor)")
	}
	s := startServer(t)
	conn := s.connect(t)
	must(t, conn, "CREATE TABLE t (id int PRIMARY KEY, tag text NOT NULL);"+
		"INSERT INTO t SELECT i, '' FROM generate_series(0, 999) i")
	identity := catalog.KeyIdentity("public", "t", must(t, conn, "SELECT "+catalog.IdentitySQL+
		" FROM pg_index i WHERE i.indisprimary AND i.indrelid = 't'::regclass")[0][0])
	for _, one := range []struct {
		name, level string
		its         record.Level
		keys        int
		beside      bool
		want        string
	}{
		{"serializable", "SERIALIZABLE", record.Serializable, 1000, false, "serial"},
		{"serializable beside others", "SERIALIZABLE", record.Serializable, 100, true, "serial"},
		{"lost updates", "READ COMMITTED", record.ReadCommitted, 10, false, "violated"},
	} {
		t.Run(one.name, func(t *testing.T) {
			p, done := runSoak(t, s, withdraw(one.level, one.its, one.keys, identity), one.beside)
			t.Logf("%d transactions: verdicts %v, %d cuts, events %v, coverage %v", done, p.verdicts, p.cuts, p.events, p.coverage)
			if p.verdicts[one.want] == 0 || p.verdicts["spent"] > 0 || one.want == "serial" && p.verdicts["violated"] > 0 {
				t.Errorf("the verdicts are %v, and should be %s", p.verdicts, one.want)
			}
			if one.want == "serial" && p.cuts == 0 {
				t.Error("there was no cut")
			}
			if reads := p.coverage["reads"].(map[string]any); reads["offered"].(float64) == 0 {
				t.Errorf("no read was offered: %v", reads)
			}
		})
	}
}

func runSoak(t *testing.T, s *server, work func(*member) record.Transaction, beside bool) (*parent, int) {
	ctx, cancel := context.WithCancel(context.Background())
	defer cancel()
	program := exec.Command(*auditor)
	in, _ := program.StdinPipe()
	out, _ := program.StdoutPipe()
	if err := program.Start(); err != nil {
		t.Fatal(err)
	}
	defer program.Wait()
	defer in.Close()
	replies := bufio.NewScanner(out)
	replies.Buffer(nil, 16<<20)
	commandsOut, commandsIn := io.Pipe()
	feedOut, feedIn := io.Pipe()
	c := &crowd{}
	a := New(Config{
		Slot: slot.Options{Source: s.source(), Canonical: canonical},
		Join: join.Options{Between: 500 * time.Millisecond}, Meeter: c, In: commandsOut, Out: feedIn,
	})
	c.sink = a.Sink()
	p := &parent{
		t: t, commands: commandsIn, in: in, replies: replies, verdicts: map[string]int{},
		events: map[string]int{},
	}
	if *keep != "" {
		file, err := os.Create(*keep)
		if err != nil {
			t.Fatal(err)
		}
		defer file.Close()
		p.keep = file
	}
	stopped, read := make(chan struct{}), make(chan struct{})
	go func() {
		p.run(feedOut, stopped)
		close(read)
	}()
	audited := make(chan struct{})
	go func() {
		a.Run(ctx)
		feedIn.Close()
		close(audited)
	}()
	working, stop := context.WithCancel(ctx)
	var all sync.WaitGroup
	start := func(number uint64, sink record.Sink) {
		m := &member{conn: s.connect(t), number: number, r: rand.New(rand.NewSource(int64(number)))}
		if sink != nil {
			sink.Connection(record.Connection{Number: number})
		}
		all.Add(1)
		go func() {
			defer all.Done()
			if sink == nil {
				for working.Err() == nil {
					work(m)
				}
				return
			}
			c.run(working, m, work)
		}()
	}
	for number := uint64(1); number <= 8; number++ {
		start(number, c.sink)
	}
	if beside {
		start(100, nil)
		start(101, nil)
	}
	time.Sleep(*soak)
	stop()
	fmt.Fprintln(commandsIn, `{"command":"stop"}`)
	select {
	case <-stopped:
	case <-time.After(5 * time.Minute):
		t.Error("the audit doesn't stop")
	}
	cancel()
	all.Wait()
	<-audited
	<-read
	return p, c.done
}
