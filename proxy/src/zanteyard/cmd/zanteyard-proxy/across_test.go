package main

import (
	"context"
	"encoding/json"
	"flag"
	"fmt"
	"math/rand"
	"net"
	"path/filepath"
	"strings"
	"sync"
	"sync/atomic"
	"testing"
	"time"

	"github.com/jackc/pgconn"

	"zanteyard/cluster"
)

var (
	acrossSeed = flag.Int64("across", 1, "the seed of TestSumsAcrossAudits")
	acrossRuns = flag.Int("across-runs", 1, "how many seeds TestSumsAcrossAudits tries, from that one on")
)

// told are the totals of one parent after another: of each audit what it told last.
type told struct {
	sums    sums
	earlier amount         // what ended while nobody wanted an audit
	audits  map[string]int // by how they ended
}

// hears adds what a parent got, up to its end. What ended before its first audit counts once a parent was told to stop: the
// others tell nobody, and the next one is told of it again. So it is of what ended after a parent's last audit.
func (o *told) hears(lines <-chan string) {
	var last *sums
	var before amount
	wasStopped := false
	count := func() {
		if last != nil {
			o.sums.add(last)
			last = nil
		}
	}
	for line := range lines {
		it := &sums{}
		if json.Unmarshal([]byte(line), it) != nil {
			continue
		}
		switch it.Event {
		case "earlier":
			its := earlier{}
			json.Unmarshal([]byte(line), &its)
			n := its.Sums
			before = amount{n.Transactions, n.Undone, n.Selects, n.Writes, n.Read, n.Written}
		case "coverage":
			last = it
		case "ended", "restarted":
			count()
		case "started":
			last = nil // it was told again
		case "stopped":
			wasStopped = true
		}
	}
	if wasStopped {
		o.earlier.add(before, 1)
	}
}

// earlier is what the feed has of the time before an audit.
type earlier struct {
	Sums struct {
		Transactions, Selects, Writes int
		Undone                        int `json:"rolled_back"`
		Read                          int `json:"rows_read"`
		Written                       int `json:"rows_written"`
	}
}

// visitor is a client that counts what the server answers.
type visitor struct {
	t      *testing.T
	port   int
	number int
	chance *rand.Rand
	conn   *pgconn.PgConn
	turns  int
	its    amount // of the open transaction
	on     bool   // it has a statement on a table
	failed bool
	done   amount
	unsure int // transactions of which no answer says how they ended
	direct *pgconn.PgConn
}

// run sends a text of one statement, or of several with parameters.
func (v *visitor) run(text string, values ...string) {
	v.t.Helper()
	var answers []*pgconn.Result
	var err error
	if len(values) > 0 {
		one := v.conn.ExecParams(context.Background(), text, parameters(values), nil, nil, nil).Read()
		answers, err = []*pgconn.Result{one}, one.Err
	} else {
		answers, err = v.conn.Exec(context.Background(), text).ReadAll()
	}
	v.answered(text, answers, err)
}

func (v *visitor) answered(text string, answers []*pgconn.Result, err error) {
	v.t.Helper()
	if _, is := err.(*pgconn.PgError); err != nil && !is {
		v.t.Fatalf("%s: %v", text, err)
	}
	for _, one := range answers {
		if one.Err != nil {
			continue
		}
		v.counts(text, string(one.CommandTag), len(one.Rows))
	}
	if err != nil {
		v.on, v.failed = true, true // only statements on tables fail
	}
	if v.conn.TxStatus() == 'I' {
		v.ends(!v.failed)
	}
}

// counts counts one answer.
func (v *visitor) counts(text, tag string, rows int) {
	verb, n := tag, 0
	if words := strings.Fields(tag); len(words) > 1 {
		verb = words[0]
		fmt.Sscan(words[len(words)-1], &n)
	}
	isOn := strings.Contains(text, "crossed") || strings.Contains(text, "keyless")
	switch verb {
	case "SELECT", "FETCH":
		if isOn || verb == "FETCH" {
			v.its.read += rows
		}
		if isOn && verb == "SELECT" {
			v.on, v.its.selects = true, v.its.selects+1
		}
	case "DECLARE":
		v.on, v.its.selects = true, v.its.selects+1
	case "INSERT", "UPDATE", "DELETE":
		v.on, v.its.writes, v.its.written = true, v.its.writes+1, v.its.written+n
	case "COMMIT", "ROLLBACK":
		v.ends(verb == "COMMIT")
	}
}

func (v *visitor) ends(well bool) {
	switch {
	case !v.on:
	case well:
		v.its.transactions = 1
		v.done.add(v.its, 1)
	default:
		v.done.undone++
	}
	v.its, v.on, v.failed = amount{}, false, false
}

// row is one of this visitor's own: nobody waits for another one's locks.
func (v *visitor) row() int { return 10*v.number + v.chance.Intn(9) }

// transaction runs one of many kinds.
func (v *visitor) transaction() {
	v.turns++
	read := fmt.Sprintf("SELECT v FROM crossed WHERE id = %d", v.row())
	write := fmt.Sprintf("UPDATE crossed SET v = v + 1 WHERE id = %d", v.row())
	several := fmt.Sprintf("UPDATE crossed SET v = v + 1 WHERE id BETWEEN %d AND %d", 10*v.number, 10*v.number+2)
	switch v.chance.Intn(14) {
	case 0:
		v.run(read)
	case 1:
		v.run("SELECT v FROM crossed WHERE v < -1")
	case 2:
		v.run("SELECT count(*) FROM crossed")
	case 3:
		v.run("SELECT v FROM crossed WHERE id = $1::int", fmt.Sprint(v.row()))
	case 4:
		v.run(write)
	case 5:
		v.run(several)
	case 6:
		v.run("INSERT INTO keyless VALUES (1), (2)")
	case 7:
		v.run("UPDATE crossed SET v = v + 1 WHERE id = $1::int RETURNING v", fmt.Sprint(v.row()))
	case 8:
		v.run("SELECT 1 / (v - v) FROM crossed")
	case 9:
		v.block("READ COMMITTED", "COMMIT", read, write)
	case 10:
		v.block("REPEATABLE READ", "COMMIT", read, "SELECT v FROM crossed WHERE id = 999", several)
	case 11:
		v.block("SERIALIZABLE", "ROLLBACK", read, write)
	case 12:
		v.block("READ COMMITTED", "COMMIT", read, "SELECT 1 / (v - v) FROM crossed")
	default:
		v.block("READ COMMITTED", "COMMIT", fmt.Sprintf("DECLARE c CURSOR FOR SELECT v FROM crossed WHERE id < %d", 10*v.number+4),
			"FETCH 2 FROM c", "FETCH ALL FROM c", write)
	}
}

func (v *visitor) block(level, end string, texts ...string) {
	v.run("BEGIN ISOLATION LEVEL " + level)
	for _, text := range texts {
		v.run(text)
	}
	v.run(end)
}

// stay is a client's life: it comes, works, and goes in one of many ways.
func (v *visitor) stay() {
	conn, err := pgconn.Connect(context.Background(), fmt.Sprintf("host=127.0.0.1 port=%d user=postgres dbname=postgres sslmode=disable", v.port))
	if err != nil {
		v.t.Fatal(err)
	}
	v.conn = conn
	for n := v.chance.Intn(30); n >= 0; n-- {
		v.transaction()
		if v.chance.Intn(4) == 0 {
			time.Sleep(time.Duration(v.chance.Intn(10)) * time.Millisecond)
		}
	}
	if v.chance.Intn(2) == 0 {
		v.run("BEGIN")
		v.run(fmt.Sprintf("SELECT v FROM crossed WHERE id = %d", v.row()))
		v.run(fmt.Sprintf("UPDATE crossed SET v = v + 1 WHERE id = %d", v.row()))
		v.goes()
		return
	}
	conn.Close(context.Background())
}

// goes ends a connection in the middle of a transaction.
func (v *visitor) goes() {
	switch v.chance.Intn(3) {
	case 0: // its socket is closed
		v.conn.Conn().Close()
		v.ends(false)
	case 1: // it is killed
		v.unsure++
		sql(v.t, v.direct, fmt.Sprintf("SELECT pg_terminate_backend(%d)", v.conn.PID()))
		v.conn.Exec(context.Background(), "COMMIT").ReadAll()
		v.ends(false)
	default: // it doesn't wait for the answer to its COMMIT
		number := sql(v.t, v.direct, fmt.Sprintf("SELECT backend_xid FROM pg_stat_activity WHERE pid = %d", v.conn.PID()))
		v.conn.Conn().Write([]byte("Q\x00\x00\x00\x0bCOMMIT\x00"))
		v.conn.Conn().Close()
		state := "in progress"
		for end := time.Now().Add(time.Minute); state == "in progress" && time.Now().Before(end); time.Sleep(time.Millisecond) {
			state = sql(v.t, v.direct, fmt.Sprintf("SELECT pg_xact_status('%s')", number))
		}
		v.unsure++
		v.ends(state == "committed")
	}
	v.conn.Conn().Close()
}

// listener is a program that has attached itself, and what it has heard.
type listener struct {
	*attached
	kept                 chan string // all of it, to its end
	opens, stopped, over chan bool
	heard                chan bool   // closed at the end
	fed                  chan string // its counts, if somebody waits for them
}

func adopt(t *testing.T, path string) *listener {
	p := &listener{attachAgain(t, path), make(chan string, 1<<20), make(chan bool, 100), make(chan bool, 100), make(chan bool, 100),
		make(chan bool), make(chan string)}
	go func() {
		defer close(p.kept)
		defer close(p.heard)
		for line := range p.lines {
			switch {
			case strings.HasPrefix(line, `["open"`):
				p.opens <- true
			case strings.HasPrefix(line, `{"event":"stopped"`):
				p.stopped <- true
			case strings.HasPrefix(line, `{"event":"ended"`):
				p.over <- true
			case strings.HasPrefix(line, `{"event":"coverage"`):
				select {
				case p.fed <- line:
				default:
				}
			}
			p.kept <- line
		}
	}()
	return p
}

func (p *listener) await(what string, it <-chan bool) {
	select {
	case <-it:
	case <-time.After(2 * time.Minute):
		p.t.Errorf("no audit has %s", what)
	}
}

func (p *listener) orders(command string) { fmt.Fprintf(p.say, "{\"command\":\"%s\"}\n", command) }

// leaves ends it. What it is told after that is still read.
func (p *listener) leaves(o *told) {
	p.Conn.(*net.UnixConn).CloseWrite()
	<-p.heard
	o.hears(p.kept)
	p.Conn.Close()
}

// upTo waits for a random time.
func upTo(chance *rand.Rand, milliseconds int) {
	time.Sleep(time.Duration(chance.Intn(milliseconds)) * time.Millisecond)
}

// oneAfterAnother runs audits, which end in all ways.
func oneAfterAnother(t *testing.T, path string, chance *rand.Rand, direct *pgconn.PgConn, o *told) {
	o.audits = map[string]int{}
	for turn := 0; turn < 7; turn++ {
		p := adopt(t, path)
		how := []string{"stopped", "killed", "restarted", "lost"}[chance.Intn(4)]
		if how == "lost" || chance.Intn(5) > 0 {
			p.await("begun", p.opens)
		}
		upTo(chance, 700)
		o.audits[how]++
		switch how {
		case "restarted":
			p.orders("restart")
			upTo(chance, 300)
		case "lost":
			sql(t, direct, "SELECT pg_terminate_backend(active_pid) FROM pg_replication_slots WHERE slot_name LIKE 'zanteyard%' AND active")
			p.await("ended", p.over)
			upTo(chance, 100)
			p.orders("restart")
			p.await("begun anew", p.opens)
			upTo(chance, 300)
		}
		if how != "killed" {
			p.orders("stop")
			p.await("stopped", p.stopped)
		}
		p.leaves(o)
		upTo(chance, 200)
	}
}

// attachAgain attaches a parent once the one before has gone.
func attachAgain(t *testing.T, path string) *attached {
	t.Helper()
	for end := time.Now().Add(time.Minute); time.Now().Before(end); time.Sleep(5 * time.Millisecond) {
		next := attach(t, path, "attach")
		var event struct{ Event string }
		if json.Unmarshal([]byte(<-next.lines), &event) == nil && event.Event == "attached" {
			return next
		}
		next.Conn.Close()
	}
	t.Fatal("nobody can attach")
	return nil
}

// TestSumsAcrossAudits: whatever clients did through the proxy, while audits began, ended, were killed and began again, is
// in one place of one outcome.
func TestSumsAcrossAudits(t *testing.T) {
	c := start(t)
	direct := directly(t, c)
	sql(t, direct, `CREATE TABLE crossed (id int PRIMARY KEY, v int); INSERT INTO crossed SELECT generate_series(0, 99), 0;
		CREATE TABLE keyless (v int); INSERT INTO keyless VALUES (0)`)
	for run := 0; run < *acrossRuns; run++ {
		seed := *acrossSeed + int64(run)
		t.Run(fmt.Sprint(seed), func(t *testing.T) { acrossAudits(t, c, direct, seed) })
	}
}

func acrossAudits(t *testing.T, c *cluster.Cluster, direct *pgconn.PgConn, seed int64) {
	path := filepath.Join(folder(t), "control")
	s := serveAt(t, c, freePort(t), "--control", path, "--between", "100ms")
	s.connect().Close(context.Background())
	const visitors = 5
	var want amount
	unsure := 0
	var lock sync.Mutex
	var all sync.WaitGroup
	var enough atomic.Bool
	for n := 1; n <= visitors; n++ {
		v := &visitor{t: t, port: s.port, number: n, chance: rand.New(rand.NewSource(seed*100 + int64(n))), direct: directly(t, c)}
		all.Add(1)
		go func() {
			defer all.Done()
			for !enough.Load() {
				v.stay()
			}
			lock.Lock()
			defer lock.Unlock()
			want.add(v.done, 1)
			unsure += v.unsure
		}()
	}
	var heard told
	oneAfterAnother(t, path, rand.New(rand.NewSource(seed)), direct, &heard)
	enough.Store(true)
	last := adopt(t, path)
	last.await("begun", last.opens)
	all.Wait()
	last.orders("stop")
	last.await("stopped", last.stopped)
	last.leaves(&heard)
	its := &heard.sums.Totals
	got := amount{its.Transactions.All, its.Transactions.RolledBack, its.Selects.All, its.Writes.All, its.RowsRead.All, its.RowsWritten.All}
	got.add(heard.earlier, 1)
	t.Logf("seed %d, audits %v: %+v, of which %+v while nobody wanted an audit", seed, heard.audits, got, heard.earlier)
	// One of unknown outcome counts as not checked, with its SELECT, its UPDATE and their rows, though it may have been rolled
	// back. So does one that was rolled back, if its BEGIN was sent while nothing was audited.
	unsure += its.Transactions.NotChecked["its outcome is unknown"]
	more := got.transactions - want.transactions
	want.add(amount{1, -1, 1, 1, 1, 0}, more)
	// Of what is under way as an audit ends or begins it isn't always known whether the slot has told of its rows: one in a
	// hundred may be missing, or be counted by its statement's own words as well.
	if rows := got.written - want.written; rows >= -want.written/100 && rows <= more+want.written/100 {
		want.written = got.written
	}
	if got != want || more < 0 || more > unsure || its.Outside.Transactions+its.Outside.RowsWritten > 0 {
		t.Errorf("counted are %+v, and there were %+v: %d of %d unknown outcomes, %d transactions bypassed",
			got, want, more, unsure, its.Outside.Transactions)
		for _, one := range heard.sums.each() {
			t.Logf("%+v", *one)
		}
	}
	if !heard.sums.decided() {
		t.Errorf("some isn't in a place: %+v", its)
	}
}
