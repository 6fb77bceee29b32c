package main

import (
	"bufio"
	"context"
	"encoding/json"
	"errors"
	"flag"
	"fmt"
	"io"
	"net"
	"strings"
	"sync/atomic"
	"testing"
	"time"

	"github.com/jackc/pgconn"

	"zanteyard/cluster"
)

func TestFlags(t *testing.T) {
	for _, x := range []struct {
		args  string
		fails bool
	}{
		{"--server host=a", false}, {"--version", false}, {"", true}, {"--server host=a more", true}, {"--nothing", true},
		{"--server host=a --hold 10ms --reads 5 --sample 0.5 --parameters", false}, {"--hold 5", true},
		{"--server host=a --promise snapshot", false}, {"--server host=a --promise serial", true},
	} {
		if _, err := parse(strings.Fields(x.args), io.Discard); x.fails != (err != nil) {
			t.Errorf("%q: %v", x.args, err)
		}
	}
}

// With several servers, one might be read and another one connected to.
func TestSeveralServers(t *testing.T) {
	for _, x := range []struct {
		server           string
		passing, refused bool
	}{
		{"host=127.0.0.1,127.0.0.2", false, true},
		{"postgresql://127.0.0.1:5432,127.0.0.1:1/", false, true},
		{"host=127.0.0.1,127.0.0.2", true, false},
		{"host=127.0.0.1", false, false}, // sslmode=prefer: two ways to one server
	} {
		f, err := parse([]string{"--server", x.server, "--listen", "/none/such"}, io.Discard)
		if err != nil {
			t.Fatal(err)
		}
		f.passing = x.passing
		err = serve(context.Background(), f, outside{in: strings.NewReader(""), out: io.Discard})
		if err == nil || strings.Contains(err.Error(), "several") != x.refused {
			t.Errorf("%+v: %v", x, err)
		}
	}
}

// program is the proxy with a parent.
// TestStatus: a program that can't begin ends with status 2, as the other commands do.
func TestStatus(t *testing.T) {
	taken, err := net.Listen("tcp", "127.0.0.1:0")
	if err != nil {
		t.Fatal(err)
	}
	defer taken.Close()
	server := "host=127.0.0.1 port=1 user=nobody dbname=nothing sslmode=disable"
	for _, words := range [][]string{
		{"--server", server, "--listen", taken.Addr().String()},
		{"--server", server, "--listen", "127.0.0.1:0", "--tls-cert", "/nowhere/cert", "--tls-key", "/nowhere/key"},
		{"--server", "host=127.0.0.1,127.0.0.2 port=1 user=nobody dbname=nothing", "--listen", "127.0.0.1:0"},
	} {
		f, err := parse(words, io.Discard)
		if err != nil {
			t.Fatal(words, err)
		}
		if err := serve(context.Background(), f, outside{in: strings.NewReader(""), out: io.Discard}); statusOf(err) != 2 {
			t.Errorf("%q: status %d: %v", words, statusOf(err), err)
		}
	}
	if statusOf(errors.New("a fault")) != 4 || statusOf(nil) != 0 {
		t.Error("another status")
	}
}

type program struct {
	t      *testing.T
	port   int
	lines  chan string
	say    io.Writer
	cancel func()
	ended  chan error

	sessions atomic.Int32 // that the audit has
	isJudged atomic.Bool  // rounds are answered by the test itself
}

func begin(t *testing.T, c *cluster.Cluster, more ...string) *program {
	t.Helper()
	listener, err := net.Listen("tcp", "127.0.0.1:0")
	if err != nil {
		t.Fatal(err)
	}
	p := &program{t: t, port: listener.Addr().(*net.TCPAddr).Port, lines: make(chan string, 100000),
		ended: make(chan error, 1)}
	listener.Close()
	f, err := parse(append([]string{"--listen", fmt.Sprintf("127.0.0.1:%d", p.port), "--look", "20ms",
		"--trust-clients", "--server", fmt.Sprintf("host=127.0.0.1 port=%d user=postgres dbname=postgres sslmode=disable", c.Port)}, more...),
		io.Discard)
	if err != nil {
		t.Fatal(err)
	}
	inFrom, inTo := io.Pipe()
	outFrom, outTo := io.Pipe()
	ctx, cancel := context.WithCancel(context.Background())
	p.say, p.cancel = inTo, cancel
	go func() {
		defer close(p.lines)
		s := bufio.NewScanner(outFrom)
		for s.Buffer(nil, 64<<20); s.Scan(); {
			to := io.Writer(inTo)
			if p.isJudged.Load() {
				to = io.Discard
			}
			p.sessions.Store(int32(answer(s.Text(), int(p.sessions.Load()), to)))
			p.lines <- s.Text()
		}
		if err := s.Err(); err != nil {
			t.Error(err)
		}
	}()
	go func() { p.ended <- serve(ctx, f, outside{in: inFrom, out: outTo}) }()
	t.Cleanup(func() {
		cancel()
		if err := <-p.ended; err != nil {
			t.Error(err)
		}
		inTo.Close()
		outTo.Close()
	})
	return p
}

// answer answers each truncate as an auditor does that finds no cut, and returns how many sessions it has.
func answer(line string, sessions int, to io.Writer) int {
	switch {
	case strings.HasPrefix(line, `["open",`):
		fmt.Sscanf(line, `["open",%d`, &sessions)
	case strings.HasPrefix(line, `["join",`):
		sessions++
	case strings.HasPrefix(line, `["truncate"`):
		marks := strings.TrimSuffix(strings.Repeat("0,", sessions), ",")
		go fmt.Fprintf(to, "{\"command\":\"cut\",\"marks\":[%s]}\n", marks) // the proxy may be about to end
	}
	return sessions
}

// until returns the line that begins with a text, or the event of that name.
func (p *program) until(what string) string {
	p.t.Helper()
	for end := time.After(5 * time.Minute); ; {
		select {
		case line, ok := <-p.lines:
			var event struct{ Event string }
			if strings.HasPrefix(line, what) || json.Unmarshal([]byte(line), &event) == nil && event.Event == what {
				return line
			}
			if !ok {
				p.t.Fatalf("the feed ended without %s", what)
			}
		case <-end:
			p.t.Fatalf("no %s came", what)
		}
	}
}

func (p *program) connect(more ...string) *pgconn.PgConn {
	p.t.Helper()
	var last error
	for end := time.Now().Add(5 * time.Minute); time.Now().Before(end); time.Sleep(5 * time.Millisecond) {
		conn, err := pgconn.Connect(context.Background(),
			fmt.Sprintf("host=127.0.0.1 port=%d user=postgres dbname=postgres sslmode=disable ", p.port)+strings.Join(more, " "))
		if err == nil {
			p.t.Cleanup(func() { conn.Close(context.Background()) })
			return conn
		}
		last = err
	}
	p.t.Fatal(last)
	return nil
}

func sql(t *testing.T, conn *pgconn.PgConn, text string) string {
	t.Helper()
	results, err := conn.Exec(context.Background(), text).ReadAll()
	if err != nil {
		t.Fatalf("%s: %v", text, err)
	}
	if rows := results[len(results)-1].Rows; len(rows) > 0 {
		return string(rows[0][0])
	}
	return ""
}

func start(t *testing.T, settings ...string) *cluster.Cluster {
	t.Helper()
	c, err := cluster.Start(settings, nil)
	if errors.Is(err, cluster.ErrMissing) {
		t.Skip(err)
	}
	if err != nil {
		t.Fatal(err)
	}
	t.Cleanup(c.Stop)
	conn, err := pgconn.Connect(context.Background(),
		fmt.Sprintf("host=127.0.0.1 port=%d user=postgres dbname=postgres sslmode=disable", c.Port))
	if err != nil {
		t.Fatal(err)
	}
	defer conn.Close(context.Background())
	sql(t, conn, schema)
	return c
}

const schema = `CREATE TABLE account (id int PRIMARY KEY, balance int); INSERT INTO account VALUES (1, 100), (2, 100)`

// TestAudit: two transactions each read what the other one writes, and both reads are offered to the auditor.
func TestAudit(t *testing.T) {
	p := begin(t, start(t))
	p.until(`["open"`)
	a, b := p.connect(), p.connect()
	read := "SELECT balance FROM account ORDER BY id"
	for i := 0; i < 3; i++ { // so that the statements are tried; the read waits until the answer to the trial is there
		for _, conn := range []*pgconn.PgConn{a, b} {
			sql(t, conn, read)
			sql(t, conn, "UPDATE account SET balance = 100 WHERE id = 1")
			sql(t, conn, "UPDATE account SET balance = 100 WHERE id = 2")
		}
	}
	sql(t, a, "BEGIN ISOLATION LEVEL REPEATABLE READ")
	sql(t, b, "BEGIN ISOLATION LEVEL REPEATABLE READ")
	sql(t, a, read)
	sql(t, b, read)
	sql(t, a, "UPDATE account SET balance = 0 WHERE id = 1")
	sql(t, b, "UPDATE account SET balance = 0 WHERE id = 2")
	sql(t, a, "COMMIT")
	sql(t, b, "COMMIT")
	fmt.Fprintln(p.say, `{"command":"stop"}`)
	p.until(`["offer"`)
	p.until(`["round"`)
	p.until("stopped")
	if v := sql(t, a, "SELECT sum(balance) FROM account"); v != "0" {
		t.Errorf("traffic doesn't go on: %s", v)
	}
}

// TestNoAudit: if no slot can be made on a server, that ends the audit, not the traffic.
func TestNoAudit(t *testing.T) {
	p := begin(t, start(t, "wal_level=replica"))
	conn := p.connect()
	line := p.until("ended")
	if !strings.Contains(line, "wal_level") {
		t.Errorf("the reason is %s", line)
	}
	fmt.Fprintln(p.say, `{"command":"restart"}`)
	p.until("ended")
	fmt.Fprintln(p.say, `{"command":"stop"}`)
	p.until("stopped")
	for i := 0; i < 3; i++ {
		if v := sql(t, conn, "SELECT balance FROM account WHERE id = 1"); v != "100" {
			t.Errorf("got %s", v)
		}
	}
}

// TestLongestHold: a proxy that feeds another one's audit holds clients until it hears that the meeting is over.
func TestLongestHold(t *testing.T) {
	for _, one := range []struct {
		words []string
		want  time.Duration
	}{{nil, 3 * time.Millisecond}, {[]string{"--hold", "2ms"}, 2 * time.Millisecond},
		{[]string{"--remote", "--audit", "a", "--redis", "r", "--key", "k"}, 21 * time.Millisecond}} {
		f, err := parse(append([]string{"--server", "host=a"}, one.words...), io.Discard)
		if err != nil || f.longest() != one.want {
			t.Errorf("%v: %v, %v", one.words, f.longest(), err)
		}
	}
}

// TestTheAuditWritesNothing: meetings take no transaction number, write no row, create nothing, and send nothing on a
// client's connection, whoever is idle in a transaction or holds an old snapshot meanwhile.
func TestTheAuditWritesNothing(t *testing.T) {
	c := start(t, "autovacuum=off")
	p := begin(t, c, "--between", "10ms")
	p.until(`["open"`)
	beside, err := pgconn.Connect(context.Background(), sourceOf(c, "postgres"))
	if err != nil {
		t.Fatal(err)
	}
	defer beside.Close(context.Background())
	sql(t, beside, "BEGIN ISOLATION LEVEL REPEATABLE READ")
	state := "SELECT pg_snapshot_xmax(pg_current_snapshot()) || ' ' || (SELECT count(*) FROM pg_class) || ' ' || (SELECT " +
		"coalesce(sum(n_tup_ins + n_tup_upd + n_tup_del), 0) FROM pg_stat_user_tables WHERE relname <> 'account')"
	observer, err := pgconn.Connect(context.Background(), sourceOf(c, "postgres"))
	if err != nil {
		t.Fatal(err)
	}
	defer observer.Close(context.Background())
	sql(t, beside, state)
	silent, idle, client := p.connect(), p.connect(), p.connect()
	sql(t, silent, "SELECT 1")
	// Until the statement is rewritten: then nothing is left to be tried in the block.
	last := fmt.Sprintf("SELECT query FROM pg_stat_activity WHERE pid = %d", idle.PID())
	for end := time.Now().Add(5 * time.Minute); !strings.Contains(sql(t, observer, last), "zanteyard FROM account"); {
		sql(t, idle, "SELECT balance FROM account WHERE id = 1")
		if time.Now().After(end) {
			t.Fatal("the statement isn't seen")
		}
	}
	sql(t, idle, "BEGIN")
	sql(t, idle, "SELECT balance FROM account WHERE id = 1")
	before := sql(t, observer, state)
	seen := fmt.Sprintf("SELECT string_agg(state_change || ' ' || query, '; ' ORDER BY pid) FROM pg_stat_activity WHERE pid IN (%d, %d)",
		silent.PID(), idle.PID())
	said := sql(t, observer, seen)
	for meetings := 0; meetings < 5; meetings++ {
		for i := 0; i < 20; i++ {
			sql(t, client, "SELECT balance FROM account WHERE id = 1")
		}
		fmt.Fprintln(p.say, `{"command":"round"}`)
		p.until("meeting")
		p.until(`["truncate"]`)
	}
	if after := sql(t, observer, state); after != before {
		t.Errorf("there was %s, and now there is %s", before, after)
	}
	if after := sql(t, observer, seen); after != said || !strings.Contains(said, "account") {
		t.Errorf("clients' last statements were %s, and now they are %s", said, after)
	}
	if it := p.counts(); it.Offered == it.Fences || it.Fences == 0 {
		t.Errorf("that is too little to show anything: %+v", it)
	}
	sql(t, idle, "COMMIT")
}

// TestRestart: the server is restarted as after a crash. The audit ends, the proxy takes connections again, and the
// parent may have another audit begin.
func TestRestart(t *testing.T) {
	c := start(t)
	p := begin(t, c)
	p.until(`["open"`)
	conn := p.connect()
	sql(t, conn, "SELECT balance FROM account WHERE id = 1")
	if err := c.Restart(false); err != nil {
		t.Fatal(err)
	}
	if _, err := conn.Exec(context.Background(), "SELECT 1").ReadAll(); err == nil {
		t.Error("the connection outlasts its server")
	}
	p.until("ended")
	conn = p.connect()
	if v := sql(t, conn, "SELECT balance FROM account WHERE id = 1"); v != "100" {
		t.Errorf("got %s", v)
	}
	fmt.Fprintln(p.say, `{"command":"restart"}`)
	p.until("started")
	p.until(`["open"`)
	for i := 0; i < 5; i++ {
		sql(t, conn, "UPDATE account SET balance = 100 WHERE id = 1")
	}
	fmt.Fprintln(p.say, `{"command":"stop"}`)
	p.until(`["offer"`)
	p.until("stopped")
}

// TestURLsFromTheEnvironment: they may contain passwords, so neither a list of processes nor --help shows them.
func TestURLsFromTheEnvironment(t *testing.T) {
	t.Setenv(serverURL, "postgresql://u@a/b?password=s3cret")
	t.Setenv(redisURL, "redis://:s3cret@c")
	f, err := parse(nil, io.Discard)
	if err != nil || f.server != "postgresql://u@a/b?password=s3cret" || f.redis != "redis://:s3cret@c" {
		t.Errorf("the server %q, the Redis %q: %v", f.server, f.redis, err)
	}
	if f, err = parse([]string{"--server", "host=d", "--redis", "redis://e"}, io.Discard); err != nil || f.server != "host=d" ||
		f.redis != "redis://e" {
		t.Errorf("with options, the server %q, the Redis %q: %v", f.server, f.redis, err)
	}
	var help strings.Builder
	if _, err := parse([]string{"--help"}, &help); !errors.Is(err, flag.ErrHelp) || strings.Contains(help.String(), "s3cret") ||
		!strings.Contains(help.String(), serverURL) {
		t.Errorf("%v: %s", err, help.String())
	}
}
