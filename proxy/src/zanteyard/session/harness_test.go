package session

import (
	"bytes"
	"context"
	"errors"
	"flag"
	"fmt"
	"net"
	"os"
	"strings"
	"sync"
	"testing"
	"time"

	"github.com/jackc/pgconn"
	"github.com/jackc/pgproto3/v2"

	"zanteyard/cluster"
	"zanteyard/definitions"
	"zanteyard/loop"
	"zanteyard/record"
	"zanteyard/wire"
)

// One server and one catalog serve all tests in the package.
var (
	theCluster   *cluster.Cluster
	definitions_ *definitions.Definitions
	missing      error
	// loops_ serve all sessions in the tests; nil if each has its own goroutines, as connections with TLS do.
	loops_  *loop.Loops
	without = flag.Bool("without-loop", false, "have each session be served by goroutines of its own")
)

const schema = `
CREATE TABLE t (id int PRIMARY KEY, v int, w text);
CREATE TABLE u (a int, b text, v int, PRIMARY KEY (a, b));
CREATE TABLE big (id bigint PRIMARY KEY, body text);
CREATE TABLE beyond ("é" int PRIMARY KEY, v int); INSERT INTO beyond VALUES (1, 1);
CREATE TABLE wide (name text PRIMARY KEY, v int);
CREATE TABLE keyless (a int, b int);
CREATE TABLE part (id int PRIMARY KEY, v int) PARTITION BY RANGE (id);
CREATE TABLE part_low PARTITION OF part FOR VALUES FROM (0) TO (100);
CREATE TABLE part_high PARTITION OF part FOR VALUES FROM (100) TO (1000);
CREATE TABLE changing (id int PRIMARY KEY, v int, w int);
CREATE TABLE serials (id serial PRIMARY KEY, v int);
CREATE TABLE sorted (a int, b int, c int, d int, v int, PRIMARY KEY (a, b, c, d));
INSERT INTO sorted SELECT i, i, i, i, i FROM generate_series(1, 100000) i; ANALYZE sorted;
CREATE DOMAIN certain AS int NOT NULL;
CREATE TABLE child (id int PRIMARY KEY, parent int REFERENCES t ON DELETE CASCADE);
CREATE VIEW seen AS SELECT id, v FROM t WHERE v > 0;
CREATE FUNCTION bump(i int) RETURNS int LANGUAGE plpgsql AS $$BEGIN UPDATE t SET v = v +
	1 WHERE id = i; RETURN i; END$$;
CREATE FUNCTION loud(i int) RETURNS int LANGUAGE plpgsql AS $$BEGIN RAISE NOTICE 'loud %', i; RETURN i; END$$;
CREATE PROCEDURE twice(i int) LANGUAGE plpgsql AS $$BEGIN UPDATE t SET v = v +
	1 WHERE id = i; COMMIT; UPDATE t SET v = v + 1 WHERE id = i; END$$;
CREATE PROCEDURE once(i int) LANGUAGE plpgsql AS $$BEGIN UPDATE t SET v = v +
	1 WHERE id = i; END$$;
CREATE ROLE limited LOGIN;
GRANT SELECT (v) ON t TO limited;
GRANT SELECT, UPDATE ON u TO limited;
`

// fill restores all rows without changing definitions. What the planner knows of them doesn't depend on when it is run.
const fill = `
DELETE FROM child; DELETE FROM t; DELETE FROM u; DELETE FROM big; DELETE FROM keyless; DELETE FROM part;
DELETE FROM serials;
INSERT INTO t SELECT i, i * 10, 'row ' || i FROM generate_series(1, 20) i;
INSERT INTO u SELECT i % 4, 'b' || i, i FROM generate_series(1, 12) i;
INSERT INTO part SELECT i * 20, i FROM generate_series(1, 9) i;
INSERT INTO keyless VALUES (1, 1), (2, 2);
INSERT INTO child SELECT i, i FROM generate_series(1, 5) i;
SELECT setval('serials_id_seq', 1, false);
ANALYZE t; ANALYZE u; ANALYZE part; ANALYZE child;
`

// alone takes away what other tests have made that any statement may call, and the room of the rows that they have deleted:
// both decide which statements are asked once more, or looked up.
func alone(t testing.TB) {
	t.Helper()
	sql(t, "DROP SCHEMA IF EXISTS m, early, elsewhere, tenant CASCADE")
	sql(t, "VACUUM FULL t, u, part, child")
	sql(t, "ANALYZE t, u, part, child")
}

func TestMain(m *testing.M) {
	os.Exit(func() int {
		if flag.Parse(); !*without {
			var err error
			if loops_, err = loop.New(); err != nil {
				fmt.Fprintln(os.Stderr, err)
				return 1
			}
		}
		theCluster, missing = cluster.Start([]string{"autovacuum=off"}, nil)
		if missing != nil && !errors.Is(missing, cluster.ErrMissing) {
			fmt.Fprintln(os.Stderr, missing)
			return 1
		}
		if missing == nil {
			defer theCluster.Stop()
			if err := prepare(); err != nil {
				fmt.Fprintln(os.Stderr, err)
				return 1
			}
		}
		return m.Run()
	}())
}

func config() *pgconn.Config {
	c, err := pgconn.ParseConfig(fmt.Sprintf("postgresql://postgres@127.0.0.1:%d/%s?sslmode=disable",
		theCluster.Port, database_))
	if err != nil {
		panic(err)
	}
	return c
}

func prepare() error {
	ctx := context.Background()
	conn, err := pgconn.ConnectConfig(ctx, config())
	if err != nil {
		return err
	}
	defer conn.Close(ctx)
	if _, err := conn.Exec(ctx, schema).ReadAll(); err != nil {
		return err
	}
	definitions_, err = definitions.Open(ctx, config(), time.Hour, func(string) {})
	return err
}

func needServer(t testing.TB) {
	t.Helper()
	if missing != nil {
		t.Skip(missing)
	}
}

// sql runs statements directly.
func sql(t testing.TB, text string) [][]string {
	t.Helper()
	ctx := context.Background()
	conn, err := pgconn.ConnectConfig(ctx, config())
	if err != nil {
		t.Fatal(err)
	}
	defer conn.Close(ctx)
	results, err := conn.Exec(ctx, text).ReadAll()
	if err != nil {
		t.Fatal(err)
	}
	var all [][]string
	for _, r := range results {
		for _, row := range r.Rows {
			var texts []string
			for _, v := range row {
				texts = append(texts, string(v))
			}
			all = append(all, texts)
		}
	}
	return all
}

// told is a sink that records.
type told struct {
	lock         sync.Mutex
	transactions []record.Transaction
	unseen       []string
	untimed      int // transactions reported without a beginning, or with an end before it
}

func (s *told) Connection(record.Connection) {}

func (s *told) Transaction(t record.Transaction) {
	s.lock.Lock()
	defer s.lock.Unlock()
	s.transactions = append(s.transactions, t)
	if t.Began.IsZero() || t.Ended.Before(t.Began) {
		s.untimed++
	}
}

func (s *told) Unseen(shape, reason string, _ bool) {
	s.lock.Lock()
	defer s.lock.Unlock()
	s.unseen = append(s.unseen, shape+": "+reason)
}

func (s *told) take() []record.Transaction {
	s.lock.Lock()
	defer s.lock.Unlock()
	all := s.transactions
	s.transactions = nil
	return all
}

// forget forgets what was left out.
func (s *told) forget() {
	s.lock.Lock()
	defer s.lock.Unlock()
	s.unseen = nil
}

func (s *told) left(part string) bool {
	s.lock.Lock()
	defer s.lock.Unlock()
	for _, u := range s.unseen {
		if strings.Contains(u, part) {
			return true
		}
	}
	return false
}

// proxied is one connection through a session.
type proxied struct {
	*client
	session *Session
	sink    *told
	ended   chan error
}

var connections uint64

// early_ is what the next client sends before the server is ready for it.
var early_ []byte

// database_ is the one that clients connect to.
var database_ = "postgres"

// pooler_ is the port of a pooler between sessions and the server, 0 for none.
var pooler_ int

// shared_ is shared by all connections of all tests: what was tried on one is used on the next.
var shared_ = NewShared()

// through connects through a session.
func through(t testing.TB, user string, change func(*Options)) *proxied {
	t.Helper()
	p := &proxied{sink: &told{}, ended: make(chan error, 1)}
	options := &Options{
		Plans: definitions_, Sink: p.sink, Policy: Policy{true, true, false}, ReadLimit: 10000,
		Auditing:   func() bool { return true },
		Generation: definitions_.Generation, Defined: func() {}, Log: func(s string) { t.Log(s) },
		Bound: time.Minute, Shared: shared_,
	}
	if change != nil {
		change(options)
	}
	listener, err := net.Listen("tcp", "127.0.0.1:0")
	if err != nil {
		t.Fatal(err)
	}
	defer listener.Close()
	far, err := net.Dial("tcp", listener.Addr().String())
	if err != nil {
		t.Fatal(err)
	}
	near, err := listener.Accept()
	if err != nil {
		t.Fatal(err)
	}
	port := theCluster.Port
	if pooler_ != 0 {
		port = pooler_
	}
	var server net.Conn
	if pieces_ != nil {
		far = inPieces{far, pieces_}
		server = behindRelay(t, port)
	} else if server, err = net.Dial("tcp", fmt.Sprintf("127.0.0.1:%d", port)); err != nil {
		t.Fatal(err)
	}
	if _, err := server.Write(startupMessage(user)); err != nil {
		t.Fatal(err)
	}
	t.Cleanup(func() {
		p.sink.lock.Lock()
		defer p.sink.lock.Unlock()
		if p.sink.untimed > 0 {
			t.Errorf("%d transactions were told without the times between which they ran", p.sink.untimed)
		}
	})
	connections++
	a, b := taken(near, server)
	p.session = New(connections, a, b, options)
	if early := early_; early != nil {
		early_ = nil
		if _, err := far.Write(early); err != nil {
			t.Fatal(err)
		}
	}
	go func() { p.ended <- p.session.Run() }()
	p.client = newClient(t, far)
	return p
}

// taken returns two connections that a loop serves, if there is one.
func taken(client, server net.Conn) (Conn, Conn) {
	if loops_ == nil {
		return client, server
	}
	a, b, _ := loops_.Take(client, server)
	return a, b
}

// settle waits until everything that waits for a trial was tried, unless a transaction is open.
func (p *proxied) settle() {
	p.t.Helper()
	until(p.t, "all is tried", func() bool {
		p.session.state.Lock()
		defer p.session.state.Unlock()
		if p.session.status != 'I' && p.session.queue.empty() {
			return true
		}
		return p.session.idle() && !(p.session.trust.work() && p.session.looking()) && p.session.trial == nil
	})
}

func until(t testing.TB, what string, f func() bool) {
	t.Helper()
	for end := time.Now().Add(5 * time.Minute); !f(); time.Sleep(time.Millisecond) {
		if time.Now().After(end) {
			t.Fatalf("waited in vain until %s", what)
		}
	}
}

func startupMessage(user string) []byte {
	return (&pgproto3.StartupMessage{ProtocolVersion: pgproto3.ProtocolVersionNumber,
		Parameters: map[string]string{"user": user, "database": database_, "application_name": "test"}}).Encode(nil)
}

// client speaks the protocol message by message.
type client struct {
	t    testing.TB
	conn net.Conn
	in   *wire.Reader
	left []byte
}

func direct(t testing.TB, user string) *client {
	t.Helper()
	conn, err := net.Dial("tcp", fmt.Sprintf("127.0.0.1:%d", theCluster.Port))
	if err != nil {
		t.Fatal(err)
	}
	if _, err := conn.Write(startupMessage(user)); err != nil {
		t.Fatal(err)
	}
	return newClient(t, conn)
}

func newClient(t testing.TB, conn net.Conn) *client {
	t.Helper()
	c := &client{t: t, conn: conn, in: wire.NewReader(conn)}
	t.Cleanup(func() { conn.Close() })
	conn.SetDeadline(time.Now().Add(5 * time.Minute))
	c.until('Z')
	return c
}

func (c *client) send(b []byte) {
	c.t.Helper()
	if _, err := c.conn.Write(b); err != nil {
		c.t.Fatal(err)
	}
}

// next returns one message.
func (c *client) next() []byte {
	c.t.Helper()
	if len(c.left) == 0 {
		messages, more, err := c.in.Whole()
		if err != nil {
			c.t.Fatal(err)
		}
		if more > 0 {
			if messages, err = c.in.Rest(messages); err != nil {
				c.t.Fatal(err)
			}
		}
		c.left = messages
	}
	n := wire.Length(c.left)
	m := append([]byte(nil), c.left[:n]...)
	c.left = c.left[n:]
	return m
}

// until returns the messages up to one of a type.
func (c *client) until(kind byte) [][]byte {
	c.t.Helper()
	var all [][]byte
	for {
		m := c.next()
		all = append(all, m)
		if m[0] == kind {
			return all
		}
	}
}

// step is what a client sends, and what it reads before it continues: messages up to one of a type, a number of times.
type step struct {
	send  []byte
	until byte
	times int
}

func (c *client) do(s step) [][]byte {
	c.t.Helper()
	c.send(s.send)
	var all [][]byte
	times := s.times
	if times == 0 && s.until != 0 {
		times = 1
	}
	for ; times > 0; times-- {
		all = append(all, c.until(s.until)...)
	}
	return all
}

func (c *client) query(text string) [][]byte {
	c.t.Helper()
	return c.do(query(text))
}

func query(text string) step { return step{encoded(&pgproto3.Query{String: text}), 'Z', 1} }

func messages(until byte, m ...pgproto3.FrontendMessage) step { return step{encoded(m...), until, 1} }

// show makes answers readable, for a failure.
func show(all [][]byte) string {
	var b bytes.Buffer
	for _, m := range all {
		body := m[wire.Header:]
		if len(body) > 200 {
			body = body[:200]
		}
		fmt.Fprintf(&b, "%c %q\n", m[0], body)
	}
	return b.String()
}
