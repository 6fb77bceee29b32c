package main

import (
	"context"
	"encoding/json"
	"fmt"
	"io"
	"net"
	"os"
	"os/exec"
	"path/filepath"
	"strings"
	"syscall"
	"testing"
	"time"

	"github.com/gomodule/redigo/redis"
	"github.com/jackc/pgconn"

	"zanteyard/cluster"
)

// redisServer is a Redis server of the test.
type redisServer struct {
	t       *testing.T
	port    int
	folder  string
	process *exec.Cmd
}

func startRedis(t *testing.T) *redisServer {
	t.Helper()
	if _, err := exec.LookPath("redis-server"); err != nil {
		t.Skip("redis-server isn't installed")
	}
	r := &redisServer{t: t, port: freePort(t), folder: t.TempDir()}
	t.Cleanup(r.stop)
	r.start()
	return r
}

func freePort(t *testing.T) int {
	t.Helper()
	listener, err := net.Listen("tcp", "127.0.0.1:0")
	if err != nil {
		t.Fatal(err)
	}
	defer listener.Close()
	return listener.Addr().(*net.TCPAddr).Port
}

func (r *redisServer) start() {
	r.t.Helper()
	r.process = exec.Command("redis-server", "--port", fmt.Sprint(r.port), "--bind", "127.0.0.1", "--dir", r.folder, "--save", "")
	if err := r.process.Start(); err != nil {
		r.t.Fatal(err)
	}
	for end := time.Now().Add(5 * time.Minute); ; time.Sleep(10 * time.Millisecond) {
		if conn, err := redis.DialURL(r.url()); err == nil {
			conn.Close()
			return
		} else if time.Now().After(end) {
			r.t.Fatal(err)
		}
	}
}

func (r *redisServer) stop() {
	r.process.Process.Signal(syscall.SIGKILL)
	r.process.Wait()
}

func (r *redisServer) url() string { return fmt.Sprintf("redis://127.0.0.1:%d/0", r.port) }

// keyFile makes a key that proxies share.
func keyFile(t *testing.T, text string) string {
	t.Helper()
	path := filepath.Join(t.TempDir(), "key")
	if err := os.WriteFile(path, []byte(text), 0o600); err != nil {
		t.Fatal(err)
	}
	return path
}

const someKey = "a key of more than sixteen bytes"

// elsewhere runs a proxy that feeds another one's audit, like a separate program except for its memory.
func elsewhere(t *testing.T, source string, more ...string) (p *program, end func()) {
	t.Helper()
	p = &program{t: t, port: freePort(t), ended: make(chan error, 1)}
	f, err := parse(append([]string{"--listen", fmt.Sprintf("127.0.0.1:%d", p.port), "--look", "20ms", "--trust-clients", "--server", source,
		"--remote", "--name", "elsewhere"}, more...), io.Discard)
	if err != nil {
		t.Fatal(err)
	}
	ctx, cancel := context.WithCancel(context.Background())
	go func() { p.ended <- serve(ctx, f, outside{in: strings.NewReader(""), out: io.Discard}) }()
	ended := false
	end = func() {
		if cancel(); !ended {
			ended = true
			if err := <-p.ended; err != nil {
				t.Error(err)
			}
		}
	}
	t.Cleanup(end)
	return p, end
}

func sourceOf(c *cluster.Cluster, database string) string {
	return fmt.Sprintf("host=127.0.0.1 port=%d user=postgres dbname=%s sslmode=disable", c.Port, database)
}

// coverageEvent has the parts that these tests look at.
type coverageEvent struct {
	Folded map[string]uint64
	Reads  struct{ Offered uint64 }
	Remote *struct {
		Proxies []struct {
			Name         string
			Feeds        bool
			Connections  int
			Transactions uint64
		}
		Refused uint64
		Down    string
	}
}

// covered waits for a coverage event for which holds returns true.
func (p *program) covered(what string, holds func(coverageEvent) bool) coverageEvent {
	p.t.Helper()
	for end := time.Now().Add(5 * time.Minute); time.Now().Before(end); {
		var it coverageEvent
		if err := json.Unmarshal([]byte(p.until("coverage")), &it); err != nil {
			p.t.Fatal(err)
		}
		if holds(it) {
			return it
		}
	}
	p.t.Fatalf("it never came to this: %s", what)
	return coverageEvent{}
}

func feeds(n int) func(coverageEvent) bool {
	return func(it coverageEvent) bool {
		count := 0
		for _, one := range it.Remote.Proxies {
			if one.Feeds && one.Connections > 0 {
				count++
			}
		}
		return count == n
	}
}

// offered waits until a transaction of one connection reads what one of the other wrote, and vice versa: both are
// audited.
func offered(t *testing.T, p *program, a, b *pgconn.PgConn) {
	t.Helper()
	read, write := "SELECT balance FROM account WHERE id = 1", "UPDATE account SET balance = balance + 1 WHERE id = 1"
	before := p.covered("any", whatever).Reads.Offered
	for end := time.Now().Add(5 * time.Minute); time.Now().Before(end); {
		for i := 0; i < 20; i++ {
			for _, conn := range []*pgconn.PgConn{a, b} {
				sql(t, conn, read)
				sql(t, conn, write)
			}
		}
		fmt.Fprintln(p.say, `{"command":"round"}`)
		if it := p.covered("any", whatever); it.Reads.Offered > before+40 {
			return
		}
	}
	t.Fatal("the reads of both aren't offered")
}

// TestRemote makes proxies, as if on other machines, feed one audit.
func TestRemote(t *testing.T) {
	c, r := start(t), startRedis(t)
	shared := []string{"--redis", r.url(), "--audit", "shop"}
	key := []string{"--key", keyFile(t, someKey)}
	p := begin(t, c, append(shared, key...)...)
	p.until(`["open"`)
	sql(t, p.connect(), "CREATE DATABASE till")
	t.Run("refused", func(t *testing.T) {
		for _, one := range []struct{ database, key string }{{"till", someKey}, {"postgres", someKey + "!"}} {
			refused(t, p, sourceOf(c, one.database), append(shared, "--key", keyFile(t, one.key))...)
		}
	})
	t.Run("one audit", func(t *testing.T) { oneAudit(t, p, c, r, append(shared, key...)) })
}

// oneAudit: two proxies feed one audit while Redis loses everything, while one of them ends and another one comes, and
// while somebody writes forged messages.
func oneAudit(t *testing.T, p *program, c *cluster.Cluster, r *redisServer, shared []string) {
	other, end := elsewhere(t, sourceOf(c, "postgres"), shared...)
	here, there := p.connect(), other.connect()
	p.covered("the other proxy feeds it", feeds(1))
	offered(t, p, here, there)

	before := p.covered("any", whatever).Remote.Refused
	conn, err := redis.DialURL(r.url())
	if err != nil {
		t.Fatal(err)
	}
	for i := 0; i < 3; i++ {
		if _, err := conn.Do("XADD", "zanteyard watch shop:proxies", "*", "m", "forged", "s", "signature"); err != nil {
			t.Fatal(err)
		}
	}
	conn.Close()
	p.covered("forged messages are refused, and counted", func(it coverageEvent) bool { return it.Remote.Refused == before+3 })

	r.stop()
	p.covered("Redis is away", func(it coverageEvent) bool { return it.Remote.Down != "" })
	for i := 0; i < 3; i++ { // traffic goes on
		sql(t, there, "UPDATE account SET balance = 0 WHERE id = 2")
	}
	r.start() // with nothing of what it had before
	p.covered("the other proxy feeds it again", feeds(1))
	offered(t, p, here, there)

	end()
	p.covered("the other proxy is gone", func(it coverageEvent) bool { return !it.Remote.Proxies[0].Feeds })
	again, _ := elsewhere(t, sourceOf(c, "postgres"), shared...)
	there = again.connect()
	p.covered("another one has come", feeds(1))
	fmt.Fprintln(p.say, `{"command":"restart"}`)
	p.until("restarted")
	offered(t, p, here, there) // its connections are in the next audit too
	fmt.Fprintln(p.say, `{"command":"stop"}`)
	p.until("stopped")
}

func whatever(coverageEvent) bool { return true }

// refused: a proxy that doesn't belong to the audit takes no part in it, and its clients notice nothing.
func refused(t *testing.T, p *program, source string, more ...string) {
	other, end := elsewhere(t, source, more...)
	defer end()
	source = strings.Replace(source, source[strings.Index(source, "port="):strings.Index(source, " user=")], fmt.Sprint("port=", other.port), 1)
	var conn *pgconn.PgConn
	var err error
	for until := time.Now().Add(5 * time.Minute); conn == nil && time.Now().Before(until); time.Sleep(10 * time.Millisecond) {
		conn, err = pgconn.Connect(context.Background(), source)
	}
	if err != nil {
		t.Fatal(err)
	}
	defer conn.Close(context.Background())
	for begun := time.Now(); time.Since(begun) < 700*time.Millisecond; time.Sleep(20 * time.Millisecond) {
		if sql(t, conn, "SELECT 7") != "7" {
			t.Error("a client sees something")
		}
	}
	if it := p.covered("any", whatever); len(it.Remote.Proxies) != 0 {
		t.Errorf("proxies feed the audit that aren't of it: %+v", it.Remote)
	}
}
