package server

import (
	"bytes"
	"fmt"
	"io"
	"math/rand"
	"net"
	"os"
	"runtime"
	"sync"
	"testing"
	"time"

	"github.com/jackc/pgproto3/v2"

	"zanteyard/wire"
)

// raw is a client that speaks the protocol itself.
type raw struct {
	*net.TCPConn
	in   *wire.Reader
	left []byte // messages that were read and not looked at
}

func connectRaw(port int) (*raw, error) {
	conn, err := net.Dial("tcp", fmt.Sprintf("127.0.0.1:%d", port))
	if err != nil {
		return nil, err
	}
	conn.SetDeadline(time.Now().Add(3 * time.Minute))
	r := &raw{TCPConn: conn.(*net.TCPConn), in: wire.NewReader(conn)}
	start := pgproto3.StartupMessage{ProtocolVersion: pgproto3.ProtocolVersionNumber,
		Parameters: map[string]string{"user": "postgres", "database": "postgres"}}
	if _, err := r.Write(start.Encode(nil)); err != nil {
		return nil, err
	}
	return r, r.ready(nil)
}

func (r *raw) query(text string) error {
	_, err := r.Write((&pgproto3.Query{String: text}).Encode(nil))
	return err
}

// ready reads up to a ReadyForQuery, and counts the bytes of rows.
func (r *raw) ready(rows *int) error {
	for {
		if len(r.left) == 0 {
			all, more, err := r.in.Whole()
			if err == nil && more > 0 {
				all, err = r.in.Rest(all)
			}
			if err != nil {
				return err
			}
			r.left = all
		}
		n, kind := wire.Length(r.left), r.left[0]
		r.left = r.left[n:]
		if kind == 'D' && rows != nil {
			*rows += n
		}
		if kind == 'Z' {
			return nil
		}
	}
}

func descriptors(t *testing.T) int {
	t.Helper()
	all, err := os.ReadDir("/proc/self/fd")
	if err != nil {
		t.Skip(err)
	}
	return len(all)
}

func until(t *testing.T, what string, f func() bool) {
	t.Helper()
	for end := time.Now().Add(5 * time.Minute); !f(); time.Sleep(5 * time.Millisecond) {
		if time.Now().After(end) {
			t.Fatalf("waited in vain until %s", what)
		}
	}
}

// inUse returns how many bytes of memory are in use. If that is above the limit, garbage is collected first.
func inUse(most uint64) uint64 {
	var m runtime.MemStats
	if runtime.ReadMemStats(&m); m.HeapAlloc > most {
		runtime.GC()
		runtime.ReadMemStats(&m)
	}
	return m.HeapAlloc
}

// TestSlowReaders: clients that don't read what they are sent, and servers that don't read what clients send, delay
// nobody else, take no memory, and lose nothing.
func TestSlowReaders(t *testing.T) {
	needServer(t)
	port, _ := proxy(t, url("postgres", theCluster.Port, "sslmode=disable"), nil)
	const rows, width, asked, most = 20000, 1000, 60000, 32 << 20
	var slow, full []*raw
	for i := 0; i < 3; i++ {
		s, err := connectRaw(port)
		if err != nil {
			t.Fatal(err)
		}
		defer s.Close()
		if err := s.query(fmt.Sprintf("SELECT repeat('x', %d) FROM generate_series(1, %d)", width, rows)); err != nil {
			t.Fatal(err)
		}
		slow = append(slow, s)
		f, err := connectRaw(port)
		if err != nil {
			t.Fatal(err)
		}
		defer f.Close()
		if err := f.query("SELECT pg_sleep(3)"); err != nil {
			t.Fatal(err)
		}
		full = append(full, f)
	}
	var writers sync.WaitGroup
	for _, f := range full { // about 20 MB each
		f := f
		writers.Add(1)
		go func() {
			defer writers.Done()
			one := (&pgproto3.Query{String: "SELECT 1 /* " + string(bytes.Repeat([]byte{'x'}, 300)) + " */"}).Encode(nil)
			for i := 0; i < asked; i++ {
				if _, err := f.Write(one); err != nil {
					t.Error(err)
					return
				}
			}
		}()
	}
	fast, err := connectRaw(port)
	if err != nil {
		t.Fatal(err)
	}
	defer fast.Close()
	var longest time.Duration
	var memory uint64
	for n := 0; n < 300; n++ {
		before := time.Now()
		if err := fast.query("SELECT 1"); err != nil {
			t.Fatal(err)
		}
		if err := fast.ready(nil); err != nil {
			t.Fatal(err)
		}
		if took := time.Since(before); took > longest {
			longest = took
		}
		if n := inUse(most); n > memory {
			memory = n
		}
	}
	t.Logf("the longest wait beside them: %s; %d KiB of memory", longest, memory>>10)
	if longest > 20*time.Second || memory > most {
		t.Errorf("others waited for %s, and %d bytes of memory are in use", longest, memory)
	}
	for _, s := range slow {
		got := 0
		if err := s.ready(&got); err != nil || got != rows*(width+11) {
			t.Errorf("%d bytes of rows came, %v", got, err)
		}
	}
	for _, f := range full {
		got := 0
		for i := 0; i <= asked; i++ {
			if err := f.ready(&got); err != nil {
				t.Fatal(err)
			}
		}
		if want := 11 + asked*12; got != want { // pg_sleep's row, and the others'
			t.Errorf("%d bytes of rows came, not %d", got, want)
		}
	}
	writers.Wait()
}

// TestEnds: connections end at any moment, from either side, and leave nothing.
func TestEnds(t *testing.T) {
	needServer(t)
	seed := time.Now().UnixNano()
	t.Logf("seed %d", seed)
	port, sink := proxy(t, url("postgres", theCluster.Port, "sslmode=disable"), nil)
	if _, err := ask(url("postgres", port, "sslmode=disable"), "SELECT 1"); err != nil {
		t.Fatal(err)
	}
	until(t, "the first connection has ended", func() bool { return sink.ended.Load() == 1 })
	files, routines := descriptors(t), runtime.NumGoroutine()
	queries := []string{"SELECT 1", "SELECT pg_sleep(0.01)", "SELECT repeat('x', 1000) FROM generate_series(1, 5000)",
		"SELECT repeat('x', 3000000)", "SELECT pg_terminate_backend(pg_backend_pid())", "BEGIN", "SELEC",
		"SELECT '" + string(bytes.Repeat([]byte{'x'}, 2<<20)) + "'", "COPY (SELECT generate_series(1, 10000)) TO STDOUT"}
	const workers, each = 12, 40
	var all sync.WaitGroup
	for w := 0; w < workers; w++ {
		all.Add(1)
		go func(r *rand.Rand) {
			defer all.Done()
			for i := 0; i < each; i++ {
				c, err := connectRaw(port)
				if err != nil {
					t.Error(err)
					return
				}
				for n := r.Intn(4); n > 0; n-- {
					if c.query(queries[r.Intn(len(queries))]) != nil {
						break // its server process was ended
					}
					if r.Intn(2) == 0 && c.ready(nil) != nil {
						break
					}
				}
				switch r.Intn(5) {
				case 0:
					c.Write((&pgproto3.Terminate{}).Encode(nil))
				case 1:
					c.CloseWrite() // it is answered, and then the server ends
					io.Copy(io.Discard, c)
				case 2:
					c.SetLinger(0) // a reset
				case 3:
					c.Write((&pgproto3.Query{String: "SELECT 1"}).Encode(nil)[:r.Intn(8)])
				}
				c.Close()
			}
		}(rand.New(rand.NewSource(seed + int64(w))))
	}
	all.Wait()
	until(t, "all have ended", func() bool { return sink.ended.Load() == 1+workers*each })
	until(t, "their descriptors and goroutines are gone", func() bool {
		return descriptors(t) <= files && runtime.NumGoroutine() <= routines
	})
	if _, err := ask(url("postgres", port, "sslmode=disable"), "SELECT 1"); err != nil {
		t.Error(err)
	}
}
