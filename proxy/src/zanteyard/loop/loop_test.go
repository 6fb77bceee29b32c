package loop

import (
	"bytes"
	"errors"
	"io"
	"math/rand"
	"net"
	"os"
	"sync"
	"testing"
	"time"
)

// enough is a bound for things that take no time, even on a busy machine.
const enough = 5 * time.Minute

// pair returns a connection over a TCP listener, or a Unix socket.
func pair(t testing.TB, network string) (near, far net.Conn) {
	t.Helper()
	address := "127.0.0.1:0"
	if network == "unix" {
		address = t.TempDir() + "/s"
	}
	listener, err := net.Listen(network, address)
	if err != nil {
		t.Fatal(err)
	}
	defer listener.Close()
	if far, err = net.Dial(network, listener.Addr().String()); err != nil {
		t.Fatal(err)
	}
	if near, err = listener.Accept(); err != nil {
		t.Fatal(err)
	}
	t.Cleanup(func() { far.Close() })
	far.SetDeadline(time.Now().Add(2 * enough))
	return near, far
}

// taken returns two connections, one side of each taken by the loops.
func taken(t testing.TB, l *Loops, network string) (a, b *Conn, farA, farB net.Conn) {
	t.Helper()
	nearA, farA := pair(t, network)
	nearB, farB := pair(t, network)
	a, b, ok := l.Take(nearA, nearB)
	if !ok {
		t.Fatal("plain sockets weren't taken")
	}
	return a, b, farA, farB
}

func started(t testing.TB, n int) *Loops {
	t.Helper()
	l, err := New()
	if err == nil {
		err = l.Share(n)
	}
	if err != nil {
		t.Fatal(err)
	}
	return l
}

func descriptors(t testing.TB) int {
	t.Helper()
	all, err := os.ReadDir("/proc/self/fd")
	if err != nil {
		t.Skip(err)
	}
	return len(all)
}

func until(t testing.TB, what string, f func() bool) {
	t.Helper()
	for end := time.Now().Add(enough); !f(); time.Sleep(time.Millisecond) {
		if time.Now().After(end) {
			t.Fatalf("waited in vain until %s", what)
		}
	}
}

// echo answers with what it reads, as long as it needn't wait. It counts calls that overlap.
type echo struct {
	c       *Conn
	calling sync.Mutex
	overlap bool
	ended   chan error
}

func (e *echo) turn() {
	if !e.calling.TryLock() {
		e.overlap = true
		return
	}
	defer e.calling.Unlock()
	var b [256]byte
	n, err := e.c.TryRead(b[:])
	if err == nil {
		_, err = e.c.TryWrite(b[:n])
	}
	if err != nil && err != ErrWait {
		e.c.Leave()
		e.ended <- err
	}
}

// TestMoves: connections are answered while they are handed from loop to loop, each by one loop at a time.
func TestMoves(t *testing.T) {
	before := descriptors(t)
	l := started(t, 1)
	var clients sync.WaitGroup
	var all []*echo
	for i := 0; i < 16; i++ {
		a, b, farA, farB := taken(t, l, "tcp")
		for c, far := range map[*Conn]net.Conn{a: farA, b: farB} {
			e := &echo{c: c, ended: make(chan error, 1)}
			all = append(all, e)
			c.Serve(e.turn)
			clients.Add(1)
			go func(far net.Conn, seed int64) {
				defer clients.Done()
				r := rand.New(rand.NewSource(seed))
				for n := 0; n < 300; n++ {
					sent := make([]byte, 1+r.Intn(200))
					r.Read(sent)
					got := make([]byte, len(sent))
					if _, err := far.Write(sent); err != nil {
						t.Error(err)
						return
					}
					if _, err := io.ReadFull(far, got); err != nil || !bytes.Equal(got, sent) {
						t.Errorf("%v, or another answer than what was sent", err)
						return
					}
				}
				far.Close()
			}(far, int64(len(all)))
		}
	}
	stop, moved := make(chan struct{}), make(chan struct{})
	go func() {
		defer close(moved)
		for n := 1; ; n++ {
			select {
			case <-stop:
				return
			case <-time.After(time.Millisecond):
				if err := l.Share(1 + n%4); err != nil {
					t.Error(err)
				}
			}
		}
	}()
	clients.Wait()
	close(stop)
	<-moved
	for _, e := range all {
		if err := <-e.ended; !errors.Is(err, io.EOF) {
			t.Error(err)
		}
		e.calling.Lock()
		if e.overlap {
			t.Error("a connection was called by two loops at once")
		}
		e.calling.Unlock()
		e.c.Free()
	}
	if now := descriptors(t); now > before+len(l.all)+4 { // each loop has one, Go's own poller two
		t.Errorf("%d descriptors before, %d now", before, now)
	}
}

// TestWaits: Read and Write wait, and Close ends both waits.
func TestWaits(t *testing.T) {
	for _, network := range []string{"tcp", "unix"} {
		l := started(t, 1)
		a, b, farA, _ := taken(t, l, network)
		defer b.Free()
		if n, err := a.TryRead(make([]byte, 1)); n != 0 || err != ErrWait {
			t.Errorf("nothing was sent: %d, %v", n, err)
		}
		read := make(chan string)
		go func() {
			got := make([]byte, 3)
			_, err := io.ReadFull(a, got)
			if err != nil {
				t.Error(err)
			}
			read <- string(got)
		}()
		for _, c := range "abc" {
			farA.Write([]byte(string(c)))
		}
		if got := <-read; got != "abc" {
			t.Errorf("read %q", got)
		}
		// More than there is room for: it is written while the other side reads.
		large := make([]byte, 16<<20)
		rand.New(rand.NewSource(1)).Read(large)
		part, err := a.TryWrite(large)
		if err != ErrWait || part == 0 || part == len(large) {
			t.Fatalf("%d of %d bytes were written: %v", part, len(large), err)
		}
		wrote := make(chan error)
		go func() {
			_, err := a.Write(large[part:])
			wrote <- err
		}()
		got := make([]byte, len(large))
		if _, err := io.ReadFull(farA, got); err != nil || !bytes.Equal(got, large) {
			t.Errorf("%v, or other bytes than those that were written", err)
		}
		if err := <-wrote; err != nil {
			t.Error(err)
		}
		ends := make(chan error, 2)
		go func() { _, err := a.Read(make([]byte, 1)); ends <- err }()
		go func() { _, err := a.Write(large); ends <- err }()
		until(t, "both wait", func() bool {
			a.lock.Lock()
			defer a.lock.Unlock()
			return a.readers != nil && a.writers != nil
		})
		a.Close()
		for i := 0; i < 2; i++ {
			if err := <-ends; !errors.Is(err, net.ErrClosed) {
				t.Errorf("the wait ended with %v", err)
			}
		}
		a.Free()
		if _, err := a.TryWrite([]byte("x")); !errors.Is(err, net.ErrClosed) {
			t.Errorf("written behind the end: %v", err)
		}
	}
}

// TestEnds: a loop reports each kind of end: the other side's, a reset, one half, and Close.
func TestEnds(t *testing.T) {
	l := started(t, 1)
	for _, x := range []struct {
		name string
		end  func(c *Conn, far net.Conn)
		want func(error) bool
	}{
		{"the other side's", func(_ *Conn, far net.Conn) { far.Close() }, func(err error) bool { return err == io.EOF }},
		{"one half", func(_ *Conn, far net.Conn) { far.(*net.TCPConn).CloseWrite() }, func(err error) bool { return err == io.EOF }},
		{"a reset", func(_ *Conn, far net.Conn) { far.(*net.TCPConn).SetLinger(0); far.Close() },
			func(err error) bool { var op *net.OpError; return errors.As(err, &op) }},
		{"its own", func(c *Conn, _ net.Conn) { c.Close() }, func(err error) bool { return errors.Is(err, net.ErrClosed) }},
	} {
		a, b, farA, farB := taken(t, l, "tcp")
		e := &echo{c: a, ended: make(chan error, 1)}
		a.Serve(e.turn)
		x.end(a, farA)
		if err := <-e.ended; !x.want(err) {
			t.Errorf("%s: %v", x.name, err)
		}
		if x.name == "one half" { // the other half still works
			if _, err := a.Write([]byte("more")); err != nil {
				t.Error(err)
			}
			a.CloseWrite()
			if got, err := io.ReadAll(farA); err != nil || string(got) != "more" {
				t.Errorf("%q, %v", got, err)
			}
		}
		a.Free()
		b.Free()
		if _, err := farB.Read(make([]byte, 1)); err == nil {
			t.Errorf("%s: the other connection still is there", x.name)
		}
	}
}

// TestRests: a loop does nothing for sockets that nobody waits for, whatever happened to them.
func TestRests(t *testing.T) {
	l := started(t, 1)
	a, b, farA, farB := taken(t, l, "tcp")
	defer a.Free()
	defer b.Free()
	e := &echo{c: a, ended: make(chan error, 1)}
	a.Serve(e.turn)
	farA.Close() // it is read to its end, and left
	<-e.ended
	farB.Write([]byte("nobody reads this"))
	farB.(*net.TCPConn).SetLinger(0)
	farB.Close()
	a.CloseWrite()
	until(t, "the loop rests", func() bool {
		before := l.Busy()
		time.Sleep(200 * time.Millisecond)
		return l.Busy()-before < 20*time.Millisecond
	})
}
