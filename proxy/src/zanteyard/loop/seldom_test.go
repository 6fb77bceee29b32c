package loop

import (
	"bytes"
	"errors"
	"io"
	"net"
	"runtime"
	"testing"
	"time"
)

// TestSeldom: a rarely read socket receives and sends everything, both ends are noticed, and nothing of it is left.
func TestSeldom(t *testing.T) {
	for _, network := range []string{"tcp", "unix"} {
		before := descriptors(t)
		near, far := pair(t, network)
		s, ok := NewSeldom(near, time.Millisecond)
		if !ok {
			t.Fatal("a plain socket wasn't taken")
		}
		text := bytes.Repeat([]byte("0123456789abcdef"), 1<<16) // more than there is room for on the way
		sent := make(chan error, 2)
		go func() {
			_, err := far.Write(text)
			sent <- err
		}()
		got := make([]byte, len(text))
		if _, err := io.ReadFull(s, got); err != nil || !bytes.Equal(got, text) {
			t.Errorf("%s: %v, or another text was read", network, err)
		}
		go func() {
			_, err := s.Write(text)
			sent <- err
		}()
		if _, err := io.ReadFull(far, got); err != nil || !bytes.Equal(got, text) {
			t.Errorf("%s: %v, or another text was written", network, err)
		}
		for i := 0; i < 2; i++ {
			if err := <-sent; err != nil {
				t.Error(err)
			}
		}
		far.Close()
		if n, err := s.Read(got); n != 0 || err != io.EOF {
			t.Errorf("%s: %d bytes and %v behind the end", network, n, err)
		}
		s.Close()
		s.Close()
		until(t, "nothing of it is left", func() bool { return descriptors(t) <= before })
	}
}

// TestSeldomIsClosed: a read or write that waits for such a socket ends when it is closed.
func TestSeldomIsClosed(t *testing.T) {
	near, _ := pair(t, "tcp")
	s, _ := NewSeldom(near, time.Millisecond)
	ended := make(chan error, 1)
	go func() {
		_, err := s.Read(make([]byte, 1))
		ended <- err
	}()
	time.Sleep(5 * time.Millisecond)
	s.Close()
	select {
	case err := <-ended:
		if !errors.Is(err, net.ErrClosed) && err != io.EOF {
			t.Error(err)
		}
	case <-time.After(enough):
		t.Fatal("a read goes on after the socket was closed")
	}
	if _, err := s.Write([]byte{1}); !errors.Is(err, net.ErrClosed) {
		t.Errorf("written after the end: %v", err)
	}
}

// TestHastily: Go can stop threads that wait without its knowledge, and messages are passed on in the meantime.
func TestHastily(t *testing.T) {
	l := started(t, 2)
	defer runtime.GOMAXPROCS(runtime.GOMAXPROCS(4))
	l.Hastily(true)
	a, b, farA, farB := taken(t, l, "tcp")
	for _, c := range []*Conn{a, b} {
		e := &echo{c: c, ended: make(chan error, 1)}
		c.Serve(e.turn)
	}
	end := time.Now().Add(enough)
	for i := 0; i < 60; i++ {
		runtime.GC() // all threads are stopped, some while they wait
		for _, far := range []net.Conn{farA, farB} {
			its := []byte{byte(i), byte(i >> 8)}
			if _, err := far.Write(its); err != nil {
				t.Fatal(err)
			}
			got := make([]byte, 2)
			if _, err := io.ReadFull(far, got); err != nil || !bytes.Equal(got, its) {
				t.Fatalf("%v came back for %v (%v)", got, its, err)
			}
		}
		if time.Now().After(end) {
			t.Fatalf("%d collections took five minutes", i)
		}
	}
}
