package server

import (
	"bufio"
	"encoding/binary"
	"flag"
	"io"
	"net"
	"runtime"
	"sort"
	"sync"
	"testing"
	"time"

	"github.com/jackc/pgproto3/v2"
)

var (
	comeRate    = flag.Int("come-rate", 200, "how many connections a second TestComeAndGo opens")
	comeSeconds = flag.Int("come-seconds", 3, "and for how long")
)

// stub is a server that answers each query with an empty result, so that the proxy is what limits the rate.
func stub(t *testing.T) int {
	listener, err := net.Listen("tcp", "127.0.0.1:0")
	if err != nil {
		t.Fatal(err)
	}
	t.Cleanup(func() { listener.Close() })
	ready := pgproto3.ReadyForQuery{TxStatus: 'I'}
	begin := ready.Encode((&pgproto3.BackendKeyData{ProcessID: 1, SecretKey: 2}).Encode((&pgproto3.ParameterStatus{
		Name: "client_encoding", Value: "UTF8"}).Encode((&pgproto3.AuthenticationOk{}).Encode(nil))))
	answer := ready.Encode((&pgproto3.CommandComplete{CommandTag: []byte("SELECT 0")}).Encode(nil))
	serve := func(c net.Conn) {
		defer c.Close()
		if _, err := readPacket(c); err != nil {
			return
		}
		if _, err := c.Write(begin); err != nil {
			return
		}
		for in := bufio.NewReader(c); ; {
			kind, err := in.ReadByte()
			if err != nil || kind == 'X' {
				return
			}
			var head [4]byte
			if _, err := io.ReadFull(in, head[:]); err != nil {
				return
			}
			if _, err := in.Discard(int(binary.BigEndian.Uint32(head[:])) - 4); err != nil {
				return
			}
			if _, err := c.Write(answer); err != nil {
				return
			}
		}
	}
	go func() {
		for {
			c, err := listener.Accept()
			if err != nil {
				return
			}
			go serve(c)
		}
	}()
	return listener.Addr().(*net.TCPAddr).Port
}

// TestComeAndGo: connections that are opened and closed all the time are all served, and leave nothing behind.
func TestComeAndGo(t *testing.T) {
	port, sink := proxy(t, url("postgres", stub(t), "sslmode=disable"), nil)
	one := func() error {
		c, err := connectRaw(port)
		if err != nil {
			return err
		}
		defer c.Close()
		if err := c.query("SELECT 1"); err != nil {
			return err
		}
		if err := c.ready(nil); err != nil {
			return err
		}
		_, err = c.Write([]byte{'X', 0, 0, 0, 4})
		return err
	}
	if err := one(); err != nil {
		t.Fatal(err)
	}
	files, goroutines, memory := descriptors(t), runtime.NumGoroutine(), inUse(0)
	count := *comeRate * *comeSeconds
	var lock sync.Mutex
	var took []time.Duration
	atOnce := make(chan bool, 100)
	var all sync.WaitGroup
	began := time.Now()
	for i := 0; i < count; i++ {
		time.Sleep(time.Until(began.Add(time.Duration(i) * time.Second / time.Duration(*comeRate))))
		atOnce <- true // on a busy machine the rate is what it can do
		all.Add(1)
		go func() {
			defer func() {
				<-atOnce
				all.Done()
			}()
			at := time.Now()
			err := one()
			lock.Lock()
			defer lock.Unlock()
			if took = append(took, time.Since(at)); err != nil {
				t.Error(err)
			}
		}()
	}
	all.Wait()
	lasted := time.Since(began)
	sort.Slice(took, func(i, j int) bool { return took[i] < took[j] })
	t.Logf("%d connections, %.0f a second; each took %v, 99 of 100 at most %v, all at most %v", count, float64(count)/lasted.Seconds(),
		took[count/2], took[count*99/100], took[count-1])
	until(t, "all is closed", func() bool { return descriptors(t) <= files && runtime.NumGoroutine() <= goroutines+2 })
	until(t, "all connections are reported as ended", func() bool { return sink.begun.Load() == int64(count+1) && sink.ended.Load() == int64(count+1) })
	if now := inUse(memory + 16<<20); now > memory+16<<20 {
		t.Errorf("%d KiB more are in use", (now-memory)>>10)
	}
}
